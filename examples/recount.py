#!/usr/bin/env python3
"""recount.py < OUTPUT: counts the derivation trees of the system in an output of permspec, and compares the numbers with the
lines `count N = ..` and `counts N = ..` of the same output. It prints one line, and ends with 1 where they differ."""
import re
import sys
from functools import lru_cache

LIMIT = 2**128  # a number from here on is written `over`


def read_system(text):
    """The terms of each equation, each as the tuple of the numbers of its children's equations; that of the point is empty."""
    equations = re.findall(r"^E\d+ [CPM] avoid .+ require .+ = (.+)$", text, re.MULTILINE)
    terms = [[] if equation == "none" else equation.split(" | ") for equation in equations]
    return [[tuple(int(child) for child in re.findall(r"E(\d+)", term)) for term in row] for row in terms]


def count_trees(system, longest):
    """The numbers of the derivation trees of equation 0 of each size from 1 to `longest`."""

    @lru_cache(maxsize=None)
    def trees(equation, size):
        return sum(lists(term, size) if term else int(size == 1) for term in system[equation])

    @lru_cache(maxsize=None)
    def lists(children, size):
        """How many lists of trees, one for each child, have that many points together."""
        if len(children) == 1:
            return trees(children[0], size)
        first_sizes = range(1, size - len(children) + 2)
        return sum(trees(children[0], first) * lists(children[1:], size - first) for first in first_sizes)

    for size in range(1, longest + 1):  # all equations, from the small sizes on: so no recursion is deep
        for equation in range(len(system)):
            trees(equation, size)
    return [trees(0, size) for size in range(1, longest + 1)]


def main():
    text = sys.stdin.read()
    system = read_system(text)
    asked = re.findall(r"^(counts?) (\d+) = (.+)$", text, re.MULTILINE)
    if asked and not system:
        print("there are counts, and no system")
        sys.exit(1)
    numbers = count_trees(system, max((int(n) for _, n, _ in asked), default=0))
    texts = ["over" if number >= LIMIT else str(number) for number in numbers]
    for form, n, answer in asked:
        due = " ".join(texts[: int(n)]) if form == "counts" else texts[int(n) - 1]
        if answer != due:
            print(f"{form} {n} = {answer}: the system has {due}")
            sys.exit(1)
    print(f"lines that agree: {len(asked)}")


if __name__ == "__main__":
    main()
