#!/usr/bin/env python3
"""recheck.py [--tell] [K] < CLAIM: checks a system of equations as `permspec --check` does, by a program of its own that was written
from docs/REFERENCE.md, "Checking a system". It prints what that prints, and ends with the same status. K is the greatest length at
which simple words are searched, 8 if none is given. With `--tell` it goes on, where the answer names a cell, with what lies there:
what each block of its words avoids and contains, the terms that make them, and one of the shortest. It is slow on large systems, and
nothing of it is proved."""
import re
import sys
from functools import lru_cache
from itertools import combinations, permutations

DONE, REFUSED, UNSETTLED = 0, 5, 6
MOST_BYTES, MOST_SIZE, MOST_ENTRIES, MOST_WORDS, MOST_ROOT = 1_048_576, 65_536, 12, 64, 10
LAST_CELL = 2**64 - 1
MOST_SHOWN = 6  # entries of a block that is shown
SUM, SKEW = (1, 2), (2, 1)
POINT = ()  # the term of the point; every other one is a pair of its root and its children


class Fault(Exception):
    """A text that is no claim: its line and the kind."""


class Large(Exception):
    """A canonical system with more equations and terms than are made."""


# Words


def pattern(values):
    order = sorted(values)
    return tuple(order.index(value) + 1 for value in values)


@lru_cache(maxsize=None)
def contains(word, small):
    if len(small) > len(word):
        return False
    return any(pattern(values) == small for values in combinations(word, len(small)))


def shortlex(words):
    return tuple(sorted(set(words), key=lambda word: (len(word), word)))


def minimal(words):
    return shortlex(word for word in words if not any(other != word and contains(word, other) for other in words))


def maximal(words):
    return shortlex(word for word in words if not any(other != word and contains(other, word) for other in words))


def required(words):
    """The maximal words other than 1."""
    return tuple(word for word in maximal(words) if word != (1,))


def simple(word):
    """No interval has more than one place and fewer than all."""
    for start in range(len(word)):
        least = most = word[start]
        for end in range(start + 1, len(word)):
            least, most = min(least, word[end]), max(most, word[end])
            if most - least == end - start and end - start + 1 < len(word):
                return False
    return True


@lru_cache(maxsize=None)
def simples(length, basis):
    """The simple words of a length that avoid the basis."""
    return [word for word in permutations(range(1, length + 1))
            if all(abs(a - b) > 1 for a, b in zip(word, word[1:])) and simple(word) and not any(contains(word, small) for small in basis)]


def spell_word(word):
    return "".join(map(str, word)) if len(word) < 10 else ",".join(map(str, word))


def spell_list(words):
    return " ".join(map(spell_word, words)) or "none"


def spell_root(root):
    return spell_word(root) if len(root) < 10 else f"({spell_word(root)})"


# Reading a claim

NUMERAL = "(0|[1-9][0-9]{0,5})"  # one of more digits is out of each range
EQUATION = re.compile("E" + NUMERAL + " ([CPM]) avoid (.+) require (.+) = (.+)")
TERM = re.compile(r"([0-9]+|\([0-9,]+\))\[(.+)\]")


def read_word(token):
    """The word that is spelt in this way, or None."""
    if not re.fullmatch("[1-9]{1,9}|[1-9][0-9]?(,[1-9][0-9]?){9,}", token):
        return None
    word = tuple(map(int, token.split(",") if "," in token else token))
    return word if len(word) <= MOST_ENTRIES and sorted(word) == list(range(1, len(word) + 1)) else None


def read_list(text):
    words = [] if text == "none" else [read_word(token) for token in text.split(" ")]
    return None if None in words else tuple(words)


def read_line(line, front):
    """The words of a line that is `front` and a list of at most so many words, or None."""
    words = read_list(line.removeprefix(front)) if line.startswith(front) else None
    return None if words is None or len(words) > MOST_WORDS else words


def read_term(text, equations):
    if text == "1":
        return POINT
    parts = TERM.fullmatch(text)
    bracketed = bool(parts) and parts[1].startswith("(")
    root = read_word(parts[1].strip("()")) if parts else None
    if root is None or not 2 <= len(root) <= MOST_ROOT or bracketed != (len(root) > 9) or not (len(root) == 2 or len(root) > 3 and simple(root)):
        return None
    children = [re.fullmatch("E" + NUMERAL, child) for child in parts[2].split(",")]
    if None in children or len(children) != len(root) or any(int(child[1]) >= equations for child in children):
        return None
    return root, tuple(int(child[1]) for child in children)


@lru_cache(maxsize=None)
def read_equation(line, number, equations):
    """An equation, its name and its terms, or None."""
    parts = EQUATION.fullmatch(line)
    if not parts or parts[1] != str(number):
        return None
    avoid, require = read_list(parts[3]), read_list(parts[4])
    terms = [] if parts[5] == "none" else [read_term(term, equations) for term in parts[5].split(" | ")]
    return None if avoid is None or require is None or None in terms else ((parts[2], avoid, require), terms)


def read_sizes(line):
    """The numbers of equations and of terms, or None."""
    sizes = re.fullmatch(f"system [12] equations {NUMERAL} terms {NUMERAL}", line)
    equations, terms = map(int, sizes.groups()) if sizes else (0, 0)
    return (equations, terms) if equations >= 1 and equations + terms <= MOST_SIZE else None


def lines_of(text):
    """The lines of a text, each without its line feed and one carriage return, then None for ever."""
    lines = text.split("\n")
    if not lines[-1]:
        lines.pop()
    yield from (line.removesuffix("\r") for line in lines)
    while True:
        yield None


def read_claim(data):
    """The basis, the required words (None without their line) and the system."""
    if len(data) > MOST_BYTES:
        raise Fault(0, 8)
    lines = enumerate(lines_of(data.decode("latin-1")), 1)
    number, line = next(lines)

    def demand(read):
        """What is read of the line at hand, which is None where it isn't as demanded; goes to the next line."""
        nonlocal number, line
        value = None if line is None else read(line)
        if value is None:
            raise Fault(0 if line is None else number, 13)
        number, line = next(lines)
        return value

    def pass_over(front):
        if line is not None and line.startswith(front):
            demand(len)

    if line == "permspec 1":
        demand(len)
    pass_over("union ")
    basis = demand(lambda line: read_line(line, "basis "))
    require = demand(lambda line: read_line(line, "require ")) if line is not None and line.startswith("require ") else None
    pass_over("simples ")
    pass_over("gap ")
    equations, terms = demand(read_sizes)
    system = [demand(lambda line: read_equation(line, u, equations)) for u in range(equations)]
    demand(lambda line: True if line == "end" and sum(len(row) for _, row in system) == terms else None)
    return basis, require, system


# Boxes: for each child of a root a constraint, the words that it avoids and those that it requires


def free(root):
    return (((), ()),) * len(root)


@lru_cache(maxsize=None)
def answer(constraint, small):
    """Whether words of a constraint contain this one: yes, no, or None where that is open."""
    avoid, require = constraint
    if small == (1,) or any(contains(word, small) for word in require):
        return True
    return False if any(contains(small, word) for word in avoid) else None


def cut(box, question, contained):
    child, small = question
    avoid, require = box[child]
    own = (avoid, maximal(require + (small,))) if contained else (minimal(avoid + (small,)), require)
    return box[:child] + (own,) + box[child + 1:]


def maps(word, root, front):
    """The embeddings of a word in a root that begin with these children, in lexicographic order."""
    place = len(front)
    if place == len(word):
        yield front
        return
    for child in range(front[-1] if front else 0, len(root)):
        if all(own == child or (word[i] < word[place]) == (root[own] < root[child]) for i, own in enumerate(front)):
            yield from maps(word, root, front + (child,))


@lru_cache(maxsize=None)
def embeddings(word, root):
    """Of each embedding the questions, pairs of a child and a pattern."""
    return [[(child, pattern([word[i] for i in range(len(word)) if own[i] == child])) for child in sorted(set(own))]
            for own in maps(word, root, ())]


def conclude(box, embedding):
    """Whether an embedding holds, or None where that is open."""
    answers = [answer(box[child], small) for child, small in embedding]
    return False if False in answers else None if None in answers else True


def demands_at(root, name, box):
    """Whether some demand of the name is broken, and the first open question."""
    question = None
    for words, good in ((name[1], False), (name[2], True)):
        for word in words:
            ends = [conclude(box, embedding) for embedding in embeddings(word, root)]
            if good and all(end is False for end in ends) or not good and True in ends:
                return True, None
            done = True in ends if good else all(end is False for end in ends)
            if not done and question is None:
                first = embeddings(word, root)[ends.index(None)]
                question = next((child, small) for child, small in first if answer(box[child], small) is None)
    return False, question


def boxes(root, name, box):
    broken, question = demands_at(root, name, box)
    if not broken and question is None:
        yield box
    elif not broken:
        yield from boxes(root, name, cut(box, question, False))
        yield from boxes(root, name, cut(box, question, True))


# The canonical system of a name


def roots_under(sign, roots):
    return [SUM] * (sign != "P") + [SKEW] * (sign != "M") + roots


def sign_of(root, child):
    return {SUM: "P", SKEW: "M"}.get(root, "C") if child == 0 else "C"


def names_of(root, box):
    return [(sign_of(root, child), *constraint) for child, constraint in enumerate(box)]


@lru_cache(maxsize=None)
def generates(first, roots):
    """Whether the canonical system of this name has a derivation tree of its equation 0. Large where it is larger than allowed."""
    names, numbers, system, size = [first], {first: 0}, [], 0
    for name in names:  # those that come up are added meanwhile
        terms = [POINT] if not name[2] and (1,) not in name[1] else []
        for root in roots_under(name[0], list(roots)):
            for box in boxes(root, name, free(root)):
                children = names_of(root, box)
                for child in children:
                    if child not in numbers:
                        numbers[child] = len(names)
                        names.append(child)
                terms.append([numbers[child] for child in children])
                if len(names) + size + len(terms) > MOST_SIZE:
                    raise Large
        size += len(terms)
        system.append(terms)
    alive, before = set(), None
    while before != len(alive):
        before = len(alive)
        alive |= {u for u, terms in enumerate(system) if any(alive.issuperset(term) for term in terms)}
    return 0 in alive


# The verdict


def literals(term, system):
    """The questions of a term, each with the answer that it asks for."""
    return tuple(((child, word), good) for child, u in enumerate(term[1])
                 for words, good in ((system[u][0][1], False), (system[u][0][2], True)) for word in shortlex(words))


def term_at(box, term):
    """Whether a term, given as its questions, is inside or refuted, or its first open question."""
    first = None
    for question, good in term:
        own = answer(box[question[0]], question[1])
        if own is None:
            first = first or question
        elif own is not good:
            return "refuted"
    return first or "inside"


def bare(root, box, roots):
    """The flaw of a leaf to which no term belongs, or None."""
    ends = []
    for name in names_of(root, box):
        try:
            ends.append(generates(name, roots))
        except Large:
            ends.append(None)
    return None if False in ends else "large" if None in ends else "lost"


def leaves(root, name, terms, roots, box):
    """The leaves in their order, each with its flaw, None for a good one."""
    broken, question = demands_at(root, name, box)
    if broken or question is None:
        states = [term_at(box, term) for term in terms]
        inside = states.count("inside")
        question = next((state for state in states if isinstance(state, tuple)), None)
        if broken and inside or not broken and inside > 1:
            yield box, "extra" if broken else "twice"
            return
        if question is None:
            yield box, None if broken or inside else bare(root, box, roots)
            return
    yield from leaves(root, name, terms, roots, cut(box, question, False))
    yield from leaves(root, name, terms, roots, cut(box, question, True))


@lru_cache(maxsize=None)
def first_flaw(root, name, terms, roots):
    """The first leaf with a flaw, by its number, its box and the flaw; or None."""
    return next(((number, box, flaw) for number, (box, flaw) in enumerate(leaves(root, name, terms, roots, free(root))) if flaw), None)


def bad_name(name, basis):
    _, avoid, require = name
    return (avoid != minimal(avoid) or require != required(require) or any(contains(word, small) for word in require for small in avoid)
            or not all(any(contains(word, small) for small in avoid) for word in basis))


def bad_term(term, sign, roots, system):
    root, children = term
    return root not in roots_under(sign, roots) or any(system[u][0][0] != sign_of(root, child) for child, u in enumerate(children))


def flaw_of(u, system, basis, roots):
    """The first flaw of an equation whose name isn't compared with the class any more, or None; with its place where it is a cell."""
    name, terms = system[u]
    if bad_name(name, basis):
        return "name", None
    if terms.count(POINT) != ((1,) not in name[1] and not name[2]):
        return "point", None
    for term in terms:
        if term != POINT and bad_term(term, name[0], roots, system):
            return f"{spell_root(term[0])} root", None
    for root in roots_under(name[0], roots):
        own = [term for term in terms if term != POINT and term[0] == root]
        asked = tuple(literals(term, system) for term in own)
        found = first_flaw(root, name, asked, tuple(roots))
        if found:
            number, box, flaw = found
            inside = [term for term, own in zip(own, asked) if term_at(box, own) == "inside"]
            return f"{spell_root(root)} cell {min(number, LAST_CELL)} {flaw}", (root, box, inside)
    return None


def verdict(basis, require, system, roots):
    """The verdict, and its place where it is a cell."""
    whole = ("C", basis, require)
    if any(contains(word, small) for word in require for small in basis):
        return "yes" if system == [(whole, [])] else "no E0 name", None
    for u in range(len(system)):
        found = ("name", None) if u == 0 and system[0][0] != whole else flaw_of(u, system, basis, roots)
        if found:
            return f"no E{u} {found[0]}", found[1]
    return "yes", None


# What lies in a cell


def is_sum(word):
    return any(sorted(word[:k]) == list(range(1, k + 1)) for k in range(1, len(word)))


def first_word(name):
    """The first word of at most MOST_SHOWN entries that a name describes, or None."""
    sign, avoid, require = name
    words = (word for length in range(1, MOST_SHOWN + 1) for word in permutations(range(1, length + 1)))
    return next((word for word in words if not any(contains(word, small) for small in avoid) and all(contains(word, small) for small in require)
                 and not (sign == "P" and is_sum(word)) and not (sign == "M" and is_sum(word[::-1]))), None)


def inflate(root, blocks):
    starts = [sum(len(other) for j, other in enumerate(blocks) if root[j] < entry) for entry in root]
    return tuple(entry + start for start, block in zip(starts, blocks) for entry in block)


def describe(root, box, inside):
    """What the blocks of a cell are, the terms that make all of its words, and its first word, or why none is known."""
    names = names_of(root, box)
    lines = [f"block {k}: {sign} avoid {spell_list(avoid)} require {spell_list(require)}" for k, (sign, avoid, require) in enumerate(names, 1)]
    terms = [f"{spell_root(root)}[{','.join(f'E{u}' for u in children)}]" for root, children in inside]
    blocks = [first_word(name) for name in names]
    missing = [f"block {k}" for k, block in enumerate(blocks, 1) if block is None]
    word = "none of at most {} entries for {}".format(MOST_SHOWN, " and ".join(missing)) if missing else spell_word(inflate(root, blocks))
    return lines + [f"terms that make its words: {' | '.join(terms) or 'none'}", f"a word of it: {word}"]


# The answer


def check(data, limit=8, tell=False):
    """The text and the status; the text goes on with what lies in the cell that is named where that is asked for."""
    try:
        basis, require, system = read_claim(data)
    except Fault as fault:
        return "fault {} {}\n".format(*fault.args), REFUSED
    basis, searched = minimal(basis), []
    while len(searched) + 4 <= limit and not (len(searched) > 1 and not searched[-1] and not searched[-2]):
        searched.append(simples(len(searched) + 4, basis))
    lines = ["permspec 1", f"basis {spell_list(basis)}"]
    lines += [f"require {spell_list(required(require))}"] if require is not None else []
    lines.append("simples" + "".join(f" {m}:{len(words)}" for m, words in enumerate(searched, 4)))
    if len(searched) < 2 or searched[-1] or searched[-2]:
        return "\n".join(lines + [f"unsettled {limit}", ""]), UNSETTLED
    said, place = verdict(basis, required(require or ()), system, [word for words in searched for word in words])
    lines += [f"gap {len(searched) + 2}", f"check {said}"] + (describe(*place) if tell and place else [])
    return "\n".join(lines + [""]), DONE


if __name__ == "__main__":
    numbers = [int(word) for word in sys.argv[1:] if word != "--tell"]
    text, status = check(sys.stdin.buffer.read(), *numbers, tell="--tell" in sys.argv[1:])
    sys.stdout.write(text)
    sys.exit(status)
