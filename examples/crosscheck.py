#!/usr/bin/env python3
"""crosscheck.py PROGRAM: runs permspec on small classes, and compares its answers with what is found here from the definitions
alone. For each class: the list of each length holds exactly the permutations that avoid the basis, each once; the counts are
how many they are; `rank` and `unrank` lead from each member to its line and back; `rank` of any other permutation names the
first word of the basis that it contains, at its first occurrence; `draw` gives the members at the ranks that ChaCha20's block
function leads to, and `drawstat` what their statistics are; `stat` says how many members have each value, `dist` says the
same, and `pick` gives those that have one. For ten classes with required words the members are those that contain these too, `rank` names the first
required word that another one lacks, and the answers are the same in both formats. For fourteen unions of two classes the list of
each length holds exactly the permutations that are in the one or in the other, the counts say how many, and `rank` leads back. From every tenth rank on, and at and past the last rank, a list of a length to 8 holds what unranking each
rank gives; so do a few lines of a long length from ranks all over the list. For three classes that the literature knows, the
counts to length 40 are those of a recurrence, and the descents and inversions of one have known numbers to length 24. Prints a line for each, and ends
with 1 on a difference."""
import subprocess
import sys
from itertools import combinations, permutations
from math import comb

LONGEST = 7
LONGEST_LIST = 8
LONGEST_DISTRIBUTION = 24
GREATEST_RANK = 2**128 - 1
REQUIRED = [("132", "21"), ("132", "21 123"), ("231", "312"), ("2413 3142", "2143"), ("123 132", "21 213"), ("321 2413 3142", "2143"),
            ("12", "321"), ("21", "123"), ("2143 2413 3142 3412", "132 213"), ("1243 2413 41352 531642", "3142")]
UNIONS = [("12", "21"), ("1", "132"), ("132", "213"), ("231", "312"), ("132", "132"), ("123 2413 3142", "21"), ("132 321", "213"), ("123 132", "213 231"),
          ("2413 3142 132", "2413 3142 213"), ("231 312", "132 213"), ("2413 3142", "21"), ("123 3142 2413", "321 3142 2413"),
          ("321 2143 3142 2413", "12"), ("2143 2413 3142", "132 231")]
CLASSES = ["132", "231", "2413 3142", "123 132", "2143 2413 3142", "1324 2413 3142", "2143 2413 3142 3412",
           "321 2413 3142", "1243 2413 41352 531642", "12",
           "24153 25314 31524 35142 41352 42513 246135 362514 415263 531642"]


def pattern(values):
    return tuple(sorted(values).index(value) + 1 for value in values)


def occurrence(word, small):
    """The first places, from 1 on, where the word contains the small one, or None."""
    for places in combinations(range(len(word)), len(small)):
        if pattern([word[place] for place in places]) == small:
            return [place + 1 for place in places]
    return None


def block(seed, counter):
    """ChaCha20's block function (RFC 8439) of the key that begins with the seed's 8 bytes, the least first, and is 0 else,
    with nonce 0: sixteen words."""
    def rotate(word, by):
        return (word << by | word >> 32 - by) & 0xffffffff

    def quarter(state, a, b, c, d):
        for x, y, z, by in ((a, b, d, 16), (c, d, b, 12), (a, b, d, 8), (c, d, b, 7)):
            state[x] = (state[x] + state[y]) & 0xffffffff
            state[z] = rotate(state[z] ^ state[x], by)

    start = [0x61707865, 0x3320646e, 0x79622d32, 0x6b206574, seed & 0xffffffff, seed >> 32] + [0] * 6 + [counter, 0, 0, 0]
    state = list(start)
    for _ in range(10):
        for a, b, c, d in ((0, 4, 8, 12), (1, 5, 9, 13), (2, 6, 10, 14), (3, 7, 11, 15),
                           (0, 5, 10, 15), (1, 6, 11, 12), (2, 7, 8, 13), (3, 4, 9, 14)):
            quarter(state, a, b, c, d)
    return [(a + b) & 0xffffffff for a, b in zip(start, state)]


def drawn(seed, draw, count):
    """The rank of a draw: words 4d to 4d + 3 of the key stream as one number, the least first, modulo the count."""
    words = block(seed, draw // 4)[draw % 4 * 4:draw % 4 * 4 + 4]
    return sum(word << 32 * i for i, word in enumerate(words)) % count


STATISTICS = {
    "inv": lambda w: sum(a > b for a, b in combinations(w, 2)),
    "des": lambda w: sum(a > b for a, b in zip(w, w[1:])),
    "lrm": lambda w: sum(all(a < w[i] for a in w[:i]) for i in range(len(w))),
}

DISTRIBUTED = ("inv", "des")


def check_draws(program, basis, length, listed):
    """Draws from the members of a length, given as their lines."""
    queries, due = [], []
    for seed, many in ((0, 3), (10, 40), (2**64 - 1, 9)):
        rows = [listed[drawn(seed, draw, len(listed))] for draw in range(many)]
        queries.append(f"draw {length} {seed} {many}")
        due += [f"{queries[-1]} ="] + [" ".join(row) for row in rows] + ["end"]
        for name, statistic in STATISTICS.items():
            values = [statistic(word) for _, word in rows]
            queries.append(f"drawstat {name} {length} {seed} {many}")
            due.append(f"{queries[-1]} = least {min(values)} most {max(values)} total {sum(values)}")
    assert answers(program, basis, queries) == due, (basis, length)


def check_statistics(program, basis, length, listed):
    """How many members of a length, given as their lines, have each value of a statistic, and which have one value."""
    queries, due = [], []
    for name, statistic in STATISTICS.items():
        values = [statistic([int(entry) for entry in word]) for _, word in listed]
        bars = [f"{value}:{values.count(value)}" for value in sorted(set(values))]
        queries.append(f"stat {name} {length}")
        due.append(f"{queries[-1]} = {' '.join(bars) or 'none'}")
        if name in DISTRIBUTED:
            queries.append(f"dist {name} {length}")
            due.append(f"{queries[-1]} = {' '.join(bars) or 'none'}")
        for value in range(max(values, default=0) + 2):
            queries.append(f"pick {name} {value} {length}")
            due += [f"{queries[-1]} ="] + [" ".join(row) for row, own in zip(listed, values) if own == value] + ["end"]
    assert answers(program, basis, queries) == due, (basis, length)


def check_required(program, basis, required):
    """The members of a class with required words, and why other permutations are none; in both formats the answers are the same."""
    avoid, require = ([tuple(map(int, word)) for word in words.split()] for words in (basis, required))
    own = f"{basis}\nrequire {required}"
    most = [q for q in sorted(require, key=lambda q: (len(q), q)) if not any(q != r and occurrence(r, q) for r in require)]
    for length in range(1, LONGEST + 1):
        everyone = list(permutations(range(1, length + 1)))
        inside = [word for word in everyone if not any(occurrence(word, b) for b in avoid)]
        lacking = {word: next((q for q in most if not occurrence(word, q)), None) for word in inside}
        members = {text(word) for word in inside if lacking[word] is None}
        lines = answers(program, own, [f"list {length} for 1000000", f"count {length}"])
        assert lines[-1] == f"count {length} = {len(members)}", (own, length)
        listed = [line.split() for line in lines[1:-2]]
        assert len(listed) == len(members) and {word for _, word in listed} == members, (own, length)
        queries = [f"rank {word}" for _, word in listed] + [f"rank {text(word)}" for word in inside if lacking[word]]
        due = [f"rank {word} = {rank}" for rank, word in listed]
        due += [f"rank {text(word)} = lacks {text(lacking[word])}" for word in inside if lacking[word]]
        for first in range(0, len(queries), 1000):
            batch = queries[first:first + 1000]
            assert answers(program, own, batch) == answers(program, own + "\nformat 1", batch) == due[first:first + 1000], (own, length)
    print(f"{basis} with {required}: lists, counts and ranks to length {LONGEST} agree, in both formats")


def check_union(program, first, second):
    """The members of the union of two classes, with a required word and without."""
    lists = [[tuple(map(int, word)) for word in words.split()] for words in (first, second)]
    for wanted in ("", "12"):
        own = f"{first}\nunion {second}" + (f"\nrequire {wanted}" if wanted else "")
        for length in range(1, LONGEST + 1):
            inside = [word for word in permutations(range(1, length + 1)) if any(not any(occurrence(word, b) for b in avoid) for avoid in lists)]
            members = {text(word) for word in inside if not wanted or occurrence(word, (1, 2))}
            lines = answers(program, own, [f"list {length} for 1000000", f"count {length}"])
            assert lines[-1] == f"count {length} = {len(members)}", (own, length)
            listed = [line.split() for line in lines[1:-2]]
            assert len(listed) == len(members) and {word for _, word in listed} == members, (own, length)
            for first_row in range(0, len(listed), 1000):
                batch = listed[first_row:first_row + 1000]
                assert answers(program, own, [f"rank {word}" for _, word in batch]) == [f"rank {word} = {rank}" for rank, word in batch], (own, length)
    print(f"{first} or {second}: lists, counts and ranks to length {LONGEST} agree, with 12 required too")


def text(word):
    return "".join(map(str, word))


def answers(program, basis, queries):
    """The lines of the answers, after the system."""
    script = "\n".join([f"basis {basis}"] + queries) + "\n"
    run = subprocess.run([program], input=script.encode(), stdout=subprocess.PIPE, check=True)
    return run.stdout.decode().split("\nend\n", 1)[1].splitlines()


def check_class(program, basis):
    words = [tuple(map(int, word)) for word in basis.split()]
    counts = []
    for length in range(1, LONGEST + 1):
        everyone = list(permutations(range(1, length + 1)))
        bad = {word: next(((b, occurrence(word, b)) for b in words if occurrence(word, b)), None) for word in everyone}
        members = {text(word) for word in everyone if bad[word] is None}
        counts.append(len(members))
        lines = answers(program, basis, [f"list {length} for 1000000"])
        listed = [tuple(line.split()) for line in lines[1:-1]]
        assert [rank for rank, _ in listed] == [str(k) for k in range(len(listed))], (basis, length)
        assert len(listed) == len(members) and {word for _, word in listed} == members, (basis, length)
        queries = [f"rank {word}" for _, word in listed] + [f"unrank {length} {rank}" for rank, _ in listed]
        due = [f"rank {word} = {rank}" for rank, word in listed] + [f"unrank {length} {rank} = {word}" for rank, word in listed]
        for word in everyone[:200]:
            if bad[word]:
                queries.append(f"rank {text(word)}")
                due.append(f"rank {text(word)} = no {text(bad[word][0])} at {' '.join(map(str, bad[word][1]))}")
        for first in range(0, len(queries), 1000):
            assert answers(program, basis, queries[first:first + 1000]) == due[first:first + 1000], (basis, length)
        check_draws(program, basis, length, listed)
        check_statistics(program, basis, length, listed)
    line = answers(program, basis, [f"counts {LONGEST}"])
    assert line == [f"counts {LONGEST} = {' '.join(map(str, counts))}"], basis
    print(f"{basis}: lists, ranks, draws, statistics and counts to length {LONGEST} agree")


def unranked(program, basis, length, ranks):
    """The lines of a list of these ranks, each by a query of its own."""
    lines = []
    for first in range(0, len(ranks), 1000):
        batch = ranks[first:first + 1000]
        found = answers(program, basis, [f"unrank {length} {rank}" for rank in batch])
        lines += [f"{rank} {line.split(' = ')[1]}" for rank, line in zip(batch, found)]
    return lines


def lists(program, basis, length, starts, many):
    """The lines of the lists from these ranks on, each list by itself."""
    for first in range(0, len(starts), 50):
        batch = starts[first:first + 50]
        lines = iter(answers(program, basis, [f"list {length} from {start} for {many}" for start in batch]))
        for start in batch:
            assert next(lines) == f"list {length} from {start} for {many} =", (basis, length, start)
            yield start, list(iter(lines.__next__, "end"))


def check_lists(program, basis):
    for length in range(1, LONGEST_LIST + 1):
        count = int(answers(program, basis, [f"count {length}"])[0].split(" = ")[1])
        due = unranked(program, basis, length, range(count))
        starts = [*range(0, count, 10), max(count - 1, 0), count, GREATEST_RANK]
        for start, lines in lists(program, basis, length, starts, 1000000):
            assert lines == due[start:], (basis, length, start)
    length, parts, many = 30, 40, 12
    count = int(answers(program, basis, [f"count {length}"])[0].split(" = ")[1])
    starts = sorted({max(0, count * part // parts - many // 2) for part in range(parts + 1)})
    for start, lines in lists(program, basis, length, starts, many):
        assert lines == unranked(program, basis, length, range(start, min(start + many, count))), (basis, length, start)
    print(f"{basis}: lists from every tenth rank to length {LONGEST_LIST} agree")


def catalan(n):
    numbers = [1]
    for k in range(n):
        numbers.append(sum(numbers[i] * numbers[k - i] for i in range(k + 1)))
    return numbers[1:]


def schroeder(n):
    """The large numbers of Schroeder, by (k + 1) s(k) = (6 k - 3) s(k - 1) - (k - 2) s(k - 2)."""
    numbers = [1, 2]
    for k in range(2, n):
        numbers.append(((6 * k - 3) * numbers[k - 1] - (k - 2) * numbers[k - 2]) // (k + 1))
    return numbers[:n]


def check_counts(program):
    for basis, numbers in (("132", catalan(40)), ("2413 3142", schroeder(40)), ("123 132", [2**k for k in range(40)])):
        line = answers(program, basis, ["counts 40"])
        assert line == [f"counts 40 = {' '.join(map(str, numbers))}"], basis
        print(f"{basis}: counts to length 40 agree")


def check_narayana(program):
    """Of the permutations of length n that avoid 132, those with k descents are counted by Narayana's numbers."""
    for n in range(1, LONGEST_DISTRIBUTION + 1):
        bars = " ".join(f"{k}:{comb(n, k) * comb(n, k + 1) // n}" for k in range(n))
        queries = [f"dist des {n}"] + ([f"stat des {n}"] if n < 10 else [])
        assert answers(program, "132", queries) == [f"{query} = {bars}" for query in queries], n
    print(f"132: descents to length {LONGEST_DISTRIBUTION} are counted by Narayana's numbers")


def carlitz_riordan(n):
    """The q-Catalan numbers of Carlitz and Riordan to index n, each as its coefficients: C(m + 1) is the sum over i of
    q^((i + 1)(m - i)) C(i) C(m - i)."""
    numbers = [[1]]
    for m in range(n):
        terms = [((i + 1) * (m - i), numbers[i], numbers[m - i]) for i in range(m + 1)]
        sums = [0] * max(by + len(first) + len(second) - 1 for by, first, second in terms)
        for by, first, second in terms:
            for a, x in enumerate(first):
                for b, y in enumerate(second):
                    sums[by + a + b] += x * y
        numbers.append(sums)
    return numbers


def check_carlitz_riordan(program):
    """Of the permutations of length n that avoid 132, those with k inversions are counted by the coefficient of q^k: one with i
    entries before its greatest has (i + 1)(n - 1 - i) inversions more than its two parts."""
    numbers = carlitz_riordan(LONGEST_DISTRIBUTION)
    for n in range(1, LONGEST_DISTRIBUTION + 1):
        bars = " ".join(f"{k}:{count}" for k, count in enumerate(numbers[n]) if count)
        assert answers(program, "132", [f"dist inv {n}"]) == [f"dist inv {n} = {bars}"], n
    print(f"132: inversions to length {LONGEST_DISTRIBUTION} are counted by the q-Catalan numbers of Carlitz and Riordan")


if __name__ == "__main__":
    for each in CLASSES:
        check_class(sys.argv[1], each)
        check_lists(sys.argv[1], each)
    for avoided, wanted in REQUIRED:
        check_required(sys.argv[1], avoided, wanted)
    for one, other in UNIONS:
        check_union(sys.argv[1], one, other)
    check_counts(sys.argv[1])
    check_narayana(sys.argv[1])
    check_carlitz_riordan(sys.argv[1])
