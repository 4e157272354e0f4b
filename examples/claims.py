#!/usr/bin/env python3
"""claims.py PROGRAM: runs `permspec --check` on systems of equations, right ones and wrong ones, and on texts that are no claims. Each
answer is compared with that of recheck.py, a checker of its own, and with what is due by the rules below. The output of each example
and of each class of crosscheck.py gets `check yes` in both formats. Systems with one change, made by rule from those of some classes,
and with two: where the derivation trees of size at most 7 of some equation haven't as values the permutations that its name describes,
each once, or those of equation 0 not the permutations of the class, the answer isn't `check yes`; so where it is, they have. A claim
that is cut at any byte, and one with a line left out, twice or spelt otherwise, is refused in the line at fault. Prints a line for each
part, and ends with 1 on a difference."""
import random
import subprocess
import sys
from collections import Counter
from functools import lru_cache
from itertools import combinations, permutations, product
from pathlib import Path

sys.dont_write_bytecode = True
import crosscheck
import recheck

EXAMPLES = Path(__file__).resolve().parent
LONGEST = 7
WORDS_REFUSED, READ_FAULT, WRITE_FAULT = 2, 3, 4
SHOWN = 2000  # bytes of a claim, where an answer isn't as it should be
CHANGED = [("132", ""), ("123 132", ""), ("2413 3142", ""), ("2143 2413 3142", ""), ("132", "21 123"), ("1243 2413 41352 531642", "")]
DRAWN = 60  # systems of each of these classes with two changes, and with a name that is drawn, by a fixed seed


def run(program, data, *words):
    got = subprocess.run([program, *words], input=data.encode("latin-1"), stdout=subprocess.PIPE)
    return got.stdout.decode("latin-1"), got.returncode


def answer(program, claim, limit=None):
    """The text and the status of a check, which are those of recheck.py."""
    words, own = ([], []) if limit is None else (["--max-simple", str(limit)], [limit])
    got, own = run(program, claim, "--check", *words), recheck.check(claim.encode("latin-1"), *own)
    assert got == own, (claim[:SHOWN], got, own)
    return got


# Outputs


def scripts():
    """The scripts of the examples that end with status 0, and of small classes."""
    for script in sorted(EXAMPLES.glob("*.txt")):
        if not script.with_suffix(".status").exists():
            yield [line for line in script.read_text().splitlines() if not line.startswith("format")]
    for basis in crosscheck.CLASSES:
        yield [f"basis {basis}"]
    for basis, required in crosscheck.REQUIRED:
        yield [f"basis {basis}", f"require {required}"]
    for first, second in crosscheck.UNIONS:
        for required in ([], ["require 12"]):
            yield [f"basis {first}", f"union {second}"] + required


def check_outputs(program):
    """An output is a claim that holds, and the answer has its header."""
    many = 0
    for script in scripts():
        for form in ("format 1", "format 2"):
            output, status = run(program, "\n".join(script + [form, ""]))
            header = [line for line in output.split("\nsystem ")[0].split("\n") if not line.startswith("union ")]
            assert status == 0 and answer(program, output) == ("\n".join(header + ["check yes", ""]), 0), (script, form)
            many += 1
    print(f"outputs of the examples and of small classes, in both formats: {many}, all of them yes")


# Systems: each equation is its sign, the words that it avoids and requires and its terms, each of these a root and its children


def read_system(text):
    """The lines before the system, and the system."""
    lines = text.split("\n")
    first = next(k for k, line in enumerate(lines) if line.startswith("system "))
    system = []
    for line in lines[first + 1:lines.index("end")]:
        name, row = line.split(" = ")
        _, sign, _, names = name.split(" ", 3)
        avoid, require = ([] if words == "none" else words.split(" ") for words in names.split(" require "))
        terms = [] if row == "none" else [(term.split("[")[0], [int(u[1:]) for u in term[:-1].split("[")[1].split(",")] if "[" in term else [])
                                          for term in row.split(" | ")]
        system.append((sign, avoid, require, terms))
    return lines[:first], system


def spell(header, system):
    lines = header + [f"system 2 equations {len(system)} terms {sum(len(terms) for *_, terms in system)}"]
    for u, (sign, avoid, require, terms) in enumerate(system):
        row = " | ".join(root + (f"[{','.join(f'E{u}' for u in children)}]" if children else "") for root, children in terms)
        lines.append(f"E{u} {sign} avoid {' '.join(avoid) or 'none'} require {' '.join(require) or 'none'} = {row or 'none'}")
    return "\n".join(lines + ["end", ""])


# What a system makes, from the definitions


SHORT = ["".join(map(str, word)) for length in range(1, 5) for word in permutations(range(1, length + 1))]
WORDS = [list(permutations(range(1, length + 1))) for length in range(LONGEST + 1)]
PLACES = {word: place for place, word in enumerate(word for words in WORDS for word in words)}


@lru_cache(maxsize=None)
def everyone(length):
    """The permutations of a length, each with its own place and those of all shorter ones that it contains as the bits of one number."""
    held = {}
    for word in WORDS[length]:
        held[word] = 1 << PLACES[word]
        for small in {crosscheck.pattern(word[:i] + word[i + 1:]) for i in range(length)}:
            held[word] |= everyone(length - 1)[small]
    return held


def is_sum(word):
    return any(sorted(word[:k]) == list(range(1, k + 1)) for k in range(1, len(word)))


@lru_cache(maxsize=None)
def described(sign, avoid, require, length):
    """The permutations of a length that avoid and contain these words, and aren't sums (P) or skew sums (M)."""
    bad, good = ([PLACES.get(tuple(map(int, word))) for word in words] for words in (avoid, require))
    if None in good:  # it has more than LONGEST entries
        return set()
    bad, good = (sum(1 << place for place in set(places) - {None}) for places in (bad, good))
    return {word for word, held in everyone(length).items() if not held & bad and held & good == good
            and not (sign == "P" and is_sum(word)) and not (sign == "M" and is_sum(word[::-1]))}


def inflations(root, parts, lists):
    """The inflations of a root by blocks of these sizes, one from each list."""
    starts = [sum(other for j, other in enumerate(parts) if root[j] < root[k]) for k in range(len(root))]
    raised = [[tuple(entry + start for entry in block) for block in blocks] for start, blocks in zip(starts, lists)]
    return [sum(blocks, ()) for blocks in product(*raised)]


def sizes(total, parts):
    if parts == 1:
        yield (total,)
        return
    for first in range(1, total - parts + 2):
        yield from ((first,) + rest for rest in sizes(total - first, parts - 1))


@lru_cache(maxsize=None)
def values_of(root, children, size):
    """The values of the trees of a size of a term whose children make, each once, what these names describe."""
    return [value for parts in sizes(size, len(children))
            for value in inflations(tuple(map(int, root)), parts, [described(*name, part) for name, part in zip(children, parts)])]


def fault(system, basis, required):
    """The first size and equation where the values of the derivation trees aren't what they should be, each once; or None. Up to the
    size before it all of them are what the names describe."""
    names = [(sign, tuple(avoid), tuple(require)) for sign, avoid, require, _ in system]
    for size in range(1, LONGEST + 1):
        for u, (*_, terms) in enumerate(system):
            values = [(1,)] * (size == 1 and sum(not children for _, children in terms))
            for root, children in terms:
                values += values_of(root, tuple(names[v] for v in children), size) if children else []
            due = described(*names[u], size)
            if len(values) != len(due) or set(values) != due or u == 0 and due != described("C", basis, required, size):
                return size, u
    return None


# Changes


def with_terms(system, u, terms):
    return system[:u] + [(*system[u][:3], terms)] + system[u + 1:]


def with_name(system, u, *name):
    return system[:u] + [(*name, system[u][3])] + system[u + 1:]


def change_terms(system):
    """One term dropped, or doubled; one child's number changed; the children of two terms of one length exchanged."""
    places = [(u, k) for u, (*_, terms) in enumerate(system) for k in range(len(terms))]
    for u, k in places:
        terms = system[u][3]
        yield "a term dropped", with_terms(system, u, terms[:k] + terms[k + 1:])
        yield "a term doubled", with_terms(system, u, terms[:k] + [terms[k]] + terms[k:])
        root, children = terms[k]
        for child, by in product(range(len(children)), (1, 2)):
            number = (children[child] + by) % len(system)
            if number != children[child]:
                other = (root, children[:child] + [number] + children[child + 1:])
                yield "a child's number changed", with_terms(system, u, terms[:k] + [other] + terms[k + 1:])
    for (u, k), (v, m) in zip(places, places[1:]):
        one, other = system[u][3][k], system[v][3][m]
        if len(one[1]) == len(other[1]) and one[1] != other[1]:
            rows = [list(terms) for *_, terms in system]
            rows[u][k], rows[v][m] = (one[0], other[1]), (other[0], one[1])
            yield "children exchanged", [(*equation[:3], row) for equation, row in zip(system, rows)]


def change_names(system):
    """One word of a name dropped, or its first two entries exchanged, or the words in another order; another sign."""
    for u, (sign, *lists, _) in enumerate(system):
        for place, words in enumerate(lists):
            for k, word in enumerate(words):
                others = [("a word dropped", [])] + [("a word changed", [word[1] + word[0] + word[2:]])] * (len(word) > 1)
                for what, put in others:
                    new = words[:k] + put + words[k + 1:]
                    yield what, with_name(system, u, sign, *lists[:place], new, *lists[place + 1:])
        avoid, require = lists
        if len(avoid) > 1:
            yield "words in another order", with_name(system, u, sign, avoid[::-1], require)
        for other in "CPM".replace(sign, ""):
            yield "a sign changed", with_name(system, u, other, avoid, require)


def change_equations(system):
    """One equation cut, with the terms that use it and the numbers of those after it; one given twice, where the first term that uses
    it uses the second; two equations exchanged in their places."""
    for u in range(1, len(system)):
        rest = [(*name, [(root, [v - (v > u) for v in children]) for root, children in terms if u not in children])
                for *name, terms in system[:u] + system[u + 1:]]
        yield "an equation cut", rest
    for u, equation in enumerate(system):
        for user, k in [(v, k) for v, (*_, terms) in enumerate(system) for k, (_, children) in enumerate(terms) if u in children][:1]:
            root, children = system[user][3][k]
            other = (root, [len(system) if v == u else v for v in children])
            yield "an equation twice", with_terms(system, user, system[user][3][:k] + [other] + system[user][3][k + 1:]) + [equation]
    for u, v in zip(range(1, len(system)), range(2, len(system))):
        turn = {u: v, v: u}
        rows = [(*name, [(root, [turn.get(w, w) for w in children]) for root, children in terms]) for *name, terms in system]
        rows[u], rows[v] = rows[v], rows[u]
        yield "equations in another order", rows


def changes(system):
    yield from change_terms(system)
    yield from change_names(system)
    yield from change_equations(system)


def draw_name(system, drawn):
    """Other words in the name of an equation, of at most four entries."""
    u = drawn.randrange(1, len(system))
    lists = (drawn.sample(SHORT, drawn.randint(0, most)) for most in (3, 2))
    return with_name(system, u, system[u][0], *map(list, lists))


def judge(program, header, basis, required, system):
    """What a changed system is, and what it is said to be."""
    claim = spell(header, system)
    text, status = answer(program, claim)
    said = text.removeprefix("\n".join(header + ["check "])).split()
    assert status == 0 and said[0] in ("yes", "no"), (claim, text)
    found = fault(system, basis, required)
    assert not (said[0] == "yes" and found), (claim, found)
    return f"{'wrong' if found else 'right'}, {said[0]}"


def tell(what, kinds):
    print(f"{what}: {sum(kinds.values())}, " + "; ".join(f"{kind}: {many}" for kind, many in sorted(kinds.items(), reverse=True)))


def check_changes(program):
    """Systems with one change, and some with two."""
    once, twice, named, drawn = {}, Counter(), Counter(), random.Random(5)
    for basis, required in CHANGED:
        script = f"basis {basis}\n" + (f"require {required}\n" if required else "")
        header, system = read_system(run(program, script)[0])
        own = [tuple(words.split()) for words in (basis, required)]
        assert fault(system, *own) is None, script
        changed = list(changes(system))
        for what, other in changed:
            once.setdefault(what, Counter())[judge(program, header, *own, other)] += 1
        for _ in range(DRAWN):
            other = drawn.choice(list(changes(drawn.choice(changed)[1])))[1]
            twice[judge(program, header, *own, other)] += 1
            named[judge(program, header, *own, draw_name(system, drawn))] += 1
    for what, kinds in once.items():
        tell(what, kinds)
    tell("two changes", twice)
    tell("other words in a name", named)


# Texts that are no claims


def refused(program, text, lines):
    """The text is refused in one of these lines."""
    assert answer(program, text) in [(f"fault {line} 13\n", recheck.REFUSED) for line in lines], (text[:SHOWN], lines)


def check_cuts(program, claim):
    """The claim without its end, from each byte on: the fault is in the line that is cut, or the text ends too early."""
    text, status = answer(program, claim)
    end = claim.index("\nend\n") + len("\nend")
    for length in range(len(claim)):
        cut = claim[:length]
        if length < end:
            refused(program, cut, [0] if cut[-1:] in ("", "\n") else [0, cut.count("\n") + 1])
        else:
            assert answer(program, cut) == (text, status), cut
    return len(claim)


MAY_MISS = ("permspec ", "union ", "require ", "simples ", "gap ")


def check_lines(program, claim):
    """The claim with a line left out, or twice, or two exchanged: the fault is in the first line that isn't the one that stood there."""
    lines = claim.splitlines()
    for k, line in enumerate(lines):
        fewer, more = ("\n".join(lines[:k] + put + lines[k + 1:]) + "\n" for put in ([], [line, line]))
        if not line.startswith(MAY_MISS):
            refused(program, fewer, [k + 1 if k + 1 < len(lines) else 0])
        elif not line.startswith("require "):
            assert answer(program, fewer) == answer(program, claim), fewer
        if line == "end":
            assert answer(program, more) == answer(program, claim), more
        else:
            refused(program, more, [k + 2])
    for k, m in combinations([k for k, line in enumerate(lines) if not line.startswith(MAY_MISS)], 2):
        turned = list(lines)
        turned[k], turned[m] = lines[m], lines[k]
        refused(program, "\n".join(turned) + "\n", [k + 1])
    return 2 * len(lines)


def check_numbers(program, claim):
    """Other numbers in the system's line."""
    lines = claim.splitlines()
    at, end = next(k for k, line in enumerate(lines) if line.startswith("system ")), lines.index("end") + 1
    _, form, _, equations, _, terms = lines[at].split(" ")
    one_less = next(k for k, line in enumerate(lines, 1) if f"E{int(equations) - 1}" in line)
    due = [(form, equations, int(terms) - 1, end), (form, equations, int(terms) + 1, end), (form, int(equations) + 1, terms, end),
           (form, int(equations) - 1, terms, one_less), (form, 0, terms, at + 1), (3, equations, terms, at + 1), (0, equations, terms, at + 1),
           (form, equations, 65537 - int(equations), at + 1), (form, equations, 65536 - int(equations), end), (form, 65536, 1, at + 1),
           (form, equations, "0" + terms, at + 1), (form, equations, "9" * 6000, at + 1), (form, equations, "", at + 1)]
    for form, equations, terms, line in due:
        number = f"system {form} equations {equations} terms {terms}"
        refused(program, "\n".join(lines[:at] + [number] + lines[at + 1:]) + "\n", [line])
    return len(due)


def check_spelling(program, claim):
    """One byte more at each place, or another in its place: recheck.py says what is due. Ends of lines with a carriage return."""
    many = 0
    for place in range(len(claim)):
        for put, over in ((" ", 0), ("0", 0), ("3", 1), ("\r", 0), ("\xff", 1)):
            answer(program, claim[:place] + put + claim[place + over:])
            many += 1
    assert answer(program, claim.replace("\n", "\r\n")) == answer(program, claim)
    return many


def small(terms, avoided="12 21", required="none", basis="12 21"):
    """A claim of one equation."""
    return f"basis {basis}\nsystem 1 equations 1 terms {terms.count('|') + 1}\nE0 C avoid {avoided} require {required} = {terms}\nend\n"


def check_words(program):
    """Words and lists as long as can be, and longer."""
    long, longer = (",".join(map(str, range(1, n + 1))) for n in (12, 13))
    many, more = (" ".join(["12"] * n) for n in (64, 65))
    claim = small("1")
    assert answer(program, claim)[0].endswith("check yes\n")
    for good, bad in ((long, longer), (many, more)):
        assert answer(program, small("1", basis=f"12 21\nrequire {good}"))[0].endswith("check no E0 name\n")
        assert answer(program, small("1", basis=good))[0].startswith(f"permspec 1\nbasis {good[:2] if ' ' in good else good}\n")
        refused(program, small("1", basis=f"12 21\nrequire {bad}"), [2])
        refused(program, small("1", basis=bad), [1])
    for lists in ((more, "none"), (long, "none"), ("12 21", more), ("12 21", long)):
        assert answer(program, small("1", *lists))[0].endswith("check no E0 name\n")
    for lists in ((longer, "none"), ("12 21", longer), ("1,2", "none"), ("12 21", "12345678910"), ("12  21", "none"), ("112", "none")):
        refused(program, small("1", *lists), [3])
    print("words and lists as long as can be, and longer: answered or refused as they should be")


def check_roots(program):
    """Roots that may stand in a claim, and others."""
    long, longer = (",".join(map(str, [*range(2, n + 1, 2), *range(1, n + 1, 2)])) for n in (10, 12))
    for root, entries in (("12", 2), ("21", 2), ("2413", 4), ("246819357", 9), (f"({long})", 10)):
        children = ["E0"] * entries
        due = "point" if entries == 2 else f"{root} root"
        assert answer(program, small(f"1 | {root}[{','.join(children)}]" + " | 1" * (entries == 2)))[0].endswith(f"check no E0 {due}\n")
        for wrong in (children[1:], children + ["E0"], ["E1"] + children[1:], ["E00"] + children[1:], ["E"] + children[1:]):
            refused(program, small(f"1 | {root}[{','.join(wrong)}]"), [3])
    for root, entries in (("1", 1), ("123", 3), ("231", 3), ("2143", 4), ("(2413)", 4), ("2,4,1,3", 4), (long, 10), (f"({longer})", 12)):
        refused(program, small(f"1 | {root}[{','.join(['E0'] * entries)}]"), [3])
    for terms in ("", "1 |", "1|1", "1 | none", "12", "12[]", "12[E0 ,E0]", "12[E0,E0", "12[E0,E0]]", "1[E0]", "2"):
        refused(program, small(terms), [3])
    print("roots and terms of each form: answered or refused as they should be")


def check_void(program):
    """Classes without words: where a required word contains one of the basis there is one system, and else each equation is checked."""
    for basis, required, name in (("132", "132", "132"), ("132", "21 1342", "1342"), ("12 21", "21", "21")):
        head, row = f"basis {basis}\nrequire {required}\nsystem 2 equations ", f"E{{}} C avoid {basis} require {name} = "
        for system, due in (("1 terms 0\n" + row.format(0) + "none\n", "yes"), ("1 terms 1\n" + row.format(0) + "1\n", "no E0 name"),
                            ("2 terms 0\n" + row.format(0) + "none\n" + row.format(1) + "none\n", "no E0 name")):
            assert answer(program, head + system + "end\n")[0].endswith(f"check {due}\n"), (basis, required, system)
    for required, many in product(("", "require 1\n"), (1, 2)):
        rows = "".join(f"E{u} C avoid 1 require none = none\n" for u in range(many))
        assert answer(program, f"basis 1\n{required}system 1 equations {many} terms 0\n{rows}end\n")[0].endswith("check yes\n")
    print("classes without words: answered as they should be")


def check_large(program):
    """A leaf without terms whose blocks have a system above 65,536: recheck.py says the same, but takes two minutes."""
    basis = crosscheck.CLASSES[-1] + " 123456789 987654321"
    text, status = run(program, small("1", basis, basis=basis), "--check")
    assert text.endswith("\ncheck no E0 12 cell 0 large\n") and status == recheck.DONE, text
    print("a leaf whose blocks have too large a system: large")


def check_faults(program):
    """An input that can't be read, and an output that can't be written."""
    claim = small("1")
    faults = [("<&-", READ_FAULT), (f'<"{EXAMPLES}"', READ_FAULT), (">&-", WRITE_FAULT)]
    for redirected, due in faults + [(">/dev/full", WRITE_FAULT)] * Path("/dev/full").exists():
        got = subprocess.run(["bash", "-c", f'"$0" --check {redirected}', program], input=claim.encode(), stdout=subprocess.PIPE)
        assert (got.returncode, got.stdout) == (due, b""), (redirected, got)
    print("an input that can't be read: status 3; an output that can't be written: status 4")


def check_ends(program):
    """Texts as long as can be, an output with a basis of more than 64 words, classes that aren't settled, words of the command line."""
    claim = small("1")
    longest = claim + "x" * (recheck.MOST_BYTES - len(claim))
    assert answer(program, longest) == answer(program, claim)
    for text in (longest + "x", "\n" * (recheck.MOST_BYTES + 1)):
        assert answer(program, text) == ("fault 0 8\n", recheck.REFUSED)
    refused(program, "", [0])
    refused(program, "\n" * recheck.MOST_BYTES, [1])
    wide, status = run(program, "basis 1234 2413 3142\nunion 321 2413 3142\n")
    assert status == recheck.DONE and len(wide.split("\n")[2].split()) > 65
    refused(program, wide, [3])
    for limit in (5, 6, 7, 8):
        text, status = answer(program, small("1", basis="321"), limit)
        assert text.endswith(f"\nunsettled {limit}\n") and status == recheck.UNSETTLED, text
    for words in (["--check", "--check"], ["--check=1"], ["--check", "1"], ["--check", "--demo", "1"], ["--demo=1", "--check"],
                  ["--check", "--max-size", "7"], ["--check", "--max-simple", "11"], ["--chec"], ["--check="], ["-check"]):
        assert run(program, claim, *words) == ("", WORDS_REFUSED), words
    assert run(program, claim, "--max-simple=5", "--check") == answer(program, claim)
    print("texts as long as can be, a basis of 92 words, classes that aren't settled, and words of the command line: as they should be")


def check_refused(program):
    claims = [run(program, script)[0] for script in ("basis 132\n", "basis 21\nrequire 12\n", "basis 12\nunion 21\nformat 1\n")]
    for what, test in (("cut at a byte", check_cuts), ("with a line left out or twice", check_lines), ("with other numbers", check_numbers)):
        print(f"claims {what}: {sum(test(program, claim) for claim in claims)}, each refused in its line, but where nothing is wrong")
    print(f"claims with one byte otherwise: {check_spelling(program, claims[1])}, answered as recheck.py answers them")
    check_words(program)
    check_roots(program)
    check_void(program)
    check_ends(program)
    check_large(program)
    check_faults(program)


if __name__ == "__main__":
    check_outputs(sys.argv[1])
    check_changes(sys.argv[1])
    check_refused(sys.argv[1])
