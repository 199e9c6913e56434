#!/usr/bin/env python3
"""Counts the recorded queries and their answers, and looks for what it counted in the table of docs/VECTORS.md:

    python3 vectors/counts.py

Prints each row as it should be, and ends with 1 where the document has another one."""
import collections
import sys

sys.dont_write_bytecode = True
from make import TOP
from forms import MATRICES, TRANSCRIPTS

FIELD = "add mul square inv pow mulbit isbit chain eqchar2 eq fused eqat evalmle bind fold eqroom mleroom bindroom get put clear copy log2 ispower"
HASH = "sha3 sha3rep parts partslens new newlens absorb absorbfield absorbwords absorbu64 absorbdigest draw rawdraw draws drawvec rawdrawvec febytes digest"
SUMCHECK = "outer inner round capture outerend innerend eqpoints eqnext outermsg innermsg dropvar"
MATRIX = "isbinary apply packed table at foldinst foldw foldx layout reading segment"
# How many lines an answer has; that of `checks` says it itself.
LINES = {"combo": 2, "value": 2, "masks": 1, "check": 2, "digest": 1, "prove": 4, "verify": 3, "checks": None}
# `rooms` is so many runs of the verifier as it has numbers of words, and is counted as these


def lines(crate, name):
    return (TOP / "crates" / crate / name).read_text().splitlines()


def ops(crate):
    return collections.Counter(query.split()[0] for query in lines(crate, "stdin") if not query.startswith("#"))


def of(counts, names):
    return ", ".join(f"`{name}` {counts[name]}" for name in names)


def thousands(n):
    return f"{n:,}"


def number(answer):
    """The number of a refusal, 0 where the line tells none."""
    return int(answer.split()[1]) if answer.startswith("!") else 0


def found(answers):
    """The number that `checks` found, and how many lines it wrote: a number in the first line ends it, one in the second leaves out the claims."""
    told = lambda i: int(answers[i].split()[1])
    if told(0):
        return told(0), 1
    return told(1), 3 if told(1) else 4


def has_own(case):
    """Whether the logins of a case have unequal public columns."""
    numbers = [int(n, 0) for n in case.split()[1:]]
    m, q = numbers[1:3]
    x = numbers[5 + numbers[3] :][: numbers[4 + numbers[3]]]
    return len(x) == q * (m - 2) and len({tuple(x[u * (m - 2) : (u + 1) * (m - 2)]) for u in range(min(q, 4096))}) > 1


def relations():
    """The queries on relations and how many of these have unequal public columns: all, those that the core alone was asked, how the runs end,
    and what the row check says."""
    answers, at, cases, own, verdicts = lines("magnetar_cases", "stdout"), 0, 0, 0, collections.Counter()
    all_, alone, codes = collections.Counter(), collections.Counter(), collections.defaultdict(collections.Counter)
    for query in lines("magnetar_cases", "stdin"):
        op = query.split()[0]
        if op == "case":
            cases += 1
            own += has_own(query)
        elif op == "#":
            at += 1
        else:
            op, times = ("verify", lengths(query)) if op == "rooms" else (op, 1)
            for _ in range(times):
                all_[op] += 1
                if answers[at] == "alone":
                    alone[op] += 1
                    at += 1
                code, length = found(answers[at:]) if op == "checks" else (number(answers[at]), LINES[op])
                codes[op][code] += 1
                verdicts[answers[at].split()[1] if op == "check" else None] += code == 0
                at += length
    assert at == len(answers)
    return cases, own, all_, alone, codes, verdicts


def lengths(query):
    """How many numbers of words a line `rooms` has: its second list."""
    words = query.split()[4:]
    return int(words[1 + int(words[0])])


def columns():
    """How many calls magnetar_limits makes at each number of columns, by the line before them that tells it, and how many of them on public
    columns of each login's own."""
    calls, m, own = collections.Counter(), None, False
    for line in lines("magnetar_limits", "stdout"):
        if line.startswith("m "):
            m, own = int(line.split()[1].rstrip(",")), False
        elif line.startswith("each login"):
            own = True
        elif line.startswith("  "):
            calls[m] += 1
            calls["own"] += own
            assert m == 65536 or line[18:].startswith("1,"), line
    return calls


def rows():
    singly = ops("magnetar_vectors")
    parts = [sum(singly[name] for name in names.split()) for names in (FIELD, HASH, SUMCHECK, MATRIX)]
    assert sum(parts) == sum(singly.values()), singly
    yield f"| `magnetar_vectors` | {thousands(sum(parts))}: field {thousands(parts[0])}, hash {parts[1]}, sum-checks {parts[2]}, matrices, folds and layouts {parts[3]} |"
    cases, own, asked, alone, codes, verdicts = relations()
    yield f"| `magnetar_cases` | {thousands(sum(asked.values()))} on {thousands(cases)} relations: {of(asked, LINES)}; {own} relations with public columns of each login's own |"
    both = [name for name in LINES if name != "checks"]
    records = {name: asked[name] - alone[name] for name in both}
    yield f"| of these also over records | {thousands(sum(records.values()))}: {of(records, both)}; the other {sum(alone.values())} of these kinds are answered after a line `alone`: the four lists are of unequal length, or of more than 384 entries |"
    forms = ops("magnetar_forms")
    assert set(forms) == TRANSCRIPTS | MATRICES
    names = "absorb absorbfield absorbu64 absorbdigest draw drawvec isbinary apply packed table at".split()
    yield f"| `magnetar_forms` | {sum(forms.values())} of those of `magnetar_vectors`: {of(forms, names)}; those on a matrix whose four lists differ in length cannot be asked of records |"
    calls = columns()
    assert set(calls) == {65536, 131072, "own"}
    yield f"| `magnetar_limits` | {calls[65536] + calls[131072]} calls: {calls[65536]} at m = 65,536, of one login and of two, {calls['own']} of these on public columns of each login's own; {calls[131072]} at m = 131,072, each refused with 1 |"
    prove, verify = codes["prove"], codes["verify"]
    early = {op: sum(n for code, n in codes[op].items() if 1 <= code <= 16) for op in codes}
    late = {code: n for code, n in verify.items() if code > 16}
    assert set(late) == set(range(21, 30)) and max(prove) == 15
    yield f"| of the {asked['prove']} runs of the prover | {prove[0]} proofs; {early['prove']} refused with 1 to 15 |"
    yield f"| of the {asked['verify']} runs of the verifier | {verify[0]} accepted; {early['verify']} refused with 1 to 16; {sum(late.values())} refused with 21 to 29, each number at least {min(late.values())} times |"
    check = codes["check"]
    assert set(check) == {*range(11), 15}
    yield f"| of the {asked['check']} row checks | {verdicts['good']} good; {verdicts['stray']} a stray bit; {verdicts['bin'] + verdicts['fld']} a failing row; {early['check']} refused with 1 to 10 and 15 |"
    given = codes["checks"]
    assert set(given) == {0} | set(range(21, 30))
    yield f"| of the {asked['checks']} runs of the verifier's checks with given draws | {given[0]} find nothing; the others find each number from 21 to 29 |"


def main():
    document = (TOP / "docs" / "VECTORS.md").read_text().splitlines()
    other = False
    for row in rows():
        print(row)
        other |= row not in document
    sys.exit(other)


if __name__ == "__main__":
    main()
