#!/usr/bin/env python3
"""Cuts the queries that magnetar_forms answers, and their answers, out of the files of magnetar_vectors:

    python3 vectors/forms.py

Run it after vectors/make.py. A query on a matrix whose four lists differ in length cannot be asked of records and is left out."""
import pathlib

TRANSCRIPTS = {"absorb", "absorbfield", "absorbu64", "absorbdigest", "draw", "drawvec"}
MATRICES = {"isbinary", "apply", "packed", "table", "at"}
TWO_LINES = {"packed", "table", "at"}
CRATES = pathlib.Path(__file__).parent.parent / "crates"


def parts(name):
    """The lines of a file of magnetar_vectors, cut before each line that begins with #."""
    found = []
    for line in (CRATES / "magnetar_vectors" / name).read_text().splitlines():
        if line.startswith("#"):
            found.append([])
        found[-1].append(line)
    return found


def wanted(query):
    op, *rest = query.split()
    if op in MATRICES:
        numbers = [int(x, 0) for x in rest]
        counts, at = set(), 4
        for _ in range(4):
            counts.add(numbers[at])
            at += 1 + numbers[at]
        return len(counts) == 1
    return op in TRANSCRIPTS


def main():
    stdin, stdout = [], []
    for asked, told in zip(parts("stdin"), parts("stdout"), strict=True):
        assert asked[0] == told[0]
        ops = [query.split()[0] for query in asked[1:]]
        if not (TRANSCRIPTS | MATRICES) & set(ops):
            continue
        stdin.append(asked[0])
        stdout.append(told[0])
        at = 1
        for op, query in zip(ops, asked[1:]):
            lines = 2 if op in TWO_LINES else 1
            if wanted(query):
                stdin.append(query)
                stdout += told[at:at + lines]
            at += lines
        assert at == len(told)
    for name, lines in (("stdin", stdin), ("stdout", stdout)):
        (CRATES / "magnetar_forms" / name).write_text("\n".join(lines) + "\n")


if __name__ == "__main__":
    main()
