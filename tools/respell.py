#!/usr/bin/env python3
"""Brings the repository's own definitions and lemmas to one spelling: words in snake case, types in upper camel case.

usage: python3 tools/respell.py [--report]     at the top of the repository, once, right after the toolchain's port.py

`eqTable` becomes `eq_table`, and a field `low-size` becomes `low_size`. A lemma keeps the dash that joins the names in it, as the library's
do (`length-append`), and so do the names that the checker makes. It turns .antt files, the clauses of .rt files, and names in backquotes in comments and pages.
Functions, strings and the files of a function's proof that the checker names keep theirs. --report writes nothing and lists the names, and
those that would fall together.
"""
import glob
import os
import re
import sys

WORD = r"[^\s(){}\[\].,;:\"`«»@|]+"
CAMEL = re.compile(r"^[a-zα-ω][^\W_]*[a-z0-9₀-₉¹²³⁰-⁹α-ω][A-Z]")
PLAIN = re.compile(r"^[A-Za-z0-9_'₀-₉⁰-⁹¹²³]+(?:-[A-Za-z0-9_'₀-₉⁰-⁹¹²³]+)+$")
# Lemmas whose definition now has their name.
LEMMAS = {"rows_made", "each_fed", "in_place", "part_in", "at_one", "inner_out"}
# Fields that keep their dash: the library, or another name of a file, has the spelling.
KEEP = set("""add-self add-zero bin-end bin-rounds cols-a cols-b cols-c fld-end fld-rounds inner-end inner-rounds is-outside is-ring mul-one q-most rows-bin rows-fld tau-bin tau-fld taus-bin taus-fld""".split())
FIXED = {"Proof.antt", "Answers.antt", "Invariants.antt"}


def own_files():
    for crate in sorted(glob.glob("crates/*")):
        for part in ("specs", "proofs"):
            for path in sorted(glob.glob(f"{crate}/{part}/**/*.antt", recursive=True)):
                yield path


def snake(name):
    out = re.sub(r"(?<=[a-z0-9'₀-₉α-ω⁰-⁹¹²³])([A-Z])", lambda m: "_" + m.group(1).lower(), name)
    return re.sub(r"(?<=_)([A-Z])", lambda m: m.group(1).lower(), out)


def collect():
    """The dashed names of records' fields and of constructors; a lemma keeps its dash, as the library's do."""
    dashed = set()
    for path in own_files():
        if os.path.basename(path) in FIXED:
            continue
        inside = None
        for line in open(path, encoding="utf-8"):
            if not line.strip() or line.lstrip().startswith("--"):
                continue
            indent = len(line) - len(line.lstrip())
            head = re.match(r"\s*(?:pub +)?(record|data) ", line)
            if head:
                inside = indent
            elif inside is not None and indent <= inside:
                inside = None
            elif inside is not None:
                m = re.match(r"\s+(?:pub +)?((?:" + WORD + r" )+): ", line)
                for name in m.group(1).split() if m else []:
                    if PLAIN.match(name) and name[0].islower():
                        dashed.add(name)
    return dashed - KEEP


def new_name(token, dashed):
    if token in dashed:
        return snake(token.replace("-", "_"))
    return "-".join(snake(it) if CAMEL.match(it) else it for it in token.split("-"))


TOKEN = re.compile(r"--[^\n]*|//[^\n]*|\"(?:[^\"\\\n]|\\.)*\"|«[^»]*»|" + WORD)


def turn_ticks(text, dashed):
    return re.sub(r"`([^`\n]*)`", lambda m: "`" + re.sub(WORD, lambda w: new_name(w.group(0), dashed), m.group(1)) + "`", text)


def turn_code(text, dashed, seen, antt):
    def one(m):
        t = m.group(0)
        if t.startswith("--") or t.startswith("//"):
            return turn_ticks(t, dashed)
        if t[0] in "\"«":
            return t
        lemma = antt and t in LEMMAS and text[m.start() - 1] != "."
        n = t + "_lem" if lemma else new_name(t, dashed)
        if n != t:
            seen.setdefault(n, set()).add(t)
        return n
    return TOKEN.sub(one, text)


GHOST = re.compile(r"ghost use [^;]*;|\b(?:requires|ensures|ghost)\b[^\n{]*\{", re.S)


def turn_rust(text, dashed, seen):
    out, at = [], 0
    for m in iter(lambda: GHOST.search(text, at), None):
        out.append(turn_comments(text[at:m.start()], dashed))
        if m.group(0).startswith("ghost use"):
            out.append(turn_code(m.group(0), dashed, seen, False))
            at = m.end()
            continue
        depth, k = 1, m.end()
        while depth:
            depth += {"{": 1, "}": -1}.get(text[k], 0)
            k += 1
        out.append(m.group(0))
        out.append(turn_code(text[m.end():k], dashed, seen, False))
        at = k
    out.append(turn_comments(text[at:], dashed))
    return "".join(out)


def turn_comments(text, dashed):
    return re.sub(r"//[^\n]*", lambda m: turn_ticks(m.group(0), dashed), text)


def main(argv):
    report = "--report" in argv
    dashed = collect()
    changed = 0
    falls = []
    allnew = {}
    for path in list(own_files()) + sorted(glob.glob("crates/*/src/**/*.rt", recursive=True)) + ["README.md"] + sorted(glob.glob("docs/**/*.md", recursive=True)):
        text = open(path, encoding="utf-8").read()
        seen = {}
        if path.endswith(".md"):
            new = turn_ticks(text, dashed)
        elif path.endswith(".rt"):
            new = turn_rust(text, dashed, seen)
        else:
            new = turn_code(text, dashed, seen, True)
        tokens = {m.group(0) for m in re.finditer(r"(?<![.\w])" + WORD, re.sub(r"(--|//)[^\n]*", "", text))}
        for n, olds in seen.items():
            allnew.setdefault(n, set()).update(olds)
            if len(olds) > 1 or n in tokens:
                falls.append(f"{path}: {n}: {sorted(olds)}{' and itself' if n in tokens else ''}")
        if new != text:
            changed += 1
            if not report:
                open(path, "w", encoding="utf-8").write(new)
    print(f"respell: {len(allnew)} names, {changed} files")
    for line in falls:
        print("fall together: " + line)
    for n, olds in sorted(allnew.items()):
        if len(olds) > 1:
            print(f"one spelling: {n}: {sorted(olds)}")
    if report:
        for n, olds in sorted(allnew.items()):
            print(f"{sorted(olds)[0]} -> {n}")


main(sys.argv[1:])
