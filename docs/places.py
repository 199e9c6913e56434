#!/usr/bin/env python3
"""Counts the places of docs/DESIGN-PASS.md in src/ (and, for point 8, in proofs/), at a commit or as the files stand.

    docs/places.py [COMMIT] [--list POINT]

Each count is of one pattern over the lines of crates/*/src/*.rt; comments do not count."""
import pathlib
import re
import subprocess
import sys

TOP = pathlib.Path(__file__).resolve().parent.parent
WIDE = 160

# point, what is counted, the pattern
PLACES = [
    ("1", "functions that answer a refusal's number", r"-> u32\b"),
    ("1", "fields and parameters that hold such a number", r"\b(code|z|n|y): u32\b"),
    ("1", "enums and structs of the shape of Option or Result",
     r"(enum (Evaluated|Flag|Reading|Stray)|struct (DigestAnswer|TranscriptAnswer|DrawAnswer|Drawn|Valued|ScratchWords|Found|Captured|Told|Said)) \{"
     r"|\bRefused\(u32\)"),
    ("1", "kinds as numbers: the name of a query as a number of its letters", r"^const [A-Z0-9]+: u64 = 0x[0-9a-f]{4,16};"),
    ("2", "functions over one entry record or a slice of them", r"\bes: (&\[Entry\]|\[Entry; \d+\])|\be: Entry\b"),
    ("2", "twins for a want of early return: the same unless a number is a refusal", r"^(pub |pub\(crate\) )?fn \w+_(unless|where)\b"),
    ("3", "loops that are a while", r"^\s*while\b"),
    ("4", "comparisons, choices and conversions by hand",
     r"\b(gf128::equal|sizes::larger|sizes::least|std::num::wrapping_\w+|rotate_left\(|wide\(|wide_byte\(|half_at\(|byte_of\(|fe_byte\(|same\w*\()"),
    ("5", "parameter lists with the four slices of a matrix", r"\brow: &\[usize\]"),
    ("5", "parameter lists with the sizes m, q, rb, rf", r"\brf: usize\b"),
    ("5", "parameter lists with the logarithms s, b, f, c", r"(^|\s)f: usize\b.*c: usize|^\s+f: usize,$"),
    ("6", "parallel arrays: fields and locals of one that is lent", r"\b(row|col): &'?\w* ?\[usize\]"),
    ("6", "fixed buffers of a program, of which a part is used", r"\[(0|MARK|false)(u8|u64|usize)?; \d{3,}\]"),
    ("7", "steps of a switch on what to run", r"\bif op == [A-Z]"),
    ("7", "flags that say which of two things to do", r"\b(bin|go|hex): bool\b"),
]


def files(commit, folder):
    if commit:
        names = subprocess.run(["git", "-C", str(TOP), "ls-tree", "-r", "--name-only", commit, "crates"],
                               capture_output=True, text=True, check=True).stdout.split()
        for name in names:
            if f"/{folder}/" in name:
                text = subprocess.run(["git", "-C", str(TOP), "show", f"{commit}:{name}"],
                                      capture_output=True, text=True, check=True).stdout
                yield name, text
    else:
        for path in sorted(TOP.glob(f"crates/*/{folder}/**/*")):
            if path.is_file():
                yield str(path.relative_to(TOP)), path.read_text()


def main():
    words = [w for w in sys.argv[1:] if not w.startswith("--")]
    wanted = sys.argv[sys.argv.index("--list") + 1] if "--list" in sys.argv else None
    commit = next((w for w in words if w != wanted), None)
    sources = [(name, text) for name, text in files(commit, "src") if name.endswith(".rt")]
    for point, what, pattern in PLACES:
        hits = []
        for name, text in sources:
            for number, line in enumerate(text.splitlines(), 1):
                if not line.lstrip().startswith("//") and re.search(pattern, line):
                    hits.append(f"{name}:{number}: {line.strip()}")
        print(f"{point}  {len(hits):5}  {what}")
        if wanted == point:
            for hit in hits:
                print("       ", hit)
    proofs = [(name, text) for name, text in files(commit, "proofs") if name.endswith(".antt")]
    answers = [text for name, text in proofs if name.endswith("/Answers.antt")]
    print(f"8  {len(answers):5}  files of answers")
    print(f"8  {sum(len(t.splitlines()) for t in answers):5}  lines of answers")
    print(f"8  {sum(len(l) > WIDE for _, t in proofs for l in t.splitlines()):5}  proof lines over {WIDE} characters")
    print(f"8  {sum('slice_known' in l for _, t in proofs for l in t.splitlines()):5}  answers that cite a name of the checker's own")


main()
