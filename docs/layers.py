#!/usr/bin/env python3
"""Draws docs/layers.svg: the crates of crates.txt, each above those that it stands on.

    docs/layers.py            writes the picture
    docs/layers.py --check    says whether it is up to date (exit status 1 where it is not)

A line leads to a crate that is used, unless another line leads there already by way of a third crate; those of programs are dashed. Places and words are below; what
stands on what is read off the files.
"""
import html
import pathlib
import re
import sys

TOP = pathlib.Path(__file__).resolve().parent.parent
WIDE, HIGH, GAP_X, GAP_Y = 196, 44, 22, 34

# name: column, row from below, kind, what it holds
PLACES = {
    "magnetar_field": (1, 0, "core", "GF(2^128), refusals"),
    "magnetar_keccak": (2.4, 1, "core", "Keccak-f[1600]"),
    "magnetar_theory": (0, 1, "laws", "Spartan over any field"),
    "magnetar_multilinear": (1, 1, "core", "eq and multilinear tables"),
    "magnetar_hash": (2.6, 2, "core", "SHA3-256, the transcript"),
    "magnetar_sumcheck_verifier": (0, 2, "core", "rounds, the verifier's side"),
    "magnetar_layout": (1, 2, "core", "layouts, tests of sizes"),
    "magnetar_matrix": (1, 3, "core", "matrices, batches, entries"),
    "magnetar_protocol": (0.5, 4, "laws", "the run; both theorems"),
    "magnetar_r1cs": (2.2, 4, "core", "products, masks"),
    "magnetar_sumcheck_prover": (0, 5, "core", "the prover's messages"),
    "magnetar_schedule": (1, 5, "laws", "what is absorbed and drawn"),
    "magnetar_relation": (2, 5, "core", "a relation, lent once"),
    "magnetar_transcript": (3.2, 5, "form", "the transcript in place"),
    "magnetar_replay": (4.7, 5, "host", "what replaying programs share"),
    "magnetar_verifier": (0.5, 6, "core", "checks 21 to 29, claims"),
    "magnetar_prover": (1.5, 6, "core", "the schedule run, rounds"),
    "magnetar_check": (3.2, 6, "core", "the row check"),
    "magnetar_digest": (4.2, 6, "core", "a digest of a relation"),
    "magnetar_forms": (5.2, 6, "host", "functions in both forms"),
    "magnetar_batch": (2.2, 7, "core", "folds, combined table"),
    "magnetar_spartan": (1.2, 8, "core", "prover and verifier"),
    "magnetar_vectors": (5.2, 8, "host", "recorded answers of functions"),
    "demo": (3, 9, "host", "a vault of four logins"),
    "magnetar_c": (2, 9, "host", "the library for C and Rust"),
    "magnetar_cases": (4, 9, "host", "recorded runs"),
    "magnetar_limits": (5, 9, "host", "the most columns"),
}
KINDS = {
    "laws": ("#e8e2f4", "definitions and theorems"),
    "core": ("#dbe8f7", "the proved core"),
    "form": ("#dff0e0", "the same in place"),
    "host": ("#f6ead2", "programs, what they lend, the library to link"),
}


def listed():
    found = {}
    for line in (TOP / "crates.txt").read_text().splitlines():
        if line and not line.startswith("#"):
            name, _, rest = line.partition(":")
            found[name.split()[0]] = rest.split()
    return found


def used(name, below):
    text = "".join(p.read_text() for p in sorted((TOP / "crates" / name).rglob("*")) if p.suffix in (".rt", ".antt"))
    return {d for d in below if re.search(rf"(use {d}\b|\b{d}::|Rattle\.{d}\.)", text)}


def lines():
    crates = listed()
    if set(crates) != set(PLACES):
        sys.exit(f"crates.txt and this picture name other crates: {sorted(set(crates) ^ set(PLACES))}")
    direct = {n: used(n, [d for d in below if d in crates]) for n, below in crates.items()}

    def reach(n):
        return direct[n].union(*(reach(d) for d in direct[n])) if direct[n] else set()

    return [(n, d) for n in PLACES for d in sorted(direct[n]) if not any(d in reach(e) for e in direct[n] if e != d)]


def corner(name):
    column, row, _, _ = PLACES[name]
    rows = max(p[1] for p in PLACES.values())
    return 16 + column * (WIDE + GAP_X), 16 + (rows - row) * (HIGH + GAP_Y)


def picture():
    width = 32 + max(p[0] for p in PLACES.values()) * (WIDE + GAP_X) + WIDE
    rows = max(p[1] for p in PLACES.values()) + 1
    height = 32 + rows * (HIGH + GAP_Y) - GAP_Y + 40
    out = [
        f'<svg xmlns="http://www.w3.org/2000/svg" viewBox="0 0 {width:.0f} {height:.0f}" font-family="sans-serif">',
        f'<rect width="{width:.0f}" height="{height:.0f}" fill="#ffffff"/>',
    ]
    for upper, lower in lines():
        (a, b), (c, d) = corner(upper), corner(lower)
        if b >= d:
            sys.exit(f"{upper} stands on {lower} and is not drawn above it")
        pen = 'stroke="#b9c0ca" stroke-dasharray="4 3"' if PLACES[upper][2] == "host" else 'stroke="#7d8794"'
        out.append(f'<line x1="{a + WIDE / 2:.0f}" y1="{b + HIGH:.0f}" x2="{c + WIDE / 2:.0f}" y2="{d:.0f}" {pen} stroke-width="1.4"/>')
    for name, (_, _, kind, words) in PLACES.items():
        x, y = corner(name)
        out.append(f'<rect x="{x:.0f}" y="{y:.0f}" width="{WIDE}" height="{HIGH}" rx="6" fill="{KINDS[kind][0]}" stroke="#5b6675"/>')
        out.append(f'<text x="{x + WIDE / 2:.0f}" y="{y + 18:.0f}" font-size="13" font-weight="bold" text-anchor="middle">{name}</text>')
        out.append(f'<text x="{x + WIDE / 2:.0f}" y="{y + 35:.0f}" font-size="11.5" text-anchor="middle">{html.escape(words)}</text>')
    x, y = 16, height - 34
    for colour, words in KINDS.values():
        out.append(f'<rect x="{x}" y="{y:.0f}" width="14" height="14" fill="{colour}" stroke="#5b6675"/>')
        out.append(f'<text x="{x + 20}" y="{y + 12:.0f}" font-size="12">{words}</text>')
        x += 40 + int(6.6 * len(words))
    return "\n".join(out + ["</svg>", ""])


target = TOP / "docs" / "layers.svg"
if "--check" in sys.argv[1:]:
    sys.exit(0 if target.read_text() == picture() else "docs/layers.svg is out of date: run docs/layers.py")
target.write_text(picture())
