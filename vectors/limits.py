#!/usr/bin/env python3
"""Writes what magnetar_limits has to write: the largest number of columns, run to a result (docs/VECTORS.md).

    limits.py DRIVER COLUMNS

Both answer by the published Rust, COLUMNS where the two logins have public columns of their own, for a relation and a batch that are
filled here by the rule that crates/magnetar_limits/src/filled.rt states. That lent words past a result stay, that scratch is zero as far
as its formula goes, and the refusals are document 01's.
"""
import sys

sys.dont_write_bytecode = True
from cases import Case, Room, Runs, Sheet, checked, flipped, numbers, shared_product, shortly, with_lens
from make import MARK, TOP, listed

MOST, STEP, TERMS = 65536, 0x9E3779B97F4A7C15, 512
# Segments that leave out the last column: 32,767 columns.
SHORT = [1 << k for k in range(14, -1, -1)]
UNTOUCHED = int(MARK, 0)
# How many words the program lends.
TABLE, SCRATCH, CLAIMS, PRODUCTS = 2 * MOST, 8 * MOST + 128, 40, 20


def filled(n, first):
    return [(first + i * STEP) % 2**64 for i in range(n)]


def elements(words):
    return [low + (high << 64) for low, high in zip(words[::2], words[1::2])]


def the_case(q):
    """(w + 1) D = 0 and D 1 = D in both systems, w being the last bit, D a sum of 512 columns from the first to the last."""
    packed = filled(512 * q, STEP)
    for login in range(q):
        packed[512 * login + 511] |= 1 << 63
    case = Case(MOST, q, [2, 4], [16384, 8192, 8192], packed=packed, x=filled(MOST - 2, 1))
    for system in range(2):
        value = [lambda k: 1, lambda k: (k << 53 ^ k << 9 ^ 1) % 2**64 | (k << 41 ^ k) << 64][system]
        a, b, c = range(3 * system, 3 * system + 3)
        case.put(a, 0, MOST // 2 - 1, 1), case.put(a, 0, MOST // 2, 1), case.put(b, 1, MOST // 2, 1)
        for k in range(TERMS):
            for matrix, row in [(a, 1), (b, 0), (c, 1)]:
                case.put(matrix, row, 128 * k + k % 128, value(k))
    return case


class Told:
    """The lines of the program."""

    def __init__(self, *commands):
        self.sheet, self.lines, self.known = Sheet(*commands), [], {}
        self.ops, self.runs = self.sheet.ops, Runs(self.sheet)
        self.start = tuple(self.ops.ask("new " + b"limits".hex()).split()[1:])

    def drawn(self, state, counter):
        *_, low, high, _, _ = self.ops.ask(f"draw {state} {counter} {b'digest'.hex()}").split()
        return f"{int(high, 0):016x}{int(low, 0):016x}"

    def words(self, what, words):
        """A lent slice: what it is, how many words it has, their digest."""
        data = b"".join(word.to_bytes(8, "little") for word in words)
        if data not in self.known:
            self.known[data] = self.drawn(*self.ops.ask(f"absorb {' '.join(self.start)} {b'words'.hex()} {data.hex()}").split()[1:])
        return f", {what} {len(words)} {self.known[data]}"

    def lent(self, what, n, front=()):
        """n lent words, of which a call has written those in front."""
        return self.words(what, list(front) + [UNTOUCHED] * (n - len(front)))

    def line(self, name, answer, *slices):
        self.lines.append(f"  {name:16}{answer}{''.join(slices)}")

    def run(self, name, code, transcript, *slices):
        self.line(name, f"{code}, transcript {self.drawn(*transcript)}", *slices)

    # ---- at the limit, by the Rust

    def products(self, case):
        for k in range(6):
            # whether the products are bits hangs on the matrix alone
            flag, shared = shared_product(self.ops, case, k)
            words = self.sheet.own(case, f"product {k}").split()[1:]
            assert words == shared or not case.shared()
            self.line("packed product", {"true": "yes", "false": "no"}[flag], self.lent("products", PRODUCTS, [int(w, 0) for w in words]))

    def single(self, case):
        self.products(case)
        point = filled(2, 7) if case.q == 2 else []
        folded = numbers(self.ops.ask(f"foldw {case.q} {case.m // 2} {shortly(case.packed)} {shortly(point)}").removeprefix("= "))[1:]
        self.line("fold", 0, self.lent("folded", TABLE, folded), self.lent("scratch", 6, [0] * (2 * case.q)))
        self.ops.run.stdin.write(case.text())
        lists = " ".join(listed(elements(filled(n, first))) for n, first in [(12, 11), (2, 12), (4, 13)])
        table = numbers(self.ops.ask(f"combo {lists}").removeprefix("= "))[1:]
        self.line("combined table", 0, self.lent("table", TABLE, table), self.lent("scratch", SCRATCH, [0] * (2 * case.m + 2 * 4)))

    def verify(self, case, proof):
        found = self.runs.asked(case, self.start, proof)
        verdict, *rest = found["verifier"].split()
        claims = numbers(found["verifier_claims"])[1:] if verdict == "accepted" else []
        code = 0 if verdict == "accepted" else int(rest[0])
        scratch = self.lent("scratch", SCRATCH, [0] * Room(case).verifier)
        self.run("verify", code, found["verifier_transcript"].split(), self.lent("claims", CLAIMS, claims), scratch)
        return code

    def whole(self, case):
        """The row checks and both ends; the numbers of the verifier's answers, the second after a bit of the proof is turned."""
        for name, lens in [("row check", case.lens), ("last column out", SHORT)]:
            self.line(name, checked(self.sheet, with_lens(case, lens)).removeprefix("= "), self.lent("scratch", SCRATCH, [0] * (6 * 4)))
        found, room = self.runs.asked(case, self.start), Room(case)
        proof, claims = numbers(found["proof"])[1:], numbers(found["claims"])[1:]
        assert len(proof) == room.proof == 124 + 16 * case.q
        self.run(
            "prove", 0, found["prover_transcript"].split(), self.words("proof", proof), self.lent("claims", CLAIMS, claims),
            self.lent("scratch", SCRATCH, [0] * room.prover),
        )
        return [self.verify(case, words) for words in (proof, flipped(proof, len(proof) // 2 - 1, 127))]

    def at_the_limit(self, q):
        case = the_case(q)
        self.lines.append(f"m {case.m}, q {q}")
        self.single(case)
        assert self.whole(case) == [0, 29]
        case.packed[511] ^= 1 << 63
        self.lines.append("the last bit of login 0 is not set")
        assert self.whole(case) == [[23, 23], [21, 21]][q - 1]

    def own(self):
        """The same two logins; the words of the second one's public columns go on where those of the first one end."""
        case = the_case(2)
        case.x = filled(2 * (MOST - 2), 1)
        self.lines.append("each login its own public columns")
        self.products(case)
        assert self.whole(case) == [0, 29]

    # ---- past it, by document 01

    def past_the_limit(self):
        self.lines.append(f"m {2 * MOST}, q 1")
        for _ in range(6):
            self.line("packed product", 1, self.lent("products", PRODUCTS))
        scratch, claims = self.lent("scratch", SCRATCH), self.lent("claims", CLAIMS)
        self.line("fold", 1, self.lent("folded", TABLE), self.lent("scratch", 6))
        self.line("combined table", 1, self.lent("table", TABLE), scratch)
        self.line("row check", 1, scratch)
        self.line("last column out", 1, scratch)
        self.run("prove", 1, self.start, self.lent("proof", 140), claims, scratch)
        self.run("verify", 1, self.start, claims, scratch)
        self.run("verify", 1, self.start, claims, scratch)


def main():
    if len(sys.argv) != 3:
        sys.exit(__doc__)
    told = Told(*sys.argv[1:])
    told.at_the_limit(1)
    told.at_the_limit(2)
    told.own()
    told.past_the_limit()
    (TOP / "crates" / "magnetar_limits" / "stdout").write_text("".join(f"{line}\n" for line in told.lines))


if __name__ == "__main__":
    main()
