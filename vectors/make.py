#!/usr/bin/env python3
"""Writes the queries of the test program and their recorded answers (docs/VECTORS.md).

    make.py DRIVER FIELDOPS SUMOPS COLUMNS

DRIVER, FIELDOPS, SUMOPS and COLUMNS are commands that answer queries by the published Rust: DRIVER `mul`, `eq` from 1 and `evalmle` and
those on parts, transcripts, matrices, folds and layouts, FIELDOPS the rest of the field, SUMOPS the sum-check, COLUMNS those on logins
with public columns of their own. Hashes of bytes are Python's hashlib's.
What the Rust does not answer (refusals, and the words of a lent slice that a call leaves alone) is put together here
from document 01 and from the Rust's answers to the same inputs.
"""
import hashlib
import random
import subprocess
import sys
from pathlib import Path

TOP = Path(__file__).resolve().parent.parent
MARK = "0x5a5a5a5a5a5a5a5a"
ONES = 2**128 - 1
EDGES = [0, 1, 1 << 63, 1 << 64, 1 << 127, ONES]
SPECIAL = [0, 1, 2, 1 << 127]
DICE = random.Random(20240219)


def words(elements):
    return [f"{w:#x}" for e in elements for w in (e % 2**64, e >> 64)]


def listed(elements):
    return " ".join([str(2 * len(elements))] + words(elements))


def brief(elements):
    """The same, as short as a query may have it."""
    return " ".join([str(2 * len(elements))] + [str(int(w, 0)) if int(w, 0) < 1000 else w for w in words(elements)])


def some(n):
    return [DICE.getrandbits(128) for _ in range(n)]


class Rust:
    """A command that answers a line at a time."""

    def __init__(self, *command):
        self.run = subprocess.Popen(command, stdin=subprocess.PIPE, stdout=subprocess.PIPE, text=True, bufsize=1)

    def asks(self, query, lines):
        self.run.stdin.write(query + "\n")
        self.run.stdin.flush()
        answers = [self.run.stdout.readline().rstrip("\n") for _ in range(lines)]
        assert all(answer.startswith("= ") for answer in answers), (query, answers)
        return answers

    def ask(self, query):
        return self.asks(query, 1)[0]


class Lines:
    """Lines of queries with their answers, in sections that begin with a note."""

    def __init__(self):
        self.queries, self.answers = [], []

    def written(self, query, *answers):
        self.queries.append(query)
        self.answers += answers

    def note(self, text):
        self.written(f"# {text}", f"# {text}")

    def write(self, crate):
        (TOP / "crates" / crate / "stdin").write_text("".join(f"{q}\n" for q in self.queries))
        (TOP / "crates" / crate / "stdout").write_text("".join(f"{a}\n" for a in self.answers))


class Sheet(Lines):
    """Queries on single functions, and the commands that answer them."""

    def __init__(self, driver, fieldops, sumops, columns):
        super().__init__()
        self.section = {}
        self.commands = {"driver": Rust(driver, "ops"), "fieldops": Rust(fieldops), "sumops": Rust(sumops), "columns": Rust(columns)}

    def note(self, text):
        self.section = {}
        super().note(text)

    def said(self, query, *answers):
        """A query with its answers; one that its section has already is not written again."""
        if query not in self.section:
            self.written(query, *answers)
        assert self.section.setdefault(query, answers) == answers, query

    def rust(self, command, query):
        """A query that the Rust answers; the words of the answer."""
        answer = self.commands[command].ask(query)
        self.said(query, answer)
        return answer.split()[1:]

    def now(self, command, query):
        """The elements' words of the Rust's answer to a query that is not written down."""
        return self.commands[command].ask(query).split()[2:]

    def from_one(self, point):
        """The eq table of a point from 1, which is DRIVER's; FIELDOPS has to give the same."""
        query = f"eq {point} {brief([1])}"
        answer = self.commands["driver"].ask(f"eq {point}")
        assert self.commands["fieldops"].ask(query) == answer, query
        self.said(query, answer)


def rows(sheet):
    sheet.note("document 01, rows 1 to 6")
    for a, b, product in [
        (2, 1 << 127, 0x87),
        (1 << 127, 1 << 127, (1 << 127) + (1 << 126) + 0x1067),
        (1 << 63, 2, 1 << 64),
        (3, 7, 9),
    ]:
        sheet.said(f"mul {listed([a, b])}", f"= {listed([product])}")
    sheet.said(f"eq 0 {brief([1])}", f"= {listed([1])}")
    sheet.said(f"eq {listed([2, 4])} {brief([1])}", f"= {listed([15, 10, 12, 8])}")


def elements(sheet):
    sheet.note("products: edges by edges, edges by others, others, single bits")
    pairs = [(a, b) for a in EDGES for b in EDGES]
    pairs += [(a, b) for a in EDGES for b in some(4)] + [(b, a) for a in EDGES for b in some(4)]
    pairs += [tuple(some(2)) for _ in range(150)]
    pairs += [(1 << i, 1 << (127 - i)) for i in range(0, 128, 9)] + [(1 << i, 1 << (128 - i)) for i in range(1, 128, 9)]
    for a, b in pairs:
        sheet.rust("driver", f"mul {listed([a, b])}")
    sheet.note("logarithms of sizes, rounded down, and whether they are powers of two")
    for n in sorted({0, 3, 5, 2**64 - 1} | {2**k + d for k in (0, 1, 2, 5, 16, 32, 62, 63) for d in (-1, 0, 1)}):
        sheet.said(f"log2 {n}", f"= {max(n, 1).bit_length() - 1}")
        sheet.said(f"ispower {n}", f"= {'true' if n and n & (n - 1) == 0 else 'false'}")
    sheet.note("chains of products")
    for n in [0, 1, 2, 1000, 100000]:
        sheet.rust("fieldops", f"chain {listed(some(2))} {n}")
    sheet.note("sums")
    for _ in range(10):
        sheet.rust("fieldops", f"add {listed(some(2))}")
    sheet.note("squares, inverses, and products with inverses, which are 1")
    for a in EDGES + some(10):
        sheet.rust("fieldops", f"square {listed([a])}")
        sheet.rust("driver", f"mul {listed([a, a])}")
        if a:
            low, high = sheet.now("fieldops", f"inv {listed([a])}")
            sheet.rust("fieldops", f"inv {listed([a])}")
            sheet.rust("driver", f"mul 4 {' '.join(words([a]))} {low} {high}")
    sheet.note("the inverse of 0 is 0; the Rust panics")
    sheet.said(f"inv {listed([0])}", f"= {listed([0])}")
    sheet.note("powers")
    exponents = [0, 1, 2, 3, 127, 128, 1 << 63, 1 << 64, 1 << 127, ONES - 1, ONES]
    for a in EDGES + some(2):
        for k in exponents:
            sheet.rust("fieldops", f"pow {listed([a])} {' '.join(words([k]))}")
    sheet.note("an element times a bit, and whether an element is a bit")
    for a in EDGES + some(3):
        sheet.rust("fieldops", f"mulbit {listed([a, 0])}")
        sheet.rust("fieldops", f"mulbit {listed([a, 1])}")
        sheet.rust("fieldops", f"isbit {listed([a])}")
    sheet.rust("fieldops", f"isbit {listed([2])}")
    sheet.note("times a factor that is no bit: times its bit 0; the Rust leaves this open")
    for b in [2, 3, 1 << 64, ONES]:
        a = some(1)[0]
        sheet.said(f"mulbit {listed([a, b])}", f"= {listed([a * (b % 2)])}")


def tables(sheet):
    sheet.note("eq tables of 0 to 6 elements")
    for n in range(7):
        for point in [some(n), [DICE.getrandbits(1) for _ in range(n)], [DICE.choice(EDGES) for _ in range(n)]]:
            sheet.from_one(listed(point))
            sheet.rust("fieldops", f"fused {listed(point)}")
            bits = [str(DICE.getrandbits(1)) for _ in range(n)]
            sheet.rust("fieldops", f"eqat {listed(point)} {' '.join([str(n)] + bits)}")
    for x in EDGES + some(2):
        for b in (0, 1):
            sheet.rust("fieldops", f"eqchar2 {listed([x])} {b}")
    starts(sheet)
    sheet.note("evaluations in 0 to 6 variables")
    for n in range(7):
        for point in [some(n), [DICE.getrandbits(1) for _ in range(n)], [DICE.choice(EDGES) for _ in range(n)]]:
            sheet.rust("driver", f"evalmle {listed(some(2**n))} {listed(point)}")
    sheet.note("each variable of tables of 1 to 4 variables bound")
    for n in range(1, 5):
        for var in range(n):
            table, r = listed(some(2**n)), listed(some(1))
            sheet.rust("fieldops", f"bind {var} {table} {r}")
            sheet.rust("fieldops", f"fold {var} {table} {r}")


def starts(sheet):
    """Eq tables from an element. What they draw is their own, so that the queries after them stay."""
    dice = random.Random(20240221)

    def others(n):
        return [dice.getrandbits(128) for _ in range(n)]

    sheet.note("eq tables of 0 to 6 elements from 0, 1, x, x^127, all ones and others: each entry times that")
    for n in range(7):
        special = dice.sample(SPECIAL, min(n, 4)) + [dice.choice(SPECIAL) for _ in range(n - 4)]
        mixed = [dice.choice(SPECIAL + others(2)) for _ in range(n)]
        for point in [others(n), special, mixed] + [[e] for e in SPECIAL if n == 1]:
            sheet.from_one(listed(point))
            for start in [0, 2, 1 << 127, ONES] + others(2):
                sheet.rust("fieldops", f"eq {listed(point)} {brief([start])}")
    sheet.note("eq from a start: exactly as many words, one less, which is refused with 15 and writes no word, and one more, which stays")
    for n in range(4):
        point, need = listed(others(n)), 2 << n
        for start in [0, 2, 1 << 127, ONES] + others(1):
            found = sheet.now("fieldops", f"eq {point} {brief([start])}")
            for lent in [need - 1, need, need + 1]:
                code, after = room(need, found, lent)
                sheet.said(f"eqroom {lent} {point} {brief([start])}", " ".join(["=", code, str(len(after))] + after))
    sheet.note("eq from a start: an odd number of words, or over 20 elements, is refused with 11, with room for a table and before 15")
    for count, code in [(1, 11), (3, 11), (5, 11), (39, 11), (40, 15), (41, 11), (42, 11)]:
        point = " ".join([str(count)] + words(others(21))[:count])
        for start in [0, 1 << 127] + others(1):
            for lent in [1, 16]:
                sheet.said(f"eqroom {lent} {point} {brief([start])}", " ".join(["=", str(code), str(lent)] + [MARK] * lent))
            sheet.said(f"eq {point} {brief([start])}", f"! {code}")


def room(need, more, lent):
    """The answers where `lent` words are lent, `need` of them wanted: the number, and the words after."""
    if lent < need:
        return "15", [MARK] * lent
    return "0", more + [MARK] * (lent - need)


def edges(sheet):
    sheet.note("eq: the words past the table stay; a table that does not fit is refused with 15 and no word is written")
    for n in range(4):
        point = listed(some(n))
        need = 2 << n
        for lent in [0, need - 1, need, need + 1, need + 5]:
            code, after = room(need, sheet.now("driver", f"eq {point}"), lent)
            sheet.said(f"eqroom {lent} {point} {brief([1])}", " ".join(["=", code, str(len(after))] + after))
    sheet.note("eq: a point of an odd number of words, or of over 20 elements, is refused with 11, and before 15")
    for count, code in [(1, 11), (3, 11), (39, 11), (40, 15), (41, 11), (42, 11)]:
        point = " ".join([str(count)] + words(some(21))[:count])
        for lent in [0, 2]:
            sheet.said(f"eqroom {lent} {point} {brief([1])}", " ".join(["=", str(code), str(lent)] + [MARK] * lent))
        sheet.said(f"eq {point} {brief([1])}", f"! {code}")
        sheet.said(f"fused {point}", f"! {code}")
    sheet.note("eq at bits: another number of bits than of elements, or half an element, is refused with 11")
    sheet.said(f"eqat {listed(some(2))} 1 1", "! 11")
    sheet.said(f"eqat {listed(some(2))} 3 1 0 1", "! 11")
    sheet.said("eqat 3 5 6 7 1 1", "! 11")
    sheet.said("eqat 3 5 6 7 2 1 1", "! 11")
    sheet.note("evaluation: scratch is zero as far as it was wanted, and stays past that; too little is refused with 15")
    for n in range(4):
        values, point = listed(some(2**n)), listed(some(n))
        need = 2 << n
        value = " ".join(sheet.now("driver", f"evalmle {values} {point}"))
        for lent in [0, need - 1, need, need + 3]:
            if lent < need:
                answer, after = "! 15", [MARK] * lent
            else:
                answer, after = f"= 2 {value}", ["0x0"] * need + [MARK] * (lent - need)
            sheet.said(f"mleroom {lent} {values} {point}", answer, " ".join(["=", str(lent)] + after))
    sheet.note("evaluation: values and point that do not go together are refused with 11, and before 15")
    for count, point in [(2, 2), (6, 2), (8, 2), (3, 2), (0, 0), (4, 0), (4, 4), (4, 1), (4, 3), (8, 42)]:
        values = " ".join([str(count)] + words(some(4))[:count])
        at = " ".join([str(point)] + words(some(21))[:point])
        for lent in [0, 4]:
            sheet.said(f"mleroom {lent} {values} {at}", "! 11", " ".join(["=", str(lent)] + [MARK] * lent))
    sheet.note("binding: the second half of the table stays; a table with no such variable is refused with 11")
    for n in range(1, 4):
        for var in range(n):
            table, r = some(2**n), listed(some(1))
            bound = sheet.now("fieldops", f"bind {var} {listed(table)} {r}")
            after = bound + words(table)[len(bound) :]
            sheet.said(f"bindroom {var} {listed(table)} {r}", " ".join(["= 0", str(len(after))] + after))
        after = words(table)
        for var in [n, n + 1, 19, 20, 63, 64]:
            sheet.said(f"bindroom {var} {listed(table)} {r}", " ".join(["= 11", str(len(after))] + after))
    for count in [0, 1, 2, 3, 5, 6, 7]:
        after = words(some(4))[:count]
        table = " ".join([str(count)] + after)
        sheet.said(f"bindroom 0 {table} {r}", " ".join(["= 11", table]))
        sheet.said(f"bind 0 {table} {r}", "! 11")
        sheet.said(f"fold 0 {table} {r}", "! 11")
    sheet.note("words: an element that is not there reads as 0 and is not stored")
    s, e = some(2), some(1)
    for count in [0, 1, 2, 3, 4]:
        part = words(s)[:count]
        for i in [0, 1, 2]:
            there = part[2 * i : 2 * i + 2]
            whole = len(there) == 2
            sheet.said(f"get {i} {' '.join([str(count)] + part)}", " ".join(["= 2"] + (there if whole else ["0x0", "0x0"])))
            after = part[: 2 * i] + words(e) + part[2 * i + 2 :] if whole else part
            sheet.said(f"put {i} {' '.join([str(count)] + part)} {listed(e)}", " ".join(["=", str(count)] + after))
        sheet.said(f"clear 0 {' '.join([str(count)] + part)}", " ".join(["=", str(count)] + ["0x0"] * count))
        source = words(some(2))[:3]
        after = (source + part[3:])[:count] if count > 3 else source[:count]
        sheet.said(f"copy 0 {' '.join([str(count)] + part)} 3 {' '.join(source)}", " ".join(["=", str(count)] + after))


PUBLISHED = {
    b"": "a7ffc6f8bf1ed76651c14756a061d662f580ff4de43b49fa82d80a4b80f8434a",
    b"abc": "3a985da74fe225b2045c172d6bd390bd855f086e3e9d525b46bfe24511431532",
    b"abcdbcdecdefdefgefghfghighijhijkijkljklmklmnlmnomnopnopq": "41c0dba2a9d6240849100376a8235e2c82e1b9998a999e21db32dd97496d3376",
    b"abcdefghbcdefghicdefghijdefghijkefghijklfghijklmghijklmnhijklmnoijklmnopjklmnopqklmnopqrlmnopqrsmnopqrstnopqrstu": "916f6061fe879741ca6469b43971dfdb28b1a32dc36cb3254e812be27aad1d18",
}
MILLION = "5c8875ae474a3634ba4fd55ec85bffd661f32aca75c6d699d0cdcb6c115891c1"
LIMIT = 2**32


def hexed(b):
    return b.hex() or "-"


def random_bytes(n):
    return bytes(DICE.getrandbits(8) for _ in range(n))


def hashes(sheet):
    sheet.note("SHA3-256: the published messages, and a million times a")
    for message, digest in PUBLISHED.items():
        assert hashlib.sha3_256(message).hexdigest() == digest
        sheet.said(f"sha3 {hexed(message)}", f"= {digest}")
    assert hashlib.sha3_256(b"a" * 10**6).hexdigest() == MILLION
    sheet.said("sha3rep 1000000 61", f"= {MILLION}")
    sheet.note("SHA3-256: short messages, and lengths around one, two and three blocks")
    for n in list(range(1, 18)) + [31, 32, 33, 63, 64, 65, 127, 128, 129, 134, 135, 136, 137, 138, 143, 144, 145]:
        message = random_bytes(n)
        sheet.said(f"sha3 {hexed(message)}", f"= {hashlib.sha3_256(message).hexdigest()}")
    for n in [270, 271, 272, 273, 274, 407, 408, 409]:
        message = random_bytes(n)
        sheet.said(f"sha3 {hexed(message)}", f"= {hashlib.sha3_256(message).hexdigest()}")
    for n in [0, 1, 135, 136, 137, 271, 272, 273, 4096, 65536, 1048576]:
        sheet.said(f"sha3rep {n} a3", f"= {hashlib.sha3_256(bytes([0xa3]) * n).hexdigest()}")
    sheet.note("hashes of parts")
    for lens in [[], [0], [1], [0, 0], [3, 0, 5], [32, 6, 4, 100], [135], [136, 136], [119], [120], [121]]:
        sheet.rust("driver", " ".join(["parts"] + [hexed(random_bytes(n)) for n in lens]))
    sheet.note("parts: lengths that do not add up to the bytes are refused with 17, and no hash is given")
    for total, lens in [(0, []), (5, [5]), (5, [2, 3]), (5, [0, 5, 0]), (300, [150, 0, 150])]:
        data = random_bytes(total)
        parts = [hexed(data[sum(lens[:i]) : sum(lens[: i + 1])]) for i in range(len(lens))]
        (digest,) = sheet.commands["driver"].ask(" ".join(["parts"] + parts)).split()[1:]
        sheet.said(f"partslens {hexed(data)} {counted(lens)}", f"= {digest}")
    wrong = [(0, [1]), (5, []), (5, [4]), (5, [6]), (5, [2, 2]), (5, [2, 4]), (5, [2**64 - 1, 6]), (0, [2**63, 2**63])]
    for total, lens in wrong:
        sheet.said(f"partslens {hexed(random_bytes(total))} {counted(lens)}", f"! 17 {'00' * 32}")
    sheet.note("new transcripts: 0 to 3 public parts, empty ones too")
    for protocol in [b"", b"magnetar/virtual-spartan/v1"]:
        for lens in [[], [0], [1], [300], [0, 0], [8, 0], [0, 8], [16, 32], [0, 0, 0], [5, 0, 7], [135, 136, 137]]:
            sheet.rust("driver", " ".join(["new", hexed(protocol)] + [hexed(random_bytes(n)) for n in lens]))
    for total, lens in wrong:
        sheet.said(f"newlens 6162 {hexed(random_bytes(total))} {counted(lens)}", f"! 17 {'00' * 32} 0")
    for lens in [[], [0], [5], [3, 0, 7]]:
        data = bytes(range(sum(lens)))
        cut = [data[sum(lens[:i]) : sum(lens[: i + 1])] for i in range(len(lens))]
        answer = sheet.commands["driver"].ask(" ".join(["new 6162"] + [hexed(part) for part in cut]))
        sheet.said(f"newlens 6162 {hexed(data)} {counted(lens)}", answer)


def counted(numbers):
    return " ".join(str(n) for n in [len(numbers)] + numbers)


def little(words_, size=8):
    return b"".join(int(w, 0).to_bytes(size, "little") for w in words_)


def transcripts(sheet):
    driver = sheet.commands["driver"]

    def absorbed(state, counter, label, data):
        return driver.ask(f"absorb {state} {counter} {label} {hexed(data)}")

    def drawn(state, counter, label, n):
        """The words of n draws, and the transcript after them."""
        out = []
        for _ in range(n):
            _, low, high, state, counter = driver.ask(f"draw {state} {counter} {label}").split()[1:]
            out += [low, high]
        return out, state, counter

    sheet.note("a chain of absorptions of 0 to 300 bytes and draws, each from the transcript that the last one left")
    state, counter = sheet.rust("driver", f"new {hexed(b'chain')} {hexed(random_bytes(20))}")
    labels = [hexed(s) for s in [b"", b"a", b"tau", b"vspartan/round", b"x" * 60]]
    lengths = [0, 1, 2, 7, 8, 9, 15, 16, 17, 31, 32, 33, 55, 56, 57, 64, 100, 135, 136, 137, 200, 255, 256, 272, 299, 300]
    for k, n in enumerate(lengths):
        label = labels[k % len(labels)]
        state, counter = sheet.rust("driver", f"absorb {state} {counter} {label} {hexed(random_bytes(n))}")
        for _ in range(k % 4):
            _, _, _, state, counter = sheet.rust("driver", f"draw {state} {counter} {label}")
        sheet.said(f"digest {state} {counter}", f"= {state}")
    sheet.note("elements, words, a word and a hash absorbed: as their bytes are")
    label = labels[2]
    for n in range(5):
        e = words(some(n))
        answer = absorbed(state, counter, label, little(e))
        sheet.said(f"absorbfield {state} {counter} {label} {' '.join([str(len(e))] + e)}", answer)
        odd = e + words(some(1))[:1]
        refused = f"! 11 {state} {counter}"
        sheet.said(f"absorbfield {state} {counter} {label} {' '.join([str(len(odd))] + odd)}", refused)
        answer = absorbed(state, counter, label, little(odd))
        sheet.said(f"absorbwords {state} {counter} {label} {' '.join([str(len(odd))] + odd)}", answer)
        word = DICE.getrandbits(64)
        sheet.said(f"absorbu64 {state} {counter} {label} {word}", absorbed(state, counter, label, little([hex(word)])))
        data = random_bytes(32)
        sheet.said(f"absorbdigest {state} {counter} {label} {data.hex()}", absorbed(state, counter, label, data))
        state, counter = answer.split()[1:]
    for e in EDGES + some(2):
        sheet.said(f"febytes {listed([e])}", f"= {e.to_bytes(16, 'little').hex()}")
    sheet.note("runs of draws, over the counter 2^32 - 1; at 2^32 and more a draw is refused with 14")
    for n in [1, 2, 100]:
        out, after, end = drawn(state, 0, label, n)
        sheet.said(f"draws {state} 0 {label} {n}", f"= 2 {out[-2]} {out[-1]} {after} {end}")
    counter = str(LIMIT - 4)
    for _ in range(4):
        _, _, _, state, counter = sheet.rust("driver", f"draw {state} {counter} {label}")
    assert counter == str(LIMIT)
    for high in [LIMIT, LIMIT + 1, 2**63, 2**64 - 1]:
        sheet.said(f"draw {state} {high} {label}", f"! 14 {state} {high}")
    for high in [LIMIT - 1, LIMIT, LIMIT + 1, 2**63]:
        sheet.said(f"rawdraw {state} {high} {label}", driver.ask(f"draw {state} {high} {label}"))
    sheet.note("an absorption sets the counter to 0, whatever it was below 2^32; at 2^32 and more it is refused with 14, after 11")
    data, pair, word = bytes(range(32)), ["0x1", "0x8000000000000000"], 2**63 + 5
    for first in [LIMIT - 1, LIMIT, 2**64 - 1]:
        at = f"{state} {first} {label}"
        for query, absorbs in [
            (f"absorb {at} -", b""),
            (f"absorb {at} {data.hex()}", data),
            (f"absorbfield {at} 0", b""),
            (f"absorbfield {at} {' '.join(['2'] + pair)}", little(pair)),
            (f"absorbu64 {at} {word}", little([hex(word)])),
            (f"absorbdigest {at} {data.hex()}", data),
        ]:
            taken = absorbed(state, first, label, absorbs)
            sheet.said(query, taken if first < LIMIT else f"! 14 {state} {first}")
        sheet.said(f"absorbfield {at} 1 {pair[1]}", f"! 11 {state} {first}")
        sheet.said(f"absorbwords {at} 1 {pair[1]}", absorbed(state, first, label, little(pair[1:])))
    state, counter = sheet.rust("driver", f"absorb {state} {LIMIT - 1} {label} 00")
    sheet.note("several draws at once: words past the draws stay; 14 at the entry alone, then 15")
    for first in [0, 7, LIMIT - 2, LIMIT - 1]:
        for n, lent in [(0, 0), (0, 3), (1, 2), (1, 3), (3, 6), (3, 10)]:
            out, after, end = drawn(state, first, label, n)
            shown = " ".join([str(lent)] + out + [MARK] * (lent - 2 * n))
            sheet.said(f"drawvec {state} {first} {label} {n} {lent}", f"= {shown} 0 {after} {end}")
        for n, lent in [(1, 0), (1, 1), (3, 5), (2**63, 6), (2**64 - 1, 6)]:
            shown = " ".join([str(lent)] + [MARK] * lent)
            sheet.said(f"drawvec {state} {first} {label} {n} {lent}", f"= {shown} 15 {state} {first}")
    for first in [LIMIT, LIMIT + 1]:
        for n, lent in [(0, 0), (1, 2), (3, 5)]:
            shown = " ".join([str(lent)] + [MARK] * lent)
            sheet.said(f"drawvec {state} {first} {label} {n} {lent}", f"= {shown} 14 {state} {first}")
    for first in [0, LIMIT - 1, LIMIT]:
        for lent in [0, 1, 2, 5]:
            out, after, end = drawn(state, first, label, lent // 2)
            shown = " ".join([str(lent)] + out + [MARK] * (lent % 2))
            sheet.said(f"rawdrawvec {state} {first} {label} {lent}", f"= {shown} {after} {end}")


def element(found):
    """The element that two words spell."""
    low, high = found
    return int(low, 0) + (int(high, 0) << 64)


def orders(n):
    """How many of n variables are bound from the highest down before the others from the lowest up."""
    return sorted({0, 1, n // 2, n} & set(range(n + 1)))


def sumchecks(sheet):
    rust = sheet.commands["sumops"]

    def outer(high, tau, a, b, c, r, wrong=0):
        """A whole outer sum-check, its claim the sum and `wrong` more; the claim and the answers."""
        claim = element(sheet.now("sumops", f"sum {brief(tau)} {brief(a)} {brief(b)} {brief(c)}")) ^ wrong
        query = f"outer {high} {brief([claim])} {brief(tau)} {brief(a)} {brief(b)} {brief(c)} {brief(r)}"
        answers = rust.asks(query, 4 * len(r) + 1)
        sheet.said(query, *answers)
        return claim, answers

    def inner(high, t, z, r, wrong=0):
        claim = element(sheet.now("sumops", f"dot {brief(t)} {brief(z)}")) ^ wrong
        query = f"inner {high} {brief([claim])} {brief(t)} {brief(z)} {brief(r)}"
        sheet.said(query, *rust.asks(query, 3 * len(r) + 1))

    def bits(n):
        return [DICE.getrandbits(1) for _ in range(n)]

    def table(n):
        """2^n elements, most of them small where they are many."""
        return [DICE.getrandbits(128 if i % 32 == 5 or n < 3 else 9) for i in range(2**n)]

    def special(n):
        """0, 1, and an element that comes again."""
        again = some(1)[0]
        return [DICE.choice([0, 1, again, again]) for _ in range(n)]

    sheet.note("whole outer sum-checks of 0 to 6 variables, in every kind of order, and with a claim that is no sum")
    for n in range(7):
        for high in orders(n):
            outer(high, some(n), table(n), table(n), table(n), some(n))
        if n < 4:
            outer(high, some(n), table(n), table(n), table(n), some(n), 1)
    sheet.note("with tables of bits, and challenges and taus that are 0, 1 or the same again; tau all 1, all 0")
    for n in range(1, 7):
        for high in orders(n):
            outer(high, special(n), bits(2**n), bits(2**n), bits(2**n), special(n))
        for ends in ([0] * n, [1] * n):
            outer(n // 2, ends, bits(2**n), bits(2**n), bits(2**n), some(n))
            outer(n // 2, some(n), bits(2**n), bits(2**n), bits(2**n), ends)
    sheet.note("whole batches that are good: c is a b, and the claim is 0")
    for n in [1, 3, 5]:
        a, b = bits(2**n), bits(2**n)
        c = [x & y for x, y in zip(a, b)]
        claim, _ = outer(n // 2, some(n), a, b, c, some(n))
        assert claim == 0
        outer(n // 2, some(n), a, b, c, some(n), 1 << 127)
    sheet.note("whole inner sum-checks")
    for n in range(7):
        for high in orders(n):
            inner(high, table(n), table(n), some(n))
            inner(high, bits(2**n), bits(2**n), special(n))
        inner(0, table(n), bits(2**n), some(n), 1 << 64)
    sheet.note("one message: the true one, and damaged in each coefficient; the first one is seen in the next claim alone")
    for n in range(1, 4):
        claim, answers = outer(1, some(n), some(2**n), some(2**n), some(2**n), some(n))
        found = answers[0].split()[2:10]
        message = [element(found[i : i + 2]) for i in range(0, 8, 2)]
        for spoiled in [message] + [[c ^ (DICE.getrandbits(128) if i == k else 0) for i, c in enumerate(message)] for k in range(4)]:
            sheet.rust("sumops", f"round {len(spoiled)} {listed(spoiled)} {listed([claim] + some(1))}")
        for r in [0, 1]:
            sheet.rust("sumops", f"round {len(message)} {listed(message)} {listed([claim, r])}")
        sheet.rust("sumops", f"round {len(message)} {listed(message)} {listed([claim ^ 1] + some(1))}")
    for degree in range(6):
        message = some(degree + 1)
        claim = 0
        for c in message[1:]:
            claim ^= c
        for wrong in [0, 1 << 64]:
            sheet.rust("sumops", f"round {len(message)} {listed(message)} {listed([claim ^ wrong] + some(1))}")
    captures(sheet)
    sheet.note("terminal values: true ones, and damaged in each; a factor of 0")
    product = lambda x, y: element(sheet.now("driver", f"mul {listed([x, y])}"))
    for e, a, b, c in [some(4), some(4), [0] + some(3), some(1) + [0] + some(2), some(3) + [0]]:
        values = [product(e, product(a, b) ^ c), e, a, b, c]
        sheet.rust("sumops", f"outerend {listed(values)}")
        for k in range(5):
            sheet.rust("sumops", f"outerend {listed([v ^ (i == k) for i, v in enumerate(values)])}")
    for t, z in [some(2), some(2), [0] + some(1)]:
        values = [product(t, z), t, z]
        sheet.rust("sumops", f"innerend {listed(values)}")
        for k in range(3):
            sheet.rust("sumops", f"innerend {listed([v ^ ((i == k) << 127) for i, v in enumerate(values)])}")
    sheet.note("eq of two points, the second in the order of the rounds; it is refused with 11 where the two do not go together")
    for n in range(7):
        for high in orders(n):
            sheet.rust("sumops", f"eqpoints {high} {listed(some(n))} {listed(some(n))}")
        same = special(n)
        sheet.rust("sumops", f"eqpoints 0 {listed(same)} {listed(same)}")
        for high, tau, r in [(0, n, n + 1), (0, n + 1, n), (n + 1, n, n), (2**64 - 1, n, n)]:
            sheet.said(f"eqpoints {high} {brief([3] * tau)} {brief([5] * r)}", "! 11")
    sheet.said("eqpoints 0 3 1 2 3 3 1 2 3", "! 11")
    for k, t, r in [some(3), [1] + some(2), some(1) + [1, 0], some(1) + [1, 1], [0] + some(2)]:
        sheet.said(f"eqnext {listed([k, t, r])}", f"= {listed([product(k, 1 ^ t ^ r)])}")
    lent_rounds(sheet)


def captures(sheet):
    sheet.note("a round that draws its challenge: right messages of degree 0 to 5, and wrong ones, after which the transcript is as it was")
    dice = random.Random(20240220)
    for degree in range(6):
        message = [dice.getrandbits(128) for _ in range(degree + 1)]
        claim = 0
        for c in message[1:]:
            claim ^= c
        state, counter = dice.randbytes(32).hex(), dice.choice([0, 1, 7, 2**32 - 1, 2**32, 2**64 - 1])
        at = f"{state} {counter} {hexed([b'', b'vs-inner', b'c' * 130][degree % 3])}"
        for wrong in [0, 1, 1 << 127]:
            query = f"capture {at} {len(message)} {listed(message)} {listed([claim ^ wrong])}"
            if counter < 2**32:
                sheet.rust("sumops", query)
            else:
                sheet.said(query, f"! 14 {listed([claim ^ wrong, 0])} {state} {counter}")
    zero, label = "00" * 32, hexed(b"vs-inner")
    sheet.rust("sumops", f"capture {zero} 0 {label} 3 {brief([0, 0, 0])} {brief([0])}")
    sheet.rust("sumops", f"capture {zero} 0 {label} 3 {brief([0, 0, 0])} {brief([1])}")
    sheet.note("a message that is not of the coefficients wanted is refused with 11, and then a counter of 2^32 or more with 14")
    for message, claim in [
        ("3 0", 0),
        ("0 2 7 0", 0),
        ("1 1 7", 0),
        ("4 6 5 0 0 0 9 0", 9),
        ("4 9 0 0 0 0 0 0 0 0 1", 0),
        (f"{2**63 + 1} 2 7 0", 0),
        (f"{2**64 - 1} 2 7 0", 0),
    ]:
        sheet.said(f"round {message} {brief([claim, 1])}", f"! 11 {listed([claim])}")
    for counter, message, claim, code in [
        (0, "4 6 0 0 0 0 0 0", 0, 11),
        (0, "1 1 7", 0, 11),
        (2**32, "3 5 0 0 0 0 0", 3, 11),
        (2**32, "3 6 0 0 0 0 0 0", 0, 14),
        (2**64 - 1, "3 6 0 0 0 0 0 0", 1, 14),
    ]:
        sheet.said(f"capture {zero} {counter} {label} {message} {brief([claim])}", f"! {code} {listed([claim, 0])} {zero} {counter}")


def lent_rounds(sheet):
    def marked(code, found, lent):
        return " ".join(["=", str(code), str(lent)] + found + [MARK] * (lent - len(found)))

    def eq(point):
        return sheet.now("driver", f"eq {brief(point)}")

    def small(n):
        return [DICE.getrandbits(9) for _ in range(n)]

    sheet.note("an eq table without a variable: that of the other ones; the second half stays")
    for n in range(1, 6):
        for v in range(n):
            tau = some(n)
            table, rest = eq(tau), eq(tau[:v] + tau[v + 1 :])
            after = rest + table[len(rest) :]
            sheet.said(f"dropvar {v} {' '.join([str(len(table))] + table)}", " ".join(["= 0", str(len(after))] + after))
        for v in [n, n + 1, 63, 64, 2**64 - 1]:
            table = small(2**n)
            sheet.said(f"dropvar {v} {brief(table)}", f"= 11 {listed(table)}")
    for count in [0, 1, 2, 3, 5, 6, 7, 12]:
        table = " ".join([str(count)] + words(some(6))[:count])
        sheet.said(f"dropvar 0 {table}", f"= 11 {table}")
    sheet.note("messages: the words past them stay; too few words are refused with 15, tables that do not go together with 11, and before")
    for n, v in [(1, 0), (2, 0), (2, 1), (3, 0), (3, 2)]:
        tau, a, b, c, r = some(n), small(2**n), small(2**n), small(2**n), some(n)
        tables = f"{brief(a)} {brief(b)} {brief(c)}"
        run = f"outer {int(v > 0)} {brief([0])} {brief(tau)} {tables} {brief(r)}"
        found = sheet.commands["sumops"].asks(run, 4 * n + 1)[0].split()[2:10]
        e = eq(tau[:v] + tau[v + 1 :])
        e = " ".join([str(len(e))] + e)
        factors = brief([1, tau[v]])
        for lent in [0, 7, 8, 9, 13]:
            answer = marked(15, [], lent) if lent < 8 else marked(0, found, lent)
            sheet.said(f"outermsg {lent} {v} {e} {tables} {factors}", answer)
        half = brief(a[: 2 ** (n - 1)])
        for bad in [
            f"{n} {e} {tables}",
            f"{2**64 - 1} {e} {tables}",
            f"{v} {brief(a)} {tables}",
            f"{v} 0 {tables}",
            f"{v} {e} {brief(a)} {half} {brief(c)}",
            f"{v} {e} {brief(a)} {brief(b)} {half}",
            f"{v} {e} {half} {brief(b)} {brief(c)}",
        ]:
            sheet.said(f"outermsg 7 {bad} {factors}", marked(11, [], 7))
        run = f"inner {int(v > 0)} {brief([0])} {brief(a)} {brief(b)} {brief(r)}"
        found = sheet.commands["sumops"].asks(run, 3 * n + 1)[0].split()[2:8]
        for lent in [0, 5, 6, 7, 12]:
            answer = marked(15, [], lent) if lent < 6 else marked(0, found, lent)
            sheet.said(f"innermsg {lent} {v} {brief(a)} {brief(b)}", answer)
        for bad in [f"{n} {brief(a)} {brief(b)}", f"{v} {brief(a)} {half}", f"{v} {half} {brief(b)}"]:
            sheet.said(f"innermsg 5 {bad}", marked(11, [], 5))
    for count in [0, 1, 2, 3, 6, 12]:
        table = " ".join([str(count)] + words(some(6))[:count])
        sheet.said(f"innermsg 6 0 {table} {table}", marked(11, [], 6))
        half = " ".join([str(count // 2)] + words(some(6))[: count // 2])
        sheet.said(f"outermsg 8 0 {half} {table} {table} {table} {brief([1, 1])}", marked(11, [], 8))


class Matrix:
    """A matrix, in the words of the test program and in those of DRIVER."""

    def __init__(self, rows, cols, entries):
        self.rows, self.cols, self.entries = rows, cols, entries

    def text(self):
        row, col = [e[0] for e in self.entries], [e[1] for e in self.entries]
        low, high = [e[2] % 2**64 for e in self.entries], [e[2] >> 64 for e in self.entries]
        return " ".join([str(self.rows), str(self.cols)] + [counted(numbers) for numbers in (row, col, low, high)])

    def told(self, sheet):
        """Tells DRIVER, which then answers queries on this matrix."""
        pipe = sheet.commands["driver"].run.stdin
        pipe.write(f"matrix {self.rows} {self.cols} {len(self.entries)}\n")
        for row, col, value in self.entries:
            pipe.write(f"{row} {col} {value % 2**64} {value >> 64}\n")


def any_matrix(rows, cols, count, values):
    """Entries at random, then one of them twice more, another with a pair that cancels, and a zero."""
    place = lambda: (DICE.randrange(rows), DICE.randrange(cols))
    entries = [place() + (values(),) for _ in range(count)]
    if entries:
        entries += [entries[0]] * 2 + [place() + (0,)]
        pair = place() + (values(),)
        entries += [pair, pair]
    DICE.shuffle(entries)
    return Matrix(rows, cols, entries)


def lent(found, extra, code=0):
    """Lent words after a call: a result, and `extra` words that stay."""
    return " ".join(["=", str(code), str(len(found) + extra)] + found + [MARK] * extra)


def scratch(need, extra):
    """Scratch after a finished run: zero as far as it was wanted."""
    return " ".join(["=", str(need + extra)] + ["0x0"] * need + [MARK] * extra)


def untouched(n, code=None):
    return " ".join(["="] + ([] if code is None else [str(code)]) + [str(n)] + [MARK] * n)


def matrices(sheet):
    sheet.note("document 01, rows 7 and 8")
    m = Matrix(2, 4, [(0, 0, 1), (0, 2, 3), (1, 1, 7), (1, 3, 2), (1, 1, 7)])
    sheet.said(f"packed 4 0 {m.text()} {brief([3])} {brief([5])} 2 1 2", "= false", f"= {listed([2, 10])}")
    sheet.said(f"table 8 4 {m.text()} {brief([2])}", lent(words([3, 0, 5, 4]), 0), scratch(4, 0))
    sheet.note("matrices of 1 to 16 rows and 2 to 16 columns: entries that come twice, that cancel, and zeros")
    element_ = lambda: DICE.choice([0, 1, 2, DICE.getrandbits(9), DICE.getrandbits(128)])
    for rows, cols, count in [(1, 2, 0), (1, 2, 1), (1, 16, 6), (2, 4, 5), (4, 4, 8), (8, 2, 6), (16, 8, 12), (4, 16, 20)]:
        for values in [element_, lambda: DICE.getrandbits(1)]:
            m = any_matrix(rows, cols, count, values)
            m.told(sheet)
            r, c = rows.bit_length() - 1, cols.bit_length() - 1
            z, p, x = brief(some(cols)), brief(some(r)), brief(some(c))
            found = sheet.now("driver", f"apply {z}")
            sheet.said(f"apply {2 * rows} 0 {m.text()} {z}", lent(found, 0))
            sheet.said(f"apply {2 * rows + 3} 0 {m.text()} {z}", lent(found, 3))
            sheet.said(f"apply {2 * rows - 1} 0 {m.text()} {z}", untouched(2 * rows - 1, 15))
            found = sheet.now("driver", f"table {p}")
            sheet.said(f"table {2 * cols} {2 * rows} {m.text()} {p}", lent(found, 0), scratch(2 * rows, 0))
            sheet.said(f"table {2 * cols + 1} {2 * rows + 2} {m.text()} {p}", lent(found, 1), scratch(2 * rows, 2))
            for short in [(2 * cols - 1, 2 * rows), (2 * cols, 2 * rows - 1)]:
                sheet.said(f"table {short[0]} {short[1]} {m.text()} {p}", untouched(short[0], 15), untouched(short[1]))
            value = " ".join(sheet.now("driver", f"at {p} {x}"))
            need = 2 * (rows + cols)
            sheet.said(f"at 0 {need} {m.text()} {p} {x}", f"= 2 {value}", scratch(need, 0))
            sheet.said(f"at 0 {need + 1} {m.text()} {p} {x}", f"= 2 {value}", scratch(need, 1))
            sheet.said(f"at 0 {need - 1} {m.text()} {p} {x}", "! 15", untouched(need - 1))
            sheet.said(f"isbinary 0 0 {m.text()}", sheet.commands["driver"].ask("isbinary"))
    sheet.note("vectors and points of another length are refused with 11, before 15")
    m = any_matrix(4, 8, 5, element_)
    for n in [0, 7, 9]:
        sheet.said(f"apply 7 0 {m.text()} {brief([1] * n)}", untouched(7, 11))
    sheet.said(f"apply 8 0 {m.text()} 15 {' '.join(['1'] * 15)}", untouched(8, 11))
    for n in [0, 1, 3]:
        sheet.said(f"table 3 2 {m.text()} {brief([1] * n)}", untouched(3, 11), untouched(2))
        sheet.said(f"at 0 2 {m.text()} {brief([1] * n)} {brief([1] * 3)}", "! 11", untouched(2))
        sheet.said(f"at 0 2 {m.text()} {brief([1] * 2)} {brief([1] * (n + (n == 3)))}", "! 11", untouched(2))
    sheet.note("what is no matrix: 1, 4, 6 and 7, the lowest one first, and both sides of each limit")
    for rows, cols, lists, code in [
        (4, 1, "0 0 0 0", 1), (4, 2, "0 0 0 0", None), (4, 3, "0 0 0 0", 1), (4, 0, "0 0 0 0", 1),
        (4, 65536, "0 0 0 0", None), (4, 131072, "0 0 0 0", 1),
        (0, 4, "0 0 0 0", 4), (1, 4, "0 0 0 0", None), (3, 4, "0 0 0 0", 4), (65536, 4, "0 0 0 0", None), (131072, 4, "0 0 0 0", 4),
        (0, 3, "0 0 0 0", 1), (3, 4, "1 0 0 0 0", 4),
        (2, 4, "1 0 0 0 0", 6), (2, 4, "1 0 1 0 0 0", 6), (2, 4, "1 0 1 0 1 1 0", 6), (2, 4, "1 0 1 0 1 1 1 0", None),
        (2, 4, "1 9 0 0 0", 6),
        (2, 4, "1 1 1 3 1 1 1 0", None), (2, 4, "1 2 1 3 1 1 1 0", 7), (2, 4, "1 1 1 4 1 1 1 0", 7),
        (2, 4, "2 1 0 2 3 9 2 1 1 2 0 0", 7),
    ]:
        sheet.said(f"isbinary 0 0 {rows} {cols} {lists}", "= true" if code is None else f"! {code}")
        sheet.said(f"apply 0 0 {rows} {cols} {lists} 0", untouched(0, 11 if code is None else code))
        sheet.said(f"table 0 0 {rows} {cols} {lists} 1 1", untouched(0, 11 if code is None else code), untouched(0))
        sheet.said(f"at 0 0 {rows} {cols} {lists} 1 1 0", f"! {11 if code is None else code}", untouched(0))
    sheet.note("the most rows and columns, an entry in the last place: a bit, no bit; a column more is refused with 7")
    for value in (1, 2):
        m = Matrix(65536, 65536, [(65535, 65535, value)])
        m.told(sheet)
        sheet.said(f"isbinary 0 0 {m.text()}", sheet.commands["driver"].ask("isbinary"))
    sheet.said(f"isbinary 0 0 {Matrix(65536, 65536, [(65535, 65536, 1)]).text()}", "! 7")
    batches(sheet)
    layouts(sheet)
    own_columns(sheet)


def packed_words(q, w):
    """Rows of w bits, and bits that are not used set."""
    return [DICE.getrandbits(128) for _ in range(q * -(-w // 128))]


def packed(sheet, m, pk, x, q, w, expected=None):
    """Packed products, with words past them lent and with one too few; x holds the public columns of all logins."""
    given = f"{m.text()} {brief(pk)} {brief(x)} 2 {q} {w}"
    answer = sheet.commands["columns"].ask(f"packed {given}")
    assert expected in (None, answer)
    flag, _, *found = answer.split()[1:]
    for extra in [0, 3]:
        after = " ".join(["=", str(len(found) + extra)] + found + [MARK] * extra)
        sheet.said(f"packed {len(found) + extra} 0 {given}", f"= {flag}", after)
    sheet.said(f"packed {len(found) - 1} 0 {given}", "! 15", untouched(len(found) - 1))


def own_columns(sheet):
    """Logins with public columns of their own; these have dice of their own, so that they move no other answer."""
    dice = random.Random(6)
    sets = [[dice.choice([0, 1, 2, dice.getrandbits(9), dice.getrandbits(128)]) for _ in range(31)] for _ in range(8)]
    sets[1], sets[2] = [0] * 31, [1] * 31
    columns = lambda which, w: [e for k in which for e in sets[k][: w - 1]]
    patterns = [[0], [0, 3], [4, 4], [1, 2, 1, 2], [3, 3, 4, 4], [3, 4, 5, 6], [5, 5, 5, 0], [0, 5, 5, 5], [0, 0, 3, 3, 3, 0, 7, 7], list(range(8)), [6] * 8]
    sheet.note("packed batches whose logins have public columns of their own: all unequal, all equal, equal neighbours among unequal ones")
    for turn, which in enumerate(patterns):
        q, w, rows = len(which), [4, 2, 32, 8][turn % 4], [2, 1, 4][turn % 3]
        m = Matrix(rows, 2 * w, [(dice.randrange(rows), col, dice.choice([0, 1, 2, dice.getrandbits(128)])) for col in range(0, 2 * w, -(-w // 6))])
        m.entries += [(rows - 1, 2 * w - 1, 1), (rows - 1, w + 1, 3), (0, w + 1, 1)]
        packed(sheet, m, [dice.getrandbits(128) for _ in range(q)], columns(which, w), q, w)
    sheet.note("public words for one login, and one login's or a word more or less than all: 3")
    for n in [3, 11, 13, 9, 15]:
        sheet.said(f"packed 0 0 {Matrix(1, 8, []).text()} {brief([1] * 4)} {brief([5] * n)} 2 4 4", "! 3", untouched(0))
        sheet.said(f"foldx 16 4 4 {brief([5] * n)} {brief([2, 3])} 0", untouched(16, 3))
    sheet.note("public halves folded over the logins: the folded half, zeros in the place of the eq table, its value at a point")
    for turn, which in enumerate(patterns):
        q, w = len(which), [4, 1, 32, 2][turn % 4]
        p, c = ([dice.getrandbits(128) for _ in range(n.bit_length() - 1)] for n in (q, w))
        folded(sheet, columns(which, w), q, w, p, c)
    sheet.note("at points of 0 and 1: one login's half, and one column")
    for bits in range(4):
        folded(sheet, columns([3, 4, 4, 5], 4), 4, 4, [bits % 2, bits // 2], [bits // 2, bits % 2])
    sheet.note("folds of public halves that are refused: 1, 3, 11 and 15, the lowest first")
    for q, w, x, p, code in [
        (0, 2, 0, 0, 1), (3, 2, 3, 1, 1), (8192, 1, 0, 0, 1), (4096, 1, 0, 0, 11), (1, 0, 0, 0, 1), (1, 3, 2, 0, 1), (1, 65536, 0, 0, 1),
        (1, 32768, 0, 0, 3), (2, 2, 1, 1, 3), (2, 2, 3, 0, 3), (2, 2, 2, 0, 11), (2, 2, 2, 2, 11), (2, 2, 2, 1, 15),
    ]:
        sheet.said(f"foldx 7 {q} {w} {brief([5] * x)} {brief([3] * p)} 0", untouched(7, code))


def folded(sheet, x, q, w, p, c):
    """The folded public half with words past it lent, and with one too few."""
    given = f"{q} {w} {brief(x)} {brief(p)} {brief(c)}"
    found = sheet.commands["columns"].ask(f"foldx {given}").split()[2:]
    half, value, need = found[: 2 * w], " ".join(found[-2:]), 2 * w + 2 * q
    for extra in [0, 3]:
        sheet.said(f"foldx {need + extra} {given}", lent(half + ["0x0"] * (2 * q), extra), f"= 2 {value}")
    sheet.said(f"foldx {need - 1} {given}", untouched(need - 1, 15))


def batches(sheet):
    sheet.note("packed batches of 1 to 8 logins and 1 to 256 bits: the 1 column, public columns, unused bits set")
    values = [lambda: DICE.getrandbits(1), lambda: DICE.choice([0, 1, 3, DICE.getrandbits(128)])]
    for w, q, rows in [(1, 1, 1), (1, 4, 2), (2, 2, 4), (32, 2, 2), (64, 1, 4), (64, 2, 2), (128, 2, 2), (256, 2, 2), (2, 8, 1)]:
        for k, value in enumerate(values):
            m = any_matrix(rows, 2 * w, 8, value)
            m.entries += [(DICE.randrange(rows), w, 1)]
            if w > 1 and k == 1:
                m.entries += [(DICE.randrange(rows), DICE.randrange(w + 1, 2 * w), 5)]
            m.told(sheet)
            pk, x = packed_words(q, w), [DICE.getrandbits(9) for _ in range(w - 1)]
            packed(sheet, m, pk, x * q, q, w, sheet.commands["driver"].ask(f"packed {q} {w} {brief(pk)} {brief(x)}"))
    sheet.note("packed batches that are refused: 1 to 7 and 15")
    m = Matrix(2, 4, [(0, 0, 1)])
    for q, w, pk, x, text, code in [
        (1, 2, 1, 1, m.text(), 15), (0, 2, 0, 1, m.text(), 1), (3, 2, 3, 1, m.text(), 1), (8192, 2, 1, 1, m.text(), 1),
        (4096, 2, 1, 1, m.text(), 2), (1, 3, 1, 1, m.text(), 1), (1, 65536, 1, 1, m.text(), 1), (1, 32768, 1, 1, m.text(), 2),
        (1, 2, 0, 0, m.text(), 2), (1, 2, 2, 1, m.text(), 2), (1, 2, 1, 0, m.text(), 3), (1, 2, 1, 2, m.text(), 3),
        (1, 4, 1, 3, m.text(), 5), (1, 1, 1, 0, m.text(), 5), (1, 2, 1, 1, "3 4 0 0 0 0", 4), (1, 2, 1, 1, "2 4 1 2 1 0 1 1 1 0", 7),
        (1, 2, 1, 1, "2 4 1 0 1 0 1 1 0", 6), (1, 2, 1, 1, "2 4 2 2 2 1 0 1 1 1 0", 6),
        (64, 2, 64, 64, "16384 4 0 0 0 0", 15), (64, 2, 64, 64, "32768 4 0 0 0 0", 4),
    ]:
        sheet.said(f"packed 0 0 {text} {brief([3] * pk)} {brief([5] * x)} 2 {q} {w}", f"! {code}", untouched(0))
    sheet.note("document 01, row 9; folds of 1 to 8 logins of 1 to 256 bits, unused bits set")
    sheet.said(f"foldw 4 4 2 2 {brief([1, 3])} {brief([2])}", lent(words([1, 2]), 0), scratch(4, 0))
    for w, q in [(1, 1), (1, 2), (2, 4), (32, 2), (64, 2), (64, 8), (128, 2), (256, 1), (256, 4)]:
        pk, p = brief(packed_words(q, w)), brief(some(q.bit_length() - 1))
        found = sheet.now("driver", f"foldw {q} {w} {pk} {p}")
        sheet.said(f"foldw {2 * w} {2 * q} {q} {w} {pk} {p}", lent(found, 0), scratch(2 * q, 0))
        sheet.said(f"foldw {2 * w + 3} {2 * q + 1} {q} {w} {pk} {p}", lent(found, 3), scratch(2 * q, 1))
        for short in [(2 * w - 1, 2 * q), (2 * w, 2 * q - 1)]:
            sheet.said(f"foldw {short[0]} {short[1]} {q} {w} {pk} {p}", untouched(short[0], 15), untouched(short[1]))
    for q, w, pk, p, code in [
        (0, 2, 0, 0, 1), (3, 2, 3, 1, 1), (4096, 1, 1, 0, 2), (8192, 1, 1, 0, 1), (1, 0, 0, 0, 1), (1, 3, 1, 0, 1),
        (1, 32768, 1, 0, 2), (1, 65536, 1, 0, 1), (2, 2, 1, 1, 2), (2, 2, 3, 1, 2), (2, 2, 2, 0, 11), (2, 2, 2, 2, 11), (2, 2, 2, 1, 15),
    ]:
        sheet.said(f"foldw 3 3 {q} {w} {brief([3] * pk)} {brief([5] * p)}", untouched(3, code), untouched(3))
    sheet.note("folds of a vector over logins")
    for n in range(6):
        v, p = brief(some(2**n)), brief(some(n))
        value = " ".join(sheet.now("driver", f"foldinst {v} {p}"))
        need = 2 << n
        sheet.said(f"foldinst 0 {need} {v} {p}", f"= 2 {value}", scratch(need, 0))
        sheet.said(f"foldinst 0 {need + 1} {v} {p}", f"= 2 {value}", scratch(need, 1))
        sheet.said(f"foldinst 0 {need - 1} {v} {p}", "! 15", untouched(need - 1))
        for bad in [brief([1] * (n + 1)), "1 1"]:
            sheet.said(f"foldinst 0 1 {v} {bad}", "! 11", untouched(1))
    sheet.said("foldinst 0 1 0 0", "! 11", untouched(1))


def layouts(sheet):
    sheet.note("document 01, rows 10 to 12")
    sized = lambda offsets, extra: " ".join(["= 0", str(len(offsets) + extra)] + [f"{o:#x}" for o in offsets] + [MARK] * extra)
    sheet.said("layout 3 16 3 4 1 8", sized([0, 4, 8], 0))
    sheet.said("layout 3 16 3 1 8 8", untouched(3, 9))
    sheet.said("layout 1 16 1 3", untouched(1, 8))
    sheet.note("layouts: offsets, and all that is read of a segment; words past the offsets stay")
    good = [(1, []), (1, [1]), (2, [1, 1]), (16, [4, 1, 8]), (16, [8, 1, 4]), (16, [1, 2, 4, 1]), (64, [1] * 64), (256, [2, 16, 1, 64, 128]),
            (32768, [1, 4096, 16384]), (32768, [32768])]
    for w, lens in good:
        answer = sheet.commands["driver"].ask(" ".join(["layout", str(w)] + [str(n) for n in lens]))
        offsets = [int(n) for n in answer[3:-1].split(", ") if n]
        sheet.said(f"layout {len(lens)} {w} {counted(lens)}", sized(offsets, 0))
        sheet.said(f"layout {len(lens) + 2} {w} {counted(lens)}", sized(offsets, 2))
        if lens:
            sheet.said(f"layout {len(lens) - 1} {w} {counted(lens)}", untouched(len(lens) - 1, 15))
        log = w.bit_length() - 1
        for i in sorted({0, 1, len(lens) // 2, len(lens) - 1} & set(range(len(lens)))):
            k = lens[i].bit_length() - 1
            read = [offsets[i], k, log - k, offsets[i] // lens[i], log]
            sheet.said(f"reading {i} {w} {counted(lens)}", *[f"= {n}" for n in read])
        for i in [len(lens), len(lens) + 1, 2**64 - 1]:
            sheet.said(f"reading {i} {w} {counted(lens)}", *["= none"] * 4, f"= {log}")
    sheet.note("layouts that are refused: 1, 8, 9 and 10, the lowest first")
    for w, lens, code in [
        (0, [], 1), (3, [1], 1), (65536, [1], 1), (65536, [3], 1), (16, [0], 8), (16, [32], 8), (16, [2, 3], 8), (16, [16, 1], 9),
        (16, [8, 8, 1], 9), (16, [1, 16], 9), (256, [1] * 64, None), (256, [1] * 65, 10), (64, [1] * 65, 9), (256, [1] * 64 + [3], 8),
    ]:
        if code is None:
            sheet.said(f"layout {len(lens)} {w} {counted(lens)}", sized(list(range(len(lens))), 0))
        else:
            sheet.said(f"layout {len(lens)} {w} {counted(lens)}", untouched(len(lens), code))
            sheet.said(f"reading 0 {w} {counted(lens)}", *[f"! {code}"] * 4, "! 1" if code == 1 else f"= {w.bit_length() - 1}")
            sheet.said(f"segment 0 {w} {counted(lens)} {brief([1] * min(w, 8))}", "= 0")
    sheet.note("a segment is a part of the folded vector; it is empty where the vector has another length or there is no such segment")
    folded = some(16)
    for i, (at, length) in enumerate([(0, 4), (4, 1), (8, 8)]):
        sheet.said(f"segment {i} 16 3 4 1 8 {listed(folded)}", f"= {listed(folded[at : at + length])}")
    for i, vector in [(3, folded), (2**64 - 1, folded), (0, folded[:15]), (0, [])]:
        sheet.said(f"segment {i} 16 3 4 1 8 {brief(vector)}", "= 0")


def main():
    if len(sys.argv) != 5:
        sys.exit(__doc__)
    sheet = Sheet(*sys.argv[1:])
    rows(sheet)
    elements(sheet)
    tables(sheet)
    edges(sheet)
    hashes(sheet)
    transcripts(sheet)
    sumchecks(sheet)
    matrices(sheet)
    sheet.write("magnetar_vectors")


if __name__ == "__main__":
    main()
