#!/usr/bin/env python3
"""Which definitions a reader must believe for the contracts of the two entries.

    docs/reading.py            writes the table of docs/THEOREMS.md: each file with its definitions that are reached, their lines, and the total
    docs/reading.py --check    exit 1 where docs/THEOREMS.md has another table

Reached are the names of the entries' contracts, and every name that a reached definition uses. Lines are counted without comments, blanks
and imports. STOP names what is not believed: the inside of the lists of bad draws, and the library.
"""
import re
import sys
from pathlib import Path

ROOT = Path(__file__).resolve().parent.parent
ENTRIES = "crates/magnetar_spartan/src/virtual_spartan.rt"
# a list is a function of what is before its draw, by its type; that it has at most three elements stands in the theorem
STOP = {"bad_draws", "absorbed_before"}
WORD = re.compile(r"[^\s(){}\[\],;.⌜⌝λ→×]+")


def blocks(text):
    """The blocks of a file, which blank lines separate, as lists of code lines."""
    block = []
    for line in text.split("\n"):
        if not line.strip():
            if block:
                yield block
            block = []
        elif not line.strip().startswith("--"):
            block.append(line)
    if block:
        yield block


class Spec:
    """A file of specs/: its definitions, and where it imports names from."""

    def __init__(self, path):
        self.path, self.items, self.imports, self.renamed, self.shown = path, {}, {}, {}, {}
        self.head, self.heads = None, {}
        text = path.read_text(encoding="utf8")
        for line in text.split("\n"):
            m = re.match(r"(?:ghost |pub |unfoldable pub )?use (\S+?)\.\{(.*)\};?$", line)
            if m:
                for name in m.group(2).split(", "):
                    self.imports[name.split(" as ")[-1].strip("◌") if " as " in name else name.strip("◌") or name] = m.group(1)
            m = re.match(r"use (\S+) as (\S+)$", line)
            if m:
                self.renamed[m.group(2)] = m.group(1)
        for block in blocks(text):
            code = [l for l in block if not re.match(r"(ghost |pub |unfoldable pub )?use ", l)]
            if not code:
                continue
            if code[0].startswith("module _"):
                n = next(i for i, l in enumerate(code) if l.rstrip().endswith("where")) + 1
                self.head, code = code[:n], code[n:]
            names = list(self.defined(code))
            if any(re.match(r"\s*(?:pub )?record ", l) for l in code):
                names = names[:1]
            for name in names:
                self.items[name] = code
            if code and code[0].startswith(" ") and self.head:
                self.heads[id(code)] = self.head
            if names:
                self.shown[id(code)] = names[0]

    @staticmethod
    def defined(code):
        for line in code:
            m = re.match(r"\s*(?:abbrev |unfoldable )*(?:pub )?(?:record|data) (\S+)", line) or re.match(r"\s*(?:abbrev |unfoldable )+(?:pub )?(\S+) :", line) or re.match(r"\s*pub (\S+) :", line)
            if m:
                yield m.group(1).strip("◌")


def place(module):
    m = re.match(r"Rattle\.(\w+)\.specs\.declared\.(\w+)\.(\w+)$", module)
    if m:
        return ("declared", ROOT / "crates" / m.group(1) / "src" / (m.group(2) + ".rt"), m.group(3))
    m = re.match(r"Rattle\.(magnetar_\w+)\.specs\.(\w+)$", module)
    return ("spec", ROOT / "crates" / m.group(1) / "specs" / (m.group(2) + ".antt"), None) if m else None


def reach():
    files, seen, lines = {}, set(), {}

    def spec(path):
        if path not in files:
            files[path] = Spec(path)
        return files[path]

    def visit(path, name):
        if (path, name) in seen or name in STOP:
            return
        seen.add((path, name))
        s = spec(path)
        code = s.items.get(name)
        if code is None:
            if name in s.imports and place(s.imports[name]):
                visit(place(s.imports[name])[1], name)
            return
        lines.setdefault(path, {})[id(code)] = (len(code), s.shown[id(code)])
        if id(code) in s.heads:
            lines[path][id(s.heads[id(code)])] = (len(s.heads[id(code)]), None)
        uses(s, code)

    def uses(s, code):
        text = "\n".join(code)
        for token in set(WORD.findall(text)):
            token = token.strip("◌")
            if token in s.items:
                visit(s.path, token)
            elif token in s.imports:
                p = place(s.imports[token])
                if p and p[0] == "spec" and p[1].exists():
                    visit(p[1], token)
                elif p and p[0] == "declared":
                    m = re.search(r"pub(?:\(crate\))? struct %s \{\n(.*?)\n\}" % token, p[1].read_text(encoding="utf8"), re.S)
                    if m:
                        lines.setdefault(p[1], {})[token] = (m.group(1).count("\n") + 3, token)
        for short, module in s.renamed.items():
            for m in re.finditer(re.escape(short) + r"\.(\S+?)(?=[\s()}\],;]|$)", text):
                p = place(module)
                if p and p[0] == "spec":
                    visit(p[1], m.group(1))

    entry = spec(ROOT / ENTRIES)
    for head in re.findall(r"^pub fn .*?^\{$", (ROOT / ENTRIES).read_text(encoding="utf8"), re.S | re.M):
        uses(entry, head[head.index("ensures"):].split("\n"))
    return lines


WRONG = {
    "magnetar_field/specs/Gf128.antt": "the field would be another one, and sums and products would not be those of document 01",
    "magnetar_field/specs/Number.antt": "a refusal would have another number than document 01's, or an accepted proof one",
    "magnetar_field/specs/Polynomial.antt": "a message would be evaluated as another polynomial than its coefficients say",
    "magnetar_field/specs/Refusal.antt": "a refused call could change what it was lent",
    "magnetar_field/specs/Sizes.antt": "rounds, draws and parts of the proof would be counted wrongly",
    "magnetar_field/specs/Sum.antt": "a sum over the logins, the columns or a round's entries would leave some out",
    "magnetar_field/specs/Tabulate.antt": "a table would hold other values than its definition, or at other places",
    "magnetar_field/specs/Words.antt": "the two words of an element would be read in another order",
    "magnetar_field/src/gf128.rt": "the two words of an element would be read in another order",
    "magnetar_hash/specs/Bytes.antt": "the transcript would absorb other bytes than the Rust's",
    "magnetar_hash/specs/Parts.antt": "two lists of parts could give the same bytes",
    "magnetar_hash/specs/Sha3.antt": "the hash would not be SHA3-256, and the draws would be those of another function",
    "magnetar_hash/specs/Transcript.antt": "a challenge would not depend on all that was absorbed before it, or an answer would lack a part",
    "magnetar_hash/src/transcript.rt": "a transcript would lack a part",
    "magnetar_keccak/specs/Keccak.antt": "the permutation would not be Keccak-f[1600]",
    "magnetar_keccak/specs/Offsets.antt": "rho would rotate by other offsets than FIPS 202's",
    "magnetar_keccak/specs/Rounds.antt": "iota would add other constants than FIPS 202's",
    "magnetar_keccak/specs/State.antt": "lanes would be read at other places than FIPS 202's",
    "magnetar_layout/specs/Every.antt": "a test of all segments could pass over one",
    "magnetar_layout/specs/Layout.antt": "a claim would speak of other columns than its segment's, or a bit could hide between segments",
    "magnetar_layout/specs/Limits.antt": "the limits would be other ones than document 01's",
    "magnetar_layout/specs/Login.antt": "the packed words of a batch would be counted wrongly",
    "magnetar_layout/specs/Tests.antt": "sizes past document 01's limits would be let through, or good ones refused",
    "magnetar_matrix/specs/Batch.antt": "good would mean something else than that no bit is outside and every row holds for every login, or a true claim something else than its sum",
    "magnetar_matrix/specs/Combined.antt": "the inner sum-check would be of another table than the six matrices give",
    "magnetar_matrix/specs/Lent.antt": "the four lists of numbers would be read as other entries",
    "magnetar_matrix/specs/Matrix.antt": "a matrix would act on a vector in another way",
    "magnetar_matrix/specs/Numbers.antt": "a form of entries would lack one of the four lists that it is read as",
    "magnetar_matrix/specs/Packed.antt": "the packed words would hold another batch",
    "magnetar_matrix/specs/Sum.antt": "the logins' products would stand in another order",
    "magnetar_multilinear/specs/EqTable.antt": "eq would not be the indicator that the sums are weighted with",
    "magnetar_multilinear/specs/Multilinear.antt": "a table would be evaluated as another polynomial",
    "magnetar_protocol/specs/Checks.antt": "the verifier would accept what a check of document 01 refuses, or answer another number",
    "magnetar_protocol/specs/Draws.antt": "a challenge would be used in the place of another",
    "magnetar_protocol/specs/Proof.antt": "words of the proof would be read as other messages or values",
    "magnetar_protocol/specs/Prover.antt": "the proof would not be the exact polynomials of its rounds; a good batch could be refused",
    "magnetar_protocol/specs/Run.antt": "an answer of 0 would not mean that every check passes, or a true claim not what document 01 says",
    "magnetar_protocol/specs/RunSizes.antt": "the first theorem would speak of batches that no packed words hold",
    "magnetar_protocol/specs/RunTests.antt": "a counter of 2^32 or more, or another number of proof words, would not be refused",
    "magnetar_protocol/specs/Scratch.antt": "another number of scratch words would be asked for and cleared than documents 01 and 02 say",
    "magnetar_protocol/specs/Shape.antt": "parts of the proof and events would be counted wrongly",
    "magnetar_protocol/specs/Soundness.antt": "any draw would count as bad, and the first theorem would say nothing",
    "magnetar_relation/specs/RuleTests.antt": "a relation past the limits would be let through, or a good one refused",
    "magnetar_relation/specs/Rules.antt": "the entries that are lent would be read as another relation",
    "magnetar_relation/src/shapes.rt": "the shapes would lack a matrix",
    "magnetar_schedule/specs/ScheduleRun.antt": "the draws would not be those that the transcript gives",
    "magnetar_schedule/specs/RealRun.antt": "prover and verifier would be said to draw something else than their transcripts give",
    "magnetar_schedule/specs/Schedule.antt": "a message would be absorbed after its challenge, or under another label than the Rust's",
    "magnetar_schedule/specs/Stepwise.antt": "the prover would be said to absorb and draw in another order than it does",
    "magnetar_spartan/specs/Outcome.antt": "the entries would be said to leave other words than they do",
    "magnetar_spartan/specs/Refusals.antt": "a run would be refused that document 01 lets through, or the other way round",
    "magnetar_spartan/specs/Theorems.antt": "the promise of demand 3 would be weaker than it reads",
    "magnetar_sumcheck_verifier/specs/Inner.antt": "the inner sum-check would be of another product",
    "magnetar_sumcheck_verifier/specs/Messages.antt": "the honest messages would be folded in another order than the verifier's challenges",
    "magnetar_sumcheck_verifier/specs/Order.antt": "variables would be bound in another order than document 01's",
    "magnetar_sumcheck_verifier/specs/Outer.antt": "the outer sum-check would be of another polynomial",
    "magnetar_sumcheck_verifier/specs/Round.antt": "a round's message would pass without adding up to the claim before it",
    "magnetar_sumcheck_verifier/specs/Sum.antt": "a message's coefficients would be added up wrongly",
}
BEGIN, END = "<!-- docs/reading.py writes this table -->", "<!-- end of the table -->"


def table():
    rows, total, lines = [], 0, reach()
    for path in sorted(lines):
        name = str(path.relative_to(ROOT / "crates"))
        n = sum(k for k, _ in lines[path].values())
        total += n
        names = ", ".join("`%s`" % v for v in sorted({v for _, v in lines[path].values() if v}))
        rows.append("| [%s](../crates/%s) | %d | %s | %s |" % (name, name, n, names, WRONG.get(name, "?")))
    head = ["| file | lines | definitions | if they were false |", "|---|---|---|---|"]
    return "\n".join([BEGIN, ""] + head + rows + ["", "In all %d lines in %d files." % (total, len(lines)), END])


if __name__ == "__main__":
    path = ROOT / "docs" / "THEOREMS.md"
    text = path.read_text(encoding="utf8")
    new = re.sub(re.escape(BEGIN) + ".*?" + re.escape(END), lambda _: table(), text, flags=re.S)
    if "--check" in sys.argv:
        sys.exit("docs/THEOREMS.md is out of date: run docs/reading.py" if new != text else 0)
    path.write_text(new, encoding="utf8")
