//! Whole runs: prover and verifier of both sides, the proofs whole and damaged.
use crate::forms::{number, plain};
use crate::library::{self, Outcome};
use crate::model::{self, Lent};
use crate::own;
use crate::random::Random;
use crate::relation::{self, Entries, Kind, Matrix, Relation, KINDS};
use crate::rust::{self, State};
use crate::tally::{By, Tally};
use crate::text::*;
use crate::whole::{damage, to_check, Said};
use magnetar::sys::RowVerdict;
use magnetar_field::Gf128;
use magnetar_spartan::{prove_virtual_spartan, verify_virtual_spartan};
use std::cell::Cell;

fn log2(n: usize) -> usize {
    n.trailing_zeros() as usize
}

/// So many entries of z a run has at most whose prover is compared with the parts put together.
const PARTS: usize = 1024;

/// The Rust's prover: proof, claims and transcript. Where the logins have public columns of their own it is put together of its parts,
/// which have to give what the prover itself gives where they are equal.
pub fn rust_prove(r: &Relation, start: &State) -> (Vec<u64>, Vec<u64>, State) {
    let (rel, layout, packed) = (r.rust_relation(), r.rust_layout(), r.rust_packed());
    let whole = |own: bool| {
        let mut t = rust::transcript(start);
        let (proof, theirs) = if own {
            own::plain::prove(&rel, &layout, &packed, &r.rust_columns(), &mut t)
        } else {
            prove_virtual_spartan(&rel, &layout, &packed, &r.rust_x(), r.q, &mut t)
        };
        let claims = own::plain::claims(&rel, r.q, &proof, &mut rust::transcript(start), &theirs);
        (plain::flat(&proof), words(&claims), rust::state(&t))
    };
    let found = whole(r.own());
    if !r.own() && r.q * r.m <= PARTS {
        assert!(found == whole(true), "the Rust's parts are put together as its prover does it");
    }
    found
}

/// The Rust's verifier: number, claims and transcript.
fn rust_verify(r: &Relation, start: &State, proof: &[u64]) -> (u32, Vec<u64>, State) {
    let (rel, layout, proof, mut t) = (r.rust_relation(), r.rust_layout(), plain::split(r, proof), rust::transcript(start));
    let found = if r.own() {
        own::plain::verify(&rel, &layout, &r.rust_columns(), &proof, &mut t)
    } else {
        verify_virtual_spartan(&rel, &layout, r.q, &r.rust_x(), &proof, &mut t)
    };
    match found {
        Ok(theirs) => (0, words(&own::plain::claims(&rel, r.q, &proof, &mut rust::transcript(start), &theirs)), rust::state(&t)),
        Err(e) => (number(e), vec![], rust::state(&t)),
    }
}

fn shown(o: &Outcome) -> String {
    let scratch = o.scratch.iter().take_while(|&&w| w == 0).count();
    let code = if o.code == 0 { "=".to_string() } else { format!("! {}", o.code) };
    let proof = if o.proof.is_empty() { String::new() } else { format!("= {}\n", list(&o.proof)) };
    format!("{code} {}\n{proof}= {}\nscratch: {} words, {scratch} of them zero first", state(&o.transcript), list(&o.claims), o.scratch.len())
}

/// What the verifier has to leave, and who says so.
pub fn to_verify(r: &Relation, start: &State, proof: &[u64], claims: usize, scratch: usize) -> (By, Outcome) {
    let refusal = model::verify(r, Lent { proof: proof.len(), claims, scratch, counter: start.1 });
    if refusal != 0 {
        let stay = |n: usize| marked(&[], n);
        return (By::Document, Outcome { code: refusal, transcript: *start, proof: vec![], claims: stay(claims), scratch: stay(scratch) });
    }
    let (code, found, transcript) = rust_verify(r, start, proof);
    let scratch = marked(&vec![0; model::room(r).verifier], scratch);
    (By::Rust, Outcome { code, transcript, proof: vec![], claims: marked(&found, claims), scratch })
}

/// Compares the verifier on words of a proof; the number that was expected.
pub fn verify(tally: &mut Tally, r: &Relation, start: &State, proof: &[u64], claims: usize, scratch: usize) -> u32 {
    let (by, expected) = to_verify(r, start, proof, claims, scratch);
    let found = library::verify(r, start, proof, claims, scratch);
    tally.verdict("verify", expected.code);
    let name = if r.own() { "verify_virtual_spartan, own columns" } else { "verify_virtual_spartan" };
    tally.compared(name, by, found == expected, || {
        let query = format!("verify {} {claims} {scratch} {}", state(start), list(proof));
        format!("{}\n{query}\nexpected:\n{}\nhere:\n{}", r.text(), shown(&expected), shown(&found))
    });
    expected.code
}

/// What the prover has to leave, and who says so.
pub fn to_prove(r: &Relation, start: &State, proof: usize, claims: usize, scratch: usize) -> (By, Outcome) {
    let refusal = model::prove(r, Lent { proof, claims, scratch, counter: start.1 });
    if refusal != 0 {
        let stay = |n: usize| marked(&[], n);
        let o = Outcome { code: refusal, transcript: *start, proof: stay(proof), claims: stay(claims), scratch: stay(scratch) };
        return (By::Document, o);
    }
    let (words, found, transcript) = rust_prove(r, start);
    let scratch = marked(&vec![0; model::room(r).prover], scratch);
    (By::Rust, Outcome { code: 0, transcript, proof: marked(&words, proof), claims: marked(&found, claims), scratch })
}

/// Compares the prover; the proof that was expected.
pub fn prove(tally: &mut Tally, r: &Relation, start: &State, proof: usize, claims: usize, scratch: usize) -> Vec<u64> {
    let (by, expected) = to_prove(r, start, proof, claims, scratch);
    let found = library::prove(r, start, proof, claims, scratch);
    tally.verdict("prove", expected.code);
    let name = if r.own() { "prove_virtual_spartan, own columns" } else { "prove_virtual_spartan" };
    tally.compared(name, by, found == expected, || {
        let query = format!("prove {} {proof} {claims} {scratch}", state(start));
        format!("{}\n{query}\nexpected:\n{}\nhere:\n{}", r.text(), shown(&expected), shown(&found))
    });
    expected.proof
}

/// Compares the row check through the library.
pub fn check(tally: &mut Tally, r: &Relation, scratch: usize) {
    let said = to_check(r, scratch);
    let none = RowVerdict { code: 0, system: 0, login: 0, row: 0, column: 0 };
    let verdict = match said {
        Said::Refused(code) => RowVerdict { code, system: 3, ..none },
        Said::Stray(login, column) => RowVerdict { system: 4, login, column, ..none },
        Said::Row(system, login, row) => RowVerdict { system: 1 + system as u32, login, row, ..none },
        Said::Good => none,
    };
    let expected = (verdict, marked(&vec![0; said.cleared(r)], scratch));
    let found = library::row_check(r, scratch);
    let (name, by) = said.counted(r);
    tally.compared(name, by, found == expected, || {
        format!("{}\ncheck {scratch}\nexpected {:?}, here {:?}", r.text(), expected.0, found.0)
    });
}

pub fn start(r: &mut Random) -> State {
    let counter = match r.below(8) {
        0 => (1 << 32) - 1 - r.below(3) as u64,
        1 => r.word() >> 33,
        _ => 0,
    };
    (r.bytes(32).try_into().unwrap(), counter)
}

/// A relation's honest run on both sides; the proof.
pub fn honest(tally: &mut Tally, r: &Relation, t: &State, slack: usize) -> (Vec<u64>, u32) {
    let room = model::room(r);
    let mut proof = prove(tally, r, t, room.proof + slack, room.claims + slack, room.prover + slack);
    proof.truncate(room.proof);
    let code = verify(tally, r, t, &proof, room.claims + slack, room.verifier + slack);
    check(tally, r, room.check + slack);
    (proof, code)
}

/// Every rule of one row over two columns and every bit of two logins, in both systems at once; every bit of every word of some
/// proofs; every number of words.
pub fn exhaustive(tally: &mut Tally, part: usize, parts: usize) {
    let t: State = ([7; 32], 0);
    for rules in (0..4096usize).filter(|n| n % parts == part) {
        for bits in 0..4u64 {
            let mut rel = Relation::empty(2, 2, [1, 1], if rules & 1 == 0 { vec![1] } else { vec![] });
            rel.packed = vec![bits & 1, 0, bits >> 1, 0];
            for k in 0..12 {
                if rules >> k & 1 == 1 {
                    rel.matrices[k / 2].put(0, k % 2, Gf128(1));
                }
            }
            honest(tally, &rel, &t, 0);
        }
    }
    let r = &mut Random(14);
    for (i, (m, q, rows, segments)) in [(2, 1, [1, 1], 0), (2, 2, [1, 2], 1), (4, 2, [2, 1], 2), (8, 4, [2, 4], 3)].into_iter().enumerate() {
        let rel = relation::random(r, m, q, rows, segments, Kind::Good);
        if i % parts != part {
            continue;
        }
        let room = model::room(&rel);
        let (proof, code) = honest(tally, &rel, &t, 1);
        assert_eq!(code, 0, "a good batch is accepted");
        for word in 0..proof.len() {
            for bit in 0..64 {
                let mut damaged = proof.clone();
                damaged[word] ^= 1 << bit;
                verify(tally, &rel, &t, &damaged, room.claims, room.verifier);
            }
        }
        for n in 0..proof.len() + 9 {
            let mut other = proof.clone();
            other.resize(n, 0);
            verify(tally, &rel, &t, &other, room.claims, room.verifier);
        }
        for lent in 0..room.claims + 3 {
            verify(tally, &rel, &t, &proof, lent, room.verifier);
            prove(tally, &rel, &t, room.proof, lent, room.prover);
        }
        for lent in 0..room.former + 3 {
            verify(tally, &rel, &t, &proof, room.claims, lent);
        }
        for lent in 0..room.check + 3 {
            check(tally, &rel, lent);
        }
        for lent in 0..room.proof + 3 {
            prove(tally, &rel, &t, lent, room.claims, room.prover);
        }
        for lent in room.prover - 9..room.prover + 3 {
            prove(tally, &rel, &t, room.proof, room.claims, lent);
        }
    }
    if part == 0 {
        boundaries(tally);
    }
}

/// The limits of sizes, on both sides: what is refused before anything of the size is looked at.
fn boundaries(tally: &mut Tally) {
    let t: State = ([9; 32], 0);
    let base = Relation::empty(4, 2, [1, 2], vec![1]);
    let room = model::room(&base);
    let (proof, _, _) = rust_prove(&base, &t);
    let mut each = |edit: &dyn Fn(&mut Relation)| {
        let mut r = base.clone();
        edit(&mut r);
        verify(tally, &r, &t, &proof, room.claims, room.verifier);
        prove(tally, &r, &t, room.proof, room.claims, room.prover);
        check(tally, &r, room.check);
    };
    for n in (0..20).chain([65535, 65536, 65537, 131072, usize::MAX]) {
        each(&|r| r.m = n);
        each(&|r| r.x = vec![0; n.min(70000)]);
        for k in 0..6 {
            each(&|r| r.matrices[k].rows = n);
            each(&|r| r.matrices[k].cols = n);
        }
        each(&|r| r.matrices[..3].iter_mut().for_each(|m| m.rows = n));
        each(&|r| r.lens = vec![n]);
        each(&|r| r.lens = vec![1; n.min(70)]);
    }
    for n in (0..20).chain([4095, 4096, 4097, 8192, usize::MAX]) {
        each(&|r| r.q = n);
        each(&|r| r.packed = vec![0; n.min(9000)]);
    }
    for k in 0..6 {
        for part in 0..4 {
            each(&|r| match part {
                0 => r.matrices[k].row.push(0),
                1 => r.matrices[k].col.push(0),
                2 => r.matrices[k].lo.push(0),
                _ => r.matrices[k].hi.push(0),
            });
        }
        for n in [1, 2, model::MOST, model::MOST + 1, usize::MAX] {
            each(&|r| r.told[k] = Some(n));
        }
        for row in 0..4 {
            for col in 0..6 {
                each(&|r| r.matrices[k].put(row, col, Gf128(1)));
            }
        }
    }
    // the same numbers in another matrix add up
    for (from, to) in (0..6).flat_map(|k| (0..6).map(move |l| (k, l))) {
        for n in [1, 2, usize::MAX] {
            each(&|r| {
                r.matrices[from].put(0, from % 4, Gf128(1));
                r.told[from] = Some(0);
                r.told[to] = Some(n);
                r.recut();
            });
        }
    }
    // 64 segments are taken and 65 are not; a length is looked at first, and where the layout ends
    let wide = Relation::empty(256, 1, [1, 1], vec![1; 64]);
    let (most, (long, _, _)) = (model::room(&wide), rust_prove(&wide, &t));
    for n in 60..=70 {
        for last in [1, 2, 3, 64, 128, 256] {
            for counter in [0, 1 << 32] {
                let mut r = wide.clone();
                r.lens = vec![1; n];
                r.lens.push(last);
                verify(tally, &r, &(t.0, counter), &long, most.claims, most.verifier);
                prove(tally, &r, &(t.0, counter), most.proof + 8, most.claims + 8, most.prover);
                check(tally, &r, most.check - (counter != 0) as usize);
                r.matrices[5].put(1, 0, Gf128(1));
                check(tally, &r, most.check);
            }
        }
    }
    for counter in [0, 1, (1 << 32) - 1, 1 << 32, (1 << 32) + 1, u64::MAX] {
        let t = ([9; 32], counter);
        verify(tally, &base, &t, &proof, room.claims, room.verifier);
        prove(tally, &base, &t, room.proof, room.claims, room.prover);
    }
}

/// The proof damaged in other ways, or brought to another verifier.
fn damaged(tally: &mut Tally, r: &mut Random, rel: &Relation, t: &State, proof: &[u64]) {
    let room = model::room(rel);
    // the formula's words of scratch in every other call, then more
    let turn = Cell::new(r.below(14));
    let ask = |tally: &mut Tally, rel: &Relation, t: &State, proof: &[u64]| {
        let (n, lengths) = (turn.replace(turn.get() + 1), room.lengths());
        verify(tally, rel, t, proof, room.claims, if n % 2 == 0 { room.verifier } else { lengths[n / 2 % lengths.len()] })
    };
    // a bit of each element
    for i in 0..proof.len() / 2 {
        let mut p = proof.to_vec();
        p[2 * i + r.below(2)] ^= 1 << r.below(64);
        ask(tally, rel, t, &p);
    }
    // special elements, several at once, two exchanged
    for _ in 0..3 {
        let mut p = proof.to_vec();
        for _ in 0..1 + r.below(3) {
            let i = r.below(p.len() / 2);
            let e = words(&[r.element()]);
            p[2 * i..2 * i + 2].copy_from_slice(&e);
        }
        ask(tally, rel, t, &p);
        let (i, j) = (r.below(proof.len() / 2), r.below(proof.len() / 2));
        let mut p = proof.to_vec();
        for k in 0..2 {
            p.swap(2 * i + k, 2 * j + k);
        }
        ask(tally, rel, t, &p);
    }
    ask(tally, rel, t, &vec![0; proof.len()]);
    // another number of words
    let n = r.below(proof.len());
    ask(tally, rel, t, &proof[..n]);
    ask(tally, rel, t, &proof[..proof.len() - 2]);
    let extra = 1 + r.below(4);
    let longer = [proof, &r.words(extra)].concat();
    ask(tally, rel, t, &longer);
    // another transcript, another counter, other public words, those of login 0 for all, other rules
    let mut u = *t;
    u.0[r.below(32)] ^= 1 << r.below(8);
    ask(tally, rel, &u, proof);
    ask(tally, rel, &(t.0, t.1 ^ 1), proof);
    ask(tally, rel, &(t.0, t.1 + (1 << 32)), proof);
    let mut other = rel.clone();
    if !other.x.is_empty() {
        let i = r.below(other.x.len());
        other.x[i] ^= 1 << r.below(64);
        ask(tally, &other, t, proof);
        if rel.own() {
            other.x = rel.x[..rel.m - 2].repeat(rel.q);
            ask(tally, &other, t, proof);
        }
    }
    let mut other = rel.clone();
    let k = r.below(6);
    let m: &mut Matrix = &mut other.matrices[k];
    let (row, col, v) = (r.below(m.rows), r.below(m.cols), r.element());
    m.put(row, col, v);
    ask(tally, &other, t, proof);
    other.matrices[k].put(row, col, v);
    ask(tally, &other, t, proof);
    if !rel.lens.is_empty() {
        let mut other = rel.clone();
        let i = r.below(other.lens.len());
        other.lens[i] = 1 << r.below(log2(rel.m));
        ask(tally, &other, t, proof);
    }
}

pub fn random(tally: &mut Tally, r: &mut Random) {
    let (m, q) = (2 << r.below(7), 1 << r.below(5));
    let rows = [1 << r.below(4), 1 << r.below(4)];
    let kind = r.pick(&KINDS);
    let rel = relation::random(r, m, q, rows, 6, kind);
    both(tally, r, rel, kind);
}

/// The same on logins with public columns of their own.
pub fn own(tally: &mut Tally, r: &mut Random) {
    let (m, q) = (4 << r.below(4), 2 << r.below(3));
    let rows = [1 << r.below(3), 1 << r.below(3)];
    let kind = r.pick(&KINDS);
    let rel = relation::own(r, m, q, rows, 4, kind);
    both(tally, r, rel, kind);
}

fn both(tally: &mut Tally, r: &mut Random, rel: Relation, kind: Kind) {
    let t = start(r);
    let slack = r.below(4);
    let (proof, code) = honest(tally, &rel, &t, slack);
    if kind == Kind::Good && code != 0 {
        panic!("the Rust turns a good batch back with {code}: {}", rel.text());
    }
    damaged(tally, r, &rel, &t, &proof);
    // the other side of the search for stray bits; words lent too few, and refusals of the relation
    let room = model::room(&rel);
    check(tally, &relation::turned(r, &rel), room.check);
    let less = 1 + r.below(3);
    verify(tally, &rel, &t, &proof, room.claims.saturating_sub(less), room.verifier);
    verify(tally, &rel, &t, &proof, room.claims, room.verifier - less);
    for lent in room.lengths() {
        verify(tally, &rel, &t, &proof, room.claims, lent);
    }
    prove(tally, &rel, &t, room.proof - less, room.claims, room.prover);
    prove(tally, &rel, &t, room.proof, room.claims, room.prover - less);
    prove(tally, &rel, &(t.0, t.1 + (1 << 32)), room.proof, room.claims, room.prover - r.below(2));
    for _ in 0..3 {
        let mut bad = rel.clone();
        for _ in 0..1 + r.below(2) {
            damage(r, &mut bad);
        }
        verify(tally, &bad, &t, &proof, room.claims, room.verifier);
        prove(tally, &bad, &t, room.proof, room.claims, room.prover);
        check(tally, &bad, room.check);
    }
}
