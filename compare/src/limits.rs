//! The limit sizes, once each, through the library.
use crate::library;
use crate::model;
use crate::random::Random;
use crate::relation::{self, Entries, Relation};
use crate::runs;
use crate::rust::State;
use crate::tally::{By, Tally};
use crate::text::{elements, marked, words};
use magnetar_field::multilinear::bind_var;
use magnetar_field::{eq_build_fused, mul, Gf128, ONE, ZERO};
use magnetar_sumcheck::{BindOrder, EqFactor, PublicFactor, SumcheckProver, SumcheckSpec, TableFactor, Term};

fn plain(r: &mut Random, n: usize) -> Vec<Gf128> {
    (0..n).map(|_| Gf128(r.wide())).collect()
}

/// Tables of 20 variables, and one more.
pub fn tables(tally: &mut Tally) {
    let r = &mut Random(15);
    let point = plain(r, 20);
    let table = eq_build_fused(&point);
    let found = words(&table);
    let here = library::eq_table(&words(&point), [1, 0], found.len() + 1);
    tally.compared("eq::eq_build_fused", By::Rust, here == (0, marked(&found, found.len() + 1)), || "the table of 20 elements".into());
    let here = library::eq_table(&words(&plain(r, 21)), [1, 0], 4);
    tally.compared("eq::eq_build_fused", By::Document, here == (11, marked(&[], 4)), || "a point of 21 elements".into());
    // drawn from a seed of its own: what is drawn below stays
    for start in [ZERO, Gf128(1 << 127), Gf128(Random(18).wide())] {
        let found = words(&table.iter().map(|&e| mul(e, start)).collect::<Vec<_>>());
        let w = words(&[start]);
        let here = library::eq_table(&words(&point), [w[0], w[1]], found.len() + 1);
        let shown = || format!("the table of 20 elements from {}", elements(&[start]));
        tally.compared("EqBits::build", By::Rust, here == (0, marked(&found, found.len() + 1)), shown);
        let here = library::eq_table(&words(&point), [w[0], w[1]], found.len() - 1);
        let shown = || format!("the table of 20 elements from {}, a word short", elements(&[start]));
        tally.compared("EqBits::build", By::Document, here == (15, marked(&[], found.len() - 1)), shown);
    }
    for var in [0, 10, 19] {
        let table = plain(r, 1 << 20);
        let x = r.element();
        let mut bound = table.clone();
        bind_var(&mut bound, var, x);
        let mut here = words(&table);
        let mut after = here.clone();
        after[..2 * bound.len()].copy_from_slice(&words(&bound));
        let w = words(&[x]);
        let code = library::bind_var(&mut here, var, [w[0], w[1]]);
        tally.compared("multilinear::bind_var", By::Rust, code == 0 && here == after, || format!("variable {var} of a table of 20"));
    }
    messages(tally, r);
}

type Public = Vec<Box<dyn PublicFactor + Send + Sync>>;

/// A message over tables of 20 variables, the highest bound first, and one over 16, the lowest first.
fn messages(tally: &mut Tally, r: &mut Random) {
    let (tau, n) = (plain(r, 20), 1usize << 20);
    let tables = [plain(r, n), plain(r, n), plain(r, n)];
    let terms = vec![Term { coeff: ONE, dense: vec![0, 1], public: vec![0] }, Term { coeff: ONE, dense: vec![2], public: vec![0] }];
    let public: Public = vec![Box::new(EqFactor::new(tau.clone()))];
    let spec = SumcheckSpec { num_vars: 20, dense: tables.to_vec(), public, terms, claim: ZERO };
    let found = SumcheckProver::with_dense_bits(&spec, BindOrder::HighBitsFirst { high: 20 }, vec![false; 3]).message().0;
    let e = words(&eq_build_fused(&tau[..19]));
    let [a, b, c] = [0, 1, 2].map(|k| words(&tables[k]));
    let t = words(&tau[19..]);
    let here = library::outer_message(&e, [&a, &b, &c], 19, [1, 0], [t[0], t[1]]);
    tally.compared("engine::outer_message", By::Rust, here == (0, marked(&words(&found), 9)), || "a message over 20 variables".into());
    let (t, z) = (plain(r, 65536), plain(r, 65536));
    let claim = t.iter().zip(&z).fold(ZERO, |s, (&x, &y)| s + mul(x, y));
    let public: Public = vec![Box::new(TableFactor::new(t.clone()))];
    let terms = vec![Term { coeff: ONE, dense: vec![0], public: vec![0] }];
    let spec = SumcheckSpec { num_vars: 16, dense: vec![z.clone()], public, terms, claim };
    let found = SumcheckProver::with_dense_bits(&spec, BindOrder::Increasing, vec![false]).message().0;
    let here = library::inner_message(&words(&t), &words(&z), 0);
    tally.compared("engine::inner_message", By::Rust, here == (0, marked(&words(&found), 7)), || "a message over 16 variables".into());
}

/// A good batch with so many entries in each matrix: B a constant of each row and pairs that cancel, C is A times that constant.
fn large(m: usize, q: usize, rows: usize, entries: usize, segments: usize) -> Relation {
    let r = &mut Random(16);
    let w = m / 2;
    let mut rel = Relation::empty(m, q, [rows, rows], vec![w / segments; segments]);
    rel.packed = r.words(rel.packed.len());
    rel.x = r.words(m - 2).repeat(q);
    for system in 0..2 {
        let binary = system == 0;
        for i in 0..entries {
            let row = i % rows;
            let k = Gf128(if binary { 1 } else { 3 + row as u128 });
            let [a, b, c] = &mut rel.matrices[3 * system..3 * system + 3] else { unreachable!() };
            if i < rows {
                b.put(row, w, k);
            } else if b.row.len() + 2 <= entries {
                let (col, v) = (r.below(w), Gf128(if binary { 1 } else { r.wide() }));
                b.put(row, col, v);
                b.put(row, col, v);
            }
            let v = Gf128(if binary { 1 } else { r.wide() });
            let col = if binary { r.below(w + 1) } else { r.below(m) };
            a.put(row, col, v);
            c.put(row, col, mul(k, v));
        }
    }
    rel
}

/// m, q, q times rows, entries and segments at their limits: the run, a damaged proof, and one past each limit.
pub fn runs(tally: &mut Tally, which: usize) {
    let t: State = ([5; 32], (1 << 32) - 1);
    let mut rel = match which {
        0 => large(65536, 4096, 256, 600, 64),
        1 => large(65536, 16, 65536, model::MOST, 64),
        _ => large(65536, 4, 1, 100, 64),
    };
    let (proof, code) = runs::honest(tally, &rel, &t, 0);
    assert_eq!(code, 0, "a good batch is accepted");
    let room = model::room(&rel);
    let mut bad = proof.clone();
    let last = bad.len() - 1;
    bad[last] ^= 1 << 63;
    runs::verify(tally, &rel, &t, &bad, room.claims, room.verifier);
    runs::verify(tally, &rel, &t, &bad, room.claims, room.former);
    runs::verify(tally, &rel, &t, &proof, room.claims, room.verifier - 1);
    runs::verify(tally, &rel, &t, &proof, room.claims, room.former + 1);
    // the public words are many: they are passed on, not copied
    let edits: [fn(&mut Relation); 3] =
        [|r| r.matrices[5].put(0, 0, ZERO), |r| r.matrices[3..].iter_mut().for_each(|m| m.rows *= 2), |r| r.lens = vec![1; 65]];
    for edit in edits {
        let x = std::mem::take(&mut rel.x);
        let mut more = Relation { x, ..rel.clone() };
        edit(&mut more);
        runs::verify(tally, &more, &t, &proof, room.claims, room.verifier);
        rel.x = more.x;
    }
    runs::verify(tally, &rel, &(t.0, 1 << 32), &proof, room.claims, room.verifier);
    // without the last segment its bits are stray; then the last column of the last login alone
    rel.lens.pop();
    runs::check(tally, &rel, room.check);
    let (w, last) = (rel.m / 2, rel.q - 1);
    for login in 0..rel.q {
        (w - w / 64..w).for_each(|column| rel.set_bit(login, column, (login, column) == (last, w - 1)));
    }
    runs::check(tally, &rel, room.check);
}

/// A batch of many logins and few rows with every kind of rule.
pub fn wide(tally: &mut Tally, seed: u64) {
    let r = &mut Random(seed);
    let (m, q) = (2 << r.below(12), 1 << r.below(11));
    let rows = [1 << r.below(6), 1 << r.below(6)];
    let kind = r.pick(&relation::KINDS);
    let rel = relation::random(r, m, q, rows, 20, kind);
    runs::honest(tally, &rel, &([3; 32], 0), 0);
}
