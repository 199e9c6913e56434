//! Queries on whole relations: the combined table, the masks, the row check.
use crate::forms::open;
use crate::library::Outcome;
use crate::matrix;
use crate::model::{self, MOST};
use crate::own;
use crate::random::Random;
use crate::relation::{self, Entries, Matrix, Relation, KINDS};
use crate::runs;
use crate::rust;
use crate::sheet::Sheet;
use crate::tally::By::{self, Document, Rust};
use crate::text::*;
use magnetar_field::{eval_mle, mul, Gf128};
use open_spartan::virtual_spartan::open_build_m_combo;

/// What the program has room for.
const NUMBERS: usize = 12000;

fn log2(n: usize) -> usize {
    n.trailing_zeros() as usize
}

fn by(n: u32) -> By {
    if n == 0 { Rust } else { Document }
}

fn combo(sheet: &mut Sheet, rel: &Relation, alphas: &[u64], pb: &[u64], pf: &[u64], lent: usize, scratch: usize) {
    let [rb, rf] = rel.rows();
    let n = match model::relation(rel, false, false, false) {
        0 => model::first(&[
            (11, alphas.len() != 12 || pb.len() != 2 * log2(rb) || pf.len() != 2 * log2(rf)),
            (15, lent < 2 * rel.m || scratch < 2 * rel.m + 2 * rb.max(rf)),
        ]),
        n => n,
    };
    let answer = if n == 0 {
        let found = open_build_m_combo(&open::relation(rel), &rust::elements(alphas), &rust::elements(pb), &rust::elements(pf));
        vec![code(0, &marked(&words(&found), lent)), counted(2 * rel.m + 2 * rb.max(rf), scratch)]
    } else {
        vec![code(n, &marked(&[], lent)), counted(0, scratch)]
    };
    let query = format!("combo {lent} {scratch} {} {} {}", list(alphas), list(pb), list(pf));
    sheet.ask_on("combo::build_m_combo", by(n), &rel.text(), query, answer);
}

/// The combined table at a column point. An entry outside its matrix is no refusal of it, and is not asked here.
fn value(sheet: &mut Sheet, rel: &Relation, alphas: &[u64], pb: &[u64], pf: &[u64], c: &[u64], scratch: usize) {
    let [rb, rf] = rel.rows();
    let need = 2 * rel.m + 2 * rb.max(rf);
    let n = match model::relation(rel, false, false, false) {
        0 => model::first(&[(15, scratch < need)]),
        7 => return,
        n => n,
    };
    let answer = if n == 0 {
        let table = open_build_m_combo(&open::relation(rel), &rust::elements(alphas), &rust::elements(pb), &rust::elements(pf));
        vec![code(0, &words(&[eval_mle(&table, &rust::elements(c))])), counted(need, scratch)]
    } else {
        vec![code(n, &[0, 0]), counted(0, scratch)]
    };
    let query = format!("value {scratch} {} {} {} {}", list(alphas), list(pb), list(pf), list(c));
    sheet.ask_on("eval::eval_m_combo", by(n), &rel.text(), query, answer);
}

fn masks(sheet: &mut Sheet, m: &Matrix, packed: &[u64], q: usize, w: usize, v: usize, lent: usize) {
    let n = match model::batch(m, q, w, packed.len(), None) {
        0 => {
            let s = log2(q);
            let bits = m.rust().is_binary() && m.col.iter().all(|&c| c <= w);
            model::first(&[(12, !bits), (13, v > s || v > 6), (15, v <= s && lent < m.rows << (s - v))])
        }
        n => n,
    };
    let answer = if n == 0 || n == 12 {
        let wide: Vec<u128> = packed.chunks(2).map(|w| w[0] as u128 | (w[1] as u128) << 64).collect();
        match m.rust().apply_simd_bit_masks(&wide, q, w, log2(q), v) {
            Some(found) => code(0, &marked(&found, lent)),
            None => code(12, &marked(&[], lent)),
        }
    } else {
        code(n, &marked(&[], lent))
    };
    let mut rel = Relation::empty(2, 1, [1, 1], vec![]);
    rel.matrices[0] = m.clone();
    rel.packed = packed.to_vec();
    let by = if n == 0 || n == 12 { Rust } else { Document };
    sheet.ask_on("r1cs::apply_simd_bit_masks", by, &rel.text(), format!("masks {lent} {q:#x} {w:#x} {v:#x}"), vec![answer]);
}

/// The first failing row: the Rust's products, compared row by row in document 01's order.
pub fn first_failing(rel: &Relation) -> Option<(usize, usize, usize)> {
    let (packed, rows) = (rel.rust_packed(), rel.rows());
    let z = if rel.own() { own::plain::joint_z(&rel.rust_columns(), &packed) } else { vec![] };
    let product = |m: &Matrix| match &z[..] {
        [] => m.rust().apply_simd_packed(&packed, &rel.rust_x(), rel.q, rel.m / 2).0,
        z => m.rust().apply_simd(z, rel.q),
    };
    for system in 0..2 {
        let [a, b, c] = [0, 1, 2].map(|k| product(&rel.matrices[3 * system + k]));
        for i in 0..a.len() {
            if mul(a[i], b[i]) != c[i] {
                return Some((system, i / rows[system], i % rows[system]));
            }
        }
    }
    None
}

/// What the row check has to say.
#[derive(Clone, Copy)]
pub enum Said {
    Good,
    /// login and column
    Stray(usize, usize),
    /// 0 bin, 1 fld; login and row
    Row(usize, usize, usize),
    Refused(u32),
}

/// A refusal, else the first stray bit, else the first failing row.
pub fn to_check(rel: &Relation, scratch: usize) -> Said {
    match model::check(rel, scratch) {
        0 => {}
        n => return Said::Refused(n),
    }
    if let Some((login, column)) = model::stray(rel) {
        return Said::Stray(login, column);
    }
    first_failing(rel).map_or(Said::Good, |(system, login, row)| Said::Row(system, login, row))
}

impl Said {
    /// How many words of scratch are zero after it.
    pub fn cleared(self, rel: &Relation) -> usize {
        if let Said::Refused(_) = self { 0 } else { model::room(rel).check }
    }

    /// Under which name it is counted, and who says so.
    pub fn counted(self, rel: &Relation) -> (&'static str, By) {
        let name = match self {
            Said::Stray(..) => "check::row_check, stray bit",
            _ if rel.own() => "check::row_check, own columns",
            _ => "check::row_check",
        };
        (name, if let Said::Stray(..) | Said::Refused(_) = self { Document } else { Rust })
    }
}

fn check(sheet: &mut Sheet, rel: &Relation, scratch: usize) {
    let said = to_check(rel, scratch);
    let answer = match said {
        Said::Good => "= good".to_string(),
        Said::Stray(login, column) => format!("= stray {login} {column}"),
        Said::Row(system, login, row) => format!("= {} {login} {row}", ["bin", "fld"][system]),
        Said::Refused(n) => refused(n),
    };
    let answer = vec![answer, counted(said.cleared(rel), scratch)];
    let (name, by) = said.counted(rel);
    sheet.ask_on(name, by, &rel.text(), format!("check {scratch}"), answer);
}

/// How the program tells of a run: number and transcript, proof, claims, scratch.
fn told(o: &Outcome) -> Vec<String> {
    let number = if o.code == 0 { "=".to_string() } else { format!("! {}", o.code) };
    let zeros = o.scratch.iter().filter(|&&w| w == 0).count();
    let mut lines = vec![format!("{number} {}", state(&o.transcript))];
    if !o.proof.is_empty() {
        lines.push(format!("= {}", list(&o.proof)));
    }
    lines.extend([format!("= {}", list(&o.claims)), counted(zeros, o.scratch.len())]);
    lines
}

/// Prover and verifier once more, by the program: the library's runs are many more.
fn prove(sheet: &mut Sheet, rel: &Relation, start: &rust::State, proof: usize, claims: usize, scratch: usize) -> Vec<u64> {
    let (by, o) = runs::to_prove(rel, start, proof, claims, scratch);
    let query = format!("prove {} {proof} {claims} {scratch}", state(start));
    let name = if rel.own() { "prove_virtual_spartan, own columns, by query" } else { "prove_virtual_spartan, by query" };
    sheet.ask_on(name, by, &rel.text(), query, told(&o));
    o.proof
}

fn verify(sheet: &mut Sheet, rel: &Relation, start: &rust::State, proof: &[u64], claims: usize, scratch: usize) {
    let (by, o) = runs::to_verify(rel, start, proof, claims, scratch);
    let query = format!("verify {} {claims} {scratch} {}", state(start), list(proof));
    let name = if rel.own() { "verify_virtual_spartan, own columns, by query" } else { "verify_virtual_spartan, by query" };
    sheet.ask_on(name, by, &rel.text(), query, told(&o));
}

fn verified(sheet: &mut Sheet, r: &mut Random, rel: &Relation) {
    let (room, start) = (model::room(rel), runs::start(r));
    if room.proof > 900 || room.claims > 250 || room.prover > 20000 {
        return;
    }
    let slack = r.below(3);
    let mut proof = prove(sheet, rel, &start, room.proof + slack, room.claims + slack, room.prover + slack);
    proof.truncate(room.proof);
    prove(sheet, rel, &start, room.proof, room.claims, room.prover - 1);
    verify(sheet, rel, &start, &proof, room.claims, room.verifier);
    verify(sheet, rel, &start, &proof, room.claims, room.verifier - 1);
    verify(sheet, rel, &start, &proof, room.claims, r.pick(&room.lengths()));
    for _ in 0..6 {
        let mut p = proof.clone();
        let i = r.below(p.len());
        p[i] ^= 1 << r.below(64);
        verify(sheet, rel, &start, &p, room.claims, room.verifier);
        verify(sheet, rel, &start, &p, room.claims, r.pick(&room.lengths()));
    }
    verify(sheet, rel, &(start.0, 1 << 32), &proof, room.claims, room.verifier);
    verify(sheet, rel, &start, &proof[..proof.len() - 1], room.claims, room.verifier);
}

/// Something that is refused with 1 to 10, or nearly.
pub fn damage(r: &mut Random, rel: &mut Relation) {
    let k = r.below(6);
    let [rb, rf] = rel.rows();
    let far = r.pick(&[0, 1, 2, 3, 131072, 1 << 40, usize::MAX]);
    match r.below(19) {
        0 => rel.m = far,
        1 => rel.q = far,
        2 => rel.packed.truncate(r.below(rel.packed.len().max(1))),
        3 => rel.packed.push(0),
        4 => rel.x.push(0),
        5 => rel.x.truncate(rel.x.len().saturating_sub(1 + r.below(3))),
        6 => rel.matrices[k].rows = r.pick(&[0, 3, rel.matrices[k].rows.wrapping_mul(2), 131072, usize::MAX]),
        7 => rel.matrices[k].cols = r.pick(&[0, rel.m / 2, rel.m.wrapping_sub(1), rel.m.wrapping_mul(2), usize::MAX]),
        8 => rel.matrices[k].row.push(0),
        9 => rel.matrices[k].col.push(0),
        10 => rel.matrices[k].lo.push(0),
        11 => rel.matrices[k].hi.push(0),
        12 => rel.matrices[k].put(if k < 3 { rb } else { rf }, 0, Gf128(0)),
        13 => rel.matrices[k].put(0, rel.m, Gf128(0)),
        14 => rel.told[k] = Some(rel.matrices[k].row.len().wrapping_add(r.pick(&[1, 2, usize::MAX, MOST]))),
        15 => rel.told[k] = Some(r.pick(&[0, 1, MOST, MOST + 1, usize::MAX])),
        16 => rel.x.truncate(rel.m.saturating_sub(2)),
        17 => rel.lens.push(r.pick(&[0, 3, rel.m, rel.m / 2, usize::MAX])),
        _ => rel.lens.extend(vec![1; 66]),
    }
    rel.recut();
}

/// Every layout of up to three segments over up to eight columns: no bit, each bit of two logins alone, all bits; over 64 to 256 columns
/// each bit alone, with every layout of one segment. A row of fld fails every other time.
fn strays(sheet: &mut Sheet) {
    let mut each = |w: usize, lens: Vec<usize>| {
        for place in 0..2 * w + 2 {
            let mut rel = Relation::empty(2 * w, 2, [1, 1], lens.clone());
            match place.checked_sub(2) {
                None => rel.packed = vec![u64::MAX * place as u64; rel.packed.len()],
                Some(k) => rel.set_bit(k / w, k % w, true),
            }
            if place % 2 == 0 {
                rel.matrices[5].put(0, w, Gf128(1));
            }
            check(sheet, &rel, 6);
        }
    };
    for log in 0..4 {
        let lengths: Vec<usize> = (0..=log).map(|k| 1 << k).collect();
        let mut layouts = vec![vec![]];
        for _ in 0..3 {
            let longer = layouts.iter().flat_map(|l| lengths.iter().map(|&n| [&l[..], &[n]].concat())).collect::<Vec<_>>();
            layouts.extend(longer);
            layouts.sort();
            layouts.dedup();
        }
        layouts.into_iter().for_each(|lens| each(1 << log, lens));
    }
    for log in 6..9 {
        (0..=log).for_each(|k| each(1 << log, vec![1 << k]));
    }
}

/// All rules of one row over two columns and all bits of two logins, with the row check; every v for the masks.
pub fn exhaustive(sheet: &mut Sheet) {
    for rules in 0..64usize {
        for system in 0..2 {
            for bits in 0..4u64 {
                let mut rel = Relation::empty(2, 2, [1, 1], vec![1]);
                rel.packed = vec![bits & 1, 0, bits >> 1, 0];
                for k in 0..6 {
                    if rules >> k & 1 == 1 {
                        rel.matrices[3 * system + k / 2].put(0, k % 2, Gf128(1));
                    }
                }
                check(sheet, &rel, 6);
            }
        }
    }
    for scratch in 0..10 {
        check(sheet, &Relation::empty(2, 1, [1, 1], vec![]), scratch);
    }
    strays(sheet);
    let r = &mut Random(13);
    for s in 0..=7 {
        for v in 0..=8 {
            for w in [1, 2, 64, 128] {
                let q = 1usize << s;
                let mut m = Matrix::empty(2, 2 * w);
                m.put(0, r.below(w + 1), Gf128(1));
                m.put(1, r.below(w), Gf128(1));
                let packed = r.words(model::packed_words(q, w));
                let need = if v <= s { 2usize << (s - v) } else { 2 };
                for lent in [need - 1, need, need + 1] {
                    masks(sheet, &m, &packed, q, w, v, lent);
                }
            }
        }
    }
}

/// Logins with public columns of their own: runs and row checks.
pub fn own(sheet: &mut Sheet, r: &mut Random) {
    let (m, q) = (4 << r.below(4), 2 << r.below(3));
    let rows = [1 << r.below(3), 1 << r.below(3)];
    let kind = r.pick(&KINDS);
    let rel = relation::own(r, m, q, rows, 4, kind);
    verified(sheet, r, &rel);
    let (room, slack) = (model::room(&rel), r.below(3));
    check(sheet, &rel, room.check + slack);
    check(sheet, &relation::turned(r, &rel), room.check);
    let mut bad = rel.clone();
    damage(r, &mut bad);
    check(sheet, &bad, room.check);
}

pub fn random(sheet: &mut Sheet, r: &mut Random) {
    let (m, q) = (2 << r.below(8), 1 << r.below(5));
    let rows = [1 << r.below(4), 1 << r.below(4)];
    let kind = r.pick(&KINDS);
    let rel = relation::random(r, m, q, rows, 5, kind);
    if rel.numbers() > NUMBERS {
        return;
    }
    verified(sheet, r, &rel);
    let room = model::room(&rel);
    let slack = r.below(4);
    check(sheet, &rel, room.check + slack);
    check(sheet, &rel, (room.check - 1).saturating_sub(slack));
    check(sheet, &relation::turned(r, &rel), room.check);
    let (alphas, pb, pf) = (words(&r.elements(6)), words(&r.elements(log2(rows[0]))), words(&r.elements(log2(rows[1]))));
    let need = 2 * m + 2 * rows[0].max(rows[1]);
    combo(sheet, &rel, &alphas, &pb, &pf, 2 * m + slack, need + slack);
    combo(sheet, &rel, &alphas, &pb, &pf, (2 * m + slack).saturating_sub(1), need.saturating_sub(r.below(2)));
    let point = words(&r.elements(log2(m)));
    for scratch in [need, need + slack, need - 1] {
        value(sheet, &rel, &alphas, &pb, &pf, &point, scratch);
    }
    let short = r.below(13);
    combo(sheet, &rel, &alphas[..short.min(12)], &pb, &pf, 2 * m, need);
    let (w, q) = (1 << r.below(8), 1 << r.below(8));
    let rows = 1 << r.below(4);
    let mut one = matrix::any(r, rows, 2 * w, 20);
    if r.one_in(2) {
        // bits only
        for i in 0..one.row.len() {
            (one.col[i], one.lo[i], one.hi[i]) = (one.col[i].min(w), one.lo[i] & 1, 0);
        }
    }
    let packed = r.words(model::packed_words(q, w));
    let s = log2(q);
    let v = r.below(s + 2);
    let need = if v <= s { rows << (s - v) } else { rows };
    if packed.len() + 4 * one.row.len() < 4000 && need + slack < 2000 {
        masks(sheet, &one, &packed, q, w, v, (need + slack).saturating_sub(1));
        masks(sheet, &one, &packed, q, w, v, need);
    }
    let mut bad = rel.clone();
    damage(r, &mut bad);
    if r.one_in(3) {
        damage(r, &mut bad);
    }
    check(sheet, &bad, room.check);
    combo(sheet, &bad, &alphas, &pb, &pf, 2 * m, need.max(2 * m));
    if bad.m == rel.m {
        value(sheet, &bad, &alphas, &pb, &pf, &point, need);
    }
}
