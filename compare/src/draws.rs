//! The verifier's checks with given elements in the place of the draws: 0, 1, the same again, which no hash gives.
use crate::forms::{number, scripted};
use crate::model;
use crate::own;
use crate::random::Random;
use crate::relation::{self, Relation, KINDS};
use crate::sheet::Sheet;
use crate::tally::By::Rust;
use crate::text::*;
use magnetar_field::Gf128;
use scripted_hash::Transcript;
use scripted_spartan::r1cs::SimdInstance;
use scripted_spartan::{prove_virtual_spartan, verify_virtual_spartan};

fn log2(n: usize) -> usize {
    n.trailing_zeros() as usize
}

/// As many draws as a run makes.
fn number_of(r: &Relation) -> usize {
    let [rb, rf] = r.rows();
    3 * log2(r.q) + 2 * log2(rb) + 2 * log2(rf) + 6 + log2(r.m)
}

fn checks(sheet: &mut Sheet, rel: &Relation, proof: &[u64], draws: &[Gf128]) {
    let [rb, rf] = rel.rows();
    let (s, b, f, n) = (log2(rel.q), log2(rb), log2(rf), log2(rel.m));
    let room = model::room(rel);
    let mut t = Transcript::scripted(draws.iter().map(|e| e.0).collect());
    let (theirs, layout, split) = (scripted::relation(rel), scripted::layout(rel.m / 2, &rel.lens), scripted::split(rel, proof));
    let found = if rel.own() {
        own::scripted::verify(&theirs, &layout, &columns(rel), &split, &mut t)
    } else {
        verify_virtual_spartan(&theirs, &layout, rel.q, &rel.rust_x(), &split, &mut t)
    };
    // tau of bin and fld, then the challenges in their order
    let rows = 3 * s + b + f;
    let (pb, pf) = (&draws[rows..rows + b], &draws[rows + b..rows + b + f]);
    let alphas = &draws[rows + b + f..rows + b + f + 6];
    let cleared = counted((4 * rel.m).max(3 * rel.m + 2 * rel.q).max(2 * rel.m + 2 * rb.max(rf)), room.former);
    let events = t.log.len();
    let answer = match found {
        Err(e) if number(e) <= 26 => vec![format!("= {} {events}", number(e))],
        Err(e) => vec!["= 0 0".into(), format!("= {} {events}", number(e)), cleared],
        Ok(_) => {
            let inst: Vec<Gf128> = draws[2 * s + b + f..rows].iter().rev().copied().collect();
            let low = &draws[draws.len() - n..draws.len() - 1];
            let mut claims = words(&[&inst[..], low].concat());
            claims.extend(&proof[proof.len() - 2 * rel.lens.len()..]);
            vec!["= 0 0".into(), "= 0 0".into(), code(0, &claims), cleared]
        }
    };
    let query = format!(
        "checks {} {} {} {} {} {} {}",
        room.claims, room.former, list(proof), elements(draws), elements(alphas), elements(pb), elements(pf),
    );
    let name = if rel.own() { "outer_checks, end_checks, write_claims, own columns" } else { "outer_checks, end_checks, write_claims" };
    sheet.ask_on(name, Rust, &rel.text(), query, answer);
}

fn columns(rel: &Relation) -> SimdInstance {
    SimdInstance { q: rel.q, m: rel.m, public: rel.rust_columns().public }
}

pub fn random(sheet: &mut Sheet, r: &mut Random) {
    let (m, q) = (2 << r.below(6), 1 << r.below(4));
    let rows = [1 << r.below(4), 1 << r.below(4)];
    let kind = r.pick(&KINDS);
    let rel = if r.one_in(3) { relation::own(r, m, q, rows, 5, kind) } else { relation::random(r, m, q, rows, 5, kind) };
    if rel.numbers() > 4000 || model::room(&rel).proof + 2 * number_of(&rel) > 900 {
        return;
    }
    let draws = match r.below(3) {
        0 => vec![Gf128(r.below(2) as u128); number_of(&rel)],
        1 => (0..number_of(&rel)).map(|_| Gf128(r.below(2) as u128)).collect(),
        _ => r.elements(number_of(&rel)),
    };
    let mut t = Transcript::scripted(draws.iter().map(|e| e.0).collect());
    let (theirs, layout, packed) = (scripted::relation(&rel), scripted::layout(m / 2, &rel.lens), rel.rust_packed());
    let (proof, _) = if rel.own() {
        own::scripted::prove(&theirs, &layout, &packed, &columns(&rel), &mut t)
    } else {
        prove_virtual_spartan(&theirs, &layout, &packed, &rel.rust_x(), q, &mut t)
    };
    let proof = scripted::flat(&proof);
    checks(sheet, &rel, &proof, &draws);
    for _ in 0..4 {
        let mut p = proof.clone();
        let i = r.below(p.len());
        p[i] ^= if r.one_in(2) { 1 << r.below(64) } else { r.word() };
        checks(sheet, &rel, &p, &draws);
        let mut d = draws.clone();
        let i = r.below(d.len());
        d[i] = r.element();
        checks(sheet, &rel, &proof, &d);
    }
}
