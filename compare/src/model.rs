//! Refusals 1 to 16 as document 01 has them, and its sizes; document 02's stray bits. The Rust has none of them.
use crate::relation::{self, Matrix, Relation};

pub const MOST: usize = 1 << 20;

fn power(n: usize, least: usize, most: usize) -> bool {
    n.is_power_of_two() && (least..=most).contains(&n)
}

/// The first number whose test fails, or 0.
pub fn first(tests: &[(u32, bool)]) -> u32 {
    tests.iter().find(|(_, bad)| *bad).map_or(0, |(n, _)| *n)
}

fn rows_bad(m: &Matrix) -> bool {
    !power(m.rows, 1, 65536)
}

fn counts_bad(m: &Matrix) -> bool {
    let n = m.row.len();
    n > MOST || m.col.len() != n || m.lo.len() != n || m.hi.len() != n
}

fn places_bad(m: &Matrix) -> bool {
    m.row.iter().any(|&r| r >= m.rows) || m.col.iter().any(|&c| c >= m.cols)
}

/// 1, 4, 6, 7 of a lone matrix.
pub fn lone(m: &Matrix) -> u32 {
    first(&[(1, !power(m.cols, 2, 65536)), (4, rows_bad(m)), (6, counts_bad(m)), (7, places_bad(m))])
}

/// 1, 2, 3, 4, 5, 6, 7 of a matrix with a batch; public words only where they are lent.
pub fn batch(m: &Matrix, q: usize, w: usize, packed: usize, x: Option<usize>) -> u32 {
    let size = !power(w, 1, 32768) || !power(q, 1, 4096);
    if size {
        return 1;
    }
    first(&[
        (2, packed != packed_words(q, w)),
        (3, x.is_some_and(|n| n != q * (2 * w - 2))),
        (4, rows_bad(m) || q * m.rows > MOST),
        (5, m.cols != 2 * w),
        (6, counts_bad(m)),
        (7, places_bad(m)),
    ])
}

pub fn packed_words(q: usize, w: usize) -> usize {
    2 * q * w.div_ceil(128)
}

/// 8, 9, 10 of segments over w columns.
pub fn segments(w: usize, lens: &[usize]) -> u32 {
    if lens.iter().any(|&n| !power(n, 1, w)) {
        return 8;
    }
    let end = lens.iter().fold(0usize, |end, &n| end.div_ceil(n) * n + n);
    first(&[(9, end > w), (10, lens.len() > 64)])
}

/// 1 to 7 of a relation: `batch` says whether packed words are lent, `public` whether public words are, `logins` whether q is.
pub fn relation(r: &Relation, logins: bool, batch: bool, public: bool) -> u32 {
    let q = if logins { r.q } else { 1 };
    if !power(r.m, 2, 65536) || !power(q, 1, 4096) {
        return 1;
    }
    let unequal = |k: usize| r.matrices[k].rows != r.matrices[3 * (k / 3)].rows;
    let matrices = &r.matrices;
    first(&[
        (2, batch && r.packed.len() != packed_words(q, r.m / 2)),
        (3, public && r.x.len() != q * (r.m - 2)),
        (4, (0..6).any(|k| rows_bad(&matrices[k]) || unequal(k) || q * matrices[k].rows > MOST)),
        (5, matrices.iter().any(|m| m.cols != r.m)),
        (6, matrices.iter().any(counts_bad) || r.told.iter().any(Option::is_some)),
        (7, matrices.iter().any(places_bad)),
    ])
}

fn log2(n: usize) -> usize {
    n.trailing_zeros() as usize
}

/// Words that a run is lent.
#[derive(Clone, Copy)]
pub struct Room {
    pub proof: usize,
    pub claims: usize,
    pub verifier: usize,
    /// what the verifier's scratch was before document 02's U8
    pub former: usize,
    pub prover: usize,
    pub check: usize,
}

impl Room {
    /// Numbers of words of scratch that the verifier takes: the formula, one more, and the same around the former one; odd ones, and more.
    pub fn lengths(&self) -> [usize; 7] {
        [self.verifier, self.verifier + 1, self.verifier + 3, self.former - 1, self.former, self.former + 1, self.former + 98]
    }
}

pub fn room(r: &Relation) -> Room {
    let ([rb, rf], s, n, l) = (r.rows(), log2(r.q), log2(r.m), r.lens.len());
    let most = rb.max(rf);
    Room {
        proof: 2 * (8 * s + 4 * log2(rb) + 4 * log2(rf) + 7 + 3 * n + l),
        claims: 2 * (s + n - 1 + l),
        verifier: 2 * r.m + 2 * most + 2 * r.q,
        former: 4 * r.m + 4 * most + 2 * r.q,
        prover: 8 * r.q * (rb + rf) + 8 * r.m + 4 * most + 6 * r.q,
        check: 6 * most,
    }
}

/// What is lent to a run beside the relation.
#[derive(Clone, Copy)]
pub struct Lent {
    /// words of the proof: handed in, or lent
    pub proof: usize,
    pub claims: usize,
    pub scratch: usize,
    pub counter: u64,
}

fn run(r: &Relation, batch: bool) -> u32 {
    match relation(r, true, batch, true) {
        0 => segments(r.m / 2, &r.lens),
        n => n,
    }
}

pub fn verify(r: &Relation, lent: Lent) -> u32 {
    match run(r, false) {
        0 => {
            let room = room(r);
            let short = lent.claims < room.claims || lent.scratch < room.verifier;
            first(&[(14, lent.counter >= 1 << 32), (15, short), (16, lent.proof != room.proof)])
        }
        n => n,
    }
}

pub fn prove(r: &Relation, lent: Lent) -> u32 {
    match run(r, true) {
        0 => {
            let room = room(r);
            let short = lent.proof < room.proof || lent.claims < room.claims || lent.scratch < room.prover;
            first(&[(14, lent.counter >= 1 << 32), (15, short)])
        }
        n => n,
    }
}

pub fn check(r: &Relation, scratch: usize) -> u32 {
    match run(r, true) {
        0 => first(&[(15, scratch < room(r).check)]),
        n => n,
    }
}

/// The first bit outside the segments, whose places are the Rust's: the lowest login, then the lowest column.
pub fn stray(r: &Relation) -> Option<(usize, usize)> {
    let outside = relation::outside(r);
    (0..r.q).find_map(|u| outside.iter().find(|&&y| r.bit(u, y)).map(|&y| (u, y)))
}
