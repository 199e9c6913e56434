//! Relations with a batch, in the form in which they are lent, and how they are made.
use crate::forms::plain;
use crate::model;
use crate::random::Random;
use crate::rust;
use crate::text;
use magnetar_field::{mul, Gf128};
use magnetar_spartan::r1cs::SimdInstance;
use magnetar_spartan::{DualRelation, SegmentLayout, SparseMatrix};

use magnetar::{Rules, Shapes};

/// A matrix: four lists that may be of unequal length.
pub use magnetar::Matrix;

/// How matrices are made here, and their other forms.
pub trait Entries {
    fn empty(rows: usize, cols: usize) -> Self;
    fn put(&mut self, row: usize, col: usize, value: Gf128);
    fn entries(&self) -> Vec<(usize, usize, Gf128)>;
    fn rust(&self) -> SparseMatrix;
    /// In the words of the test programs.
    fn text(&self) -> String;
    fn shuffle(&mut self, r: &mut Random);
}

impl Entries for Matrix {
    fn empty(rows: usize, cols: usize) -> Matrix {
        Matrix { rows, cols, ..Matrix::default() }
    }

    fn put(&mut self, row: usize, col: usize, value: Gf128) {
        self.row.push(row);
        self.col.push(col);
        self.lo.push(value.0 as u64);
        self.hi.push((value.0 >> 64) as u64);
    }

    fn entries(&self) -> Vec<(usize, usize, Gf128)> {
        (0..self.row.len()).map(|i| (self.row[i], self.col[i], Gf128(self.lo[i] as u128 | (self.hi[i] as u128) << 64))).collect()
    }

    fn rust(&self) -> SparseMatrix {
        plain::matrix(self)
    }

    fn text(&self) -> String {
        format!("{:#x} {:#x} {} {} {} {}", self.rows, self.cols, text::sizes(&self.row), text::sizes(&self.col), text::list(&self.lo), text::list(&self.hi))
    }

    fn shuffle(&mut self, r: &mut Random) {
        for i in (1..self.row.len()).rev() {
            let j = r.below(i + 1);
            self.row.swap(i, j);
            self.col.swap(i, j);
            self.lo.swap(i, j);
            self.hi.swap(i, j);
        }
    }
}

/// Rules and batch: everything that prover, verifier and row check are lent but buffers, proof and transcript.
#[derive(Clone, Debug)]
pub struct Relation {
    pub m: usize,
    pub q: usize,
    pub lens: Vec<usize>,
    /// A, B, C of bin, then of fld
    pub matrices: [Matrix; 6],
    /// what is told in the place of a matrix's number of entries; with these the numbers don't add up (`recut`)
    pub told: [Option<usize>; 6],
    pub packed: Vec<u64>,
    /// the public words of every login, one behind the other
    pub x: Vec<u64>,
}

/// The public columns of q logins with w witness columns.
pub fn columns(q: usize, w: usize, x: &[u64]) -> SimdInstance {
    let n = 2 * w - 2;
    SimdInstance { q, m: 2 * w, public: (0..q).map(|u| rust::elements(&x[u * n..(u + 1) * n])).collect() }
}

/// The length that most of a matrix's lists have.
fn count(m: &Matrix) -> usize {
    let lengths = [m.row.len(), m.col.len(), m.lo.len(), m.hi.len()];
    lengths.into_iter().max_by_key(|n| lengths.iter().filter(|k| *k == n).count()).unwrap()
}

impl Relation {
    pub fn empty(m: usize, q: usize, rows: [usize; 2], lens: Vec<usize>) -> Relation {
        Relation {
            m,
            q,
            lens,
            matrices: std::array::from_fn(|k| Matrix::empty(rows[k / 3], m)),
            told: [None; 6],
            packed: vec![0; 2 * q * (m / 2).div_ceil(128)],
            x: vec![0; q * (m - 2)],
        }
    }

    pub fn rows(&self) -> [usize; 2] {
        [self.matrices[0].rows, self.matrices[3].rows]
    }

    /// As it is lent: the shapes, and the lists of all matrices one behind the other.
    pub fn rules(&self) -> Rules {
        let [a, b, c, d, e, f] = &self.matrices;
        let mut rules = Rules::join([a, b, c], [d, e, f]);
        let Shapes { bin, fld } = &mut rules.shapes;
        for (k, s) in [&mut bin.a, &mut bin.b, &mut bin.c, &mut fld.a, &mut fld.b, &mut fld.c].into_iter().enumerate() {
            s.entries = self.told[k].unwrap_or(count(&self.matrices[k]));
        }
        rules
    }

    /// Where the numbers of entries that are told add up to lists of one length, the matrices become what they say.
    pub fn recut(&mut self) {
        let counts: [usize; 6] = std::array::from_fn(|k| self.told[k].unwrap_or(count(&self.matrices[k])));
        let rules = self.rules();
        let n = rules.row.len();
        let total: u128 = counts.iter().map(|&n| n as u128).sum();
        if total != n as u128 || [rules.col.len(), rules.lo.len(), rules.hi.len()] != [n; 3] {
            return;
        }
        let mut at = 0;
        for (m, n) in self.matrices.iter_mut().zip(counts) {
            let part = at..at + n;
            (m.row, m.col) = (rules.row[part.clone()].to_vec(), rules.col[part.clone()].to_vec());
            (m.lo, m.hi) = (rules.lo[part.clone()].to_vec(), rules.hi[part].to_vec());
            at += n;
        }
        self.told = [None; 6];
    }

    /// Words of a login.
    fn row_words(&self) -> usize {
        2 * (self.m / 2).div_ceil(128)
    }

    pub fn bit(&self, login: usize, col: usize) -> bool {
        self.packed[login * self.row_words() + col / 64] >> (col % 64) & 1 == 1
    }

    pub fn set_bit(&mut self, login: usize, col: usize, bit: bool) {
        let at = login * self.row_words() + col / 64;
        self.packed[at] = self.packed[at] & !(1 << (col % 64)) | (bit as u64) << (col % 64);
    }

    // ---- The Rust's forms.

    pub fn rust_packed(&self) -> Vec<u128> {
        self.packed.chunks(2).map(|w| w[0] as u128 | (w[1] as u128) << 64).collect()
    }

    /// Whether the logins have unequal public columns; not where there are too many or too few words.
    pub fn own(&self) -> bool {
        let n = self.m.saturating_sub(2);
        n > 0 && Some(self.x.len()) == n.checked_mul(self.q) && self.x.chunks(n).any(|x| *x != self.x[..n])
    }

    /// The public columns of login 0, which all have where they have none of their own.
    pub fn rust_x(&self) -> Vec<Gf128> {
        rust::elements(&self.x[..self.x.len() / self.q])
    }

    /// Those of each login.
    pub fn rust_columns(&self) -> SimdInstance {
        columns(self.q, self.m / 2, &self.x)
    }

    pub fn rust_relation(&self) -> DualRelation {
        plain::relation(self)
    }

    pub fn rust_layout(&self) -> SegmentLayout {
        plain::layout(self.m / 2, &self.lens)
    }

    /// In the words of the test programs.
    pub fn text(&self) -> String {
        let r = self.rules();
        let shapes = [r.shapes.bin, r.shapes.fld].map(|t| [t.a, t.b, t.c].map(|s| [s.rows, s.cols, s.entries]).concat()).concat();
        let sizes = [&[self.m, self.q][..], &self.lens].map(text::sizes);
        let lists = [text::list(&self.x), text::list(&self.packed), text::sizes(&shapes), text::sizes(&r.row), text::sizes(&r.col)];
        ["case".into(), sizes.join(" "), lists.join(" "), text::list(&r.lo), text::list(&r.hi)].join(" ")
    }

    /// How many numbers that text has.
    pub fn numbers(&self) -> usize {
        let entries: usize = self.matrices.iter().map(|m| m.row.len()).sum();
        29 + self.lens.len() + self.x.len() + self.packed.len() + 4 * entries
    }
}

/// What a batch is to be.
#[derive(Clone, Copy, PartialEq, Debug)]
pub enum Kind {
    /// every row holds, and no bit is set outside the segments
    Good,
    /// every row holds, bits outside the segments at random
    Stray,
    /// good but for a bit that is flipped
    Bad,
    /// rules and bits at random
    Wild,
}

pub const KINDS: [Kind; 4] = [Kind::Good, Kind::Stray, Kind::Bad, Kind::Wild];

/// Lengths of segments that fit into w columns; sometimes they leave no gap.
pub fn lengths(r: &mut Random, w: usize, most: usize) -> Vec<usize> {
    let log = w.trailing_zeros() as usize;
    let (mut lens, mut end) = (vec![], 0usize);
    let tight = r.one_in(3);
    for _ in 0..if tight { 64 } else { r.below(most + 1) } {
        let len = if tight {
            if end == w {
                break;
            }
            1 << r.below(if end == 0 { log + 1 } else { end.trailing_zeros() as usize + 1 })
        } else {
            1 << r.below(log + 1)
        };
        let next = end.div_ceil(len) * len + len;
        if next <= w {
            lens.push(len);
            end = next;
        }
    }
    lens
}

/// The columns that no segment holds.
pub fn outside(r: &Relation) -> Vec<usize> {
    let inside = inside(r.m / 2, &r.lens);
    (0..r.m / 2).filter(|&y| !inside[y]).collect()
}

/// The same batch where the row check looks at other things: with one segment over all columns where a bit is stray, so that the rows
/// decide; else with a bit set outside the segments, where there are such columns.
pub fn turned(r: &mut Random, rel: &Relation) -> Relation {
    let (mut other, free) = (rel.clone(), outside(rel));
    if model::stray(rel).is_some() {
        other.lens = vec![rel.m / 2];
    } else if !free.is_empty() {
        other.set_bit(r.below(rel.q), r.pick(&free), true);
    }
    other
}

fn inside(w: usize, lens: &[usize]) -> Vec<bool> {
    let l = plain::layout(w, lens);
    let mut out = vec![false; w];
    for (o, n) in l.offsets.iter().zip(lens) {
        out[*o..o + n].fill(true);
    }
    out
}

/// A row of a system that holds for every batch and these public words; for any public words where the logins have their own.
fn good_row(r: &mut Random, rel: &mut Relation, system: usize, row: usize, binary: bool) {
    let w = rel.m / 2;
    let x = if rel.own() { vec![] } else { rel.rust_x() };
    let [a, b, c] = &mut rel.matrices[3 * system..3 * system + 3] else { unreachable!() };
    let value = |r: &mut Random| if binary { Gf128(1) } else { r.element() };
    match r.below(if binary { 5 } else { 7 }) {
        0 => {}
        1 => {
            // B a constant k, C is k times A
            let k = value(r);
            b.put(row, w, k);
            for _ in 0..1 + r.below(4) {
                let (col, v) = (if binary { r.below(w + 1) } else { r.below(rel.m) }, value(r));
                a.put(row, col, v);
                c.put(row, col, mul(k, v));
            }
        }
        2 => {
            // A and C cancel
            let (col, v) = (r.below(w + 1), value(r));
            a.put(row, col, v);
            a.put(row, col, v);
            let (other, u) = (r.below(w + 1), value(r));
            b.put(row, other, u);
            c.put(row, col, v);
            c.put(row, col, v);
        }
        3 => {
            // a bit times itself is the bit
            let col = r.below(w);
            for m in [&mut *a, &mut *b, &mut *c] {
                m.put(row, col, Gf128(1));
            }
            b.put(row, col, Gf128(0));
        }
        4 => {
            // a bit times its opposite is 0
            let col = r.below(w);
            a.put(row, col, Gf128(1));
            b.put(row, col, Gf128(1));
            b.put(row, w, Gf128(1));
        }
        5 => {
            // (f w + g)(h w + k) = (f h + f k + g h) w + g k
            let (col, v) = (r.below(w), r.elements(4));
            a.put(row, col, v[0]);
            a.put(row, w, v[1]);
            b.put(row, col, v[2]);
            b.put(row, w, v[3]);
            c.put(row, col, mul(v[0], v[2]) + mul(v[0], v[3]) + mul(v[1], v[2]));
            c.put(row, w, mul(v[1], v[3]));
        }
        _ if x.is_empty() => {}
        _ => {
            // a public column times anything linear
            let (j, col, v) = (r.below(x.len()), r.below(w), r.elements(3));
            let f = mul(v[0], x[j]);
            a.put(row, w + 1 + j, v[0]);
            b.put(row, col, v[1]);
            b.put(row, w, v[2]);
            c.put(row, col, mul(f, v[1]));
            c.put(row, w, mul(f, v[2]));
        }
    }
}

/// A row that says that bit `to` is the product of two lower ones; the batch is made so.
fn gate(r: &mut Random, rel: &mut Relation, system: usize, row: usize, to: usize) {
    let (from, other) = (r.below(to), r.below(to));
    for (k, col) in [from, other, to].into_iter().enumerate() {
        rel.matrices[3 * system + k].put(row, col, Gf128(1));
    }
    for login in 0..rel.q {
        let bit = rel.bit(login, from) && rel.bit(login, other);
        rel.set_bit(login, to, bit);
    }
}

/// A row about public columns of each login's own, which are made so: column `to` is the product of two lower ones, or a bit.
fn public_gate(r: &mut Random, rel: &mut Relation, system: usize, row: usize, to: usize, bit: usize) {
    let w = rel.m / 2;
    let (from, other) = if to == 0 || r.one_in(2) { (bit, w) } else { (w + 1 + r.below(to), w + 1 + r.below(to)) };
    for (k, col) in [from, other, w + 1 + to].into_iter().enumerate() {
        rel.matrices[3 * system + k].put(row, col, Gf128(1));
    }
    let public = rel.rust_columns().public;
    for login in 0..rel.q {
        let value = if from == bit { Gf128(rel.bit(login, bit) as u128) } else { mul(public[login][from - w - 1], public[login][other - w - 1]) };
        let at = login * (rel.m - 2) + 2 * to;
        rel.x[at..at + 2].copy_from_slice(&text::words(&[value]));
    }
}

/// Public columns for q logins: some sets of them, equal neighbours as often as not, the last login's mostly not the first one's; 0 and 1
/// are frequent.
pub fn own_columns(r: &mut Random, q: usize, w: usize) -> Vec<u64> {
    let sets: Vec<Vec<u64>> = (0..2 + r.below(q)).map(|_| text::words(&r.elements(w - 1))).collect();
    let (mut x, mut k) = (vec![], 0);
    for u in 0..q {
        if !r.one_in(2) {
            k = r.below(sets.len());
        }
        if u > 0 && u + 1 == q && !r.one_in(8) {
            k = 1 + r.below(sets.len() - 1);
        }
        x.extend(&sets[if u == 0 { 0 } else { k }]);
    }
    x
}

/// A batch whose logins have the same public columns.
pub fn random(r: &mut Random, m: usize, q: usize, rows: [usize; 2], segments: usize, kind: Kind) -> Relation {
    made(r, m, q, rows, segments, kind, false)
}

/// A batch whose logins have public columns of their own, if there are any.
pub fn own(r: &mut Random, m: usize, q: usize, rows: [usize; 2], segments: usize, kind: Kind) -> Relation {
    made(r, m, q, rows, segments, kind, true)
}

fn made(r: &mut Random, m: usize, q: usize, rows: [usize; 2], segments: usize, kind: Kind, own: bool) -> Relation {
    let w = m / 2;
    let lens = lengths(r, w, segments);
    let mut rel = Relation::empty(m, q, rows, lens);
    for word in rel.packed.iter_mut() {
        *word = if r.one_in(8) { 0 } else { r.word() };
    }
    rel.x = if own { own_columns(r, q, w) } else { text::words(&r.elements(w - 1)).repeat(q) };
    let own = rel.own();
    if kind == Kind::Wild {
        for k in 0..6 {
            let binary = r.one_in(2);
            for _ in 0..r.below(3 * rel.matrices[k].rows.min(64) + 2) {
                let row = r.below(rel.matrices[k].rows);
                let col = if binary { r.below(w + 1) } else { r.below(m) };
                let v = if binary { Gf128(1) } else { r.element() };
                rel.matrices[k].put(row, col, v);
                if r.one_in(5) {
                    rel.matrices[k].put(row, col, v);
                }
            }
        }
        return rel;
    }
    let inside = inside(w, &rel.lens);
    if kind != Kind::Stray {
        for login in 0..q {
            for col in 0..w {
                if !inside[col] {
                    rel.set_bit(login, col, false);
                }
            }
        }
    }
    let binary = !r.one_in(3);
    // gates go up the columns, so that a bit that one of them reads is not changed by a later one
    let (mut next, mut public) = (1 + r.below(w), 0);
    let lowest = next;
    for system in 0..2 {
        for row in 0..rows[system] {
            if own && public + 1 < w && r.one_in(3) {
                let bit = r.below(lowest);
                public_gate(r, &mut rel, system, row, public, bit);
                public += 1 + r.below(w);
            } else if next < w && r.one_in(3) {
                if inside[next] {
                    gate(r, &mut rel, system, row, next);
                }
                next += 1;
            } else {
                good_row(r, &mut rel, system, row, system == 0 && binary);
            }
        }
        for k in 0..3 {
            rel.matrices[3 * system + k].shuffle(r);
        }
    }
    if kind == Kind::Bad && own && r.one_in(2) {
        let i = r.below(rel.x.len());
        rel.x[i] ^= 1 << r.below(64);
    } else if kind == Kind::Bad {
        let (login, col) = (r.below(q), r.below(w));
        let bit = rel.bit(login, col);
        rel.set_bit(login, col, !bit);
    }
    rel
}
