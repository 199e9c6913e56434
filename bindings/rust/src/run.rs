//! Layouts, folds, the combined table, and the row check, the prover and the verifier of a batch.
use crate::sys::{self, Digest, RowVerdict, Shape, Shapes, SystemShape, Transcript};
use crate::{lent, log, room, Matrix, Refusal};

/// A, B, C of bin, then A, B, C of fld: their shapes, and their entries one behind the other. The library refuses lists of unequal
/// length, and counts in the shapes that don't add up to it.
#[derive(Clone, Debug, Default)]
pub struct Rules {
    pub shapes: Shapes,
    pub row: Vec<usize>,
    pub col: Vec<usize>,
    pub lo: Vec<u64>,
    pub hi: Vec<u64>,
}

impl Rules {
    /// Appends a matrix's entries, and gives its shape.
    fn push(&mut self, m: &Matrix) -> Shape {
        self.row.extend(&m.row);
        self.col.extend(&m.col);
        self.lo.extend(&m.lo);
        self.hi.extend(&m.hi);
        Shape { rows: m.rows, cols: m.cols, entries: m.row.len() }
    }

    /// The matrices A, B, C of both systems, joined.
    pub fn join(bin: [&Matrix; 3], fld: [&Matrix; 3]) -> Rules {
        let n = bin.iter().chain(&fld).map(|m| m.row.len()).sum();
        let mut r = Rules {
            shapes: Shapes::default(),
            row: Vec::with_capacity(n),
            col: Vec::with_capacity(n),
            lo: Vec::with_capacity(n),
            hi: Vec::with_capacity(n),
        };
        let mut shape = |system: [&Matrix; 3]| {
            let [a, b, c] = system.map(|m| r.push(m));
            SystemShape { a, b, c }
        };
        let shapes = Shapes { bin: shape(bin), fld: shape(fld) };
        Rules { shapes, ..r }
    }
}

/// What both ends know: m columns, q logins, the lengths of the segments of the witness, and the rules.
#[derive(Clone, Debug, Default)]
pub struct Relation {
    pub m: usize,
    pub q: usize,
    pub segments: Vec<usize>,
    pub rules: Rules,
}

/// The words of elements: the shared challenges, those of the columns, and a value for each segment. The value of segment i is the sum over
/// the logins u and the positions k below its length of eq(r_inst, u) eq(r_local, k) b, where b is the bit of login u at column offset + k:
/// eq(p, i) is entry i of [`crate::eq_build`] of p from 1, r_local the first log2(length) elements of r_low, the offset that of [`layout_build`].
#[derive(Clone, Debug, PartialEq, Eq)]
pub struct Claims {
    pub r_inst: Vec<u64>,
    pub r_low: Vec<u64>,
    pub values: Vec<u64>,
}

impl Relation {
    /// With A, B, C of bin and of fld, whose entries are copied once.
    pub fn new(m: usize, q: usize, segments: Vec<usize>, bin: &[Matrix; 3], fld: &[Matrix; 3]) -> Relation {
        Relation { m, q, segments, rules: Rules::join(bin.each_ref(), fld.each_ref()) }
    }

    /// The rows of bin and of fld.
    fn rows(&self) -> [usize; 2] {
        [self.rules.shapes.bin.a.rows, self.rules.shapes.fld.a.rows]
    }

    /// The words of a proof.
    pub fn proof_words(&self) -> usize {
        let [rb, rf] = self.rows();
        let outer = 8 * log(self.q) + 4 * log(rb) + 4 * log(rf);
        2 * (outer + 7 + 3 * log(self.m) + self.segments.len())
    }

    /// The words of the claims.
    pub fn claim_words(&self) -> usize {
        2 * (log(self.q) + log(self.m).saturating_sub(1) + self.segments.len())
    }

    fn most_rows(&self) -> usize {
        let [rb, rf] = self.rows();
        rb.max(rf)
    }

    /// The words of a batch: 2 q ceil(m / 256).
    pub fn packed_words(&self) -> Option<usize> {
        self.m.div_ceil(256).checked_mul(self.q)?.checked_mul(2)
    }

    /// The public words: q (m - 2).
    pub fn public_words(&self) -> Option<usize> {
        self.m.checked_sub(2)?.checked_mul(self.q)
    }

    /// The words of the row check's scratch, where they can be counted: 6 max(Rb, Rf).
    pub fn check_scratch(&self) -> Option<usize> {
        self.most_rows().checked_mul(6)
    }

    /// The words of the combined table's scratch: 2 m + 2 max(Rb, Rf).
    pub fn combo_scratch(&self) -> Option<usize> {
        self.m.checked_add(self.most_rows())?.checked_mul(2)
    }

    /// The words of the prover's scratch: 8 q (Rb + Rf) + 8 m + 4 max(Rb, Rf) + 6 q.
    pub fn prover_scratch(&self) -> Option<usize> {
        let [rb, rf] = self.rows();
        let rows = rb.checked_add(rf)?;
        let tables = self.q.checked_mul(rows)?.checked_add(self.m)?.checked_mul(8)?;
        self.most_rows().checked_mul(4)?.checked_add(self.q.checked_mul(6)?)?.checked_add(tables)
    }

    /// The words of the verifier's scratch: 2 m + 2 max(Rb, Rf) + 2 q.
    pub fn verifier_scratch(&self) -> Option<usize> {
        self.m.checked_add(self.most_rows())?.checked_add(self.q)?.checked_mul(2)
    }

    fn claims(&self, words: Vec<u64>) -> Claims {
        let (r_inst, rest) = words.split_at(2 * log(self.q));
        let (r_low, values) = rest.split_at(2 * (log(self.m) - 1));
        Claims { r_inst: r_inst.to_vec(), r_low: r_low.to_vec(), values: values.to_vec() }
    }
}

/// The public words of q logins that all have the public columns whose words these are.
pub fn repeat_columns(columns: &[u64], q: usize) -> Vec<u64> {
    columns.repeat(q)
}

/// The columns where segments of these lengths start in w witness columns: each at the next multiple of its length.
pub fn layout_build(w: usize, lens: &[usize]) -> Result<Vec<usize>, Refusal> {
    let mut offsets = vec![0; lens.len()];
    // SAFETY: here and below each pointer and length are of one slice, and what is written is borrowed as `&mut`.
    Refusal::check(unsafe {
        sys::magnetar_layout_build(w, lens.as_ptr(), lens.len(), offsets.as_mut_ptr(), offsets.len())
    })?;
    Ok(offsets)
}

/// The digest of a relation, for both ends to absorb before a run: SHA3-256 of m, q, the segments' lengths, the shapes and the entries in
/// their order. No two relations as they are lent are hashed from the same bytes.
pub fn relation_digest(r: &Relation) -> Result<Digest, Refusal> {
    let answer = lent::relation_digest(r.m, r.q, &r.segments, &r.rules);
    Refusal::check(answer.code).map(|()| answer.digest)
}

/// The batch of q logins of w bits folded at the point: element y is the sum over the logins u of eq(point, u) times the bit of login u at
/// column y. A segment of it is its 2 * length words from 2 * offset on.
pub fn fold_packed_w(packed: &[u64], q: usize, w: usize, point: &[u64]) -> Result<Vec<u64>, Refusal> {
    let (mut out, mut s) = (room(w.checked_mul(2)), room(q.checked_mul(2)));
    Refusal::check(unsafe {
        sys::magnetar_fold_packed_w(
            packed.as_ptr(), packed.len(), q, w, point.as_ptr(), point.len(), out.as_mut_ptr(), out.len(), s.as_mut_ptr(), s.len(),
        )
    })?;
    Ok(out)
}

/// The six matrices in one table of the columns: the sum of each one's table at its system's row point, pb of bin and pf of fld, times its
/// alpha, of which there are six, A, B, C of bin first.
pub fn build_m_combo(r: &Relation, alphas: &[u64], pb: &[u64], pf: &[u64]) -> Result<Vec<u64>, Refusal> {
    let (mut out, mut s) = (room(r.m.checked_mul(2)), room(r.combo_scratch()));
    Refusal::check(lent::build_m_combo(&mut out, &mut s, r.m, &r.rules, alphas, pb, pf))?;
    Ok(out)
}

/// What the row check finds.
#[derive(Clone, Copy, Debug, PartialEq, Eq)]
pub enum RowCheck {
    /// No bit is set outside the segments, and every row of both systems holds for every login.
    Good,
    /// A bit is set in a column of no segment: the lowest login with one, and its lowest such column.
    Stray { login: usize, column: usize },
    /// No stray bit, but a row of bin does not hold: the lowest login with one, and its lowest such row.
    Bin { login: usize, row: usize },
    /// Neither, but a row of fld does not hold.
    Fld { login: usize, row: usize },
}

/// Whether a batch is good, or what is found first; `packed` holds the bits of the logins, `x` the words of their public elements.
pub fn row_check(r: &Relation, packed: &[u64], x: &[u64]) -> Result<RowCheck, Refusal> {
    let mut scratch = room(r.check_scratch());
    let RowVerdict { code, system, login, row, column } = lent::row_check(&mut scratch, r.m, r.q, &r.segments, &r.rules, packed, x);
    Refusal::check(code)?;
    Ok(match system {
        1 => RowCheck::Bin { login, row },
        2 => RowCheck::Fld { login, row },
        4 => RowCheck::Stray { login, column },
        0 => RowCheck::Good,
        other => unreachable!("the library answered {other}"),
    })
}

/// A proof of a batch, whether it is good or not, and the claims.
pub fn prove(r: &Relation, packed: &[u64], x: &[u64], t: &mut Transcript) -> Result<(Vec<u64>, Claims), Refusal> {
    let mut proof = room(Some(r.proof_words()));
    let mut claims = room(Some(r.claim_words()));
    let mut scratch = room(r.prover_scratch());
    let answer = lent::prove(&mut proof, &mut claims, &mut scratch, r.m, r.q, &r.segments, &r.rules, packed, x, *t);
    *t = answer.transcript;
    Refusal::check(answer.code)?;
    Ok((proof, r.claims(claims)))
}

/// The claims of a proof that is accepted.
pub fn verify(r: &Relation, x: &[u64], proof: &[u64], t: &mut Transcript) -> Result<Claims, Refusal> {
    let mut claims = room(Some(r.claim_words()));
    let mut scratch = room(r.verifier_scratch());
    let answer = lent::verify(&mut claims, &mut scratch, r.m, r.q, &r.segments, &r.rules, x, proof, *t);
    *t = answer.transcript;
    Refusal::check(answer.code)?;
    Ok(r.claims(claims))
}

#[cfg(test)]
mod tests {
    use super::{prove, repeat_columns, Relation};
    use crate::{lent, Element, Matrix, Transcript};

    #[test]
    fn the_verifier_takes_the_scratch_it_asks_for_and_writes_no_other_word() {
        let r = Relation::new(4, 2, vec![2], &[(); 3].map(|_| Matrix::new(1, 4, &[])), &[(); 3].map(|_| Matrix::new(2, 4, &[])));
        let (x, start) = ([0; 4], Transcript::new(b"test", &[]));
        let (proof, _) = prove(&r, &[1, 0, 2, 0], &x, &mut start.clone()).unwrap();
        let need = r.verifier_scratch().unwrap();
        assert_eq!(need, 2 * 4 + 2 * 2 + 2 * 2);
        for words in [need - 1, need, need + 1, 2 * need] {
            let (mut claims, mut scratch) = (vec![7; r.claim_words()], vec![7; words]);
            let answer = lent::verify(&mut claims, &mut scratch, r.m, r.q, &r.segments, &r.rules, &x, &proof, start);
            let zeros = if words < need { 0 } else { need };
            assert_eq!(answer.code, if words < need { 15 } else { 0 });
            assert!(scratch[..zeros].iter().all(|&w| w == 0) && scratch[zeros..].iter().all(|&w| w == 7));
        }
    }

    #[test]
    fn every_login_has_the_repeated_columns() {
        let (columns, logins) = ([5, 6], [3u64, 0, 1, 0]);
        assert_eq!(repeat_columns(&columns, 2), [5, 6, 5, 6]);
        assert!(repeat_columns(&[], 4).is_empty());
        let matrix = Matrix::new(2, 4, &[(0, 1, Element { lo: 1, hi: 0 }), (1, 3, Element { lo: 2, hi: 0 })]);
        let product = |packed: &[u64], x: &[u64], q| matrix.apply_simd_packed(packed, x, q, 2).unwrap().0;
        let alone = [product(&logins[..2], &columns, 1), product(&logins[2..], &columns, 1)].concat();
        assert_eq!(product(&logins, &repeat_columns(&columns, 2), 2), alone);
    }
}
