//! A matrix alone.
use crate::sys::{self, Element};
use crate::{log, room, Refusal};

/// A sparse matrix: entry i has the row `row[i]`, the column `col[i]` and the value of the words `lo[i]` and `hi[i]`. Entries at one
/// place add up.
#[derive(Clone, Debug, Default)]
pub struct Matrix {
    pub rows: usize,
    pub cols: usize,
    pub row: Vec<usize>,
    pub col: Vec<usize>,
    pub lo: Vec<u64>,
    pub hi: Vec<u64>,
}

impl Matrix {
    pub fn new(rows: usize, cols: usize, entries: &[(usize, usize, Element)]) -> Matrix {
        Matrix {
            rows,
            cols,
            row: entries.iter().map(|e| e.0).collect(),
            col: entries.iter().map(|e| e.1).collect(),
            lo: entries.iter().map(|e| e.2.lo).collect(),
            hi: entries.iter().map(|e| e.2.hi).collect(),
        }
    }

    /// The product with the vector z.
    pub fn apply(&self, z: &[u64]) -> Result<Vec<u64>, Refusal> {
        let mut out = room(self.rows.checked_mul(2));
        // SAFETY: here and below each pointer and length are of one slice, and what is written is borrowed as `&mut`.
        Refusal::check(unsafe {
            sys::magnetar_apply(
                self.rows, self.cols, self.row.as_ptr(), self.row.len(), self.col.as_ptr(), self.col.len(),
                self.lo.as_ptr(), self.lo.len(), self.hi.as_ptr(), self.hi.len(),
                z.as_ptr(), z.len(), out.as_mut_ptr(), out.len(),
            )
        })?;
        Ok(out)
    }

    /// The multilinear extension at the row point and every column.
    pub fn eval_mle_table(&self, point: &[u64]) -> Result<Vec<u64>, Refusal> {
        let (mut out, mut s) = (room(self.cols.checked_mul(2)), room(self.rows.checked_mul(2)));
        Refusal::check(unsafe {
            sys::magnetar_eval_mle_table(
                self.rows, self.cols, self.row.as_ptr(), self.row.len(), self.col.as_ptr(), self.col.len(),
                self.lo.as_ptr(), self.lo.len(), self.hi.as_ptr(), self.hi.len(),
                point.as_ptr(), point.len(), out.as_mut_ptr(), out.len(), s.as_mut_ptr(), s.len(),
            )
        })?;
        Ok(out)
    }

    /// The multilinear extension at the row point r and the column point c.
    pub fn eval_mle_at(&self, r: &[u64], c: &[u64]) -> Result<Element, Refusal> {
        let mut s = room(self.rows.checked_add(self.cols).and_then(|n| n.checked_mul(2)));
        let found = unsafe {
            sys::magnetar_eval_mle_at(
                self.rows, self.cols, self.row.as_ptr(), self.row.len(), self.col.as_ptr(), self.col.len(),
                self.lo.as_ptr(), self.lo.len(), self.hi.as_ptr(), self.hi.len(),
                r.as_ptr(), r.len(), c.as_ptr(), c.len(), s.as_mut_ptr(), s.len(),
            )
        };
        Refusal::check(found.code).map(|()| found.element)
    }

    /// Whether every value is 0 or 1.
    pub fn is_binary(&self) -> Result<bool, Refusal> {
        let found = unsafe {
            sys::magnetar_is_binary(
                self.rows, self.cols, self.row.as_ptr(), self.row.len(), self.col.as_ptr(), self.col.len(),
                self.lo.as_ptr(), self.lo.len(), self.hi.as_ptr(), self.hi.len(),
            )
        };
        Refusal::check(found.code).map(|()| found.yes)
    }

    /// The products with the z of each of q logins, which is its w bits, a 1 and its public elements, whose words stand in `x` login after
    /// login: one login behind the other. And whether every value is 0 or 1 and no column exceeds w, so that all products are 0 or 1.
    pub fn apply_simd_packed(&self, packed: &[u64], x: &[u64], q: usize, w: usize) -> Result<(Vec<u64>, bool), Refusal> {
        let mut out = room(self.rows.checked_mul(2).and_then(|n| n.checked_mul(q)));
        let found = unsafe {
            sys::magnetar_apply_simd_packed(
                self.rows, self.cols, self.row.as_ptr(), self.row.len(), self.col.as_ptr(), self.col.len(),
                self.lo.as_ptr(), self.lo.len(), self.hi.as_ptr(), self.hi.len(),
                packed.as_ptr(), packed.len(), x.as_ptr(), x.len(), q, w, out.as_mut_ptr(), out.len(),
            )
        };
        Refusal::check(found.code).map(|()| (out, found.yes))
    }

    /// The same products where all are 0 or 1, as masks: of q = 2^s logins 2^v share a word, and bit t of word low * rows + r is the
    /// product of login t * 2^(s - v) + low at row r.
    pub fn apply_simd_bit_masks(&self, packed: &[u64], q: usize, w: usize, v: usize) -> Result<Vec<u64>, Refusal> {
        let mut out = room(log(q).checked_sub(v).and_then(|k| self.rows.checked_mul(1 << k)));
        Refusal::check(unsafe {
            sys::magnetar_apply_simd_bit_masks(
                self.rows, self.cols, self.row.as_ptr(), self.row.len(), self.col.as_ptr(), self.col.len(),
                self.lo.as_ptr(), self.lo.len(), self.hi.as_ptr(), self.hi.len(),
                packed.as_ptr(), packed.len(), q, w, v, out.as_mut_ptr(), out.len(),
            )
        })?;
        Ok(out)
    }
}
