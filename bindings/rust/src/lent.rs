//! The calls over rules with words that the caller lends: what they answer and write is the library's, number by number.
use crate::sys::{self, Answer, DigestAnswer, RowVerdict, Transcript};
use crate::Rules;

/// The row check of q logins of m columns, with segments of these lengths.
pub fn row_check(scratch: &mut [u64], m: usize, q: usize, lens: &[usize], r: &Rules, packed: &[u64], x: &[u64]) -> RowVerdict {
    // SAFETY: here and below each pointer and length are of one slice, and what is written is borrowed as `&mut`.
    unsafe {
        sys::magnetar_row_check(
            scratch.as_mut_ptr(), scratch.len(), m, q, lens.as_ptr(), lens.len(),
            r.shapes, r.row.as_ptr(), r.row.len(), r.col.as_ptr(), r.col.len(), r.lo.as_ptr(), r.lo.len(), r.hi.as_ptr(), r.hi.len(),
            packed.as_ptr(), packed.len(), x.as_ptr(), x.len(),
        )
    }
}

/// The digest of a relation of q logins of m columns.
pub fn relation_digest(m: usize, q: usize, lens: &[usize], r: &Rules) -> DigestAnswer {
    unsafe {
        sys::magnetar_relation_digest(
            m, q, lens.as_ptr(), lens.len(),
            r.shapes, r.row.as_ptr(), r.row.len(), r.col.as_ptr(), r.col.len(), r.lo.as_ptr(), r.lo.len(), r.hi.as_ptr(), r.hi.len(),
        )
    }
}

/// The combined table of m columns.
pub fn build_m_combo(out: &mut [u64], scratch: &mut [u64], m: usize, r: &Rules, alphas: &[u64], pb: &[u64], pf: &[u64]) -> u32 {
    unsafe {
        sys::magnetar_build_m_combo(
            out.as_mut_ptr(), out.len(), scratch.as_mut_ptr(), scratch.len(), m,
            r.shapes, r.row.as_ptr(), r.row.len(), r.col.as_ptr(), r.col.len(), r.lo.as_ptr(), r.lo.len(), r.hi.as_ptr(), r.hi.len(),
            alphas.as_ptr(), alphas.len(), pb.as_ptr(), pb.len(), pf.as_ptr(), pf.len(),
        )
    }
}

/// The prover.
#[allow(clippy::too_many_arguments)]
pub fn prove(
    proof: &mut [u64],
    claims: &mut [u64],
    scratch: &mut [u64],
    m: usize,
    q: usize,
    lens: &[usize],
    r: &Rules,
    packed: &[u64],
    x: &[u64],
    t: Transcript,
) -> Answer {
    unsafe {
        sys::magnetar_prove_virtual_spartan(
            proof.as_mut_ptr(), proof.len(), claims.as_mut_ptr(), claims.len(), scratch.as_mut_ptr(), scratch.len(),
            m, q, lens.as_ptr(), lens.len(),
            r.shapes, r.row.as_ptr(), r.row.len(), r.col.as_ptr(), r.col.len(), r.lo.as_ptr(), r.lo.len(), r.hi.as_ptr(), r.hi.len(),
            packed.as_ptr(), packed.len(), x.as_ptr(), x.len(), t,
        )
    }
}

/// The verifier.
#[allow(clippy::too_many_arguments)]
pub fn verify(
    claims: &mut [u64],
    scratch: &mut [u64],
    m: usize,
    q: usize,
    lens: &[usize],
    r: &Rules,
    x: &[u64],
    proof: &[u64],
    t: Transcript,
) -> Answer {
    unsafe {
        sys::magnetar_verify_virtual_spartan(
            claims.as_mut_ptr(), claims.len(), scratch.as_mut_ptr(), scratch.len(),
            m, q, lens.as_ptr(), lens.len(),
            r.shapes, r.row.as_ptr(), r.row.len(), r.col.as_ptr(), r.col.len(), r.lo.as_ptr(), r.lo.len(), r.hi.as_ptr(), r.hi.len(),
            x.as_ptr(), x.len(), proof.as_ptr(), proof.len(), t,
        )
    }
}
