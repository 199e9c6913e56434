//! The proved library behind safe functions, which allocate what the library is to be lent.
//!
//! # What a caller must bind
//!
//! Neither [`prove`] nor [`verify`] absorbs the relation, the public elements or a commitment to the bits. So before the run, at both ends
//! and in the same order, absorb into the transcript
//!
//! 1. the relation's digest, [`relation_digest`],
//! 2. the words of the public elements of every login,
//! 3. the commitment to the packed words,
//!
//! and after a proof was accepted check its [`Claims`] against the commitment. A transcript without these three lets someone choose them
//! after the challenges are known, so that a proof is accepted for a batch that is not good. The commitment scheme is not part of this
//! library.
//!
//! # Words
//!
//! Elements are of GF(2)[x] / (x^128 + x^7 + x^2 + x + 1). A point, a vector or a table of elements is a slice of words, two an element,
//! the low one first. A table of 2^n elements has 2^(n+1) words; entry i is the value at the bits of i, bit 0 that of variable 0.
//!
//! The public words `x` of q logins with m columns are the m / 2 - 1 public elements of each login, login after login: q (m - 2) words.
//! [`repeat_columns`] makes them where all logins have the same.
mod hash;
pub mod lent;
mod matrix;
mod refusal;
mod rounds;
mod run;
pub mod sys;
mod tables;

pub use hash::sha3_256;
pub use matrix::Matrix;
pub use refusal::Refusal;
pub use rounds::{inner_message, outer_message, round_capturing, round_external};
pub use run::{
    build_m_combo, fold_packed_w, layout_build, prove, relation_digest, repeat_columns, row_check, verify, Claims, Relation, RowCheck, Rules,
};
pub use sys::{Digest, Element, Shape, Shapes, SystemShape, Transcript};
pub use tables::{bind_var, drop_var, eq_build, eval_mle, fold_instances, mul, words};

/// Past every limit: the library refuses such sizes before it looks at what it is lent.
const MOST: usize = 1 << 25;

/// So many words 0 to lend, where they can be counted.
fn room(words: Option<usize>) -> Vec<u64> {
    vec![0; words.filter(|&n| n <= MOST).unwrap_or(0)]
}

/// The greatest k with 2^k at most n, 0 for 0.
fn log(n: usize) -> usize {
    n.checked_ilog2().unwrap_or(0) as usize
}
