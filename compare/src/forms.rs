//! A relation and a proof in the Rust's forms. The published files are compiled three times (as they are, with their private functions
//! opened, with given elements in the place of the draws), and each copy has types of its own.
use crate::relation::{Entries, Matrix, Relation};
use crate::rust::elements;
use crate::text::words;

macro_rules! forms {
    ($name:ident, $spartan:ident) => {
        #[allow(dead_code)]
        pub mod $name {
            use super::*;
            use $spartan::{DualRelation, SegmentLayout, SegmentSpec, SparseMatrix, VirtualSpartanProof};

            pub fn matrix(m: &Matrix) -> SparseMatrix {
                SparseMatrix { rows: m.rows, cols: m.cols, entries: m.entries() }
            }

            pub fn relation(r: &Relation) -> DualRelation {
                let [a_bin, b_bin, c_bin, a_fld, b_fld, c_fld] = std::array::from_fn(|k| matrix(&r.matrices[k]));
                DualRelation { m: r.m, a_bin, b_bin, c_bin, a_fld, b_fld, c_fld }
            }

            pub fn layout(w: usize, lens: &[usize]) -> SegmentLayout {
                let spec = |(i, &len)| SegmentSpec { name: format!("s{i}"), len, direct: true };
                SegmentLayout::build(w, lens.iter().enumerate().map(spec).collect())
            }

            /// The proof as document 01 orders its words.
            pub fn flat(p: &VirtualSpartanProof) -> Vec<u64> {
                words(&flat!(p))
            }

            /// Words as a proof, split as document 01 says.
            pub fn split(r: &Relation, proof: &[u64]) -> VirtualSpartanProof {
                let all = elements(proof);
                let mut at = 0;
                let mut take = |n: usize| {
                    at += n;
                    all[at - n..at].to_vec()
                };
                let [s, n, b, f] = [r.q, r.m, r.rows()[0], r.rows()[1]].map(|k| k.trailing_zeros());
                VirtualSpartanProof {
                    outer_shared: (0..s).map(|_| (take(4), take(4))).collect(),
                    outer_bin: (0..b).map(|_| take(4)).collect(),
                    outer_fld: (0..f).map(|_| take(4)).collect(),
                    terminals: take(6).try_into().unwrap(),
                    inner: (0..n).map(|_| take(3)).collect(),
                    v_z: take(1)[0],
                    segment_values: take(r.lens.len()),
                }
            }
        }
    };
}

forms!(plain, magnetar_spartan);
forms!(open, open_spartan);
forms!(scripted, scripted_spartan);

/// The number of the verifier's error.
pub fn number(error: &str) -> u32 {
    match error {
        "vs: shared bin round check failed" => 21,
        "vs: shared fld round check failed" => 22,
        "vs: row bin round failed" => 23,
        "vs: row fld round failed" => 24,
        "vs: bin terminal identity failed" => 25,
        "vs: fld terminal identity failed" => 26,
        "vs: inner round failed" => 27,
        "vs: inner terminal failed" => 28,
        "vs: equation (1) segment identity failed" => 29,
        _ => panic!("an error without a number: {error}"),
    }
}
