//! Both ends where each login has public columns of its own, by the Rust's published parts. Its own two functions take one set of columns
//! for all logins. A macro: each copy of the published files has types of its own.
macro_rules! own {
    ($name:ident, $spartan:ident, $sumcheck:ident, $hash:ident) => {
        #[allow(dead_code)]
        pub mod $name {
            use magnetar_field::{eval_mle, mul, Gf128, ONE, ZERO};
            use $hash::Transcript;
            use $spartan::r1cs::{fold_instances, SimdInstance};
            use $spartan::{verify_virtual_spartan, DualRelation, SegmentClaim, SegmentLayout, SparseMatrix, VirtualSpartanProof};
            use $sumcheck::{BindOrder, EqFactor, PublicFactor, RoundMsg, SumcheckProver, SumcheckSpec, TableFactor, Term};

            fn log2(n: usize) -> usize {
                n.trailing_zeros() as usize
            }

            /// A, B, C of bin, then of fld.
            pub fn systems(rel: &DualRelation) -> [[&SparseMatrix; 3]; 2] {
                [[&rel.a_bin, &rel.b_bin, &rel.c_bin], [&rel.a_fld, &rel.b_fld, &rel.c_fld]]
            }

            /// z of every login, one behind the other.
            pub fn joint_z(public: &SimdInstance, packed: &[u128]) -> Vec<Gf128> {
                let w = public.m / 2;
                let bits = |row: &[u128]| (0..w).map(|c| Gf128(row[c / 128] >> (c % 128) & 1)).collect();
                public.joint_z(&packed.chunks(w.div_ceil(128)).map(bits).collect::<Vec<_>>())
            }

            /// The (1, x) half folded over the logins, column by column.
            pub fn public_half(public: &SimdInstance, inst: &[Gf128]) -> Vec<Gf128> {
                let column = |j: usize| public.public.iter().map(|x| if j == 0 { ONE } else { x[j - 1] }).collect::<Vec<_>>();
                (0..public.m / 2).map(|j| fold_instances(&column(j), inst)).collect()
            }

            /// The challenges r_inst and r_low of the words of a proof.
            pub fn challenges(rel: &DualRelation, q: usize, p: &VirtualSpartanProof, t: &mut Transcript) -> (Vec<Gf128>, Vec<Gf128>) {
                t.challenge_field_vec("vs-tau-bin", log2(q) + log2(rel.a_bin.rows));
                t.challenge_field_vec("vs-tau-fld", log2(q) + log2(rel.a_fld.rows));
                let drawn = |t: &mut Transcript, label: &str, message: &[Gf128]| {
                    t.absorb_field(label, message);
                    t.challenge_field(label)
                };
                let mut inst = vec![];
                for (i, (bin, fld)) in p.outer_shared.iter().enumerate() {
                    inst.insert(0, drawn(t, &format!("vs-out-shared-{i}"), &[&bin[..], fld].concat()));
                }
                for (name, rounds) in [("rowbin", &p.outer_bin), ("rowfld", &p.outer_fld)] {
                    for (i, message) in rounds.iter().enumerate() {
                        drawn(t, &format!("vs-out-{name}-{i}"), message);
                    }
                }
                for (i, v) in p.terminals.iter().enumerate() {
                    t.absorb_field(&format!("vs-terminal-{i}"), &[*v]);
                }
                t.challenge_field_vec("vs-alpha", 6);
                let mut low: Vec<Gf128> = p.inner.iter().map(|message| drawn(t, "vs-inner", message)).collect();
                low.pop();
                (inst, low)
            }

            /// The elements of the claims as document 01 orders them, r_inst, r_low and the segment values; the Rust's claims are compared
            /// with them, which hold no more of r_low than their segments have variables.
            pub fn claims(rel: &DualRelation, q: usize, p: &VirtualSpartanProof, t: &mut Transcript, theirs: &[SegmentClaim]) -> Vec<Gf128> {
                let (inst, low) = challenges(rel, q, p, t);
                assert_eq!(theirs.len(), p.segment_values.len());
                for (i, c) in theirs.iter().enumerate() {
                    assert!(c.segment == i && c.r_inst == inst && c.r_local == low[..c.r_local.len()] && c.value == p.segment_values[i]);
                }
                [inst, low, p.segment_values.clone()].concat()
            }

            /// The Rust's verifier on the columns folded at r_inst: it reads them after that draw alone, and only as their sum, which is
            /// `fold_public_part`.
            pub fn verify(
                rel: &DualRelation, layout: &SegmentLayout, public: &SimdInstance, p: &VirtualSpartanProof, t: &mut Transcript,
            ) -> Result<Vec<SegmentClaim>, &'static str> {
                let (inst, low) = challenges(rel, public.q, p, &mut t.clone());
                let half = public_half(public, &inst);
                assert_eq!(eval_mle(&half, &low), public.fold_public_part(&inst, &low));
                verify_virtual_spartan(rel, layout, public.q, &half[1..], p, t)
            }

            type Factor = Box<dyn PublicFactor + Send + Sync>;

            fn prover(dense: Vec<Vec<Gf128>>, factor: Factor, terms: &[&[usize]], claim: Gf128, order: BindOrder) -> SumcheckProver {
                let terms = terms.iter().map(|d| Term { coeff: ONE, dense: d.to_vec(), public: vec![0] }).collect();
                let (num_vars, bits) = (log2(dense[0].len()), vec![false; dense.len()]);
                SumcheckProver::with_dense_bits(&SumcheckSpec { num_vars, dense, public: vec![factor], terms, claim }, order, bits)
            }

            /// A round of some provers with one challenge: it, and their messages.
            fn round(provers: &mut [&mut SumcheckProver], t: &mut Transcript, label: &str) -> (Gf128, Vec<Vec<Gf128>>) {
                let messages: Vec<Vec<Gf128>> = provers.iter().map(|p| p.message().0).collect();
                t.absorb_field(label, &messages.concat());
                let r = t.challenge_field(label);
                for (p, m) in provers.iter_mut().zip(&messages) {
                    p.fold_msg(&RoundMsg(m.clone()), r);
                }
                (r, messages)
            }

            /// The prover, in the order of `prove_virtual_spartan`.
            pub fn prove(
                rel: &DualRelation, layout: &SegmentLayout, packed: &[u128], public: &SimdInstance, t: &mut Transcript,
            ) -> (VirtualSpartanProof, Vec<SegmentClaim>) {
                let (q, m, systems, z) = (public.q, rel.m, systems(rel), joint_z(public, packed));
                let s = log2(q);
                let taus = [("vs-tau-bin", 0), ("vs-tau-fld", 1)].map(|(label, k)| t.challenge_field_vec(label, s + log2(systems[k][0].rows)));
                let [mut bin, mut fld] = [0, 1].map(|k| {
                    let tables = systems[k].iter().map(|m| m.apply_simd(&z, q)).collect();
                    prover(tables, Box::new(EqFactor::new(taus[k].clone())), &[&[0, 1], &[2]], ZERO, BindOrder::HighBitsFirst { high: s })
                });
                let (mut inst, mut outer_shared) = (vec![], vec![]);
                for i in 0..s {
                    let (r, messages) = round(&mut [&mut bin, &mut fld], t, &format!("vs-out-shared-{i}"));
                    inst.insert(0, r);
                    outer_shared.push((messages[0].clone(), messages[1].clone()));
                }
                let mut rows = |p: &mut SumcheckProver, name: &str, n: usize| -> (Vec<Gf128>, Vec<Vec<Gf128>>) {
                    (0..n).map(|i| round(&mut [&mut *p], t, &format!("vs-out-{name}-{i}"))).map(|(r, mut m)| (r, m.remove(0))).unzip()
                };
                let (row_bin, outer_bin) = rows(&mut bin, "rowbin", log2(rel.a_bin.rows));
                let (row_fld, outer_fld) = rows(&mut fld, "rowfld", log2(rel.a_fld.rows));
                let terminals: [Gf128; 6] = [bin.finish().0, fld.finish().0].concat().try_into().unwrap();
                for (i, v) in terminals.iter().enumerate() {
                    t.absorb_field(&format!("vs-terminal-{i}"), &[*v]);
                }
                let alphas = t.challenge_field_vec("vs-alpha", 6);
                let claim = (0..6).fold(ZERO, |acc, k| acc + mul(alphas[k], terminals[k]));
                let mut combined = vec![ZERO; m];
                for (k, matrix) in systems.concat().into_iter().enumerate() {
                    for (c, v) in combined.iter_mut().zip(matrix.eval_mle_table([&row_bin, &row_fld][k / 3])) {
                        *c = *c + mul(alphas[k], v);
                    }
                }
                let folded: Vec<Gf128> = (0..m).map(|y| fold_instances(&(0..q).map(|u| z[u * m + y]).collect::<Vec<_>>(), &inst)).collect();
                let mut last = prover(vec![folded.clone()], Box::new(TableFactor::new(combined)), &[&[0]], claim, BindOrder::Increasing);
                let (mut low, inner): (Vec<Gf128>, Vec<Vec<Gf128>>) =
                    (0..log2(m)).map(|_| round(&mut [&mut last], t, "vs-inner")).map(|(r, mut m)| (r, m.remove(0))).unzip();
                low.pop();
                let v_z = last.finish().0[0];
                t.absorb_field("vs-vz", &[v_z]);
                let value = |i: usize| eval_mle(&folded[layout.offsets[i]..layout.offsets[i] + layout.specs[i].len], &low[..layout.local_vars(i)]);
                let segment_values: Vec<Gf128> = (0..layout.len()).map(value).collect();
                for (i, v) in segment_values.iter().enumerate() {
                    t.absorb_field(&format!("vs-seg-{i}"), &[*v]);
                }
                let claim = |i: usize| {
                    let (r_inst, r_local) = (inst.clone(), low[..layout.local_vars(i)].to_vec());
                    SegmentClaim { segment: i, r_inst, r_local, value: segment_values[i] }
                };
                let claims = (0..layout.len()).map(claim).collect();
                (VirtualSpartanProof { outer_shared, outer_bin, outer_fld, terminals, inner, v_z, segment_values }, claims)
            }
        }
    };
}

own!(plain, magnetar_spartan, magnetar_sumcheck, magnetar_hash);
own!(scripted, scripted_spartan, scripted_sumcheck, scripted_hash);
