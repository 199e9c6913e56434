//! Times what public columns of each login's own take, beside the parts that the Rust has for them, on the same batch in one run.
//!
//!     columns M Q ROWS ENTRIES PROOFS TURNS
//!
//! prints a line of the table, the shortest time of each over so many proofs or turns: the products of the six matrices beside `joint_z` and
//! `apply_simd`; the folded public half beside `fold_public_part`; prover and verifier with these columns, and with those of login 0 for all.
//! The fold is what the verifier takes longer with own columns than with equal ones. The products are compared, and each proof has to be
//! accepted. One thread.
use magnetar::{prove, repeat_columns, verify, Matrix, Transcript};
use magnetar_field::Gf128;
use magnetar_spartan::r1cs::SimdInstance;

#[path = "../proofs/case.rs"]
#[allow(dead_code)]
mod case;
#[allow(dead_code)]
#[path = "../../compare/src/random.rs"]
mod random;
#[allow(dead_code)]
#[path = "../../compare/src/text.rs"]
mod text;

use case::{case, matrix, measured, ms, packed, relation, their_relation, NONE};
use random::Random;
use text::words;

fn main() {
    let given: Vec<usize> = std::env::args().skip(1).map(|w| w.parse().expect("a number")).collect();
    let [m, q, rows, entries, proofs, turns] = given[..] else { panic!("columns M Q ROWS ENTRIES PROOFS TURNS") };
    let (c, w, r) = (case(m, q, [rows, rows], entries, 4), m / 2, &mut Random(2));
    let public = SimdInstance { q, m, public: (0..q).map(|_| (0..w - 1).map(|_| Gf128(r.wide())).collect()).collect() };
    let own: Vec<u64> = public.public.iter().flat_map(|x| words(x)).collect();
    let equal = repeat_columns(&words(&public.public[0]), q);
    let (ours, bits, t) = (relation(&c), packed(&c), their_relation(&c));

    let matrices: Vec<Matrix> = (0..6).map(|i| matrix(&c, i)).collect();
    let witnesses: Vec<Vec<Gf128>> = c.packed.chunks(w.div_ceil(128)).map(|row| (0..w).map(|i| Gf128(row[i / 128] >> (i % 128) & 1)).collect()).collect();
    let mut products = [NONE; 2];
    for _ in 0..proofs {
        let found: Vec<Vec<u64>> =
            measured(&mut products[0], || matrices.iter().map(|m| m.apply_simd_packed(&bits, &own, q, w).expect("products").0).collect());
        let expected: Vec<Vec<Gf128>> = measured(&mut products[1], || {
            let z = public.joint_z(&witnesses);
            [&t.a_bin, &t.b_bin, &t.c_bin, &t.a_fld, &t.b_fld, &t.c_fld].iter().map(|m| m.apply_simd(&z, q)).collect()
        });
        assert!(found.iter().zip(&expected).all(|(f, e)| *f == words(e)), "the products differ");
    }

    let start = Transcript::new(b"bench", &[b"columns"]);
    let (mut proving, mut verifying, mut fold) = ([NONE; 2], [NONE; 2], NONE);
    for (k, x) in [&own, &equal].into_iter().enumerate() {
        let mut made = vec![];
        for _ in 0..proofs {
            made = measured(&mut proving[k], || prove(&ours, &bits, x, &mut start.clone())).expect("proved").0;
        }
        for _ in 0..turns {
            measured(&mut verifying[k], || verify(&ours, x, &made, &mut start.clone())).expect("accepted");
        }
    }
    let [inst, low] = [q, w].map(|n| (0..n.trailing_zeros()).map(|_| Gf128(r.wide())).collect::<Vec<_>>());
    for _ in 0..turns {
        measured(&mut fold, || public.fold_public_part(&inst, &low));
    }
    let here = ms(verifying[0]) - ms(verifying[1]);
    println!(
        "| {m} | {q} | {rows} | {entries} | {:.2} ms | {:.2} ms | {:.2} | {here:.2} ms | {:.2} ms | {:.2} | {:.2} ms | {:.2} ms | {:.2} ms | {:.2} ms |",
        ms(products[0]), ms(products[1]), ms(products[0]) / ms(products[1]), ms(fold), here / ms(fold),
        ms(proving[0]), ms(proving[1]), ms(verifying[0]), ms(verifying[1]),
    );
}
