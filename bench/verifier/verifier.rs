//! Times the verifier of this build and of an earlier one in one program, in turn, beside the Rust's, on the same proof.
//!
//!     verifier M Q ROWS_BIN ROWS_FLD ENTRIES SEGMENTS PROOFS TURNS
//!
//! prints a line of the table: the shortest time of each over so many turns, both ratios to the Rust's, how many words of scratch each build
//! is lent, and the memory that each took at most beside its inputs. Claims and scratch are allocated within the time that is measured.
//! The proof is this build's, once, whatever PROOFS says. All logins have the same public columns. One thread.
use magnetar::sys::{Answer, Shapes};
use magnetar::{lent, prove, repeat_columns, Rules, Transcript};
use magnetar_field::Gf128;
use magnetar_spartan::VirtualSpartanProof;

#[path = "../proofs/case.rs"]
mod case;
#[allow(dead_code)]
#[path = "../../compare/src/random.rs"]
mod random;
#[allow(dead_code)]
#[path = "../../compare/src/text.rs"]
mod text;

use case::{case, measured, mib, ms, packed, relation, their_layout, their_relation, Case, NONE};
use text::words;

extern "C" {
    /// `magnetar_verify_virtual_spartan` of the earlier build, under another name.
    fn before_verify_virtual_spartan(
        claims: *mut u64, claims_len: usize,
        scratch: *mut u64, scratch_len: usize,
        m: usize, q: usize,
        lens: *const usize, lens_len: usize,
        shapes: Shapes,
        row: *const usize, row_len: usize, col: *const usize, col_len: usize,
        lo: *const u64, lo_len: usize, hi: *const u64, hi_len: usize,
        x: *const u64, x_len: usize,
        proof: *const u64, proof_len: usize,
        t: Transcript,
    ) -> Answer;
}

#[allow(clippy::too_many_arguments)]
fn before(
    claims: &mut [u64], scratch: &mut [u64], m: usize, q: usize, lens: &[usize], r: &Rules, x: &[u64], proof: &[u64], t: Transcript,
) -> Answer {
    // SAFETY: each pointer and length are of one slice, and what is written is borrowed as `&mut`.
    unsafe {
        before_verify_virtual_spartan(
            claims.as_mut_ptr(), claims.len(), scratch.as_mut_ptr(), scratch.len(),
            m, q, lens.as_ptr(), lens.len(),
            r.shapes, r.row.as_ptr(), r.row.len(), r.col.as_ptr(), r.col.len(), r.lo.as_ptr(), r.lo.len(), r.hi.as_ptr(), r.hi.len(),
            x.as_ptr(), x.len(), proof.as_ptr(), proof.len(), t,
        )
    }
}

fn log2(n: usize) -> usize {
    n.trailing_zeros() as usize
}

/// The words of a proof in the Rust's form.
fn split(c: &Case, proof: &[u64]) -> VirtualSpartanProof {
    let mut all = proof.chunks(2).map(|w| Gf128(w[0] as u128 | (w[1] as u128) << 64));
    let mut take = |n: usize| -> Vec<Gf128> { all.by_ref().take(n).collect() };
    VirtualSpartanProof {
        outer_shared: (0..log2(c.q)).map(|_| (take(4), take(4))).collect(),
        outer_bin: (0..log2(c.rows[0])).map(|_| take(4)).collect(),
        outer_fld: (0..log2(c.rows[1])).map(|_| take(4)).collect(),
        terminals: take(6).try_into().unwrap(),
        inner: (0..log2(c.m)).map(|_| take(3)).collect(),
        v_z: take(1)[0],
        segment_values: take(c.lens.len()),
    }
}

fn main() {
    let given: Vec<usize> = std::env::args().skip(1).map(|w| w.parse().expect("a number")).collect();
    let [m, q, rb, rf, entries, segments, _, turns] = given[..] else {
        panic!("verifier M Q ROWS_BIN ROWS_FLD ENTRIES SEGMENTS PROOFS TURNS")
    };
    let c = case(m, q, [rb, rf], entries, segments);
    let r = relation(&c);
    let x = repeat_columns(&words(&c.x), q);
    let start = Transcript::new(b"bench", &[b"case"]);
    let (theirs, layout) = (their_relation(&c), their_layout(&c));
    let their_start = magnetar_hash::Transcript::new("bench", &[b"case"]);
    let mut end = start;
    let (proof, _) = prove(&r, &packed(&c), &x, &mut end).expect("proved");
    let their_proof = split(&c, &proof);
    let now = r.verifier_scratch().expect("a number of words");
    let former = 4 * m + 4 * rb.max(rf) + 2 * q;
    let mut cost = [NONE; 3];
    for turn in 0..turns {
        // which of the two builds goes first changes from turn to turn
        let run = |k: usize, cost: &mut [case::Cost; 3]| {
            let (call, n): (fn(&mut [u64], &mut [u64], usize, usize, &[usize], &Rules, &[u64], &[u64], Transcript) -> Answer, usize) =
                if k == 0 { (before, former) } else { (lent::verify, now) };
            measured(&mut cost[k], || {
                let (mut claims, mut scratch) = (vec![0; r.claim_words()], vec![0; n]);
                let answer = call(&mut claims, &mut scratch, m, q, &c.lens, &r.rules, &x, &proof, start);
                assert!(answer.code == 0 && scratch.iter().all(|&w| w == 0), "not accepted, or scratch is left");
                (claims, answer.transcript.state)
            })
        };
        let one = run(turn % 2, &mut cost);
        let other = run(1 - turn % 2, &mut cost);
        assert!(one == other && one.1 == end.state, "claims or transcripts differ");
        let mut u = their_start.clone();
        let verdict =
            measured(&mut cost[2], || magnetar_spartan::verify_virtual_spartan(&theirs, &layout, q, &c.x, &their_proof, &mut u));
        assert!(verdict.is_ok() && u.state_digest() == end.state, "the Rust's verdict or transcript differs");
    }
    let [a, b, t] = cost;
    let rows = if rb == rf { format!("{rb}") } else { format!("{rb}, {rf}") };
    println!(
        "| {m} | {q} | {rows} | {entries} | {:.2} ms | {:.2} ms | {:.2} ms | {:.2} | {:.2} | {:.3} | {former} | {now} | {:.2} MiB | {:.2} MiB | {:.2} MiB |",
        ms(a), ms(b), ms(t), ms(a) / ms(t), ms(b) / ms(t), ms(b) / ms(a), mib(a), mib(b), mib(t),
    );
}
