//! Times prover and verifier beside the Rust's, on the same batch in one run, and compares proofs, claims, verdicts and transcripts.
//!
//!     proofs M Q ROWS_BIN ROWS_FLD ENTRIES SEGMENTS PROOFS TURNS
//!
//! prints a line of the table: the shortest time of each side over so many proofs and so many turns of the verifiers, the
//! ratio, and the memory that each side took at most beside its inputs. Proof, claims and scratch are allocated within the time
//! that is measured. All logins have the same public columns. One thread.
use magnetar::{prove, repeat_columns, verify, Claims, Transcript};
use magnetar_spartan::SegmentClaim;

mod case;
#[macro_use]
#[path = "../../compare/src/flat.rs"]
mod flat;
#[allow(dead_code)]
#[path = "../../compare/src/random.rs"]
mod random;
#[allow(dead_code)]
#[path = "../../compare/src/text.rs"]
mod text;

use case::{case, element, measured, mib, ms, packed, relation, their_layout, their_relation, NONE};
use text::words;

/// Whether our claims are the Rust's, of which each holds as much of r_low as its segment has variables.
fn same(ours: &Claims, theirs: &[SegmentClaim]) -> bool {
    2 * theirs.len() == ours.values.len()
        && theirs.iter().enumerate().all(|(i, c)| {
            let local = words(&c.r_local);
            c.segment == i
                && words(&c.r_inst) == ours.r_inst
                && local[..] == ours.r_low[..local.len()]
                && words(&[c.value])[..] == ours.values[2 * i..2 * i + 2]
        })
}

/// Whether two transcripts are the same: their states, and what they draw next.
fn agree(ours: &Transcript, theirs: &magnetar_hash::Transcript) -> bool {
    let (mut a, mut b) = (*ours, theirs.clone());
    ours.state == theirs.state_digest() && a.challenge_field(b"end") == Ok(element(b.challenge_field("end")))
}

fn main() {
    let given: Vec<usize> = std::env::args().skip(1).map(|w| w.parse().expect("a number")).collect();
    let [m, q, rb, rf, entries, segments, proofs, turns] = given[..] else {
        panic!("proofs M Q ROWS_BIN ROWS_FLD ENTRIES SEGMENTS PROOFS TURNS")
    };
    let c = case(m, q, [rb, rf], entries, segments);
    let r = relation(&c);
    let x = repeat_columns(&words(&c.x), q);
    let start = Transcript::new(b"bench", &[b"case"]);
    let (theirs, layout) = (their_relation(&c), their_layout(&c));
    let their_start = magnetar_hash::Transcript::new("bench", &[b"case"]);
    let packed = packed(&c);
    let mut proving = [NONE; 2];
    let mut made = None;
    for _ in 0..proofs {
        let mut t = start;
        let (proof, claims) = measured(&mut proving[0], || prove(&r, &packed, &x, &mut t)).expect("proved");
        let mut u = their_start.clone();
        let (their_proof, their_claims) = measured(&mut proving[1], || {
            magnetar_spartan::prove_virtual_spartan(&theirs, &layout, &c.packed, &c.x, q, &mut u)
        });
        assert!(proof == words(&flat!(&their_proof)), "the proofs differ");
        assert!(same(&claims, &their_claims) && agree(&t, &u), "the provers' claims or transcripts differ");
        made = Some((proof, their_proof));
    }
    let (proof, their_proof) = made.expect("at least one proof");
    let mut cost = [NONE; 2];
    for _ in 0..turns {
        let mut t = start;
        let claims = measured(&mut cost[0], || verify(&r, &x, &proof, &mut t)).expect("accepted");
        let mut u = their_start.clone();
        let their_verdict =
            measured(&mut cost[1], || magnetar_spartan::verify_virtual_spartan(&theirs, &layout, q, &c.x, &their_proof, &mut u));
        assert!(same(&claims, &their_verdict.expect("the Rust accepts")) && agree(&t, &u), "the claims or transcripts differ");
    }
    let mut bad = proof.clone();
    bad[0] ^= 1;
    assert!(verify(&r, &x, &bad, &mut start.clone()).is_err(), "a wrong proof is accepted");
    let rows = if rb == rf { format!("{rb}") } else { format!("{rb}, {rf}") };
    println!(
        "| {m} | {q} | {rows} | {entries} | {:.2} ms | {:.2} ms | {:.2} | {:.1} MiB | {:.1} MiB | {:.2} ms | {:.2} ms | {:.2} | {:.1} MiB | {:.1} MiB |",
        ms(proving[0]), ms(proving[1]), ms(proving[0]) / ms(proving[1]), mib(proving[0]), mib(proving[1]),
        ms(cost[0]), ms(cost[1]), ms(cost[0]) / ms(cost[1]), mib(cost[0]), mib(cost[1]),
    );
}
