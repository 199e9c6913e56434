//! The Rust's sum-check engine, as the comparison and vectors/sumops.rs call it; answers are in the words of the test programs.
use crate::rust;
use crate::text::*;
use magnetar_field::{is_bit, mul, Gf128, ONE, ZERO};
use magnetar_sumcheck::{BindOrder, PublicFactor, RoundMsg, SumcheckProver, SumcheckSpec, SumcheckVerifier, TableFactor, Term};

pub type Public = Vec<Box<dyn PublicFactor + Send + Sync>>;

pub fn order(high: usize) -> BindOrder {
    if high == 0 { BindOrder::Increasing } else { BindOrder::HighBitsFirst { high } }
}

/// eq (A B + C), as `virtual_spartan.rs` has it.
pub fn outer_terms() -> Vec<Term> {
    vec![
        Term { coeff: ONE, dense: vec![0, 1], public: vec![0] },
        Term { coeff: ONE, dense: vec![2], public: vec![0] },
    ]
}

/// T Z
pub fn inner_terms() -> Vec<Term> {
    vec![Term { coeff: ONE, dense: vec![0], public: vec![0] }]
}

/// A whole sum-check: in each round the prover's message, the verifier's verdict on it, the claim after it and the folded tables, that
/// of the public factor too where it is `shown`; and the messages. The prover with its short cuts for bits has to give the same.
pub fn whole(claim: Gf128, dense: &[Vec<Gf128>], public: &dyn Fn() -> Public, terms: Vec<Term>, high: usize, r: &[Gf128], shown: bool) -> (Vec<String>, Vec<Vec<Gf128>>) {
    let order = order(high);
    let spec = SumcheckSpec { num_vars: r.len(), dense: dense.to_vec(), public: public(), terms: terms.clone(), claim };
    let bits = dense.iter().map(|d| d.iter().all(|x| is_bit(*x))).collect();
    let mut prover = SumcheckProver::new(&spec, order);
    let mut with_bits = SumcheckProver::with_dense_bits(&spec, order, bits);
    let factors = public();
    let mut verifier = SumcheckVerifier::new(r.len(), claim, &factors, terms, order);
    let (mut good, mut running, mut lines, mut messages) = (true, claim, vec![], vec![]);
    for &x in r {
        let message = prover.message();
        assert_eq!(message, with_bits.message());
        let holds = verifier.round_external(&message, x).is_ok();
        prover.fold(x);
        with_bits.fold(x);
        assert_eq!(prover.dense_tables(), with_bits.dense_tables());
        good &= holds;
        if holds {
            running = prover.running();
        }
        lines.push(format!("= {} {holds} {}", elements(&message.0), elements(&[running])));
        if shown {
            lines.push(format!("= {}", elements(&prover.debug_public_state().0[0])));
        }
        lines.extend(prover.dense_tables().iter().map(|t| format!("= {}", elements(t))));
        messages.push(message.0);
    }
    let (claims, _) = prover.finish();
    let mut end = vec![factors[0].eval_at(&order.point(r.len(), r))];
    end.extend(&claims);
    lines.push(format!("= {} {}", elements(&end), good && verifier.finish(&claims).is_ok()));
    (lines, messages)
}

/// One message of any degree in a sum-check of one variable: `call` gives it to the verifier, which answers with the challenge. The
/// verifier hands out no claim, but confirms the message's value. The claim after it, and the challenge.
fn message_of(message: &[Gf128], claim: Gf128, call: impl FnOnce(&mut SumcheckVerifier, &RoundMsg) -> Option<Gf128>) -> (Gf128, Option<Gf128>) {
    let terms = vec![Term { coeff: ONE, dense: vec![0; message.len() - 1], public: vec![] }];
    let mut verifier = SumcheckVerifier::new(1, claim, &[], terms, BindOrder::Increasing);
    let Some(r) = call(&mut verifier, &RoundMsg(message.to_vec())) else { return (claim, None) };
    let next = message.iter().rev().fold(ZERO, |acc, c| mul(acc, r) + *c);
    if message.len() > 1 {
        assert!(verifier.finish_offset(&[ZERO], next).is_ok());
    }
    (next, Some(r))
}

/// A round with the challenge from outside.
pub fn round(message: &[Gf128], claim: Gf128, r: Gf128) -> String {
    let (next, drawn) = message_of(message, claim, |v, m| v.round_external(m, r).ok().map(|()| r));
    format!("= {} {}", drawn.is_some(), elements(&[next]))
}

/// A round that draws its challenge: it is 0 after a wrong message, which leaves the transcript.
pub fn capture(t: &rust::State, label: &str, message: &[Gf128], claim: Gf128) -> String {
    let mut u = rust::transcript(t);
    let (next, drawn) = message_of(message, claim, |v, m| v.round_capturing(m, &mut u, label).ok());
    format!("= {} {} {}", drawn.is_some(), elements(&[next, drawn.unwrap_or(ZERO)]), state(&rust::state(&u)))
}

/// The terminal identity alone, that of a sum-check of no variable: the running claim, the public factor's value and the tables'.
pub fn end(terms: Vec<Term>, values: &[Gf128]) -> bool {
    let factors: Public = vec![Box::new(TableFactor::new(vec![values[1]]))];
    SumcheckVerifier::new(0, values[0], &factors, terms, BindOrder::Increasing).finish(&values[2..]).is_ok()
}
