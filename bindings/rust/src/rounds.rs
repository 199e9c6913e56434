//! Rounds of both sum-checks: the prover's messages and the verifier's checks.
use crate::sys::{self, Element, Transcript};
use crate::Refusal;

/// The message of a round of the outer sum-check that binds variable `v` of a, b and c: four coefficients, that of 1 first.
/// `e` is the eq table over the variables that stay, `k` the product of 1 + tau_j + r_j over those that are bound, `t` the tau of v.
pub fn outer_message(
    e: &[u64],
    a: &[u64],
    b: &[u64],
    c: &[u64],
    v: usize,
    k: Element,
    t: Element,
) -> Result<[u64; 8], Refusal> {
    let mut out = [0; 8];
    // SAFETY: here and below each pointer and length are of one slice, and what is written is borrowed as `&mut`.
    Refusal::check(unsafe {
        sys::magnetar_outer_message(
            out.as_mut_ptr(), out.len(), e.as_ptr(), e.len(), a.as_ptr(), a.len(), b.as_ptr(), b.len(), c.as_ptr(), c.len(), v, k, t,
        )
    })?;
    Ok(out)
}

/// The message of a round of the inner sum-check that binds variable `v` of t and z: three coefficients.
pub fn inner_message(t: &[u64], z: &[u64], v: usize) -> Result<[u64; 6], Refusal> {
    let mut out = [0; 6];
    Refusal::check(unsafe {
        sys::magnetar_inner_message(out.as_mut_ptr(), out.len(), t.as_ptr(), t.len(), z.as_ptr(), z.len(), v)
    })?;
    Ok(out)
}

/// A round of the verifier: where the message of n coefficients (4 of the outer sum-check, 3 of the inner one) adds up to the running
/// claim, the next claim, which is its value at the challenge r; else nothing, and the claim stays.
pub fn round_external(msg: &[u64], n: usize, claim: Element, r: Element) -> Result<Option<Element>, Refusal> {
    let round = unsafe { sys::magnetar_round_external(msg.as_ptr(), msg.len(), n, claim, r) };
    Refusal::check(round.code)?;
    Ok(round.holds.then_some(round.claim))
}

/// The same, but the challenge is drawn: where the message adds up, the next claim and the challenge. The message is then absorbed and the
/// challenge drawn, both under the label; any other message leaves the transcript.
pub fn round_capturing(
    msg: &[u64],
    n: usize,
    claim: Element,
    t: &mut Transcript,
    label: &[u8],
) -> Result<Option<(Element, Element)>, Refusal> {
    let round = unsafe { sys::magnetar_round_capturing(msg.as_ptr(), msg.len(), n, claim, *t, label.as_ptr(), label.len()) };
    *t = round.transcript;
    Refusal::check(round.code)?;
    Ok(round.holds.then_some((round.claim, round.challenge)))
}
