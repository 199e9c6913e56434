//! The exported library, with as many words lent as the caller says. Every lent word is marked before a call, so that one that
//! was not written to is seen.
use crate::relation::Relation;
use crate::rust::State;
use crate::text::MARK;
use magnetar::{lent, sys};

fn sent(t: &State) -> sys::Transcript {
    sys::Transcript { state: t.0, squeeze_ctr: t.1 }
}

fn back(t: sys::Transcript) -> State {
    (t.state, t.squeeze_ctr)
}

/// What a run leaves: its number, the transcript and every lent word.
#[derive(PartialEq, Debug)]
pub struct Outcome {
    pub code: u32,
    pub transcript: State,
    pub proof: Vec<u64>,
    pub claims: Vec<u64>,
    pub scratch: Vec<u64>,
}

pub fn verify(r: &Relation, t: &State, proof: &[u64], claims: usize, scratch: usize) -> Outcome {
    let (mut claims, mut scratch) = (vec![MARK; claims], vec![MARK; scratch]);
    let a = lent::verify(&mut claims, &mut scratch, r.m, r.q, &r.lens, &r.rules(), &r.x, proof, sent(t));
    Outcome { code: a.code, transcript: back(a.transcript), proof: vec![], claims, scratch }
}

/// The row check, and the scratch after it.
pub fn row_check(r: &Relation, scratch: usize) -> (sys::RowVerdict, Vec<u64>) {
    let mut scratch = vec![MARK; scratch];
    let a = lent::row_check(&mut scratch, r.m, r.q, &r.lens, &r.rules(), &r.packed, &r.x);
    (a, scratch)
}

pub fn prove(r: &Relation, t: &State, proof: usize, claims: usize, scratch: usize) -> Outcome {
    let (mut proof, mut claims, mut scratch) = (vec![MARK; proof], vec![MARK; claims], vec![MARK; scratch]);
    let a = lent::prove(&mut proof, &mut claims, &mut scratch, r.m, r.q, &r.lens, &r.rules(), &r.packed, &r.x, sent(t));
    Outcome { code: a.code, transcript: back(a.transcript), proof, claims, scratch }
}

pub fn eq_table(point: &[u64], start: [u64; 2], lent: usize) -> (u32, Vec<u64>) {
    let mut out = vec![MARK; lent];
    let start = sys::Element { lo: start[0], hi: start[1] };
    // SAFETY: here and below each pointer and length are of one slice, and what is written is borrowed as `&mut`.
    let code = unsafe { sys::magnetar_eq_build(point.as_ptr(), point.len(), start, out.as_mut_ptr(), out.len()) };
    (code, out)
}

pub fn bind_var(table: &mut [u64], var: usize, r: [u64; 2]) -> u32 {
    unsafe { sys::magnetar_bind_var(table.as_mut_ptr(), table.len(), var, sys::Element { lo: r[0], hi: r[1] }) }
}

pub fn outer_message(e: &[u64], abc: [&[u64]; 3], v: usize, k: [u64; 2], t: [u64; 2]) -> (u32, Vec<u64>) {
    let mut out = vec![MARK; 9];
    let [a, b, c] = abc;
    let code = unsafe {
        sys::magnetar_outer_message(
            out.as_mut_ptr(), out.len(), e.as_ptr(), e.len(), a.as_ptr(), a.len(), b.as_ptr(), b.len(), c.as_ptr(), c.len(), v,
            sys::Element { lo: k[0], hi: k[1] }, sys::Element { lo: t[0], hi: t[1] },
        )
    };
    (code, out)
}

pub fn inner_message(t: &[u64], z: &[u64], v: usize) -> (u32, Vec<u64>) {
    let mut out = vec![MARK; 7];
    let code = unsafe { sys::magnetar_inner_message(out.as_mut_ptr(), out.len(), t.as_ptr(), t.len(), z.as_ptr(), z.len(), v) };
    (code, out)
}
