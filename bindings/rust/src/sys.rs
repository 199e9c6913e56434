//! The functions of libmagnetar_c.a as they are exported. A slice is a pointer and a length; the pointer is not null,
//! aligned, and good for so many elements, and what is lent for writing overlaps nothing else.

/// An element of the field: bit i of the low word is the coefficient of x^i, bit i of the high one that of x^(64+i).
#[repr(C)]
#[derive(Clone, Copy, Debug, Default, PartialEq, Eq)]
pub struct Element {
    pub lo: u64,
    pub hi: u64,
}

#[repr(C)]
#[derive(Clone, Copy, Debug, PartialEq, Eq)]
pub struct Transcript {
    pub state: [u8; 32],
    pub squeeze_ctr: u64,
}

#[repr(C)]
#[derive(Clone, Copy, Debug, PartialEq, Eq)]
pub struct Answer {
    pub code: u32,
    pub transcript: Transcript,
}

#[repr(C)]
#[derive(Clone, Copy, Debug, PartialEq, Eq)]
pub struct Draw {
    pub code: u32,
    pub element: Element,
    pub transcript: Transcript,
}

/// `element` is 0 where the call is refused.
#[repr(C)]
#[derive(Clone, Copy, Debug, PartialEq, Eq)]
pub struct Value {
    pub code: u32,
    pub element: Element,
}

/// `yes` is false where the call is refused.
#[repr(C)]
#[derive(Clone, Copy, Debug, PartialEq, Eq)]
pub struct Flag {
    pub code: u32,
    pub yes: bool,
}

/// What a round of the verifier leaves: whether the message adds up, and the running claim.
#[repr(C)]
#[derive(Clone, Copy, Debug, PartialEq, Eq)]
pub struct Round {
    pub code: u32,
    pub holds: bool,
    pub claim: Element,
}

/// The same of a round that draws: `challenge` is 0 where none is drawn.
#[repr(C)]
#[derive(Clone, Copy, Debug, PartialEq, Eq)]
pub struct Capture {
    pub code: u32,
    pub holds: bool,
    pub claim: Element,
    pub challenge: Element,
    pub transcript: Transcript,
}

/// A hash.
#[repr(C)]
#[derive(Clone, Copy, Debug, PartialEq, Eq)]
pub struct Digest {
    pub bytes: [u8; 32],
}

/// `digest` is 32 bytes 0 where the call is refused.
#[repr(C)]
#[derive(Clone, Copy, Debug, PartialEq, Eq)]
pub struct DigestAnswer {
    pub code: u32,
    pub digest: Digest,
}

/// `system` is 0 where the batch is good, 1 for a row of bin, 2 for one of fld, 3 where the call is refused, 4 for a stray bit at `column`.
/// What is not there is 0.
#[repr(C)]
#[derive(Clone, Copy, Debug, PartialEq, Eq)]
pub struct RowVerdict {
    pub code: u32,
    pub system: u32,
    pub login: usize,
    pub row: usize,
    pub column: usize,
}

/// A matrix: how many rows, columns and entries it has.
#[repr(C)]
#[derive(Clone, Copy, Debug, Default, PartialEq, Eq)]
pub struct Shape {
    pub rows: usize,
    pub cols: usize,
    pub entries: usize,
}

#[repr(C)]
#[derive(Clone, Copy, Debug, Default, PartialEq, Eq)]
pub struct SystemShape {
    pub a: Shape,
    pub b: Shape,
    pub c: Shape,
}

/// The matrices of both systems. Their entries are lent one behind the other in four slices: A, B, C of bin, then A, B, C of fld.
#[repr(C)]
#[derive(Clone, Copy, Debug, Default, PartialEq, Eq)]
pub struct Shapes {
    pub bin: SystemShape,
    pub fld: SystemShape,
}

#[link(name = "magnetar_c", kind = "static")]
extern "C" {
    pub fn magnetar_mul(a: Element, b: Element) -> Element;
    pub fn magnetar_eq_build(point: *const u64, point_len: usize, start: Element, out: *mut u64, out_len: usize) -> u32;
    pub fn magnetar_eval_mle(
        values: *const u64, values_len: usize,
        point: *const u64, point_len: usize,
        scratch: *mut u64, scratch_len: usize,
    ) -> Value;
    pub fn magnetar_fold_instances(
        vector: *const u64, vector_len: usize,
        point: *const u64, point_len: usize,
        scratch: *mut u64, scratch_len: usize,
    ) -> Value;
    pub fn magnetar_bind_var(table: *mut u64, table_len: usize, var: usize, r: Element) -> u32;
    pub fn magnetar_drop_var(table: *mut u64, table_len: usize, v: usize) -> u32;
    pub fn magnetar_outer_message(
        out: *mut u64, out_len: usize,
        e: *const u64, e_len: usize,
        a: *const u64, a_len: usize,
        b: *const u64, b_len: usize,
        c: *const u64, c_len: usize,
        v: usize,
        k: Element,
        t: Element,
    ) -> u32;
    pub fn magnetar_inner_message(
        out: *mut u64, out_len: usize,
        t: *const u64, t_len: usize,
        z: *const u64, z_len: usize,
        v: usize,
    ) -> u32;
    pub fn magnetar_round_external(msg: *const u64, msg_len: usize, n: usize, claim: Element, r: Element) -> Round;
    pub fn magnetar_round_capturing(
        msg: *const u64, msg_len: usize,
        n: usize,
        claim: Element,
        t: Transcript,
        label: *const u8, label_len: usize,
    ) -> Capture;
    pub fn magnetar_sha3_256(message: *const u8, message_len: usize) -> Digest;
    pub fn magnetar_transcript_new(
        protocol: *const u8, protocol_len: usize,
        public: *const u8, public_len: usize,
        lens: *const usize, lens_len: usize,
    ) -> Answer;
    pub fn magnetar_absorb_bytes(
        t: Transcript,
        label: *const u8, label_len: usize,
        bytes: *const u8, bytes_len: usize,
    ) -> Answer;
    pub fn magnetar_absorb_u64(t: Transcript, label: *const u8, label_len: usize, v: u64) -> Answer;
    pub fn magnetar_absorb_digest(t: Transcript, label: *const u8, label_len: usize, d: Digest) -> Answer;
    pub fn magnetar_absorb_field(
        t: Transcript,
        label: *const u8, label_len: usize,
        words: *const u64, words_len: usize,
    ) -> Answer;
    pub fn magnetar_challenge_field(t: Transcript, label: *const u8, label_len: usize) -> Draw;
    pub fn magnetar_challenge_field_vec(
        t: Transcript,
        label: *const u8, label_len: usize,
        n: usize,
        out: *mut u64, out_len: usize,
    ) -> Answer;
    pub fn magnetar_layout_build(
        w: usize,
        lens: *const usize, lens_len: usize,
        offsets: *mut usize, offsets_len: usize,
    ) -> u32;
    pub fn magnetar_apply(
        rows: usize, cols: usize,
        row: *const usize, row_len: usize, col: *const usize, col_len: usize,
        lo: *const u64, lo_len: usize, hi: *const u64, hi_len: usize,
        z: *const u64, z_len: usize,
        out: *mut u64, out_len: usize,
    ) -> u32;
    pub fn magnetar_eval_mle_table(
        rows: usize, cols: usize,
        row: *const usize, row_len: usize, col: *const usize, col_len: usize,
        lo: *const u64, lo_len: usize, hi: *const u64, hi_len: usize,
        point: *const u64, point_len: usize,
        out: *mut u64, out_len: usize,
        scratch: *mut u64, scratch_len: usize,
    ) -> u32;
    pub fn magnetar_eval_mle_at(
        rows: usize, cols: usize,
        row: *const usize, row_len: usize, col: *const usize, col_len: usize,
        lo: *const u64, lo_len: usize, hi: *const u64, hi_len: usize,
        r: *const u64, r_len: usize,
        c: *const u64, c_len: usize,
        scratch: *mut u64, scratch_len: usize,
    ) -> Value;
    pub fn magnetar_is_binary(
        rows: usize, cols: usize,
        row: *const usize, row_len: usize, col: *const usize, col_len: usize,
        lo: *const u64, lo_len: usize, hi: *const u64, hi_len: usize,
    ) -> Flag;
    pub fn magnetar_apply_simd_packed(
        rows: usize, cols: usize,
        row: *const usize, row_len: usize, col: *const usize, col_len: usize,
        lo: *const u64, lo_len: usize, hi: *const u64, hi_len: usize,
        packed: *const u64, packed_len: usize,
        x: *const u64, x_len: usize,
        q: usize, w: usize,
        out: *mut u64, out_len: usize,
    ) -> Flag;
    pub fn magnetar_apply_simd_bit_masks(
        rows: usize, cols: usize,
        row: *const usize, row_len: usize, col: *const usize, col_len: usize,
        lo: *const u64, lo_len: usize, hi: *const u64, hi_len: usize,
        packed: *const u64, packed_len: usize,
        q: usize, w: usize, v: usize,
        out: *mut u64, out_len: usize,
    ) -> u32;
    pub fn magnetar_relation_digest(
        m: usize, q: usize,
        lens: *const usize, lens_len: usize,
        shapes: Shapes,
        row: *const usize, row_len: usize, col: *const usize, col_len: usize,
        lo: *const u64, lo_len: usize, hi: *const u64, hi_len: usize,
    ) -> DigestAnswer;
    pub fn magnetar_fold_packed_w(
        packed: *const u64, packed_len: usize,
        q: usize, w: usize,
        point: *const u64, point_len: usize,
        out: *mut u64, out_len: usize,
        scratch: *mut u64, scratch_len: usize,
    ) -> u32;
    pub fn magnetar_build_m_combo(
        out: *mut u64, out_len: usize,
        scratch: *mut u64, scratch_len: usize,
        m: usize,
        shapes: Shapes,
        row: *const usize, row_len: usize, col: *const usize, col_len: usize,
        lo: *const u64, lo_len: usize, hi: *const u64, hi_len: usize,
        alphas: *const u64, alphas_len: usize,
        pb: *const u64, pb_len: usize,
        pf: *const u64, pf_len: usize,
    ) -> u32;
    pub fn magnetar_row_check(
        scratch: *mut u64, scratch_len: usize,
        m: usize, q: usize,
        lens: *const usize, lens_len: usize,
        shapes: Shapes,
        row: *const usize, row_len: usize, col: *const usize, col_len: usize,
        lo: *const u64, lo_len: usize, hi: *const u64, hi_len: usize,
        packed: *const u64, packed_len: usize,
        x: *const u64, x_len: usize,
    ) -> RowVerdict;
    pub fn magnetar_prove_virtual_spartan(
        proof: *mut u64, proof_len: usize,
        claims: *mut u64, claims_len: usize,
        scratch: *mut u64, scratch_len: usize,
        m: usize, q: usize,
        lens: *const usize, lens_len: usize,
        shapes: Shapes,
        row: *const usize, row_len: usize, col: *const usize, col_len: usize,
        lo: *const u64, lo_len: usize, hi: *const u64, hi_len: usize,
        packed: *const u64, packed_len: usize,
        x: *const u64, x_len: usize,
        t: Transcript,
    ) -> Answer;
    pub fn magnetar_verify_virtual_spartan(
        claims: *mut u64, claims_len: usize,
        scratch: *mut u64, scratch_len: usize,
        m: usize, q: usize,
        lens: *const usize, lens_len: usize,
        shapes: Shapes,
        row: *const usize, row_len: usize, col: *const usize, col_len: usize,
        lo: *const u64, lo_len: usize, hi: *const u64, hi_len: usize,
        x: *const u64, x_len: usize,
        proof: *const u64, proof_len: usize,
        t: Transcript,
    ) -> Answer;
}
