//! The hash and the transcript.
use crate::sys::{self, Answer, Digest, Element, Transcript};
use crate::{room, Refusal};

/// SHA3-256.
pub fn sha3_256(message: &[u8]) -> Digest {
    // SAFETY: here and below each pointer and length are of one slice, and what is written is borrowed as `&mut`.
    unsafe { sys::magnetar_sha3_256(message.as_ptr(), message.len()) }
}

impl Transcript {
    /// A transcript bound to a protocol and its public parts.
    pub fn new(protocol: &[u8], parts: &[&[u8]]) -> Transcript {
        let all = parts.concat();
        let lens: Vec<usize> = parts.iter().map(|p| p.len()).collect();
        let answer = unsafe {
            sys::magnetar_transcript_new(protocol.as_ptr(), protocol.len(), all.as_ptr(), all.len(), lens.as_ptr(), lens.len())
        };
        assert_eq!(answer.code, 0, "the lengths are the parts' own");
        answer.transcript
    }

    /// The transcript that an answer carries, which is this one where the call is refused.
    fn take(&mut self, answer: Answer) -> Result<(), Refusal> {
        *self = answer.transcript;
        Refusal::check(answer.code)
    }

    /// Absorbs bytes under a label.
    pub fn absorb_bytes(&mut self, label: &[u8], bytes: &[u8]) -> Result<(), Refusal> {
        self.take(unsafe { sys::magnetar_absorb_bytes(*self, label.as_ptr(), label.len(), bytes.as_ptr(), bytes.len()) })
    }

    /// Absorbs a word under a label.
    pub fn absorb_u64(&mut self, label: &[u8], v: u64) -> Result<(), Refusal> {
        self.take(unsafe { sys::magnetar_absorb_u64(*self, label.as_ptr(), label.len(), v) })
    }

    /// Absorbs a hash under a label.
    pub fn absorb_digest(&mut self, label: &[u8], d: Digest) -> Result<(), Refusal> {
        self.take(unsafe { sys::magnetar_absorb_digest(*self, label.as_ptr(), label.len(), d) })
    }

    /// Absorbs the words of elements under a label.
    pub fn absorb_field(&mut self, label: &[u8], words: &[u64]) -> Result<(), Refusal> {
        self.take(unsafe { sys::magnetar_absorb_field(*self, label.as_ptr(), label.len(), words.as_ptr(), words.len()) })
    }

    /// Draws an element under a label.
    pub fn challenge_field(&mut self, label: &[u8]) -> Result<Element, Refusal> {
        let draw = unsafe { sys::magnetar_challenge_field(*self, label.as_ptr(), label.len()) };
        *self = draw.transcript;
        Refusal::check(draw.code).map(|()| draw.element)
    }

    /// Draws n elements under a label, as words.
    pub fn challenge_field_vec(&mut self, label: &[u8], n: usize) -> Result<Vec<u64>, Refusal> {
        let mut out = room(n.checked_mul(2));
        self.take(unsafe {
            sys::magnetar_challenge_field_vec(*self, label.as_ptr(), label.len(), n, out.as_mut_ptr(), out.len())
        })?;
        Ok(out)
    }
}
