//! The published Rust, as the comparison calls it.
use magnetar_field::Gf128;
use magnetar_hash::Transcript;
use std::panic::{catch_unwind, AssertUnwindSafe};
use std::sync::OnceLock;

/// State and counter of a transcript.
pub type State = ([u8; 32], u64);

/// Where state and counter lie in the Rust's transcript, whose fields are private: looked for once, and checked.
fn places() -> (usize, usize) {
    static FOUND: OnceLock<(usize, usize)> = OnceLock::new();
    *FOUND.get_or_init(|| {
        assert_eq!(std::mem::size_of::<Transcript>(), 40);
        let mut t = Transcript::new("places", &[]);
        for _ in 0..3 {
            t.challenge_field("draw");
        }
        // SAFETY: 40 bytes, as checked, of two fields without padding.
        let raw: [u8; 40] = unsafe { std::mem::transmute_copy(&t) };
        let (state, counter) = if raw[..32] == t.state_digest() { (0, 32) } else { (8, 0) };
        assert_eq!(raw[state..state + 32], t.state_digest());
        assert_eq!(raw[counter..counter + 8], 3u64.to_le_bytes());
        (state, counter)
    })
}

pub fn transcript(t: &State) -> Transcript {
    let (state, counter) = places();
    let mut raw = [0u8; 40];
    raw[state..state + 32].copy_from_slice(&t.0);
    raw[counter..counter + 8].copy_from_slice(&t.1.to_le_bytes());
    // SAFETY: as above; any bytes are a state and a counter.
    unsafe { std::mem::transmute_copy(&raw) }
}

pub fn state(t: &Transcript) -> State {
    let (_, counter) = places();
    // SAFETY: as above.
    let raw: [u8; 40] = unsafe { std::mem::transmute_copy(t) };
    (t.state_digest(), u64::from_le_bytes(raw[counter..counter + 8].try_into().unwrap()))
}

/// A call that may panic.
pub fn caught<T>(call: impl FnOnce() -> T) -> Option<T> {
    catch_unwind(AssertUnwindSafe(call)).ok()
}

pub fn elements(words: &[u64]) -> Vec<Gf128> {
    words.chunks(2).map(|w| Gf128(w[0] as u128 | (w[1] as u128) << 64)).collect()
}
