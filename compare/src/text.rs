//! Queries and answers in the words of the test programs (docs/VECTORS.md).
use magnetar_field::Gf128;

/// What stands in a lent word before a call.
pub const MARK: u64 = 0x5a5a5a5a5a5a5a5a;

pub fn words(elements: &[Gf128]) -> Vec<u64> {
    elements.iter().flat_map(|e| [e.0 as u64, (e.0 >> 64) as u64]).collect()
}

/// A list of words: their number, then the words.
pub fn list(words: &[u64]) -> String {
    let mut out = words.len().to_string();
    for w in words {
        out.push_str(&format!(" {w:#x}"));
    }
    out
}

pub fn elements(es: &[Gf128]) -> String {
    list(&words(es))
}

pub fn sizes(ns: &[usize]) -> String {
    list(&ns.iter().map(|&n| n as u64).collect::<Vec<_>>())
}

pub fn hex(bytes: &[u8]) -> String {
    if bytes.is_empty() {
        return "-".to_string();
    }
    digits(bytes)
}

pub fn digits(bytes: &[u8]) -> String {
    bytes.iter().map(|b| format!("{b:02x}")).collect()
}

/// A transcript: its state and its counter.
pub fn state(t: &([u8; 32], u64)) -> String {
    format!("{} {}", digits(&t.0), t.1)
}

/// Lent words after a call: the result, then those that stay.
pub fn marked(result: &[u64], lent: usize) -> Vec<u64> {
    let mut out = result.to_vec();
    out.resize(lent.max(result.len()), MARK);
    out
}

/// `= CODE WORDS`
pub fn code(code: u32, words: &[u64]) -> String {
    format!("= {code} {}", list(words))
}

/// Scratch after a finished call: zero as far as it was wanted.
pub fn cleared(need: usize, lent: usize) -> String {
    format!("= {}", list(&marked(&vec![0; need], lent)))
}

/// Scratch of a whole relation: how many words, how many of them zero, how many as they were.
pub fn counted(need: usize, lent: usize) -> String {
    format!("= {lent} {need} {}", lent - need)
}

pub fn truth(b: bool) -> String {
    format!("= {b}")
}

pub fn refused(n: u32) -> String {
    format!("! {n}")
}
