//! Queries as the test programs read them: words in decimal, or in hexadecimal after 0x; a list is its number of words and the words.
use magnetar_field::Gf128;

pub fn number(word: &str) -> u64 {
    match word.strip_prefix("0x") {
        Some(digits) => u64::from_str_radix(digits, 16).unwrap(),
        None => word.parse().unwrap(),
    }
}

pub fn numbers(words: &str) -> Vec<u64> {
    words.split(' ').map(number).collect()
}

/// Takes a list off the front.
pub fn list(words: &mut &[u64]) -> Vec<u64> {
    let n = words[0] as usize;
    let found = words[1..n + 1].to_vec();
    *words = &words[n + 1..];
    found
}

/// The same, of elements.
pub fn elements(words: &mut &[u64]) -> Vec<Gf128> {
    list(words).chunks(2).map(|w| Gf128(w[0] as u128 | (w[1] as u128) << 64)).collect()
}
