//! Queries on the hash and the transcript.
use crate::random::Random;
use crate::rust;
use crate::sheet::Sheet;
use crate::tally::By::{Document, Rust};
use crate::text::*;
use magnetar_field::Gf128;
use magnetar_hash::{fe_to_bytes, sha3_domain, Transcript};
use sha3::{Digest, Sha3_256};

const LIMIT: u64 = 1 << 32;

fn sha3(sheet: &mut Sheet, message: &[u8]) {
    let d: [u8; 32] = Sha3_256::digest(message).into();
    sheet.ask("sha3::sha3_256", Rust, format!("sha3 {}", hex(message)), vec![format!("= {}", digits(&d))]);
}

fn parts(sheet: &mut Sheet, parts: &[Vec<u8>]) {
    let slices: Vec<&[u8]> = parts.iter().map(|p| &p[..]).collect();
    let mut query = "parts".to_string();
    for p in parts {
        query.push_str(&format!(" {}", hex(p)));
    }
    sheet.ask("sha3::sha3_domain", Rust, query, vec![format!("= {}", digits(&sha3_domain(&slices)))]);
}

/// A label: the Rust's are UTF-8.
pub fn label(r: &mut Random) -> String {
    let n = r.pick(&[0, 1, 3, 8, 14, 60, 130, 136]);
    (0..n).map(|_| r.pick(&['a', 'z', '-', '0', ' ', '\0', 'é', '∀'])).collect()
}

pub fn counter(r: &mut Random) -> u64 {
    match r.below(6) {
        0 => 0,
        1 => r.below(300) as u64,
        2 => LIMIT - 1 - r.below(3) as u64,
        3 => LIMIT + r.below(3) as u64,
        4 => r.word() >> r.below(64),
        _ => r.word() & (LIMIT - 1),
    }
}

fn begin(sheet: &mut Sheet, protocol: &str, parts: &[Vec<u8>]) {
    let slices: Vec<&[u8]> = parts.iter().map(|p| &p[..]).collect();
    let answer = state(&rust::state(&Transcript::new(protocol, &slices)));
    let mut query = format!("new {}", hex(protocol.as_bytes()));
    for p in parts {
        query.push_str(&format!(" {}", hex(p)));
    }
    sheet.ask("transcript::new", Rust, query, vec![format!("= {answer}")]);
}

pub fn on(t: &rust::State, label: &str) -> String {
    format!("{} {}", state(t), hex(label.as_bytes()))
}

/// Where an entry that absorbs is refused with 14, the Rust absorbs on: a listed difference.
fn absorbs(sheet: &mut Sheet, name: &'static str, t: &rust::State, query: String, absorbed: Vec<String>) {
    if t.1 >= LIMIT {
        sheet.ask(name, Document, query, vec![format!("! 14 {}", state(t))]);
        sheet.tally.listed("an absorption at a counter of 2^32 or more");
    } else {
        sheet.ask(name, Rust, query, absorbed);
    }
}

fn absorptions(sheet: &mut Sheet, t: &rust::State, label: &str, data: &[u8], es: &[Gf128], odd: u64) {
    let after = |call: &dyn Fn(&mut Transcript)| {
        let mut u = rust::transcript(t);
        call(&mut u);
        vec![format!("= {}", state(&rust::state(&u)))]
    };
    let at = on(t, label);
    absorbs(sheet, "transcript::absorb_bytes", t, format!("absorb {at} {}", hex(data)), after(&|u| u.absorb_bytes(label, data)));
    absorbs(sheet, "transcript::absorb_field", t, format!("absorbfield {at} {}", elements(es)), after(&|u| u.absorb_field(label, es)));
    absorbs(sheet, "transcript::absorb_u64", t, format!("absorbu64 {at} {odd:#x}"), after(&|u| u.absorb_u64(label, odd)));
    let d = sha3_domain(&[data]);
    absorbs(sheet, "transcript::absorb_digest", t, format!("absorbdigest {at} {}", digits(&d)), after(&|u| u.absorb_digest(label, &d)));
    let mut more = words(es);
    more.push(odd);
    let bytes: Vec<u8> = more.iter().flat_map(|w| w.to_le_bytes()).collect();
    sheet.ask("transcript::absorb_words", Rust, format!("absorbwords {at} {}", list(&more)), after(&|u| u.absorb_bytes(label, &bytes)));
    sheet.ask("transcript::absorb_field", Document, format!("absorbfield {at} {}", list(&more)), vec![format!("! 11 {}", state(t))]);
}

fn draws(sheet: &mut Sheet, t: &rust::State, label: &str, n: usize, extra: usize) {
    let at = on(t, label);
    let mut u = rust::transcript(t);
    let Some(e) = rust::caught(|| u.challenge_field(label)) else { return };
    let drawn = format!("= {} {}", elements(&[e]), state(&rust::state(&u)));
    sheet.ask("transcript::draw", Rust, format!("rawdraw {at}"), vec![drawn.clone()]);
    if t.1 >= LIMIT {
        sheet.ask("transcript::challenge_field", Document, format!("draw {at}"), vec![format!("! 14 {}", state(t))]);
        sheet.tally.listed("a draw at a counter of 2^32 or more");
    } else {
        sheet.ask("transcript::challenge_field", Rust, format!("draw {at}"), vec![drawn]);
    }
    let mut u = rust::transcript(t);
    if t.1.checked_add(n as u64).is_none() {
        return;
    }
    let found = words(&u.challenge_field_vec(label, n));
    let end = state(&rust::state(&u));
    let lent = 2 * n + extra;
    let (name, query) = ("transcript::challenge_field_vec", format!("drawvec {at} {n} {lent}"));
    if t.1 >= LIMIT {
        sheet.ask(name, Document, query, vec![format!("= {} 14 {}", list(&marked(&[], lent)), state(t))]);
    } else {
        sheet.ask(name, Rust, query, vec![format!("= {} 0 {end}", list(&marked(&found, lent)))]);
        let short = (2 * n).saturating_sub(1 + extra);
        if n > 0 {
            let answer = format!("= {} 15 {}", list(&marked(&[], short)), state(t));
            sheet.ask(name, Document, format!("drawvec {at} {n} {short}"), vec![answer]);
        }
    }
    if extra < 2 {
        let answer = format!("= {} {end}", list(&marked(&found, lent)));
        sheet.ask("transcript::draw_vec", Rust, format!("rawdrawvec {at} {lent}"), vec![answer]);
    }
}

/// Bytes that are no UTF-8 as a label: the Rust's transcript cannot be asked, its hash of parts can.
fn other_label(sheet: &mut Sheet, t: &rust::State, label: &[u8], data: &[u8]) {
    let absorbed = sha3_domain(&[&t.0, b"absorb", label, data]);
    let at = format!("{} {}", state(t), hex(label));
    sheet.ask("transcript::absorb_bytes", Rust, format!("absorb {at} {}", hex(data)), vec![format!("= {} 0", digits(&absorbed))]);
    if t.1 < LIMIT {
        let drawn = sha3_domain(&[&t.0, b"squeeze", label, &t.1.to_le_bytes()]);
        let e = Gf128(u128::from_le_bytes(drawn[..16].try_into().unwrap()));
        let answer = format!("= {} {}", elements(&[e]), state(&(drawn, t.1 + 1)));
        sheet.ask("transcript::challenge_field", Rust, format!("draw {at}"), vec![answer]);
    }
    sheet.tally.listed("a label that is no UTF-8");
}

/// Lengths that do not add up: 17.
fn wrong_lengths(sheet: &mut Sheet, data: &[u8], lens: &[usize]) {
    if lens.iter().try_fold(0usize, |a, &n| a.checked_add(n)) == Some(data.len()) {
        return;
    }
    let zeros = "00".repeat(32);
    let given = format!("{} {}", hex(data), sizes(lens));
    sheet.ask("sha3::sha3_domain", Document, format!("partslens {given}"), vec![format!("! 17 {zeros}")]);
    sheet.ask("transcript::new", Document, format!("newlens 70 {given}"), vec![format!("! 17 {zeros} 0")]);
}

/// Messages of every length up to three blocks and every byte; every split of three bytes; counters around the limit.
pub fn exhaustive(sheet: &mut Sheet) {
    let r = &mut Random(11);
    for n in 0..=420 {
        sha3(sheet, &r.bytes(n));
    }
    for n in [1000, 1359, 1360, 1361, 2720, 4000] {
        sha3(sheet, &r.bytes(n));
    }
    for b in 0..=255u8 {
        sha3(sheet, &[b]);
        sha3(sheet, &[b; 136]);
    }
    for a in 0..=4 {
        for b in 0..=4 {
            for c in 0..=4 {
                parts(sheet, &[r.bytes(a), r.bytes(b), r.bytes(c)]);
                for total in 0..=8 {
                    let data = r.bytes(total);
                    wrong_lengths(sheet, &data, &[a, b, c]);
                }
            }
        }
    }
    for lens in [vec![], vec![1], vec![usize::MAX], vec![usize::MAX, 1], vec![1 << 63, 1 << 63], vec![usize::MAX, 6]] {
        for total in 0..6 {
            wrong_lengths(sheet, &r.bytes(total), &lens);
        }
    }
    let t0 = Transcript::new("exhaustive", &[]).state_digest();
    for c in (0..64).chain(LIMIT - 8..LIMIT + 8).chain([1 << 63, u64::MAX - 1]) {
        let es = r.elements(2);
        absorptions(sheet, &(t0, c), "label", b"data", &es, c);
        for n in 0..4 {
            draws(sheet, &(t0, c), "label", n, n % 3);
        }
    }
    for n in 0..=272 {
        let label: String = "l".repeat(n);
        let es = r.elements(n % 9);
        let (data, odd) = (r.bytes(n), r.word());
        absorptions(sheet, &(t0, n as u64), &label, &data, &es, odd);
        draws(sheet, &(t0, n as u64), &label, 1, 0);
        begin(sheet, &label, &[r.bytes(n % 7)]);
    }
    for b in 128..=255u8 {
        other_label(sheet, &(t0, 3), &[b], &[b]);
    }
}

pub fn random(sheet: &mut Sheet, r: &mut Random) {
    let mut t: rust::State = (r.bytes(32).try_into().unwrap(), counter(r));
    let l = label(r);
    let count = r.below(5);
    let some: Vec<Vec<u8>> = (0..count).map(|_| r.below(200)).collect::<Vec<_>>().into_iter().map(|n| r.bytes(n)).collect();
    begin(sheet, &l, &some);
    parts(sheet, &some);
    let n = r.below(500);
    let data = r.bytes(n);
    sha3(sheet, &data);
    let k = r.below(9);
    let es = r.elements(k);
    absorptions(sheet, &t, &l, &data, &es, r.word());
    let (n, extra) = (r.below(6), r.below(4));
    draws(sheet, &t, &l, n, extra);
    let e = r.element();
    sheet.ask("transcript::fe_to_bytes", Rust, format!("febytes {}", elements(&[e])), vec![format!("= {}", digits(&fe_to_bytes(e)))]);
    sheet.ask("transcript::state_digest", Rust, format!("digest {}", state(&t)), vec![format!("= {}", digits(&rust::transcript(&t).state_digest()))]);
    t.1 &= LIMIT - 1;
    let n = 1 + r.below(20);
    let mut other = r.bytes(n);
    other[0] |= 0x80;
    if std::str::from_utf8(&other).is_err() {
        other_label(sheet, &t, &other, &data);
    }
    let lens: Vec<usize> = (0..r.below(4)).map(|_| r.pick(&[0, 1, 2, 5, 100, usize::MAX, 1 << 63])).collect();
    let n = r.below(8);
    let data = r.bytes(n);
    wrong_lengths(sheet, &data, &lens);
}
