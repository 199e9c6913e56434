//! Times the proved program beside plain Rust, on one machine in one run.
//!
//!     bench PROGRAM
//!
//! PROGRAM is the test program as the check links it. It is started for each measurement with one query on its standard
//! input; the time from its start to its end counts for it, start and reading included. Both sides start from the same
//! values and their answers are compared, so that both do the work.
use sha3::{Digest, Sha3_256};
use std::io::Write;
use std::process::{Command, Stdio};
use std::time::{Duration, Instant};

/// How long each comparison goes on.
const SPAN: Duration = Duration::from_secs(8);

/// The program's answer to one query, and how long it ran.
fn program(path: &str, query: &str) -> (String, Duration) {
    let started = Instant::now();
    let mut child = Command::new(path).stdin(Stdio::piped()).stdout(Stdio::piped()).spawn().expect("the program starts");
    child.stdin.take().unwrap().write_all(query.as_bytes()).unwrap();
    let output = child.wait_with_output().unwrap();
    let took = started.elapsed();
    (String::from_utf8(output.stdout).unwrap(), took)
}

/// Runs the two sides in turn, and takes the shortest time of each.
fn compare(what: &str, path: &str, query: &str, other: &str, run: impl Fn() -> String) {
    let (mut ours, mut theirs) = (Duration::MAX, Duration::MAX);
    let begun = Instant::now();
    while begun.elapsed() < SPAN {
        let (answer, took) = program(path, query);
        ours = ours.min(took);
        let started = Instant::now();
        let expected = run();
        theirs = theirs.min(started.elapsed());
        assert_eq!(answer.trim_end(), expected, "{what}: the answers differ");
    }
    let ratio = ours.as_secs_f64() / theirs.as_secs_f64();
    println!("{what} | {:.2} ms | {:.2} ms | {ratio:.2} | {other}", ms(ours), ms(theirs));
}

fn ms(d: Duration) -> f64 {
    d.as_secs_f64() * 1000.0
}

/// The product bit by bit, with a branch on each bit of b.
fn mul_branch(a: u128, b: u128) -> u128 {
    let (mut sum, mut power) = (0, a);
    for i in 0..128 {
        if (b >> i) & 1 == 1 {
            sum ^= power;
        }
        power = (power << 1) ^ if power >> 127 == 1 { 0x87 } else { 0 };
    }
    sum
}

/// The product bit by bit, with masks.
fn mul_mask(a: u128, b: u128) -> u128 {
    let (mut sum, mut power, mut rest) = (0, a, b);
    for _ in 0..128 {
        sum ^= power & (rest & 1).wrapping_neg();
        rest >>= 1;
        power = (power << 1) ^ ((power >> 127).wrapping_neg() & 0x87);
    }
    sum
}

fn chain(mul: fn(u128, u128) -> u128, a: u128, b: u128, n: u64) -> String {
    let (mut x, mut y) = (a, b);
    for i in 0..n {
        x = mul(x, y);
        y ^= i as u128;
    }
    format!("= 2 {:#x} {:#x}", x as u64, (x >> 64) as u64)
}

fn hex(bytes: &[u8]) -> String {
    bytes.iter().map(|b| format!("{b:02x}")).collect()
}

/// The hash of n times the byte b.
fn repeated(n: usize, b: u8) -> String {
    format!("= {}", hex(&Sha3_256::digest(vec![b; n])))
}

/// n draws from a transcript whose counter is 0, by document 01: state, "squeeze", label and counter, each after its
/// length, and the number of parts before them.
fn draws(start: [u8; 32], label: &[u8], n: u64) -> String {
    let mut state = start;
    let mut buffer = Vec::new();
    for counter in 0..n {
        buffer.clear();
        buffer.extend_from_slice(&4u64.to_le_bytes());
        for part in [&state[..], b"squeeze", label, &counter.to_le_bytes()] {
            buffer.extend_from_slice(&(part.len() as u64).to_le_bytes());
            buffer.extend_from_slice(part);
        }
        state = Sha3_256::digest(&buffer).into();
    }
    let word = |i: usize| u64::from_le_bytes(state[i..i + 8].try_into().unwrap());
    format!("= 2 {:#x} {:#x} {} {n}", word(0), word(8), hex(&state))
}

fn main() {
    let path = std::env::args().nth(1).expect("the program's path");
    let started = (0..100).map(|_| program(&path, "").1).min().unwrap();
    println!("start of the program alone: {:.2} ms", ms(started));
    println!("what | proved program | plain Rust | ratio | plain Rust is");
    let (a, b) = (0xfedcba9876543210123456789abcdef0, 0xbf58476d1ce4e5b99e3779b97f4a7c15);
    let n = 1_000_000;
    let query = format!("chain 4 {:#x} {:#x} {:#x} {:#x} {n}\n", a as u64, (a >> 64) as u64, b as u64, (b >> 64) as u64);
    let one_million = "1,000,000 products";
    compare(one_million, &path, &query, "bit by bit, a branch on each bit", || chain(mul_branch, a, b, n));
    compare(one_million, &path, &query, "bit by bit, with masks", || chain(mul_mask, a, b, n));
    let crate_sha3 = "Debian's crate sha3";
    compare("SHA3-256 of 1 MiB", &path, "sha3rep 1048576 61\n", crate_sha3, || repeated(1 << 20, b'a'));
    let (state, label) = ([7; 32], b"vspartan/tau");
    let query = format!("draws {} 0 {} 10000\n", hex(&state), hex(label));
    compare("10,000 draws", &path, &query, crate_sha3, || draws(state, label, 10_000));
}
