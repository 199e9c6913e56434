//! Times the rounds of the sum-checks and eq tables beside the Rust's, on the same tables in one run, and compares what they give.
//! One thread; the shortest of some turns, the two sides in turn.
#[allow(dead_code)]
#[path = "../../compare/src/random.rs"]
mod random;
#[allow(dead_code)]
#[path = "../../bindings/rust/src/sys.rs"]
mod sys;
#[allow(dead_code)]
#[path = "../../compare/src/text.rs"]
mod text;

use magnetar_field::eq::{eq_build_fused, EqBits};
use magnetar_field::{mul, Gf128, ONE, ZERO};
use magnetar_sumcheck::public::{EqFactor, PublicFactor, TableFactor};
use magnetar_sumcheck::{BindOrder, SumcheckProver, SumcheckSpec, Term};
use std::time::{Duration, Instant};
use sys::Element;
use text::words;

fn random(n: usize, seed: u64) -> Vec<Gf128> {
    let mut r = random::Random(seed);
    (0..n).map(|_| Gf128(r.wide())).collect()
}

fn element(x: Gf128) -> Element {
    Element { lo: x.0 as u64, hi: (x.0 >> 64) as u64 }
}

fn timed<T>(best: &mut Duration, run: impl FnOnce() -> T) -> T {
    let start = Instant::now();
    let r = run();
    *best = (*best).min(start.elapsed());
    r
}

fn bind(table: &mut [u64], v: usize, r: Gf128) {
    assert_eq!(unsafe { sys::magnetar_bind_var(table.as_mut_ptr(), table.len(), v, element(r)) }, 0);
}

fn eq_build(point: &[u64], start: Gf128, out: &mut [u64]) -> u32 {
    unsafe { sys::magnetar_eq_build(point.as_ptr(), point.len(), element(start), out.as_mut_ptr(), out.len()) }
}

fn line(what: &str, n: usize, times: [Duration; 4]) {
    let [message, their_message, fold, their_fold] = times.map(|d| d.as_secs_f64() * 1e3);
    println!(
        "| {what} | 2^{n} | {message:.2} ms | {their_message:.2} ms | {:.1} | {fold:.2} ms | {their_fold:.2} ms | {:.1} |",
        message / their_message,
        fold / their_fold,
    );
}

/// A round of the outer sum-check that binds variable v.
fn outer(what: &str, n: usize, v: usize, order: BindOrder, turns: usize) {
    let tables: Vec<Vec<Gf128>> = (1..=3).map(|seed| random(1 << n, seed)).collect();
    let (tau, r) = (random(n, 4), random(1, 5)[0]);
    let rest: Vec<Gf128> = (0..n).filter(|&j| j != v).map(|j| tau[j]).collect();
    let ours: Vec<Vec<u64>> = tables.iter().map(|t| words(t)).collect();
    let point = words(&rest);
    let mut e = vec![0u64; 1 << n];
    assert_eq!(eq_build(&point, ONE, &mut e), 0);
    // the next round binds the variable that is then the highest, or the lowest
    let next = if v == 0 { 0 } else { n - 2 };
    let terms = [
        Term { coeff: ONE, dense: vec![0, 1], public: vec![0] },
        Term { coeff: ONE, dense: vec![2], public: vec![0] },
    ];
    let mut best = [Duration::MAX; 4];
    for _ in 0..turns {
        let mut folded = ours.clone();
        let mut eq = e.clone();
        let mut out = [0u64; 8];
        let code = timed(&mut best[0], || unsafe {
            sys::magnetar_outer_message(
                out.as_mut_ptr(), 8, eq.as_ptr(), eq.len(),
                folded[0].as_ptr(), folded[0].len(), folded[1].as_ptr(), folded[1].len(), folded[2].as_ptr(), folded[2].len(),
                v, element(ONE), element(tau[v]),
            )
        });
        assert_eq!(code, 0);
        timed(&mut best[2], || {
            folded.iter_mut().for_each(|t| bind(t, v, r));
            assert_eq!(unsafe { sys::magnetar_drop_var(eq.as_mut_ptr(), eq.len(), next) }, 0);
        });
        let spec = SumcheckSpec {
            num_vars: n,
            dense: tables.clone(),
            public: vec![Box::new(EqFactor::new(tau.clone()))],
            terms: terms.to_vec(),
            claim: ZERO,
        };
        let mut prover = SumcheckProver::with_dense_bits(&spec, order, vec![false; 3]);
        let message = timed(&mut best[1], || prover.message());
        timed(&mut best[3], || prover.fold_msg(&message, r));
        assert_eq!(words(&message.0), out, "the messages differ");
        for (mine, theirs) in folded.iter().zip(prover.dense_tables()) {
            assert!(mine[..1 << n] == words(theirs), "the folded tables differ");
        }
        // the eq table that is left is that of the point without both variables
        let mut left = rest.clone();
        left.remove(next);
        assert!(eq[..1 << (n - 1)] == words(&EqFactor::new(left).materialize()), "the eq tables differ");
    }
    line(what, n, best);
}

/// A round of the inner sum-check, which binds variable 0.
fn inner(n: usize, turns: usize) {
    let (t, z, r) = (random(1 << n, 6), random(1 << n, 7), random(1, 8)[0]);
    let ours = [words(&t), words(&z)];
    let mut best = [Duration::MAX; 4];
    for _ in 0..turns {
        let mut folded = ours.clone();
        let mut out = [0u64; 6];
        let code = timed(&mut best[0], || unsafe {
            sys::magnetar_inner_message(
                out.as_mut_ptr(), 6, folded[0].as_ptr(), folded[0].len(), folded[1].as_ptr(), folded[1].len(), 0,
            )
        });
        assert_eq!(code, 0);
        timed(&mut best[2], || folded.iter_mut().for_each(|t| bind(t, 0, r)));
        let spec = SumcheckSpec {
            num_vars: n,
            dense: vec![z.clone()],
            public: vec![Box::new(TableFactor::new(t.clone()))],
            terms: vec![Term { coeff: ONE, dense: vec![0], public: vec![0] }],
            claim: ZERO,
        };
        let mut prover = SumcheckProver::with_dense_bits(&spec, BindOrder::Increasing, vec![false]);
        let message = timed(&mut best[1], || prover.message());
        timed(&mut best[3], || prover.fold_msg(&message, r));
        assert_eq!(words(&message.0), out, "the messages differ");
        assert!(folded[1][..1 << n] == words(&prover.dense_tables()[0]), "the folded tables differ");
    }
    line("inner, variable 0", n, best);
}

/// The eq table of n elements from `start`, its words allocated within the time. The Rust's begin with 1: a product of each entry with any
/// other start comes after them.
fn eq_table(what: &str, n: usize, start: Gf128, turns: usize) {
    let point = random(n, 11);
    let given = words(&point);
    let times = |mut table: Vec<Gf128>| {
        if start != ONE {
            table.iter_mut().for_each(|e| *e = mul(*e, start));
        }
        table
    };
    let mut best = [Duration::MAX; 3];
    for _ in 0..turns {
        let (code, mine) = timed(&mut best[0], || {
            let mut out = vec![0u64; 2 << n];
            (eq_build(&given, start, &mut out), out)
        });
        let built = timed(&mut best[1], || times(EqBits::build(&point).values));
        let fused = timed(&mut best[2], || times(eq_build_fused(&point)));
        assert_eq!(code, 0);
        assert!(mine == words(&built) && mine == words(&fused), "the eq tables differ");
    }
    let [mine, built, fused] = best.map(|d| d.as_secs_f64() * 1e3);
    println!("| {what} | {n} | {mine:.2} ms | {built:.2} ms | {:.1} | {fused:.2} ms | {:.1} |", mine / built, mine / fused);
}

/// A chain of products, none of which can be left out or run beside another.
fn products(n: u64, turns: usize) {
    let mut best = [Duration::MAX; 2];
    for _ in 0..turns {
        let (a, b) = (random(1, 9)[0], random(1, 10)[0]);
        let mine = timed(&mut best[0], || {
            let (mut x, mut y) = (element(a), element(b));
            for i in 0..n {
                x = unsafe { sys::magnetar_mul(x, y) };
                y.lo ^= i;
            }
            x
        });
        let theirs = timed(&mut best[1], || {
            let (mut x, mut y) = (a, b);
            for i in 0..n {
                x = mul(x, y);
                y.0 ^= i as u128;
            }
            x
        });
        assert_eq!(mine, element(theirs), "the products differ");
    }
    let [mine, theirs] = best.map(|d| d.as_secs_f64() * 1e9 / n as f64);
    println!("a product: {mine:.1} ns, the Rust's {theirs:.1} ns, ratio {:.1}\n", mine / theirs);
}

fn main() {
    products(1_000_000, 5);
    println!("| round | entries | message | the Rust's | ratio | fold | the Rust's | ratio |");
    println!("|---|---|---|---|---|---|---|---|");
    for (n, turns) in [(16, 20), (20, 4)] {
        outer("outer, highest variable", n, n - 1, BindOrder::HighBitsFirst { high: n }, turns);
        outer("outer, variable 0", n, 0, BindOrder::Increasing, turns);
        inner(n, turns);
    }
    println!("\n| eq table | elements | time | the Rust's `EqBits::build` | ratio | its `eq_build_fused` | ratio |");
    println!("|---|---|---|---|---|---|---|");
    eq_table("from 1", 16, ONE, 50);
    eq_table("from another element", 16, random(1, 12)[0], 50);
}
