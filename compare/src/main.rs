//! Feeds the published Rust and the library the same inputs and compares every result (docs/COMPARISON.md).
//!
//!     compare PROGRAMS                the full run: fixed seeds, a fixed number of inputs
//!     compare PROGRAMS SECONDS SEED   random inputs from the seed for so many seconds
//!
//! PROGRAMS is the folder with the test programs. Ends with 1 where anything differs that is not on the list.
#[macro_use]
mod flat;

mod draws;
mod engine;
mod field;
mod forms;
mod hash;
mod library;
mod limits;
mod listed;
mod matrix;
mod model;
mod own;
mod random;
mod relation;
mod runs;
mod rust;
mod sheet;
mod sumcheck;
mod tally;
mod text;
mod whole;

use random::Random;
use sheet::Sheet;
use std::path::{Path, PathBuf};
use std::sync::atomic::{AtomicBool, AtomicUsize, Ordering};
use std::sync::Mutex;
use std::time::{Duration, Instant};
use tally::Tally;

/// One piece of work: what is asked, and from which seed.
#[derive(Clone, Copy)]
enum Job {
    Listed,
    Field,
    Hash,
    Sumcheck,
    Matrix,
    Whole,
    Runs(usize),
    Tables,
    Limit(usize),
    Random(u64),
    /// logins with public columns of their own
    Own(u64),
    Wide(u64),
}

const THREADS: usize = 2;
/// The parts of the exhaustive runs of prover and verifier.
const PARTS: usize = 8;
/// Seeds of the full run, of public columns of each login's own, and of wide batches.
const SEEDS: u64 = 2600;
const OWN: u64 = 1000;
const WIDE: u64 = 24;

fn full() -> Vec<Job> {
    let mut jobs = vec![Job::Limit(0), Job::Limit(1), Job::Listed, Job::Field, Job::Hash, Job::Sumcheck, Job::Matrix, Job::Whole];
    jobs.extend((0..PARTS).map(Job::Runs));
    jobs.extend([Job::Tables, Job::Limit(2)]);
    jobs.extend((1..=SEEDS).map(Job::Random));
    jobs.extend((1..=OWN).map(Job::Own));
    jobs.extend((1..=WIDE).map(Job::Wide));
    jobs
}

struct Worker {
    vectors: Sheet,
    cases: Sheet,
    runs: Tally,
}

impl Worker {
    fn new(programs: &Path) -> Worker {
        let vectors = Sheet::with_forms(programs.join("magnetar_vectors"), programs.join("magnetar_forms"));
        Worker { vectors, cases: Sheet::new(programs.join("magnetar_cases")), runs: Tally::default() }
    }

    fn work(&mut self, job: Job) {
        match job {
            Job::Listed => {
                listed::small(&mut self.vectors);
                listed::masks(&mut self.cases);
                listed::run(&mut self.runs);
            }
            Job::Field => field::exhaustive(&mut self.vectors),
            Job::Hash => hash::exhaustive(&mut self.vectors),
            Job::Sumcheck => sumcheck::exhaustive(&mut self.vectors),
            Job::Matrix => matrix::exhaustive(&mut self.vectors),
            Job::Whole => whole::exhaustive(&mut self.cases),
            Job::Runs(part) => runs::exhaustive(&mut self.runs, part, PARTS),
            Job::Tables => limits::tables(&mut self.runs),
            Job::Limit(which) => limits::runs(&mut self.runs, which),
            Job::Random(seed) => {
                let r = &mut Random(seed.wrapping_mul(0xD1342543DE82EF95));
                for _ in 0..2 {
                    field::random(&mut self.vectors, r);
                    hash::random(&mut self.vectors, r);
                    sumcheck::random(&mut self.vectors, r);
                    matrix::random(&mut self.vectors, r);
                    whole::random(&mut self.cases, r);
                    draws::random(&mut self.cases, r);
                }
                runs::random(&mut self.runs, r);
            }
            Job::Own(seed) => {
                let r = &mut Random(seed.wrapping_mul(0x9E3779B97F4A7C15));
                whole::own(&mut self.cases, r);
                runs::own(&mut self.runs, r);
            }
            Job::Wide(seed) => limits::wide(&mut self.runs, seed),
        }
    }

    fn flush(&mut self) {
        self.vectors.flush();
        self.cases.flush();
    }

    /// What was counted since the last time.
    fn counted(&mut self) -> Tally {
        let mut all = std::mem::take(&mut self.runs);
        all.add(&std::mem::take(&mut self.vectors.tally));
        all.add(&std::mem::take(&mut self.cases.tally));
        all
    }
}

fn main() {
    let given: Vec<String> = std::env::args().skip(1).collect();
    let (programs, soak) = match &given[..] {
        [programs] => (PathBuf::from(programs), None),
        [programs, seconds, seed] => {
            let number = |s: &String| s.parse::<u64>().expect("a number");
            (PathBuf::from(programs), Some((Duration::from_secs(number(seconds)), number(seed))))
        }
        _ => panic!("compare PROGRAMS [SECONDS SEED]"),
    };
    // the Rust's panics are answers here
    std::panic::set_hook(Box::new(|info| {
        if info.location().is_some_and(|l| l.file().contains("compare/src")) {
            eprintln!("{info}");
        }
    }));
    let start = Instant::now();
    let jobs = full();
    let (next, done, working) = (AtomicUsize::new(0), AtomicUsize::new(0), AtomicUsize::new(THREADS));
    let total = Mutex::new(Tally::default());
    let failed = AtomicBool::new(false);
    let first = Mutex::new(None);
    let count = |worker: &mut Worker| {
        let new = worker.counted();
        if new.differing() > 0 {
            first.lock().unwrap().get_or_insert(start.elapsed());
        }
        total.lock().unwrap().add(&new);
    };
    std::thread::scope(|scope| {
        for _ in 0..THREADS {
            scope.spawn(|| {
                let mut worker = Worker::new(&programs);
                loop {
                    let n = next.fetch_add(1, Ordering::Relaxed);
                    let job = match soak {
                        // a soak ends with its time, or with the first difference
                        Some((budget, _)) if start.elapsed() >= budget || first.lock().unwrap().is_some() => break,
                        Some((_, seed)) => {
                            let one = seed.wrapping_mul(1_000_003).wrapping_add(n as u64);
                            if n % 4 == 3 { Job::Own(one) } else { Job::Random(one) }
                        }
                        None if n < jobs.len() => jobs[n],
                        None => break,
                    };
                    if rust::caught(|| worker.work(job)).is_none() {
                        eprintln!("job {n} has not ended");
                        failed.store(true, Ordering::Relaxed);
                        break;
                    }
                    // the first answers soon, then some thousands at a time
                    if n < 20 {
                        worker.flush();
                    }
                    done.fetch_add(1, Ordering::Relaxed);
                    count(&mut worker);
                }
                worker.flush();
                count(&mut worker);
                working.fetch_sub(1, Ordering::Relaxed);
            });
        }
        let mut shown = Instant::now();
        while working.load(Ordering::Relaxed) > 0 {
            std::thread::sleep(Duration::from_millis(100));
            if shown.elapsed() >= Duration::from_secs(5) {
                shown = Instant::now();
                let t = total.lock().unwrap();
                let of = if soak.is_some() { String::new() } else { format!(" of {}", jobs.len()) };
                let seconds = start.elapsed().as_secs();
                eprintln!("{seconds:4} s: {}{of} jobs, {} runs, {} differ", done.load(Ordering::Relaxed), t.runs(), t.differing());
            }
        }
    });
    let total = total.into_inner().unwrap();
    report(&total, start.elapsed(), first.into_inner().unwrap());
    if total.differing() > 0 || failed.load(Ordering::Relaxed) {
        std::process::exit(1);
    }
}

fn report(t: &Tally, took: Duration, first: Option<Duration>) {
    println!("| function | equal to the Rust | equal to document 01 | different |");
    println!("|---|---|---|---|");
    let (mut rust, mut document) = (0, 0);
    for (name, c) in &t.functions {
        println!("| `{name}` | {} | {} | {} |", c.rust, c.document, c.differing);
        rust += c.rust;
        document += c.document;
    }
    println!("| all | {rust} | {document} | {} |", t.differing());
    println!();
    for end in ["prove", "verify"] {
        let counts: Vec<String> = t.verdicts.iter().filter(|((e, _), _)| *e == end).map(|((_, n), k)| format!("{n}: {k}")).collect();
        if !counts.is_empty() {
            println!("{end}, runs by answer (0 is none): {}", counts.join(", "));
        }
    }
    println!();
    println!("intended differences that were shown:");
    for (name, n) in &t.listed {
        println!("  {n:7} {name}");
    }
    for (name, c) in &t.functions {
        if let Some(text) = &c.smallest {
            println!("\nDIFFERENT: {name}, {} times; the smallest input:\n{text}", c.differing);
        }
    }
    let when = first.map_or(String::new(), |d| format!(", the first one after {:.1} s", d.as_secs_f64()));
    println!("\n{} runs, {} differences{when}; {} s", t.runs(), t.differing(), took.as_secs());
}
