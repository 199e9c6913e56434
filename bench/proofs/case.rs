//! A batch for both sides, and what a run of either costs.
use crate::random::Random;
use magnetar::{Element, Matrix, Relation};
use magnetar_field::{mul, Gf128};
use magnetar_spartan::{DualRelation, SegmentLayout, SegmentSpec, SparseMatrix};
use std::time::{Duration, Instant};

/// A batch that every row holds for: B is a constant of each row and entries that cancel, C is A times that constant.
pub struct Case {
    pub m: usize,
    pub q: usize,
    pub rows: [usize; 2],
    pub lens: Vec<usize>,
    pub packed: Vec<u128>,
    /// the public columns that all logins have
    pub x: Vec<Gf128>,
    /// A, B, C of bin, then of fld
    pub entries: [Vec<(usize, usize, Gf128)>; 6],
}

pub fn case(m: usize, q: usize, rows: [usize; 2], entries: usize, segments: usize) -> Case {
    let r = &mut Random(1);
    let w = m / 2;
    let len = w / segments.next_power_of_two().min(w);
    let packed = (0..q * w.div_ceil(128)).map(|_| r.wide()).collect();
    let x = (0..w - 1).map(|_| Gf128(r.wide())).collect();
    let mut matrices: [Vec<_>; 6] = Default::default();
    for (system, &rows) in rows.iter().enumerate() {
        let binary = system == 0;
        let [a, b, c] = &mut matrices[3 * system..3 * system + 3] else { unreachable!() };
        for i in 0..entries {
            let row = i % rows;
            let k = Gf128(if binary { 1 } else { 3 + row as u128 });
            if i < rows {
                b.push((row, w, k));
            } else if i % 2 == 0 && b.len() + 2 <= entries {
                let twice = (row, r.below(w), Gf128(if binary { 1 } else { r.wide() }));
                b.extend([twice, twice]);
            }
            let value = Gf128(if binary { 1 } else { r.wide() });
            let col = if binary { r.below(w + 1) } else { r.below(m) };
            a.push((row, col, value));
            c.push((row, col, mul(k, value)));
        }
    }
    Case { m, q, rows, lens: vec![len; w / len], packed, x, entries: matrices }
}

pub fn element(x: Gf128) -> Element {
    Element { lo: x.0 as u64, hi: (x.0 >> 64) as u64 }
}

// ---- Our side's inputs.

pub fn matrix(c: &Case, i: usize) -> Matrix {
    let entries: Vec<_> = c.entries[i].iter().map(|&(row, col, value)| (row, col, element(value))).collect();
    Matrix::new(c.rows[i / 3], c.m, &entries)
}

pub fn relation(c: &Case) -> Relation {
    let system = |k: usize| std::array::from_fn(|i| matrix(c, 3 * k + i));
    Relation::new(c.m, c.q, c.lens.clone(), &system(0), &system(1))
}

pub fn packed(c: &Case) -> Vec<u64> {
    c.packed.iter().flat_map(|v| [*v as u64, (*v >> 64) as u64]).collect()
}

// ---- The Rust's side.

pub fn their_relation(c: &Case) -> DualRelation {
    let matrix = |i: usize| SparseMatrix { rows: c.rows[i / 3], cols: c.m, entries: c.entries[i].clone() };
    DualRelation {
        m: c.m,
        a_bin: matrix(0),
        b_bin: matrix(1),
        c_bin: matrix(2),
        a_fld: matrix(3),
        b_fld: matrix(4),
        c_fld: matrix(5),
    }
}

pub fn their_layout(c: &Case) -> SegmentLayout {
    let spec = |(i, &len)| SegmentSpec { name: format!("s{i}"), len, direct: true };
    SegmentLayout::build(c.m / 2, c.lens.iter().enumerate().map(spec).collect())
}

// ---- Times and memory.

#[derive(Clone, Copy)]
pub struct Cost {
    pub time: Duration,
    pub kibibytes: u64,
}

pub const NONE: Cost = Cost { time: Duration::MAX, kibibytes: 0 };

/// A line of /proc/self/status.
fn status(name: &str) -> u64 {
    let all = std::fs::read_to_string("/proc/self/status").unwrap();
    let line = all.lines().find(|l| l.starts_with(name)).unwrap();
    line.split_whitespace().nth(1).unwrap().parse().unwrap()
}

extern "C" {
    fn malloc_trim(pad: usize) -> i32;
}

pub fn measured<T>(cost: &mut Cost, run: impl FnOnce() -> T) -> T {
    // what is free goes back to the system, and the highest mark of the memory starts again from what is held now
    unsafe { malloc_trim(0) };
    std::fs::write("/proc/self/clear_refs", "5").expect("the mark is set back");
    let before = status("VmRSS");
    let start = Instant::now();
    let r = run();
    cost.time = cost.time.min(start.elapsed());
    cost.kibibytes = cost.kibibytes.max(status("VmHWM").saturating_sub(before));
    r
}

pub fn ms(c: Cost) -> f64 {
    c.time.as_secs_f64() * 1e3
}

pub fn mib(c: Cost) -> f64 {
    c.kibibytes as f64 / 1024.0
}
