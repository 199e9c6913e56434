//! Queries on matrices, folds and layouts.
use crate::forms::plain;
use crate::model;
use crate::own;
use crate::random::Random;
use crate::relation::{self, Entries, Matrix};
use crate::sheet::Sheet;
use crate::tally::By::{Document, Rust};
use crate::text::*;
use magnetar_field::{eval_mle, Gf128};
use magnetar_spartan::r1cs::fold_instances;
use open_spartan::virtual_spartan::open_fold_packed_w;

fn log2(n: usize) -> usize {
    n.trailing_zeros() as usize
}

/// Lent words of a call that was refused.
fn untouched(n: u32, lent: usize) -> String {
    code(n, &marked(&[], lent))
}

fn line(words: &[u64]) -> String {
    format!("= {}", list(words))
}

/// A result with its number: the Rust's where nothing refuses.
fn by(n: u32) -> crate::tally::By {
    if n == 0 { Rust } else { Document }
}

fn is_binary(sheet: &mut Sheet, m: &Matrix) {
    let n = model::lone(m);
    let answer = if n == 0 { truth(m.rust().is_binary()) } else { refused(n) };
    sheet.ask("r1cs::is_binary", by(n), format!("isbinary 0 0 {}", m.text()), vec![answer]);
}

fn apply(sheet: &mut Sheet, m: &Matrix, z: &[u64], lent: usize) {
    let n = match model::lone(m) {
        0 => model::first(&[(11, z.len() != 2 * m.cols), (15, lent < 2 * m.rows)]),
        n => n,
    };
    let answer = if n == 0 { code(0, &marked(&words(&m.rust().apply(&crate::rust::elements(z))), lent)) } else { untouched(n, lent) };
    sheet.ask("r1cs::apply", by(n), format!("apply {lent} 0 {} {}", m.text(), list(z)), vec![answer]);
}

fn table(sheet: &mut Sheet, m: &Matrix, p: &[u64], lent: usize, scratch: usize) {
    let n = match model::lone(m) {
        0 => model::first(&[(11, p.len() != 2 * log2(m.rows)), (15, lent < 2 * m.cols || scratch < 2 * m.rows)]),
        n => n,
    };
    let answer = if n == 0 {
        vec![code(0, &marked(&words(&m.rust().eval_mle_table(&crate::rust::elements(p))), lent)), cleared(2 * m.rows, scratch)]
    } else {
        vec![untouched(n, lent), line(&marked(&[], scratch))]
    };
    sheet.ask("r1cs::eval_mle_table", by(n), format!("table {lent} {scratch} {} {}", m.text(), list(p)), answer);
}

fn at(sheet: &mut Sheet, m: &Matrix, p: &[u64], c: &[u64], scratch: usize) {
    let need = 2usize.saturating_mul(m.rows.saturating_add(m.cols));
    let n = match model::lone(m) {
        0 => model::first(&[(11, p.len() != 2 * log2(m.rows) || c.len() != 2 * log2(m.cols)), (15, scratch < need)]),
        n => n,
    };
    let answer = if n == 0 {
        let value = m.rust().eval_mle_at(&crate::rust::elements(p), &crate::rust::elements(c));
        vec![format!("= {}", elements(&[value])), cleared(need, scratch)]
    } else {
        vec![refused(n), line(&marked(&[], scratch))]
    };
    sheet.ask("r1cs::eval_mle_at", by(n), format!("at 0 {scratch} {} {} {}", m.text(), list(p), list(c)), answer);
}

fn wide(packed: &[u64]) -> Vec<u128> {
    packed.chunks(2).map(|w| w[0] as u128 | (w[1] as u128) << 64).collect()
}

fn packed(sheet: &mut Sheet, m: &Matrix, packed: &[u64], x: &[u64], q: usize, w: usize, lent: usize) {
    let n = match model::batch(m, q, w, packed.len(), Some(x.len())) {
        0 => model::first(&[(15, lent < 2 * q * m.rows)]),
        n => n,
    };
    let answer = if n == 0 {
        let (public, bits) = (relation::columns(q, w, x), wide(packed));
        // whether the products are bits hangs on the matrix alone
        let (shared, flag) = m.rust().apply_simd_packed(&bits, &public.public[0], q, w);
        let out = m.rust().apply_simd(&own::plain::joint_z(&public, &bits), q);
        assert!(public.public.iter().any(|x| *x != public.public[0]) || out == shared);
        vec![truth(flag), line(&marked(&words(&out), lent))]
    } else {
        vec![refused(n), line(&marked(&[], lent))]
    };
    let query = format!("packed {lent} 0 {} {} {} 2 {q:#x} {w:#x}", m.text(), list(packed), list(x));
    sheet.ask("r1cs::apply_simd_packed", by(n), query, answer);
}

fn fold_w(sheet: &mut Sheet, q: usize, w: usize, packed: &[u64], p: &[u64], lent: usize, scratch: usize) {
    let bad = !(w.is_power_of_two() && w <= 32768 && q.is_power_of_two() && q <= 4096);
    let n = if bad {
        1
    } else {
        model::first(&[
            (2, packed.len() != model::packed_words(q, w)),
            (11, p.len() != 2 * log2(q)),
            (15, lent < 2 * w || scratch < 2 * q),
        ])
    };
    let answer = if n == 0 {
        let out = open_fold_packed_w(&wide(packed), q, w, &crate::rust::elements(p));
        vec![code(0, &marked(&words(&out), lent)), cleared(2 * q, scratch)]
    } else {
        vec![untouched(n, lent), line(&marked(&[], scratch))]
    };
    let query = format!("foldw {lent} {scratch} {q:#x} {w:#x} {} {}", list(packed), list(p));
    sheet.ask("fold::fold_packed_w", by(n), query, answer);
}

/// The folded public half, as `fold_public_part` has it column by column, and its value at a point.
fn fold_x(sheet: &mut Sheet, q: usize, w: usize, x: &[u64], p: &[u64], c: &[u64], lent: usize) {
    let bad = !(w.is_power_of_two() && w <= 32768 && q.is_power_of_two() && q <= 4096);
    let n = if bad {
        1
    } else {
        model::first(&[(3, x.len() != q * (2 * w - 2)), (11, p.len() != 2 * log2(q)), (15, lent < 2 * w + 2 * q)])
    };
    let answer = if n == 0 {
        let (public, p, c) = (relation::columns(q, w, x), crate::rust::elements(p), crate::rust::elements(c));
        let bits = |j: usize| (0..log2(w)).map(|i| Gf128((j >> i & 1) as u128)).collect::<Vec<_>>();
        let half: Vec<Gf128> = (0..w).map(|j| public.fold_public_part(&p, &bits(j))).collect();
        let value = public.fold_public_part(&p, &c);
        assert_eq!(value, eval_mle(&half, &c));
        let mut out = words(&half);
        out.resize(2 * w + 2 * q, 0);
        vec![code(0, &marked(&out, lent)), format!("= {}", elements(&[value]))]
    } else {
        vec![untouched(n, lent)]
    };
    let query = format!("foldx {lent} {q:#x} {w:#x} {} {} {}", list(x), list(p), list(c));
    sheet.ask("fold::fold_public_in", by(n), query, answer);
}

fn fold_vector(sheet: &mut Sheet, v: &[u64], p: &[u64], scratch: usize) {
    let odd = v.len() % 2 == 1 || p.len() % 2 == 1 || p.len() > 40;
    let n = model::first(&[(11, odd || v.len() != 2usize << (p.len() / 2)), (15, scratch < v.len())]);
    let answer = if n == 0 {
        let value = fold_instances(&crate::rust::elements(v), &crate::rust::elements(p));
        vec![format!("= {}", elements(&[value])), cleared(v.len(), scratch)]
    } else {
        vec![refused(n), line(&marked(&[], scratch))]
    };
    sheet.ask("fold::fold_instances", by(n), format!("foldinst 0 {scratch} {} {}", list(v), list(p)), answer);
}

// ---- Layouts.

fn build(sheet: &mut Sheet, w: usize, lens: &[usize], lent: usize) {
    let n = match layout_refusal(w, lens) {
        0 => model::first(&[(15, lent < lens.len())]),
        n => n,
    };
    let answer = if n == 0 {
        let offsets: Vec<u64> = plain::layout(w, lens).offsets.iter().map(|&o| o as u64).collect();
        code(0, &marked(&offsets, lent))
    } else {
        untouched(n, lent)
    };
    sheet.ask("layout::build", by(n), format!("layout {lent} {w:#x} {}", sizes(lens)), vec![answer]);
}

fn layout_refusal(w: usize, lens: &[usize]) -> u32 {
    if w.is_power_of_two() && w <= 32768 { model::segments(w, lens) } else { 1 }
}

fn reading(sheet: &mut Sheet, w: usize, lens: &[usize], i: usize) {
    let n = layout_refusal(w, lens);
    let query = format!("reading {i:#x} {w:#x} {}", sizes(lens));
    let answer = if n != 0 {
        let mut lines = vec![refused(n); 4];
        lines.push(if n == 1 { refused(1) } else { format!("= {}", log2(w)) });
        lines
    } else if i >= lens.len() {
        let mut lines = vec!["= none".to_string(); 4];
        lines.push(format!("= {}", log2(w)));
        lines
    } else {
        let l = plain::layout(w, lens);
        [l.offsets[i], l.local_vars(i), l.suffix_bits(i), l.b_i(i), l.witness_vars()].iter().map(|n| format!("= {n}")).collect()
    };
    let by = if n == 0 && i < lens.len() { Rust } else { Document };
    sheet.ask("layout::{offset, local_vars, suffix_bits, b_i, witness_vars}", by, query, answer);
}

fn segment(sheet: &mut Sheet, w: usize, lens: &[usize], i: usize, folded: &[u64]) {
    let good = layout_refusal(w, lens) == 0 && folded.len() == 2 * w && i < lens.len();
    let part = if good {
        let at = plain::layout(w, lens).offsets[i];
        &folded[2 * at..2 * (at + lens[i])]
    } else {
        &[]
    };
    let query = format!("segment {i:#x} {w:#x} {} {}", sizes(lens), list(folded));
    sheet.ask("layout::segment", if good { Rust } else { Document }, query, vec![line(part)]);
}

/// Every layout of up to three segments of up to 17 columns; every matrix of one entry around its edges; every size around the limits.
pub fn exhaustive(sheet: &mut Sheet) {
    for w in [0, 1, 2, 3, 4, 8, 16] {
        let most = 2 * w + 1;
        for a in 0..=most {
            build(sheet, w, &[a], 1);
            for b in 0..=most {
                build(sheet, w, &[a, b], 2);
                if w <= 8 {
                    for c in 0..=most {
                        build(sheet, w, &[a, b, c], 3);
                        reading(sheet, w, &[a, b, c], (a + b + c) % 5);
                    }
                }
            }
        }
        build(sheet, w, &[], 0);
        build(sheet, w, &[], 2);
    }
    for (w, lens) in [(256, vec![1; 64]), (256, vec![1; 65]), (64, vec![1; 65]), (256, [vec![1; 64], vec![3]].concat()), (32768, vec![32768]), (32768, vec![16384, 16384]), (32768, vec![16384, 16384, 1]), (65536, vec![1]), (131072, vec![1])] {
        for lent in [lens.len() - 1, lens.len(), lens.len() + 2] {
            build(sheet, w, &lens, lent);
        }
        for i in [0, lens.len() - 1, lens.len(), usize::MAX] {
            reading(sheet, w, &lens, i);
        }
    }
    for w in [1usize, 2, 4] {
        let folded: Vec<u64> = (0..2 * w as u64).collect();
        for a in 0..=w + 1 {
            for b in 0..=w + 1 {
                for i in [0, 1, 2, usize::MAX] {
                    for n in [0, 2 * w - 1, 2 * w] {
                        segment(sheet, w, &[a, b], i, &folded[..n]);
                    }
                }
            }
        }
    }
    for rows in [0, 1, 2, 3, 4, 65536, 65537, 131072, usize::MAX] {
        for cols in [0, 1, 2, 3, 4, 65536, 131072, usize::MAX] {
            let m = Matrix::empty(rows, cols);
            is_binary(sheet, &m);
            apply(sheet, &m, &[1; 4], 3);
            table(sheet, &m, &[1; 2], 3, 3);
            at(sheet, &m, &[1; 2], &[1; 2], 3);
        }
    }
    for (rows, cols) in [(1, 2), (2, 2), (1, 4), (2, 4)] {
        for row in 0..=rows {
            for col in 0..=cols {
                for value in [0, 1, 2, 1 << 64, u128::MAX] {
                    let mut m = Matrix::empty(rows, cols);
                    m.put(row, col, Gf128(value));
                    is_binary(sheet, &m);
                    apply(sheet, &m, &(1..=2 * cols as u64).collect::<Vec<_>>(), 2 * rows + 1);
                    table(sheet, &m, &vec![3; 2 * log2(rows)], 2 * cols, 2 * rows);
                    at(sheet, &m, &vec![3; 2 * log2(rows)], &vec![5; 2 * log2(cols)], 2 * (rows + cols));
                    for bits in 0..1u64 << (cols / 2) {
                        packed(sheet, &m, &[bits, 0], &vec![7; cols - 2], 1, cols / 2, 2 * rows);
                        let x: Vec<u64> = (0..2 * cols as u64 - 4).collect();
                        packed(sheet, &m, &[bits, 0, !bits, 0], &x, 2, cols / 2, 4 * rows);
                    }
                    for part in 0..4 {
                        let mut cut = m.clone();
                        match part {
                            0 => cut.row.push(0),
                            1 => cut.col.clear(),
                            2 => cut.lo.push(1),
                            _ => cut.hi.clear(),
                        }
                        is_binary(sheet, &cut);
                        apply(sheet, &cut, &vec![1; 2 * cols], 2 * rows);
                    }
                }
            }
        }
    }
    for q in [0, 1, 2, 3, 4, 4096, 4097, 8192, usize::MAX] {
        for w in [0, 1, 2, 3, 32768, 65536, usize::MAX] {
            // a point of the half's variables, where it has any
            let low = vec![7; if w == 2 { 2 } else { 0 }];
            for n in 0..10 {
                fold_w(sheet, q, w, &vec![3; n], &vec![5; n / 2], 4, 4);
                fold_x(sheet, q, w, &vec![3; n], &vec![5; n / 2], &low, 2 * n);
                packed(sheet, &Matrix::empty(1, 4), &vec![3; n], &vec![5; n / 2], q, w, 4);
            }
        }
    }
    for v in 0..20 {
        for p in 0..8 {
            for scratch in [0, v.max(1) - 1, v, v + 1] {
                fold_vector(sheet, &vec![3; v], &vec![5; p], scratch);
            }
        }
    }
}

pub fn any(r: &mut Random, rows: usize, cols: usize, most: usize) -> Matrix {
    let mut m = Matrix::empty(rows, cols);
    let kind = r.below(3);
    for _ in 0..r.below(most + 1) {
        let (row, v) = (r.below(rows), if kind == 2 { r.element() } else { Gf128(r.below(2) as u128) });
        let col = if kind == 0 { r.below(cols / 2 + 1) } else { r.below(cols) };
        m.put(row, col, v);
        if r.one_in(6) {
            m.put(row, col, v);
        }
    }
    m
}

pub fn random(sheet: &mut Sheet, r: &mut Random) {
    let (rows, cols) = (1 << r.below(5), 2 << r.below(6));
    let mut m = any(r, rows, cols, 40);
    let (b, n) = (log2(rows), log2(cols));
    let (z, p, c) = (words(&r.elements(cols)), words(&r.elements(b)), words(&r.elements(n)));
    let slack = r.below(5);
    let near = |n: usize| (n + slack).saturating_sub(1);
    is_binary(sheet, &m);
    apply(sheet, &m, &z, 2 * rows + slack);
    table(sheet, &m, &p, near(2 * cols), 2 * rows + r.below(2));
    at(sheet, &m, &p, &c, near(2 * (rows + cols)));
    // a batch of rows of another width, whose public words a line holds
    let w = 1 << r.below(9);
    let q = (1 << r.below(5)).min(1024 / w);
    let batch = any(r, rows.min(8), 2 * w, 40);
    let bits = r.words(model::packed_words(q, w));
    let x = if r.one_in(2) { relation::own_columns(r, q, w) } else { words(&r.elements(w - 1)).repeat(q) };
    let total = batch.rows * q * 2;
    packed(sheet, &batch, &bits, &x, q, w, near(total));
    let point = words(&r.elements(log2(q)));
    fold_w(sheet, q, w, &bits, &point, near(2 * w), 2 * q + r.below(2));
    let at_low = words(&r.elements(log2(w)));
    if x.len() + 2 * w < 2000 {
        fold_x(sheet, q, w, &x, &point, &at_low, near(2 * w + 2 * q));
    }
    let vector = words(&r.elements(q));
    fold_vector(sheet, &vector, &point, near(2 * q));
    // lengths that are not wanted
    apply(sheet, &m, &z[..r.below(z.len())], 2 * rows);
    table(sheet, &m, &z[..r.below(z.len().min(12))], 2 * cols, 2 * rows);
    let at_end = r.below(bits.len());
    packed(sheet, &batch, &bits[..at_end], &x, q, w, total);
    if !x.is_empty() {
        let end = r.below(x.len());
        packed(sheet, &batch, &bits, &x[..end], q, w, total);
    }
    // an entry outside
    match r.below(4) {
        0 => m.put(rows, 0, Gf128(0)),
        1 => m.put(0, cols, Gf128(1)),
        2 => m.put(usize::MAX, usize::MAX, Gf128(1)),
        _ => m.hi.push(0),
    }
    is_binary(sheet, &m);
    apply(sheet, &m, &z, 2 * rows);
    // layouts of a random width
    let w = 1 << r.below(16);
    let mut lens = relation::lengths(r, w, 8);
    let lent = near(lens.len() + 1).saturating_sub(1);
    build(sheet, w, &lens, lent.min(120));
    let i = r.below(lens.len() + 2);
    reading(sheet, w, &lens, i);
    if !lens.is_empty() {
        let k = r.below(lens.len());
        lens[k] = r.pick(&[0, 3, 2 * w, w, lens[k] * 2]);
        build(sheet, w, &lens, lens.len());
        reading(sheet, w, &lens, k);
    }
    let w = 1 << r.below(6);
    let lens = relation::lengths(r, w, 8);
    let folded = words(&r.elements(w));
    let i = r.below(lens.len() + 1);
    segment(sheet, w, &lens, i, &folded);
}
