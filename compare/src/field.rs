//! Queries on the field, eq tables and multilinear tables.
use crate::random::Random;
use crate::sheet::Sheet;
use crate::tally::By::{Document, Rust};
use crate::text::*;
use magnetar_field::eq::{eq_build_fused, eq_char2, eq_table, EqBits};
use magnetar_field::gf128::{inv, is_bit, mul, mul_bit, pow, square, Gf128, ONE, ZERO};
use magnetar_field::multilinear::{bind_var, eval_mle, fold_pairs};

fn one(e: Gf128) -> Vec<String> {
    vec![format!("= {}", elements(&[e]))]
}

fn product(sheet: &mut Sheet, a: Gf128, b: Gf128) {
    sheet.ask("gf128::mul", Rust, format!("mul {}", elements(&[a, b])), one(mul(a, b)));
}

fn singles(sheet: &mut Sheet, a: Gf128) {
    sheet.ask("gf128::square", Rust, format!("square {}", elements(&[a])), one(square(a)));
    sheet.ask("gf128::is_bit", Rust, format!("isbit {}", elements(&[a])), vec![truth(is_bit(a))]);
    if a.0 == 0 {
        sheet.ask("gf128::inv", Document, format!("inv {}", elements(&[a])), one(a));
        sheet.tally.listed("inverse of zero");
    } else {
        sheet.ask("gf128::inv", Rust, format!("inv {}", elements(&[a])), one(inv(a)));
    }
    for b in 0..2 {
        sheet.ask("eq::eq_char2", Rust, format!("eqchar2 {} {b}", elements(&[a])), one(eq_char2(a, b == 1)));
        let bit = Gf128(b as u128);
        sheet.ask("gf128::mul_bit", Rust, format!("mulbit {}", elements(&[a, bit])), one(mul_bit(a, bit)));
    }
}

fn power(sheet: &mut Sheet, a: Gf128, k: u128) {
    let words = words(&[Gf128(k)]);
    sheet.ask("gf128::pow", Rust, format!("pow {} {:#x} {:#x}", elements(&[a]), words[0], words[1]), one(pow(a, k)));
}

/// The table from an element with `lent` words, which may be too few. The Rust's begins with 1: each of its entries times the element.
fn table(sheet: &mut Sheet, point: &[Gf128], start: Gf128, lent: usize) {
    let need = 2usize << point.len();
    let query = format!("eqroom {lent} {} {}", elements(point), elements(&[start]));
    if lent < need {
        sheet.ask("EqBits::build", Document, query, vec![code(15, &marked(&[], lent))]);
    } else {
        let found: Vec<_> = EqBits::build(point).values.iter().map(|&e| mul(e, start)).collect();
        sheet.ask("EqBits::build", Rust, query, vec![code(0, &marked(&words(&found), lent))]);
    }
}

fn tables(sheet: &mut Sheet, point: &[Gf128], starts: &[Gf128], bits: &[bool]) {
    let need = 2usize << point.len();
    for &start in starts {
        table(sheet, point, start, need);
    }
    sheet.ask("eq::eq_build_fused", Rust, format!("fused {}", elements(point)), vec![format!("= {}", elements(&eq_build_fused(point)))]);
    let as_words: Vec<u64> = bits.iter().map(|&b| b as u64).collect();
    let query = format!("eqat {} {}", elements(point), list(&as_words));
    sheet.ask("eq::eq_table", Rust, query, one(eq_table(point, bits)));
}

fn evaluation(sheet: &mut Sheet, values: &[Gf128], point: &[Gf128], lent: usize) {
    let need = 2 * values.len();
    let query = format!("mleroom {lent} {} {}", elements(values), elements(point));
    if lent < need {
        sheet.ask("multilinear::eval_mle", Document, query, vec![refused(15), format!("= {}", list(&marked(&[], lent)))]);
    } else {
        let value = format!("= {}", elements(&[eval_mle(values, point)]));
        sheet.ask("multilinear::eval_mle", Rust, query, vec![value, cleared(need, lent)]);
    }
}

fn binding(sheet: &mut Sheet, values: &[Gf128], var: usize, r: Gf128) {
    let mut bound = values.to_vec();
    bind_var(&mut bound, var, r);
    let mut after = words(values);
    after[..2 * bound.len()].copy_from_slice(&words(&bound));
    let given = format!("{var} {} {}", elements(values), elements(&[r]));
    sheet.ask("multilinear::bind_var", Rust, format!("bindroom {given}"), vec![code(0, &after)]);
    let mut folded = values.to_vec();
    fold_pairs(&mut folded, var, r);
    sheet.ask("multilinear::fold_pairs", Rust, format!("fold {given}"), vec![format!("= {}", elements(&folded))]);
}

/// All pairs of single bits, which fix the product, of short elements and of edges; all points of 0, 1 and two more elements.
pub fn exhaustive(sheet: &mut Sheet) {
    for i in 0..128 {
        for j in 0..128 {
            product(sheet, Gf128(1 << i), Gf128(1 << j));
        }
        singles(sheet, Gf128(1 << i));
    }
    for a in 0..64 {
        for b in 0..64 {
            product(sheet, Gf128(a), Gf128(b));
        }
        singles(sheet, Gf128(a));
        for k in 0..10 {
            power(sheet, Gf128(a), k);
        }
    }
    let edges = [0, 1, u64::MAX as u128, 1 << 64, u128::MAX << 64, 1 << 127, u128::MAX - 1, u128::MAX];
    for a in edges {
        for b in edges {
            product(sheet, Gf128(a), Gf128(b));
            power(sheet, Gf128(a), b);
        }
        singles(sheet, Gf128(a));
    }
    let special = [Gf128(0), Gf128(1), Gf128(2), Gf128(1 << 127)];
    let r = &mut Random(14);
    for n in 0..=4u32 {
        for k in 0..4usize.pow(n) {
            let point: Vec<_> = (0..n).map(|j| special[k >> (2 * j) & 3]).collect();
            let bits: Vec<_> = (0..n).map(|j| k >> j & 1 == 1).collect();
            let starts = [ZERO, ONE, Gf128(2), Gf128(1 << 127), Gf128(u128::MAX), Gf128(r.wide())];
            tables(sheet, &point, &starts, &bits);
        }
    }
    // every number of lent words around each table
    for n in 0..=4 {
        let point = vec![Gf128(3); n];
        let need = 2usize << n;
        for lent in 0..=need + 3 {
            for start in [ONE, ZERO, Gf128(1 << 127), Gf128(r.wide())] {
                table(sheet, &point, start, lent);
            }
            evaluation(sheet, &vec![Gf128(5); 1 << n], &point, lent);
        }
    }
    // every number of words of a point and of a table: an odd number, or another one, is refused with 11
    for count in 0..=44usize {
        let point = vec![7u64; count];
        for lent in [0, 4, 16] {
            let n = if count % 2 == 1 || count > 40 { 11 } else if lent < 2usize << (count / 2) { 15 } else { continue };
            for start in [ONE, ZERO, Gf128(r.wide())] {
                let query = format!("eqroom {lent} {} {}", list(&point), elements(&[start]));
                sheet.ask("EqBits::build", Document, query, vec![code(n, &marked(&[], lent))]);
            }
        }
        for var in [0, 1, 2, 5, 64, usize::MAX] {
            let good = count % 2 == 0 && (count / 2).is_power_of_two() && var < (count / 2).trailing_zeros() as usize;
            if !good {
                let query = format!("bindroom {var:#x} {} 2 1 0", list(&point));
                sheet.ask("multilinear::bind_var", Document, query, vec![code(11, &point)]);
            }
        }
        for p in 0..6usize {
            let good = p % 2 == 0 && count == 2usize << (p / 2);
            if !good {
                let query = format!("mleroom 3 {} {}", list(&point), list(&vec![9; p]));
                sheet.ask("multilinear::eval_mle", Document, query, vec![refused(11), format!("= {}", list(&marked(&[], 3)))]);
            }
        }
    }
}

pub fn random(sheet: &mut Sheet, r: &mut Random) {
    for _ in 0..20 {
        let (a, b) = (r.element(), r.element());
        product(sheet, a, b);
        sheet.ask("gf128::add", Rust, format!("add {}", elements(&[a, b])), one(a + b));
    }
    for _ in 0..2 {
        let a = r.element();
        singles(sheet, a);
        let k = if r.one_in(2) { r.wide() } else { r.below(300) as u128 };
        power(sheet, a, k);
    }
    let n = r.below(9);
    let point = r.elements(n);
    let bits: Vec<_> = (0..n).map(|_| r.one_in(2)).collect();
    let start = r.element();
    tables(sheet, &point, &[ONE, start], &bits);
    let extra = r.below(4);
    table(sheet, &point, start, (2 << n) + extra);
    table(sheet, &point, start, (2 << n) - 1 - r.below(2));
    let values = r.elements(1 << n);
    evaluation(sheet, &values, &point, (2 << n) + extra);
    evaluation(sheet, &values, &point, (2 << n) - 1 - r.below(2));
    if n > 0 {
        let (var, x) = (r.below(n), r.element());
        binding(sheet, &values, var, x);
    }
}
