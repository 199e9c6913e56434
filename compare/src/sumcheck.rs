//! Queries on the sum-check: whole ones, single rounds, terminal identities, and the functions on lent tables.
use crate::engine::{self, inner_terms, order, outer_terms, whole, Public};
use crate::hash;
use crate::random::Random;
use crate::rust::State;
use crate::sheet::Sheet;
use crate::tally::By::{Document, Rust};
use crate::text::*;
use magnetar_field::{eq_build_fused, mul, Gf128, ONE, ZERO};
use magnetar_sumcheck::{EqFactor, PublicFactor, TableFactor};

fn outer(sheet: &mut Sheet, high: usize, tau: &[Gf128], abc: &[Vec<Gf128>; 3], r: &[Gf128], wrong: Gf128) -> (Gf128, Vec<Vec<Gf128>>) {
    let e = eq_build_fused(tau);
    let claim = (0..e.len()).fold(wrong, |s, i| s + mul(e[i], mul(abc[0][i], abc[1][i]) + abc[2][i]));
    let public = || -> Public { vec![Box::new(EqFactor::new(tau.to_vec()))] };
    let (lines, messages) = whole(claim, abc, &public, outer_terms(), high, r, false);
    let tables: Vec<String> = abc.iter().map(|t| elements(t)).collect();
    let query = format!("outer {high} {} {} {} {}", elements(&[claim]), elements(tau), tables.join(" "), elements(r));
    sheet.ask("outer sum-check", Rust, query, lines);
    (claim, messages)
}

fn inner(sheet: &mut Sheet, high: usize, t: &[Gf128], z: &[Gf128], r: &[Gf128], wrong: Gf128) {
    let claim = t.iter().zip(z).fold(wrong, |s, (&a, &b)| s + mul(a, b));
    let public = || -> Public { vec![Box::new(TableFactor::new(t.to_vec()))] };
    let (lines, _) = whole(claim, &[z.to_vec()], &public, inner_terms(), high, r, true);
    let query = format!("inner {high} {} {} {} {}", elements(&[claim]), elements(t), elements(z), elements(r));
    sheet.ask("inner sum-check", Rust, query, lines);
}

/// One message of any degree, with the challenge from outside and drawn.
fn round(sheet: &mut Sheet, message: &[Gf128], claim: Gf128, r: Gf128, t: &State, label: &str) {
    let n = message.len();
    let query = format!("round {n} {} {}", elements(message), elements(&[claim, r]));
    sheet.ask("engine::round_external", Rust, query, vec![engine::round(message, claim, r)]);
    let query = format!("capture {} {n} {} {}", hash::on(t, label), elements(message), elements(&[claim]));
    if t.1 < 1 << 32 {
        sheet.ask("engine::round_capturing", Rust, query, vec![engine::capture(t, label, message, claim)]);
    } else {
        sheet.ask("engine::round_capturing", Document, query, vec![format!("! 14 {} {}", elements(&[claim, ZERO]), state(t))]);
    }
    let wanted = format!("round {} {} {}", n + 1, elements(message), elements(&[claim, r]));
    sheet.ask("engine::round_external", Document, wanted, vec![format!("! 11 {}", elements(&[claim]))]);
}

fn end(sheet: &mut Sheet, outer: bool, values: &[Gf128]) {
    let (name, op, terms) = if outer { ("engine::outer_finish", "outerend", outer_terms()) } else { ("engine::inner_finish", "innerend", inner_terms()) };
    sheet.ask(name, Rust, format!("{op} {}", elements(values)), vec![truth(engine::end(terms, values))]);
}

fn ends(sheet: &mut Sheet, r: &mut Random) {
    let v = r.elements(4);
    let mut values = vec![mul(v[0], mul(v[1], v[2]) + v[3])];
    values.extend(&v);
    end(sheet, true, &values);
    let k = r.below(5);
    values[k] = values[k] + Gf128(1 << r.below(128));
    end(sheet, true, &values);
    let v = r.elements(2);
    let mut values = vec![mul(v[0], v[1]), v[0], v[1]];
    end(sheet, false, &values);
    let k = r.below(3);
    values[k] = values[k] + Gf128(1 << r.below(128));
    end(sheet, false, &values);
}

fn points(sheet: &mut Sheet, high: usize, tau: &[Gf128], r: &[Gf128]) {
    let query = format!("eqpoints {high:#x} {} {}", elements(tau), elements(r));
    if tau.len() != r.len() || high > r.len() {
        sheet.ask("public::eq_points", Document, query, vec![refused(11)]);
    } else {
        let value = EqFactor::new(tau.to_vec()).eval_at(&order(high).point(r.len(), r));
        sheet.ask("public::eq_points", Rust, query, vec![format!("= {}", elements(&[value]))]);
    }
}

/// The table with variables 0 and v exchanged.
fn exchanged(table: &[Gf128], v: usize) -> Vec<Gf128> {
    let place = |i: usize| if i & 1 == i >> v & 1 { i } else { i ^ 1 ^ 1 << v };
    (0..table.len()).map(|i| table[place(i)]).collect()
}

/// The functions on lent tables: the message that binds variable v, and the table without it. The Rust's first round binds variable 0
/// of the tables with 0 and v exchanged.
fn lent(sheet: &mut Sheet, tau: &[Gf128], abc: &[Vec<Gf128>; 3], v: usize, room: usize) {
    let r = vec![ONE; tau.len()];
    let mut turned = tau.to_vec();
    turned.swap(0, v);
    let other: Vec<Vec<Gf128>> = abc.iter().map(|t| exchanged(t, v)).collect();
    let rest: Vec<Gf128> = tau.iter().enumerate().filter(|(i, _)| *i != v).map(|(_, t)| *t).collect();
    let e = eq_build_fused(&rest);
    let public = || -> Public { vec![Box::new(EqFactor::new(turned.clone()))] };
    let (_, messages) = whole(ZERO, &other, &public, outer_terms(), 0, &r, false);
    let tables: Vec<String> = abc.iter().map(|t| elements(t)).collect();
    let query = format!("outermsg {room} {v} {} {} {}", elements(&e), tables.join(" "), elements(&[ONE, tau[v]]));
    let short = room < 8;
    let found = if short { code(15, &marked(&[], room)) } else { code(0, &marked(&words(&messages[0]), room)) };
    sheet.ask("engine::outer_message", if short { Document } else { Rust }, query, vec![found]);
    let public = || -> Public { vec![Box::new(TableFactor::new(other[0].clone()))] };
    let (_, messages) = whole(ZERO, &other[1..2], &public, inner_terms(), 0, &r, true);
    let query = format!("innermsg {room} {v} {} {}", tables[0], tables[1]);
    let short = room < 6;
    let found = if short { code(15, &marked(&[], room)) } else { code(0, &marked(&words(&messages[0]), room)) };
    sheet.ask("engine::inner_message", if short { Document } else { Rust }, query, vec![found]);
    let whole_table = words(&eq_build_fused(tau));
    let mut after = whole_table.clone();
    after[..2 * e.len()].copy_from_slice(&words(&e));
    sheet.ask("public::drop_var", Rust, format!("dropvar {v} {}", list(&whole_table)), vec![code(0, &after)]);
}

/// Tables that do not go together: 11, before 15.
fn mismatched(sheet: &mut Sheet, lens: [usize; 4], v: usize, room: usize) {
    let table = |n: usize| list(&vec![3; n]);
    let is_table = |n: usize| n % 2 == 0 && (n / 2).is_power_of_two() && v < (n / 2).trailing_zeros() as usize;
    let answer = vec![code(11, &marked(&[], room))];
    let [e, a, b, c] = lens;
    if !(is_table(a) && b == a && c == a && 2 * e == a) {
        let query = format!("outermsg {room} {v:#x} {} {} {} {} 4 1 0 1 0", table(e), table(a), table(b), table(c));
        sheet.ask("engine::outer_message", Document, query, answer.clone());
    }
    if !(is_table(a) && b == a) {
        sheet.ask("engine::inner_message", Document, format!("innermsg {room} {v:#x} {} {}", table(a), table(b)), answer);
    }
    if !is_table(a) {
        sheet.ask("public::drop_var", Document, format!("dropvar {v:#x} {}", table(a)), vec![code(11, &vec![3; a])]);
    }
}

/// Every order of up to three variables with tables of bits and challenges among 0, 1 and another; every size of a table.
pub fn exhaustive(sheet: &mut Sheet) {
    let special = [ZERO, ONE, Gf128(1 << 127)];
    for n in 0..=2usize {
        let cells = 1usize << n;
        for bits in 0..1usize << (3 * cells).min(9) {
            let table = |k: usize| (0..cells).map(|i| Gf128((bits >> ((k * cells + i) % 9) & 1) as u128)).collect::<Vec<_>>();
            let abc = [table(0), table(1), table(2)];
            for k in 0..3usize.pow(n as u32) {
                let tau: Vec<_> = (0..n).map(|j| special[(k / 3usize.pow(j as u32) + j) % 3]).collect();
                let r: Vec<_> = (0..n).map(|j| special[k / 3usize.pow(j as u32) % 3]).collect();
                let high = (bits + k) % (n + 1);
                outer(sheet, high, &tau, &abc, &r, ZERO);
                inner(sheet, high, &abc[0], &abc[1], &r, ZERO);
                points(sheet, high, &tau, &r);
            }
        }
    }
    for e in 0..5 {
        for a in 0..10 {
            for b in [0, 2, 4, 8, a] {
                for c in [a, 4] {
                    for v in [0, 1, 2, 64, usize::MAX] {
                        mismatched(sheet, [e, a, b, c], v, 7);
                    }
                }
            }
        }
    }
    let r = &mut Random(12);
    for n in 1..=4 {
        for v in 0..n {
            for room in 0..12 {
                let abc = [r.elements(1 << n), r.elements(1 << n), r.elements(1 << n)];
                let tau = r.elements(n);
                lent(sheet, &tau, &abc, v, room);
            }
        }
        for (high, tau, other) in [(0, n, n + 1), (0, n + 1, n), (n + 1, n, n), (usize::MAX, n, n), (0, n, 0)] {
            points(sheet, high, &vec![Gf128(3); tau], &vec![Gf128(5); other]);
        }
    }
}

pub fn random(sheet: &mut Sheet, r: &mut Random) {
    let n = r.below(6);
    let high = r.below(n + 1);
    let abc = [r.elements(1 << n), r.elements(1 << n), r.elements(1 << n)];
    let (tau, point) = (r.elements(n), r.elements(n));
    let wrong = if r.one_in(4) { Gf128(1 << r.below(128)) } else { ZERO };
    let (claim, messages) = outer(sheet, high, &tau, &abc, &point, wrong);
    inner(sheet, high, &abc[0], &abc[1], &point, wrong);
    points(sheet, high, &tau, &point);
    points(sheet, high, &point, &point);
    ends(sheet, r);
    let (t, label): (State, String) = ((r.bytes(32).try_into().unwrap(), hash::counter(r)), hash::label(r));
    if let Some(message) = messages.first() {
        let x = r.element();
        round(sheet, message, claim, x, &t, &label);
        let mut damaged = message.clone();
        let k = r.below(4);
        damaged[k] = damaged[k] + Gf128(1 << r.below(128));
        round(sheet, &damaged, claim, x, &t, &label);
        let v = r.below(n);
        let room = r.below(12);
        lent(sheet, &tau, &abc, v, room);
        lent(sheet, &tau, &abc, v, 8);
    }
    let degree = r.below(6);
    let message = r.elements(degree + 1);
    let claim = message[1..].iter().fold(ZERO, |s, &c| s + c);
    let x = r.element();
    round(sheet, &message, claim, x, &t, &label);
    round(sheet, &message, claim + Gf128(1 << r.below(128)), x, &t, &label);
    let (k, tau) = (r.element(), r.element());
    let next = mul(k, ONE + tau + x);
    sheet.ask("public::eq_next", Rust, format!("eqnext {}", elements(&[k, tau, x])), vec![format!("= {}", elements(&[next]))]);
}
