//! Answers queries on the published sum-check crate, in the form that the test program writes (docs/VECTORS.md).
//! Words are in decimal, or in hexadecimal after 0x; a list is its number of words and the words.
//!   outer HIGH 2 CLAIM TAU A B C R | inner HIGH 2 CLAIM T Z R: several lines, the last one after the rounds
//!   round MSG 4 CLAIM R | outerend 10 RUNNING E A B C | innerend 6 RUNNING T Z
//!   capture T L MSG 2 CLAIM, where T is a state and a counter and L a label, in hexadecimal
//!   eqpoints HIGH TAU R | sum TAU A B C: the sum that the outer sum-check claims | dot T Z: that of the inner one
use magnetar_field::{eq_build_fused, mul, Gf128, ZERO};
use magnetar_sumcheck::{EqFactor, PublicFactor, TableFactor};

#[path = "../compare/src/engine.rs"]
mod engine;
#[allow(dead_code)]
#[path = "../compare/src/rust.rs"]
mod rust;
#[allow(dead_code)]
#[path = "../compare/src/text.rs"]
mod text;

mod queries;
use engine::{capture, end, inner_terms, order, outer_terms, round, whole, Public};
use queries::{elements as list, number, numbers};

fn element(e: Gf128) -> String {
    format!("= {}", text::elements(&[e]))
}

fn bytes(word: &str) -> Vec<u8> {
    let digit = |i| u8::from_str_radix(&word[i..i + 2], 16).unwrap();
    if word == "-" { vec![] } else { (0..word.len()).step_by(2).map(digit).collect() }
}

fn answer(op: &str, words: &mut &[u64]) -> String {
    let high = words[0] as usize;
    if ["outer", "inner", "round", "eqpoints"].contains(&op) {
        *words = &words[1..];
    }
    let first = list(words);
    match op {
        "outer" => {
            let (tau, dense) = (list(words), vec![list(words), list(words), list(words)]);
            let public = || -> Public { vec![Box::new(EqFactor::new(tau.clone()))] };
            whole(first[0], &dense, &public, outer_terms(), high, &list(words), false).0.join("\n")
        }
        "inner" => {
            let (table, z) = (list(words), list(words));
            let public = || -> Public { vec![Box::new(TableFactor::new(table.clone()))] };
            whole(first[0], &[z], &public, inner_terms(), high, &list(words), true).0.join("\n")
        }
        "round" => {
            let x = list(words);
            round(&first, x[0], x[1])
        }
        "outerend" => text::truth(end(outer_terms(), &first)),
        "innerend" => text::truth(end(inner_terms(), &first)),
        "eqpoints" => {
            let r = list(words);
            element(EqFactor::new(first).eval_at(&order(high).point(r.len(), &r)))
        }
        "sum" => {
            let (a, b, c) = (list(words), list(words), list(words));
            let e = eq_build_fused(&first);
            element((0..a.len()).fold(ZERO, |acc, i| acc + mul(e[i], mul(a[i], b[i]) + c[i])))
        }
        "dot" => {
            let z = list(words);
            element((0..z.len()).fold(ZERO, |acc, i| acc + mul(first[i], z[i])))
        }
        _ => panic!("unknown query {op}"),
    }
}

/// T L N MSG 2 CLAIM
fn captured(rest: &str) -> String {
    let found: Vec<&str> = rest.splitn(4, ' ').collect();
    let (state, label) = (bytes(found[0]).try_into().unwrap(), String::from_utf8(bytes(found[2])).unwrap());
    let words = numbers(found[3]);
    let words = &mut &words[1..];
    capture(&(state, number(found[1])), &label, &list(words), list(words)[0])
}

fn main() {
    for line in std::io::stdin().lines() {
        let line = line.unwrap();
        let (op, rest) = line.split_once(' ').unwrap();
        println!("{}", if op == "capture" { captured(rest) } else { answer(op, &mut &numbers(rest)[..]) });
    }
}
