//! Answers queries on the published field crate, a line for each, in the form that the test program writes.
//! Words are in decimal, or in hexadecimal after 0x; a list is its number of words and the words.
//!   add 4 A B | mulbit 4 R B | isbit 2 A | square 2 A | inv 2 A | pow 2 A KLO KHI
//!   chain 4 A B N | eqchar2 2 X B | eq P 2 C | fused P | eqat P BITS | bind VAR T 2 R | fold VAR T 2 R
//! The Rust's tables begin with 1: `eq` is its table with each entry times C.
use magnetar_field::eq::{eq_build_fused, eq_char2, eq_table, EqBits};
use magnetar_field::gf128::{inv, is_bit, mul, mul_bit, pow, square, Gf128};
use magnetar_field::multilinear::{bind_var, fold_pairs};

#[allow(dead_code)]
#[path = "../compare/src/text.rs"]
mod text;

mod queries;
use queries::{elements, list, numbers};

fn text(elements: &[Gf128]) -> String {
    format!("= {}", text::elements(elements))
}

fn answer(op: &str, words: &mut &[u64]) -> String {
    if op == "bind" || op == "fold" {
        let var = words[0] as usize;
        *words = &words[1..];
        let mut table = elements(words);
        let r = elements(words)[0];
        if op == "bind" { bind_var(&mut table, var, r) } else { fold_pairs(&mut table, var, r) }
        return text(&table);
    }
    let v = elements(words);
    match op {
        "add" => text(&[v[0] + v[1]]),
        "mulbit" => text(&[mul_bit(v[0], v[1])]),
        "isbit" => format!("= {}", is_bit(v[0])),
        "square" => text(&[square(v[0])]),
        "inv" => text(&[inv(v[0])]),
        "pow" => text(&[pow(v[0], words[0] as u128 | (words[1] as u128) << 64)]),
        "chain" => {
            let turn = |(x, y), i| (mul(x, y), y + Gf128(i as u128));
            text(&[(0..words[0]).fold((v[0], v[1]), turn).0])
        }
        "eqchar2" => text(&[eq_char2(v[0], words[0] == 1)]),
        "eq" => {
            let c = elements(words)[0];
            text(&EqBits::build(&v).values.iter().map(|e| mul(*e, c)).collect::<Vec<_>>())
        }
        "fused" => text(&eq_build_fused(&v)),
        "eqat" => text(&[eq_table(&v, &list(words).iter().map(|b| *b == 1).collect::<Vec<_>>())]),
        _ => panic!("unknown query {op}"),
    }
}

fn main() {
    for line in std::io::stdin().lines() {
        let line = line.unwrap();
        let (op, rest) = line.split_once(' ').unwrap();
        println!("{}", answer(op, &mut &numbers(rest)[..]));
    }
}
