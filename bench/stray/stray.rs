//! Times what the search for stray bits takes of the row check, on the same batch in one run.
//!
//!     stray M Q ROWS ENTRIES TURNS
//!
//! prints a line of the table, the shortest time of each over so many turns. The row check is of a good batch, with a gap between two
//! segments. The search is the row check of the same packed words but for one bit, the last login's last column in the gap, with one
//! empty row in each system: it goes through the words to the last login, finds that bit and looks at no row. One thread.
use magnetar::{repeat_columns, row_check, Matrix, Relation, RowCheck};

#[path = "../proofs/case.rs"]
#[allow(dead_code)]
mod case;
#[allow(dead_code)]
#[path = "../../compare/src/random.rs"]
mod random;
#[allow(dead_code)]
#[path = "../../compare/src/text.rs"]
mod text;

use case::{case, measured, ms, packed, relation, NONE};
use text::words;

fn main() {
    let given: Vec<usize> = std::env::args().skip(1).map(|w| w.parse().expect("a number")).collect();
    let [m, q, rows, entries, turns] = given[..] else { panic!("stray M Q ROWS ENTRIES TURNS") };
    let (mut c, w) = (case(m, q, [rows, rows], entries, 4), m / 2);
    // columns 0 to w/8, w/4 to w/2, w/2 to w: the gap is w/8 to w/4
    c.lens = vec![w / 8, w / 4, w / 2];
    let (mut bits, login) = (packed(&c), 2 * w.div_ceil(128));
    for u in 0..q {
        for y in w / 8..w / 4 {
            bits[u * login + y / 64] &= !(1 << (y % 64));
        }
    }
    let x = repeat_columns(&words(&c.x), q);
    let rules = relation(&c);
    let (mut whole, mut search) = (NONE, NONE);
    for _ in 0..turns {
        assert_eq!(measured(&mut whole, || row_check(&rules, &bits, &x)), Ok(RowCheck::Good));
    }
    let empty: [Matrix; 3] = std::array::from_fn(|_| Matrix::new(1, m, &[]));
    let none = Relation::new(m, q, c.lens.clone(), &empty, &empty);
    let (login, column) = (q - 1, w / 4 - 1);
    bits[login * 2 * w.div_ceil(128) + column / 64] |= 1 << (column % 64);
    for _ in 0..turns.max(20) {
        assert_eq!(measured(&mut search, || row_check(&none, &bits, &x)), Ok(RowCheck::Stray { login, column }));
    }
    println!("| {m} | {q} | {rows} | {entries} | {:.2} ms | {:.3} ms | {:.4} |", ms(whole), ms(search), ms(search) / ms(whole));
}
