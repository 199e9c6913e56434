//! Answers queries on batches whose logins have public columns of their own, by the Rust's published parts (docs/VECTORS.md).
//! Words are in decimal, or in hexadecimal after 0x; a list is its number of words and the words.
//!   packed M PACKED X 2 Q W: whether the products are bits, and the products
//!   foldx Q W X P C: the folded public half, and its value at C
//!   case ..: a relation and a batch, as magnetar_cases is told them; answers nothing, and the others are asked on it
//!   product K: that of matrix K with each login
//!   prove T: proof, claims, and T after it | verify T PROOF: number, claims, and T after it
//!   provewith DRAWS: the proof with given draws | checkswith DRAWS PROOF: number, how many events come before it, claims
use magnetar_field::{eval_mle, Gf128};
use magnetar_spartan::r1cs::SimdInstance;

#[macro_use]
#[path = "../compare/src/flat.rs"]
mod flat;
#[path = "../compare/src/forms.rs"]
mod forms;
#[path = "../compare/src/own.rs"]
mod own;
#[allow(dead_code)]
#[path = "../compare/src/rust.rs"]
mod rust;
#[allow(dead_code)]
#[path = "../compare/src/text.rs"]
mod text;

mod queries;
use forms::{number, plain, scripted};
use queries::{elements, list, numbers};
use relation::{Matrix, Relation};

/// A relation with its batch, in the Rust's words.
mod relation {
    use magnetar_field::Gf128;

    #[derive(Default)]
    pub struct Matrix {
        pub rows: usize,
        pub cols: usize,
        pub entries: Vec<(usize, usize, Gf128)>,
    }

    pub trait Entries {
        fn entries(&self) -> Vec<(usize, usize, Gf128)>;
    }

    impl Entries for Matrix {
        fn entries(&self) -> Vec<(usize, usize, Gf128)> {
            self.entries.clone()
        }
    }

    #[derive(Default)]
    pub struct Relation {
        pub m: usize,
        pub q: usize,
        pub lens: Vec<usize>,
        pub x: Vec<Gf128>,
        pub packed: Vec<u128>,
        pub matrices: [Matrix; 6],
    }

    impl Relation {
        pub fn rows(&self) -> [usize; 2] {
            [self.matrices[0].rows, self.matrices[3].rows]
        }
    }
}

fn entries(lists: &[Vec<u64>]) -> Vec<(usize, usize, Gf128)> {
    let value = |i: usize| Gf128(lists[2][i] as u128 | (lists[3][i] as u128) << 64);
    (0..lists[0].len()).map(|i| (lists[0][i] as usize, lists[1][i] as usize, value(i))).collect()
}

fn wide(words: &mut &[u64]) -> Vec<u128> {
    elements(words).iter().map(|e| e.0).collect()
}

/// The public columns of q logins, one login behind the other.
fn columns(q: usize, w: usize, x: &[Gf128]) -> SimdInstance {
    SimdInstance { q, m: 2 * w, public: (0..q).map(|u| x[u * (w - 1)..(u + 1) * (w - 1)].to_vec()).collect() }
}

fn told(words: &mut &[u64]) -> Relation {
    let sizes = list(words);
    let lens = list(words).iter().map(|&n| n as usize).collect();
    let (x, packed, shapes) = (elements(words), wide(words), list(words));
    let mut all = entries(&[(); 4].map(|_| list(words))).into_iter();
    let mut r = Relation { m: sizes[0] as usize, q: sizes[1] as usize, lens, x, packed, ..Relation::default() };
    for (m, shape) in r.matrices.iter_mut().zip(shapes.chunks(3)) {
        *m = Matrix { rows: shape[0] as usize, cols: shape[1] as usize, entries: all.by_ref().take(shape[2] as usize).collect() };
    }
    r
}

fn packed(words: &mut &[u64]) -> String {
    let (rows, cols) = (words[0] as usize, words[1] as usize);
    *words = &words[2..];
    let m = plain::matrix(&Matrix { rows, cols, entries: entries(&[(); 4].map(|_| list(words))) });
    let (bits, x, sizes) = (wide(words), elements(words), list(words));
    let public = columns(sizes[0] as usize, sizes[1] as usize, &x);
    // whether the products are bits hangs on the matrix alone
    let (_, flag) = m.apply_simd_packed(&bits, &public.public[0], public.q, public.m / 2);
    format!("{flag} {}", text::elements(&m.apply_simd(&own::plain::joint_z(&public, &bits), public.q)))
}

fn folded(words: &mut &[u64]) -> String {
    let (q, w) = (words[0] as usize, words[1] as usize);
    *words = &words[2..];
    let (public, point) = (columns(q, w, &elements(words)), elements(words));
    // at a point of bits the half's value is one of its columns
    let bits = |j: usize| (0..w.trailing_zeros()).map(|i| Gf128((j >> i & 1) as u128)).collect::<Vec<_>>();
    let half: Vec<Gf128> = (0..w).map(|j| public.fold_public_part(&point, &bits(j))).collect();
    let at = elements(words);
    assert_eq!(eval_mle(&half, &at), public.fold_public_part(&point, &at));
    format!("{} {}", text::elements(&half), text::elements(&[public.fold_public_part(&point, &at)]))
}

/// Both ends from a transcript.
fn run(r: &Relation, op: &str, rest: &str) -> String {
    let found: Vec<&str> = rest.splitn(3, ' ').collect();
    let byte = |i: usize| u8::from_str_radix(&found[0][2 * i..2 * i + 2], 16).unwrap();
    let start: rust::State = (std::array::from_fn(byte), queries::number(found[1]));
    let (rel, layout, public) = (plain::relation(r), plain::layout(r.m / 2, &r.lens), columns(r.q, r.m / 2, &r.x));
    let mut t = rust::transcript(&start);
    let claims = |p: &_, theirs: &[_]| text::elements(&own::plain::claims(&rel, r.q, p, &mut rust::transcript(&start), theirs));
    if op == "prove" {
        let (p, theirs) = own::plain::prove(&rel, &layout, &r.packed, &public, &mut t);
        return format!("{} {} {}", text::list(&plain::flat(&p)), claims(&p, &theirs), text::state(&rust::state(&t)));
    }
    let p = plain::split(r, &list(&mut &numbers(found[2])[..]));
    let (code, claims) = match own::plain::verify(&rel, &layout, &public, &p, &mut t) {
        Ok(theirs) => (0, claims(&p, &theirs)),
        Err(e) => (number(e), "0".to_string()),
    };
    format!("{code} {claims} {}", text::state(&rust::state(&t)))
}

/// The same with given draws.
fn scripted_run(r: &Relation, op: &str, words: &mut &[u64]) -> String {
    let (draws, public) = (wide(words), columns(r.q, r.m / 2, &r.x).public);
    let (rel, layout) = (scripted::relation(r), scripted::layout(r.m / 2, &r.lens));
    let public = scripted_spartan::r1cs::SimdInstance { q: r.q, m: r.m, public };
    let transcript = || scripted_hash::Transcript::scripted(draws.clone());
    let mut t = transcript();
    if op == "provewith" {
        return text::list(&scripted::flat(&own::scripted::prove(&rel, &layout, &r.packed, &public, &mut t).0));
    }
    let p = scripted::split(r, &list(words));
    let (code, claims) = match own::scripted::verify(&rel, &layout, &public, &p, &mut t) {
        Ok(theirs) => (0, text::elements(&own::scripted::claims(&rel, r.q, &p, &mut transcript(), &theirs))),
        Err(e) => (number(e), "0".to_string()),
    };
    format!("{code} {} {claims}", t.log.len())
}

fn product(r: &Relation, k: usize) -> String {
    let z = own::plain::joint_z(&columns(r.q, r.m / 2, &r.x), &r.packed);
    text::elements(&plain::matrix(&r.matrices[k]).apply_simd(&z, r.q))
}

fn main() {
    let mut r = Relation::default();
    for line in std::io::stdin().lines() {
        let line = line.unwrap();
        let (op, rest) = line.split_once(' ').unwrap();
        let words = if op == "prove" || op == "verify" { vec![] } else { numbers(rest) };
        let words = &mut &words[..];
        let answer = match op {
            "case" => {
                r = told(words);
                continue;
            }
            "packed" => packed(words),
            "foldx" => folded(words),
            "product" => product(&r, words[0] as usize),
            "prove" | "verify" => run(&r, op, rest),
            _ => scripted_run(&r, op, words),
        };
        println!("= {answer}");
    }
}
