//! Queries for a test program of the repository, asked some thousands at a time, and the answers compared.
use crate::tally::{By, Tally};
use std::fs::File;
use std::path::PathBuf;
use std::process::{Command, Stdio};
use std::sync::atomic::{AtomicUsize, Ordering};

/// A program reads at most a mebibyte.
const MOST: usize = 1_000_000;

struct Asked {
    function: &'static str,
    by: By,
    /// the line that tells the relation, where there is one
    told: String,
    query: String,
    answer: Vec<String>,
}

pub struct Sheet {
    program: PathBuf,
    /// a program that is asked the queries on the thin functions too
    forms: Option<Box<Sheet>>,
    asked: Vec<Asked>,
    bytes: usize,
    pub tally: Tally,
}

/// The thin functions that answer a query as the core does: the transcript in place, matrices as records. Lists of unequal length are
/// no records, and the program holds 32 of them.
fn form(query: &str) -> Option<&'static str> {
    let mut words = query.split(' ');
    let name = match words.next()? {
        "absorb" => return Some("in place: absorb_bytes"),
        "absorbfield" => return Some("in place: absorb_field"),
        "absorbu64" => return Some("in place: absorb_u64"),
        "absorbdigest" => return Some("in place: absorb_digest"),
        "draw" => return Some("in place: challenge_field"),
        "drawvec" => return Some("in place: challenge_field_vec"),
        "isbinary" => "over records: is_binary",
        "apply" => "over records: apply",
        "packed" => "over records: apply_simd_packed",
        "table" => "over records: eval_mle_table",
        "at" => "over records: eval_mle_at",
        _ => return None,
    };
    let mut words = words.skip(4);
    let first = words.next()?.parse::<usize>().ok()?;
    let same = (1..4).all(|_| words.nth(first).is_some_and(|n| n.parse() == Ok(first)));
    (same && first <= 32).then_some(name)
}

impl Sheet {
    pub fn new(program: PathBuf) -> Sheet {
        Sheet { program, forms: None, asked: vec![], bytes: 0, tally: Tally::default() }
    }

    pub fn with_forms(program: PathBuf, forms: PathBuf) -> Sheet {
        Sheet { forms: Some(Box::new(Sheet::new(forms))), ..Sheet::new(program) }
    }

    pub fn ask(&mut self, function: &'static str, by: By, query: String, answer: Vec<String>) {
        if let (Some(forms), Some(name)) = (&mut self.forms, form(&query)) {
            forms.ask_on(name, by, "", query.clone(), answer.clone());
        }
        self.ask_on(function, by, "", query, answer)
    }

    pub fn ask_on(&mut self, function: &'static str, by: By, told: &str, query: String, answer: Vec<String>) {
        let size = told.len() + query.len() + 16;
        if self.bytes + size > MOST {
            self.flush();
        }
        self.bytes += size;
        self.asked.push(Asked { function, by, told: told.to_string(), query, answer });
    }

    /// Asks all and compares each answer. A program copies lines that begin with #, so that each answer is found again. A line `alone`
    /// says that a relation's matrices are no records, so that only the core was asked: it is no part of the answer.
    pub fn flush(&mut self) {
        if let Some(forms) = &mut self.forms {
            forms.flush();
            self.tally.add(&std::mem::take(&mut forms.tally));
        }
        if self.asked.is_empty() {
            return;
        }
        let mut input = String::with_capacity(self.bytes);
        let mut told = "";
        for (i, a) in self.asked.iter().enumerate() {
            if !a.told.is_empty() && a.told != told {
                input.push_str(&a.told);
                input.push('\n');
                told = &a.told;
            }
            input.push_str(&format!("# {i}\n{}\n", a.query));
        }
        let written = self.answers(&input);
        let mut found: Vec<Vec<&str>> = vec![vec![]; self.asked.len()];
        let mut at = None;
        for line in written.lines() {
            if let Some(n) = line.strip_prefix("# ") {
                at = n.parse::<usize>().ok().filter(|&n| n < found.len());
            } else if let Some(i) = at.filter(|_| line != "alone") {
                found[i].push(line.trim_end());
            }
        }
        for (a, found) in self.asked.iter().zip(found) {
            let same = a.answer.iter().map(|l| l.trim_end()).eq(found.iter().copied());
            self.tally.compared(a.function, a.by, same, || {
                let told = if a.told.is_empty() { String::new() } else { format!("{}\n", a.told) };
                let by = if a.by == By::Rust { "the Rust" } else { "document 01" };
                format!("{told}{}\n{by}:\n{}\nhere:\n{}", a.query, a.answer.join("\n"), found.join("\n"))
            });
        }
        self.asked.clear();
        self.bytes = 0;
    }

    fn answers(&self, input: &str) -> String {
        static NUMBER: AtomicUsize = AtomicUsize::new(0);
        let n = NUMBER.fetch_add(1, Ordering::Relaxed);
        let path = std::env::temp_dir().join(format!("compare.{}.{n}", std::process::id()));
        std::fs::write(&path, input).expect("the queries are written");
        let stdin = File::open(&path).expect("the queries are read");
        let done = Command::new(&self.program).stdin(stdin).stdout(Stdio::piped()).output().expect("the program runs");
        std::fs::remove_file(&path).expect("the queries are removed");
        // a program that ends badly leaves queries without an answer, and these differ
        String::from_utf8_lossy(&done.stdout).into_owned()
    }
}
