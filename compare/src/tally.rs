//! What was compared, function by function.
use std::collections::BTreeMap;

/// Where the expected answer comes from.
#[derive(Clone, Copy, PartialEq, Eq, PartialOrd, Ord, Debug)]
pub enum By {
    /// the published Rust's answer to the same input
    Rust,
    /// document 01: the Rust panics or runs on
    Document,
}

#[derive(Clone, Default)]
pub struct Count {
    pub rust: u64,
    pub document: u64,
    pub differing: u64,
    /// the smallest input that differs, with both answers
    pub smallest: Option<String>,
}

#[derive(Clone, Default)]
pub struct Tally {
    pub functions: BTreeMap<&'static str, Count>,
    /// intended differences: how often each was shown
    pub listed: BTreeMap<&'static str, u64>,
    /// how often each answer of a run was given, by end and number
    pub verdicts: BTreeMap<(&'static str, u32), u64>,
}

impl Tally {
    pub fn compared(&mut self, function: &'static str, by: By, same: bool, shown: impl FnOnce() -> String) {
        let count = self.functions.entry(function).or_default();
        match by {
            By::Rust => count.rust += 1,
            By::Document => count.document += 1,
        }
        if !same {
            count.differing += 1;
            let text = shown();
            if count.smallest.as_ref().map_or(true, |old| text.len() < old.len()) {
                count.smallest = Some(text);
            }
        }
    }

    pub fn listed(&mut self, name: &'static str) {
        *self.listed.entry(name).or_default() += 1;
    }

    pub fn verdict(&mut self, end: &'static str, code: u32) {
        *self.verdicts.entry((end, code)).or_default() += 1;
    }

    pub fn add(&mut self, other: &Tally) {
        for (name, c) in &other.functions {
            let mine = self.functions.entry(name).or_default();
            mine.rust += c.rust;
            mine.document += c.document;
            mine.differing += c.differing;
            if let Some(text) = &c.smallest {
                if mine.smallest.as_ref().map_or(true, |old| text.len() < old.len()) {
                    mine.smallest = Some(text.clone());
                }
            }
        }
        for (name, n) in &other.listed {
            *self.listed.entry(name).or_default() += n;
        }
        for (key, n) in &other.verdicts {
            *self.verdicts.entry(*key).or_default() += n;
        }
    }

    pub fn runs(&self) -> u64 {
        self.functions.values().map(|c| c.rust + c.document).sum()
    }

    pub fn differing(&self) -> u64 {
        self.functions.values().map(|c| c.differing).sum()
    }
}
