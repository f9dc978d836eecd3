//! Sides of limits: what was tried, with which number, and how it was answered; those that were met, and those missing.

use std::collections::BTreeSet;

/// What was tried, the number, and the answer.
pub type Side = (String, u64, u32);

#[derive(Default)]
pub struct Sides {
    met: BTreeSet<Side>,
}

impl Sides {
    pub fn meet(&mut self, what: impl Into<String>, number: u64, answer: u32) {
        self.met.insert((what.into(), number, answer));
    }

    /// Prints how many were met, and those that weren't; true where all were.
    pub fn told(&self, title: &str, all: &BTreeSet<Side>) -> bool {
        let missing: Vec<&Side> = all.difference(&self.met).collect();
        println!("{title} met: {} of {}", all.len() - missing.len(), all.len());
        for (what, number, answer) in &missing {
            println!("MISSING {what}: {number}, answered {answer}");
        }
        missing.is_empty()
    }
}
