//! Counting which refusals an answer text shows.

use std::collections::BTreeMap;
use std::io::{self, BufRead};

/// The kinds of answers whose first number is a refusal's, in the order of printing.
pub const KINDS: [&str; 15] = [
    "check",
    "measure",
    "paint",
    "paintlit",
    "gather",
    "fresh",
    "join",
    "apply",
    "applylit",
    "clear",
    "convert",
    "program",
    "deskcheck",
    "deskmeasure",
    "words",
];

/// How often each kind gave each number.
#[derive(Default)]
pub struct Coverage {
    counts: BTreeMap<(usize, u32), u64>,
}

impl Coverage {
    pub fn of(answers: impl BufRead) -> io::Result<Coverage> {
        let mut coverage = Coverage::default();
        for line in answers.lines() {
            coverage.count(&line?);
        }
        Ok(coverage)
    }

    fn count(&mut self, line: &str) {
        let mut fields = line.split(' ');
        let kind = fields.next().unwrap_or("");
        let kind = KINDS.iter().position(|&name| name == kind);
        let number = fields.next().and_then(|field| field.parse().ok());
        if let (Some(kind), Some(number)) = (kind, number) {
            *self.counts.entry((kind, number)).or_default() += 1;
        }
    }

    pub fn lines(&self) -> Vec<String> {
        let counts = self.counts.iter();
        counts
            .map(|((kind, number), count)| format!("{} {number} {count}", KINDS[*kind]))
            .collect()
    }

    #[cfg(test)]
    pub fn numbers(&self, kind: &str) -> Vec<u32> {
        let seen = self.counts.keys();
        seen.filter(|(place, _)| KINDS[*place] == kind)
            .map(|(_, number)| *number)
            .collect()
    }
}
