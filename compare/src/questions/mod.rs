//! The lists of leaf questions. They are the same on every machine and at every time.

use std::collections::BTreeSet;

mod copies;
mod fixed;
mod rects;
mod seeded;
mod tables;

pub use fixed::{budgets, fixed};
pub use seeded::seeded;

/// A list of questions, a line each.
pub struct Questions {
    text: String,
}

impl Questions {
    const fn new() -> Self {
        Self {
            text: String::new(),
        }
    }

    /// Adds a question: a word and its numbers.
    fn ask(&mut self, word: &str, numbers: &[u64]) {
        self.text.push_str(word);
        for number in numbers {
            self.text.push_str(&format!(",{number}"));
        }
        self.text.push('\n');
    }

    /// Adds a line as it is.
    fn line(&mut self, line: &str) {
        self.text.push_str(line);
        self.text.push('\n');
    }

    /// The same questions in the same order, each once.
    fn without_repeats(&self) -> Self {
        let mut seen = BTreeSet::new();
        let mut list = Self::new();
        // Keeps a carriage return, which `lines` would take away with the line feed.
        let lines = self.text.split_terminator('\n');
        lines
            .filter(|line| seen.insert(*line))
            .for_each(|line| list.line(line));
        list
    }

    pub fn text(&self) -> &str {
        &self.text
    }
}
