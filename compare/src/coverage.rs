//! Which outcomes each call had, which it can have, and which of these were missed.

use std::collections::BTreeMap;
use std::fmt::Write;

use crate::limited::Limits;
use crate::lists::sized::MOST_STAMPS;
use crate::replies::Reply;

/// The calls, as lines begin.
const CALLS: [&str; 13] = [
    "open", "take", "plan", "retire", "write", "regen", "pop", "park", "note", "doomed", "drain",
    "trim", "forget",
];

/// Lines that begin with none of these words.
const OTHER: &str = "other";

/// The most subresources of a shape: six slices of fifteen levels.
const MOST_PARTS: usize = 90;

/// Outcome as it is printed: 0 to 12, and "?" behind them.
const QUESTION: usize = 13;

/// The outcomes that a call can have in an event program of these sizes.
///
/// 1 is none: the stores are the program's own. 12 is none: nobody sends 2^48 lines. 11 needs an answer of more
/// entries than the buffer has, and a plan has up to 90, a batch or a drain as many as there are version places.
fn outcomes(call: &str, limits: &Limits) -> Vec<usize> {
    let mut outcomes = match call {
        OTHER => Vec::new(),
        "take" => vec![0, 2, 3, 5],
        "plan" => vec![0, 2, 4],
        "retire" => vec![0, 3, 7, 8],
        "pop" => vec![0, 3, 9],
        "park" => vec![0, 3, 10],
        "trim" => vec![0, 3],
        _ => vec![0],
    };
    if call == "take" && limits.stamps() < MOST_STAMPS * limits.textures as u64 {
        outcomes.push(6);
    }
    let most = match call {
        "plan" => MOST_PARTS,
        "doomed" | "drain" => limits.versions,
        _ => 0,
    };
    if most > limits.answers {
        outcomes.push(11);
    }
    outcomes.push(QUESTION);
    outcomes
}

/// Accepted answers that differ in kind, each of which is to occur.
const ANSWERS: [&str; 14] = [
    "take: fresh",
    "take: spare, known",
    "take: spare, unknown",
    "plan: no copy",
    "plan: a box",
    "plan: a whole level",
    "plan: regenerated slices",
    "pop: nothing settled",
    "pop: a version",
    "doomed: none",
    "doomed: some",
    "doomed: more than 64",
    "drain: none",
    "drain: some",
];

/// The answer that only a pool with more than 64 versions can give, and a buffer that holds it.
const LARGE_BATCH: &str = "doomed: more than 64";

/// Levels of several slices, but not the first one of each: a history of at least twelve grids.
const SLICES: &str = "plan: regenerated slices";

/// Counts over the lists that were read.
#[derive(Default)]
pub struct Counts {
    lines: u64,
    outcomes: BTreeMap<(&'static str, usize), u64>,
    answers: BTreeMap<&'static str, u64>,
}

impl Counts {
    pub fn add(&mut self, line: &[u8], reply: &Reply) {
        self.lines += 1;
        let word = line.split(|byte| *byte == b',').next().unwrap_or(line);
        let call = CALLS
            .into_iter()
            .find(|call| call.as_bytes() == word)
            .unwrap_or(OTHER);
        let outcome = reply.outcome.map_or(QUESTION, |outcome| outcome as usize);
        *self.outcomes.entry((call, outcome)).or_default() += 1;
        if outcome == 0
            && let Some(answer) = answer(call, reply)
        {
            *self.answers.entry(answer).or_default() += 1;
        }
    }

    /// The pairs and answers that can occur and did not, and those that did and cannot.
    pub fn faults(&self, limits: &Limits) -> Vec<String> {
        let mut faults = Vec::new();
        for call in CALLS.into_iter().chain([OTHER]) {
            let can = outcomes(call, limits);
            for outcome in 0..=QUESTION {
                let occurred = self.outcomes.contains_key(&(call, outcome));
                if occurred != can.contains(&outcome) {
                    let what = if occurred {
                        "cannot occur"
                    } else {
                        "did not occur"
                    };
                    faults.push(format!("{call} with {} {what}", name(outcome)));
                }
            }
        }
        if self.outcomes.keys().any(|(_, outcome)| *outcome > QUESTION) {
            faults.push("an outcome past 12".to_string());
        }
        let can = |answer: &str| match answer {
            LARGE_BATCH => limits.versions.min(limits.answers) > 64,
            "plan: a box" => limits.pages > 0,
            SLICES => limits.pages > 0 && limits.answers >= 6,
            _ => true,
        };
        for answer in ANSWERS.iter().filter(|answer| can(answer)) {
            if !self.answers.contains_key(answer) {
                faults.push(format!("no answer of the sort \"{answer}\""));
            }
        }
        faults
    }

    /// Calls down, outcomes across; a dot where the pair cannot occur.
    pub fn table(&self, limits: &Limits) -> String {
        let mut table = format!("{:8}", "");
        let columns: Vec<usize> = (0..=QUESTION).filter(|it| !matches!(it, 1 | 12)).collect();
        columns
            .iter()
            .for_each(|column| write!(table, "{:>9}", name(*column)).expect("memory"));
        table.push('\n');
        for call in CALLS.into_iter().chain([OTHER]) {
            let can = outcomes(call, limits);
            write!(table, "{call:8}").expect("memory");
            for column in &columns {
                let cell = match self.outcomes.get(&(call, *column)) {
                    None if !can.contains(column) => ".".to_string(),
                    count => count.copied().unwrap_or(0).to_string(),
                };
                write!(table, "{cell:>9}").expect("memory");
            }
            table.push('\n');
        }
        for (answer, count) in &self.answers {
            writeln!(table, "{answer:24}{count:>9}").expect("memory");
        }
        table + &format!("{} lines\n", self.lines)
    }
}

fn name(outcome: usize) -> String {
    if outcome == QUESTION {
        "?".to_string()
    } else {
        outcome.to_string()
    }
}

fn answer(call: &str, reply: &Reply) -> Option<&'static str> {
    let none = reply.field(0).is_none_or(|first| first == 0);
    Some(match call {
        "take" if reply.field(0).is_none() => "take: fresh",
        "take" if reply.field(1).is_some() => "take: spare, known",
        "take" => "take: spare, unknown",
        "plan" if none => "plan: no copy",
        "plan" if is_regenerated(&reply.entries) => SLICES,
        "plan" if reply.entries.iter().any(|copy| copy.last() != Some(&None)) => "plan: a box",
        "plan" => "plan: a whole level",
        "pop" if reply.field(0).is_none() => "pop: nothing settled",
        "pop" => "pop: a version",
        "doomed" if none => "doomed: none",
        "doomed" if reply.entries.len() > 64 => LARGE_BATCH,
        "doomed" => "doomed: some",
        "drain" if none => "drain: none",
        "drain" => "drain: some",
        _ => return None,
    })
}

/// Whether a plan copies levels of several slices and no first level of any.
fn is_regenerated(copies: &[Vec<Option<u64>>]) -> bool {
    let later = |copy: &Vec<Option<u64>>| copy.get(1).copied().flatten() != Some(0);
    copies.iter().all(later)
        && copies.first().map(|copy| copy[0]) != copies.last().map(|copy| copy[0])
}
