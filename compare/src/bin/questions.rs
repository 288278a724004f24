//! Writes lists of leaf questions to standard output.

use std::env;
use std::io::{self, Write};
use std::process::ExitCode;

use compare::questions::{self, Questions};

const USAGE: &str = "usage: questions              the fixed list, without budgets
       questions budget       the fixed list of budgets
       questions seed N COUNT COUNT random questions from the seed N, without budgets";

fn main() -> ExitCode {
    let words: Vec<String> = env::args().skip(1).collect();
    match list(&words) {
        Ok(list) => {
            // If nobody listens any more, there is nothing to tell.
            let _ = io::stdout().write_all(list.text().as_bytes());
            ExitCode::SUCCESS
        }
        Err(fault) => {
            eprintln!("questions: {fault}\n{USAGE}");
            ExitCode::from(2)
        }
    }
}

fn list(words: &[String]) -> Result<Questions, String> {
    let words: Vec<&str> = words.iter().map(String::as_str).collect();
    match words[..] {
        [] => Ok(questions::fixed()),
        ["budget"] => Ok(questions::budgets()),
        ["seed", seed, count] => Ok(questions::seeded(number(seed)?, number(count)?)),
        _ => Err(format!("not understood: {}", words.join(" "))),
    }
}

fn number(word: &str) -> Result<u64, String> {
    word.parse()
        .map_err(|_| format!("{word} is not a number below 2^64"))
}
