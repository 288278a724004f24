//! Writes a list of events to standard output.

use std::env;
use std::io::{self, Write};
use std::process::ExitCode;

use compare::lists::{self, KINDS, edges, sheets};
use compare::options::{self, SIZES, SIZES_HELP};

fn main() -> ExitCode {
    match list(env::args().skip(1).collect()) {
        Ok(list) => {
            // If nobody listens any more, there is nothing to tell.
            let _ = io::stdout().write_all(&list);
            ExitCode::SUCCESS
        }
        Err(fault) => {
            eprintln!("lists: {fault}\nusage: lists KIND SEED LINES {SIZES}\n       lists kinds");
            eprintln!("       lists sheets KIND SEED LINES {SIZES}");
            let kinds = KINDS.join(" ");
            eprintln!("  KIND: {kinds}, or {}\n  {SIZES_HELP}", edges::EDGES);
            ExitCode::from(2)
        }
    }
}

fn list(words: Vec<String>) -> Result<Vec<u8>, String> {
    let (limits, words) = options::take_sizes(words)?;
    let words: Vec<&str> = words.iter().map(String::as_str).collect();
    match words[..] {
        ["kinds"] => Ok((KINDS.join("\n") + "\n").into_bytes()),
        [kind, seed, lines] => lists::list(kind, number(seed)?, number(lines)?, limits)
            .ok_or(format!("{kind}: no such kind")),
        ["sheets", kind, seed, lines] => {
            sheets::asked_list(kind, number(seed)?, number(lines)?, limits)
                .ok_or(format!("{kind}: no such kind"))
        }
        _ => Err(format!("not understood: {}", words.join(" "))),
    }
}

fn number(word: &str) -> Result<u64, String> {
    word.parse()
        .map_err(|_| format!("{word} is not a number below 2^64"))
}
