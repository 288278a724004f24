//! Keeps document 01's two books beside a list and the output of a program, and says where they first differ.

use std::env;
use std::fs;
use std::process::ExitCode;

use compare::books::{Books, Fault};
use compare::lines;
use compare::replies::Replies;

fn main() -> ExitCode {
    let words: Vec<String> = env::args().skip(1).collect();
    let [list, output] = &words[..] else {
        eprintln!("usage: books LIST OUTPUT");
        return ExitCode::from(2);
    };
    match kept(list, output) {
        Ok(lines) => {
            println!("{lines} lines, the books agree after each");
            ExitCode::SUCCESS
        }
        Err((line, Fault::Answers(fault))) => {
            println!("line {line}: {fault}");
            ExitCode::FAILURE
        }
        Err((line, Fault::List(fault))) => {
            eprintln!("books: line {line}: {fault}");
            ExitCode::from(2)
        }
    }
}

/// The number of lines, or the first at which something is wrong.
fn kept(list: &str, output: &str) -> Result<u64, (u64, Fault)> {
    let read =
        |path: &str| fs::read(path).map_err(|fault| (0, Fault::List(format!("{path}: {fault}"))));
    let (list, output) = (read(list)?, read(output)?);
    let mut replies = Replies::new(&output);
    let mut books = Books::default();
    let mut number = 0;
    for line in lines::lines_of(&list) {
        number += 1;
        let missing = || Err("there is no answer".to_string());
        let reply = replies
            .next()
            .unwrap_or_else(missing)
            .map_err(|fault| (number, Fault::Answers(fault)))?;
        books.step(line, &reply).map_err(|fault| (number, fault))?;
    }
    Ok(number)
}
