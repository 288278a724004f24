//! Lists of events from standard input, each run by a program of its own over the published pool.
//!
//! A line `=,TEXTURES,VERSIONS,PAGES,ANSWERS,NAME` begins a list for a program of these sizes, and is printed as it is.
//! With `--lent` the lists may have the lines of our program over lent memory, and are answered as by it.

use std::env;
use std::process::ExitCode;

use compare::limited::Limits;
use compare::lines;
use compare::program::Program;

fn main() -> ExitCode {
    let lent = env::args().nth(1).is_some_and(|word| word == "--lent");
    let begin = |limits| {
        if lent {
            Program::lent(limits)
        } else {
            Program::new(limits, false)
        }
    };
    let mut program = begin(Limits::default());
    lines::answer_stdin(|line, out| match sizes(line) {
        Some(limits) => {
            program = begin(limits);
            out.extend_from_slice(line);
            out.push(b'\n');
        }
        None => program.run(line, out),
    })
}

/// The sizes that a line begins a list with.
fn sizes(line: &[u8]) -> Option<Limits> {
    let text = std::str::from_utf8(line).ok()?.strip_prefix("=,")?;
    let mut numbers = text.split(',').map(str::parse);
    let mut next = || numbers.next()?.ok();
    Some(Limits {
        textures: next()?,
        versions: next()?,
        pages: next()?,
        answers: next()?,
    })
}
