//! Document 01's event program over the published pool, standard input to standard output.

use std::env;
use std::process::ExitCode;

use compare::lines;
use compare::options::{self, SIZES, SIZES_HELP};
use compare::program::Program;

fn main() -> ExitCode {
    match program(env::args().skip(1).collect()) {
        Ok(mut program) => lines::answer_stdin(|line, out| program.run(line, out)),
        Err(fault) => {
            eprintln!("events: {fault}\nusage: events {SIZES} [--check]\n  {SIZES_HELP}");
            eprintln!(
                "  --check tests document 01's conditions on a pool after every line and stops where one fails"
            );
            ExitCode::from(2)
        }
    }
}

fn program(words: Vec<String>) -> Result<Program, String> {
    let (limits, others) = options::take_sizes(words)?;
    if let Some(word) = others.iter().find(|word| *word != "--check") {
        return Err(format!("unknown option {word}"));
    }
    Ok(Program::new(limits, !others.is_empty()))
}
