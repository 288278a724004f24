//! Answers leaf questions by the published functions, a line each, standard input to standard output.

use std::process::ExitCode;

use compare::{leaf, lines};

fn main() -> ExitCode {
    lines::answer_stdin(leaf::answer)
}
