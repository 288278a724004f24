//! Runs event lines and answers questions about the pool that they leave, standard input to standard output.

use std::process::ExitCode;

use compare::pool_questions::PoolQuestions;
use compare::{lines, sheet};

fn main() -> ExitCode {
    let mut questions = PoolQuestions::new(sheet::print);
    lines::answer_stdin(|line, out| questions.run(line, out))
}
