//! compare's event program, built as the Rust would ship.

use std::process::ExitCode;

use compare::limited::Limits;
use compare::lines;
use compare::program::Program;

fn main() -> ExitCode {
    let mut program = Program::new(Limits::default(), false);
    lines::answer_stdin(|line, out| program.run(line, out))
}
