//! Reports what the plans of an event list move, over the published pool, standard input to standard output.

use std::env;
use std::io::{self, Read, Write};
use std::process::ExitCode;

use compare::cost;
use compare::options::{self, SIZES, SIZES_HELP};

fn main() -> ExitCode {
    match report(env::args().skip(1).collect()) {
        Ok(report) => {
            // If nobody listens any more, there is nothing to tell.
            let _ = io::stdout().write_all(&report);
            ExitCode::SUCCESS
        }
        Err(fault) => {
            eprintln!("cost: {fault}\nusage: cost {SIZES}\n  {SIZES_HELP}");
            ExitCode::from(2)
        }
    }
}

fn report(words: Vec<String>) -> Result<Vec<u8>, String> {
    let (limits, others) = options::take_sizes(words)?;
    if let Some(word) = others.first() {
        return Err(format!("unknown option {word}"));
    }
    let mut list = Vec::new();
    (io::stdin().read_to_end(&mut list)).map_err(|fault| format!("standard input: {fault}"))?;
    Ok(cost::report(limits, &list))
}
