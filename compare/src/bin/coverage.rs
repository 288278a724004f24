//! Counts which outcomes each call had in lists and their outputs, and what the lists do to the stamps; fails if something that can
//! occur did not.

use std::env;
use std::fs;
use std::io::{self, Write};
use std::process::ExitCode;

use compare::changes::Changes;
use compare::coverage::Counts;
use compare::limited::Limits;
use compare::options::{self, SIZES};
use compare::replies::Replies;

fn main() -> ExitCode {
    match counted(env::args().skip(1).collect()) {
        Ok((counts, changes, limits)) => {
            let mut faults = counts.faults(&limits);
            faults.extend(changes.faults(&limits));
            let mut report = counts.table(&limits) + &changes.table();
            for fault in &faults {
                report += &format!("coverage: {fault}\n");
            }
            // If nobody listens any more, there is nothing to tell.
            let _ = io::stdout().write_all(report.as_bytes());
            ExitCode::from(u8::from(!faults.is_empty()))
        }
        Err(fault) => {
            eprintln!("coverage: {fault}\nusage: coverage {SIZES} LIST OUTPUT [LIST OUTPUT ..]");
            ExitCode::from(2)
        }
    }
}

fn counted(words: Vec<String>) -> Result<(Counts, Changes, Limits), String> {
    let (limits, files) = options::take_sizes(words)?;
    let (mut counts, mut changes) = (Counts::default(), Changes::default());
    if files.is_empty() || files.len() % 2 != 0 {
        return Err("lists and outputs go in pairs".to_string());
    }
    for pair in files.chunks(2) {
        let list = read(&pair[0])?;
        add(&mut counts, &list, &read(&pair[1])?)
            .map_err(|fault| format!("{}: {fault}", pair[1]))?;
        changes.add(&list, limits);
    }
    Ok((counts, changes, limits))
}

fn add(counts: &mut Counts, list: &[u8], output: &[u8]) -> Result<(), String> {
    let mut replies = Replies::new(output);
    for line in compare::lines::lines_of(list) {
        let reply = replies.next().ok_or("fewer replies than lines")??;
        counts.add(line, &reply);
    }
    Ok(())
}

fn read(path: &str) -> Result<Vec<u8>, String> {
    fs::read(path).map_err(|fault| format!("{path}: {fault}"))
}
