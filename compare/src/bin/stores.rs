//! Damaged stores from seeds: lists for our program over lent memory, and the judge's answers.

use std::collections::BTreeMap;
use std::env;
use std::io::{self, Write};
use std::process::ExitCode;

use compare::stores::asks::ask;
use compare::stores::damage::store;
use compare::stores::judge::{CONDITIONS, Condition, NEVER_ALONE, faults};

const USAGE: &str = "usage: stores lists FIRST COUNT
       stores answers [--wrong CONDITION] FIRST COUNT
       stores table FIRST COUNT
       stores conditions";

/// How often each condition has to fail alone.
const OFTEN: usize = 10;

fn main() -> ExitCode {
    let words: Vec<String> = env::args().skip(1).collect();
    match answer(&words.iter().map(String::as_str).collect::<Vec<_>>()) {
        Ok(status) => status,
        Err(fault) => {
            eprintln!("stores: {fault}\n{USAGE}");
            ExitCode::from(2)
        }
    }
}

fn answer(words: &[&str]) -> Result<ExitCode, String> {
    match words {
        ["conditions"] => CONDITIONS
            .iter()
            .for_each(|condition| println!("{condition:?}")),
        ["lists", first, count] => write(first, count, |seed| ask(&store(seed), seed, None).list)?,
        ["answers", first, count] => {
            write(first, count, |seed| ask(&store(seed), seed, None).answers)?
        }
        ["answers", "--wrong", name, first, count] => {
            let wrong = Condition::named(name).ok_or(format!("{name}: no such condition"))?;
            write(first, count, |seed| {
                ask(&store(seed), seed, Some(wrong)).answers
            })?;
        }
        ["table", first, count] => return table(number(first)?, number(count)?),
        _ => return Err(format!("not understood: {}", words.join(" "))),
    }
    Ok(ExitCode::SUCCESS)
}

fn write(first: &str, count: &str, text: impl Fn(u64) -> Vec<u8>) -> Result<(), String> {
    let (first, count) = (number(first)?, number(count)?);
    let mut out = io::stdout().lock();
    for seed in first..first + count {
        if out.write_all(&text(seed)).is_err() {
            break;
        }
    }
    Ok(())
}

/// Counts stores by the conditions that they break; fails if one does not fail alone often enough, or, if it cannot, with others.
fn table(first: u64, count: u64) -> Result<ExitCode, String> {
    let mut alone: BTreeMap<Condition, usize> = BTreeMap::new();
    let (mut pools, mut several, mut never_alone) = (0, 0, 0);
    for seed in first..first + count {
        match faults(&store(seed))[..] {
            [] => pools += 1,
            [condition] => *alone.entry(condition).or_default() += 1,
            ref broken => {
                several += 1;
                never_alone += usize::from(broken.contains(&NEVER_ALONE));
            }
        }
    }
    println!("{pools} form a pool, {several} break several conditions; alone:");
    let mut enough = true;
    for condition in CONDITIONS {
        let times = alone.get(&condition).copied().unwrap_or(0);
        if condition == NEVER_ALONE {
            println!(
                "{times:5} {condition:?}, which follows from others; with these {never_alone}"
            );
            enough &= times == 0 && never_alone >= OFTEN;
        } else {
            println!("{times:5} {condition:?}");
            enough &= times >= OFTEN;
        }
    }
    Ok(if enough {
        ExitCode::SUCCESS
    } else {
        ExitCode::FAILURE
    })
}

fn number(word: &str) -> Result<u64, String> {
    word.parse()
        .map_err(|_| format!("{word} is not a number below 2^64"))
}
