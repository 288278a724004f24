//! Makes a list on which a program and the Rust differ short, and prints it with both outputs.

use std::env;
use std::fs;
use std::io::Write;
use std::process::{Command, ExitCode, Stdio};
use std::thread;
use std::time::Duration;

use compare::limited::Limits;
use compare::lines;
use compare::options::{self, SIZES};
use compare::program::Program;
use compare::shrink;

/// Seconds that one run of the program may take, and the whole search.
const RUN: &str = "20";
const SEARCH: Duration = Duration::from_secs(60);

/// The most bytes of a line that are printed.
const SHOWN: usize = 300;

fn main() -> ExitCode {
    match compared(env::args().skip(1).collect()) {
        Ok(equal) => ExitCode::from(u8::from(!equal)),
        Err(fault) => {
            eprintln!("shrink: {fault}\nusage: shrink {SIZES} PROGRAM LIST [SHORT]");
            eprintln!("  SHORT: a file for the short list, as it is");
            ExitCode::from(2)
        }
    }
}

/// What a program printed, and how it ended if not well.
struct Output {
    bytes: Vec<u8>,
    fault: Option<String>,
}

/// Whether the outputs are equal; prints the short list if they are not.
fn compared(words: Vec<String>) -> Result<bool, String> {
    let (limits, words) = options::take_sizes(words)?;
    let (program, path, short) = match &words[..] {
        [program, path] => (program, path, None),
        [program, path, short] => (program, path, Some(short)),
        _ => return Err("not understood".to_string()),
    };
    let list = fs::read(path).map_err(|fault| format!("{path}: {fault}"))?;
    let differ = |list: &[u8]| {
        let other = run(program, list);
        other.fault.is_some() || other.bytes != oracle(limits, list)
    };
    if !differ(&list) {
        println!("no difference");
        return Ok(true);
    }
    let begun = beginning(&list, &oracle(limits, &list), &run(program, &list));
    let list = if differ(begun) { begun } else { &list };
    let left = shrink::shrink(list, SEARCH, differ);
    if let Some(short) = short {
        fs::write(short, left.concat()).map_err(|fault| format!("{short}: {fault}"))?;
    }
    print(
        &left,
        &oracle(limits, &left.concat()),
        &run(program, &left.concat()),
    );
    Ok(false)
}

/// The list up to the line that is answered differently.
fn beginning<'a>(list: &'a [u8], rust: &[u8], other: &Output) -> &'a [u8] {
    let lines = shrink::lines_to_difference(rust, &other.bytes).unwrap_or(u64::MAX);
    let pieces = shrink::pieces(list);
    let count = pieces.len().min(lines as usize);
    let length = pieces[..count].iter().map(|piece| piece.len()).sum();
    &list[..length]
}

fn oracle(limits: Limits, list: &[u8]) -> Vec<u8> {
    let mut program = Program::new(limits, false);
    lines::answer_bytes(list, |line, out| program.run(line, out))
}

fn run(program: &str, list: &[u8]) -> Output {
    let child = Command::new("timeout")
        .args([RUN, program])
        .stdin(Stdio::piped())
        .stdout(Stdio::piped())
        .stderr(Stdio::null())
        .spawn();
    let mut child = child.expect("`timeout` can be run");
    let mut to = child.stdin.take().expect("it has a standard input");
    let ended = thread::scope(|scope| {
        // A program that ends early does not listen; its output then tells.
        scope.spawn(move || to.write_all(list).is_ok());
        child.wait_with_output().expect("it can be waited for")
    });
    Output {
        bytes: ended.stdout,
        fault: (!ended.status.success()).then(|| ended.status.to_string()),
    }
}

fn print(list: &[&[u8]], rust: &[u8], other: &Output) {
    println!("list of {} lines:", list.len());
    list.iter().for_each(|line| show(line));
    println!("the Rust:");
    lines::lines_of(rust).for_each(show);
    println!("other:");
    lines::lines_of(&other.bytes).for_each(show);
    if let Some(fault) = &other.fault {
        println!("  (ended: {fault})");
    }
}

fn show(line: &[u8]) {
    let line = line.strip_suffix(b"\n").unwrap_or(line);
    let shown = &line[..line.len().min(SHOWN)];
    let more = if line.len() > SHOWN {
        format!(" .. {} bytes", line.len())
    } else {
        String::new()
    };
    println!("  {}{more}", shown.escape_ascii());
}
