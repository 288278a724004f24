//! Standard input to standard output, line by line.

use std::io::{self, Read, Write};
use std::process::ExitCode;

/// Bytes read or written at once.
const BLOCK: usize = 1 << 18;

/// Why the lines were not all answered.
enum Stopped {
    Read(io::Error),
    /// Nobody listens any more, which is no fault of ours.
    Write,
}

/// Hands each line of standard input, without its line feed, to `answer` and prints what it appends.
///
/// The last line may lack its line feed; input that ends in one has no further line. Answers go out
/// after every block that was read, so that a program can ask line by line and wait for each answer.
pub fn answer_stdin(mut answer: impl FnMut(&[u8], &mut Vec<u8>)) -> ExitCode {
    match answer_all(io::stdin().lock(), io::stdout().lock(), &mut answer) {
        Ok(()) | Err(Stopped::Write) => ExitCode::SUCCESS,
        Err(Stopped::Read(fault)) => {
            eprintln!("standard input: {fault}");
            ExitCode::FAILURE
        }
    }
}

/// The same over bytes in memory, in place of standard input and output.
pub fn answer_bytes(input: &[u8], mut answer: impl FnMut(&[u8], &mut Vec<u8>)) -> Vec<u8> {
    let mut output = Vec::new();
    match answer_all(input, &mut output, &mut answer) {
        Ok(()) => output,
        Err(_) => unreachable!("memory can be read and written"),
    }
}

/// The lines of a whole input, without their line feeds.
pub fn lines_of(input: &[u8]) -> impl Iterator<Item = &[u8]> {
    input
        .split_inclusive(|byte| *byte == b'\n')
        .map(|line| line.strip_suffix(b"\n").unwrap_or(line))
}

fn answer_all(
    mut from: impl Read,
    mut to: impl Write,
    answer: &mut impl FnMut(&[u8], &mut Vec<u8>),
) -> Result<(), Stopped> {
    let mut block = vec![0; BLOCK];
    // The beginning of a line whose end has not been read yet.
    let mut begun: Vec<u8> = Vec::new();
    let mut out = Vec::with_capacity(2 * BLOCK);
    loop {
        let count = match from.read(&mut block) {
            Ok(0) => break,
            Ok(count) => count,
            Err(fault) if fault.kind() == io::ErrorKind::Interrupted => continue,
            Err(fault) => return Err(Stopped::Read(fault)),
        };
        let mut rest = &block[..count];
        while let Some(at) = rest.iter().position(|&byte| byte == b'\n') {
            if begun.is_empty() {
                answer(&rest[..at], &mut out);
            } else {
                begun.extend_from_slice(&rest[..at]);
                answer(&begun, &mut out);
                begun.clear();
            }
            rest = &rest[at + 1..];
            if out.len() >= BLOCK {
                send(&mut to, &mut out)?;
            }
        }
        begun.extend_from_slice(rest);
        send(&mut to, &mut out)?;
    }
    if !begun.is_empty() {
        answer(&begun, &mut out);
    }
    send(&mut to, &mut out)
}

fn send(to: &mut impl Write, out: &mut Vec<u8>) -> Result<(), Stopped> {
    to.write_all(out)
        .and_then(|()| to.flush())
        .map_err(|_| Stopped::Write)?;
    out.clear();
    Ok(())
}
