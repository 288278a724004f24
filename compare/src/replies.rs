//! The event program's output, read back: one reply for each line of input.

use crate::text::{Fields, number};

/// What one line of input was answered with.
#[derive(Clone, Debug, Default, PartialEq, Eq)]
pub struct Reply {
    /// The line's number.
    pub line: u64,
    /// None where the outcome is "?".
    pub outcome: Option<u64>,
    /// The answer fields after the outcome; "-" is none.
    pub fields: Vec<Option<u64>>,
    /// The further lines under the same number: view numbers or copies.
    pub entries: Vec<Vec<Option<u64>>>,
}

impl Reply {
    pub fn accepted(&self) -> bool {
        self.outcome == Some(0)
    }

    /// An answer field that is there and is a number.
    pub fn field(&self, at: usize) -> Option<u64> {
        *self.fields.get(at)?
    }
}

/// The replies of an output, from the first on.
pub struct Replies<'a> {
    rest: &'a [u8],
}

impl<'a> Replies<'a> {
    pub const fn new(output: &'a [u8]) -> Self {
        Self { rest: output }
    }

    /// The next line without its line feed, left where it is, and what comes behind it.
    fn peek(&self) -> Option<(&'a [u8], &'a [u8])> {
        let rest = self.rest;
        match rest.iter().position(|&byte| byte == b'\n') {
            Some(at) => Some((&rest[..at], &rest[at + 1..])),
            None if rest.is_empty() => None,
            None => Some((rest, &rest[rest.len()..])),
        }
    }
}

impl Iterator for Replies<'_> {
    type Item = Result<Reply, String>;

    fn next(&mut self) -> Option<Self::Item> {
        let (line, behind) = self.peek()?;
        self.rest = behind;
        let Some(mut reply) = head(line) else {
            return Some(Err(format!("no reply: {}", line.escape_ascii())));
        };
        while let Some((line, behind)) = self.peek() {
            let mut fields = Fields::new(line);
            if fields.next_u64() != Some(reply.line) {
                break;
            }
            let Some(entry) = remaining(fields) else {
                return Some(Err(format!("no entry: {}", line.escape_ascii())));
            };
            reply.entries.push(entry);
            self.rest = behind;
        }
        Some(Ok(reply))
    }
}

/// The first line of a reply.
fn head(line: &[u8]) -> Option<Reply> {
    let mut fields = Fields::new(line);
    let line = fields.next_u64()?;
    let outcome = match fields.next_field()? {
        b"?" => None,
        field => Some(number(field)?),
    };
    Some(Reply {
        line,
        outcome,
        fields: remaining(fields)?,
        entries: Vec::new(),
    })
}

/// The fields not read yet, each a number or "-".
fn remaining(mut fields: Fields) -> Option<Vec<Option<u64>>> {
    let mut read = Vec::new();
    while !fields.is_finished() {
        read.push(fields.next_or_none()?);
    }
    Some(read)
}
