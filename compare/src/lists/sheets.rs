//! Writes lists of events with questions about the pool sheet among them, for the question program.

use super::{KINDS, list};
use crate::limited::Limits;
use crate::pool_questions::MOST_BYTES;
use crate::program::Program;
use crate::random::Random;
use crate::sheet;

/// Limits a line's bytes, since a program may keep the whole input in little memory.
const LONGEST: usize = 999;

/// Lists questions that are malformed or ask for too much, lines that are nearly questions, and one that asks for 146 bytes by
/// twenty digits. Some numbers are 146 if they are cut to 64, 32 or 16 bits.
pub const ODD: [&str; 26] = [
    "sheet",
    "sheet,",
    "sheet,,",
    "sheet,-",
    "sheet,-1",
    "sheet,+146",
    "sheet, 146",
    "sheet,146 ",
    "sheet,146\r",
    "sheet,0x92",
    "sheet,146,",
    "sheet,,146",
    "sheet,1,2",
    "sheet,65537",
    "sheet,65682",
    "sheet,4294967442",
    "sheet,18446744073709551615",
    "sheet,18446744073709551762",
    "sheet,99999999999999999999999",
    "sheet,00000000000000000146",
    "sheet,000000000000000000146",
    " sheet,146",
    "sheet ,146",
    "sheets,146",
    "shee,146",
    "SHEET,146",
];

/// Holds a list while questions are put between its lines.
struct Asked {
    random: Random,
    /// Runs the lines, so that a question may ask for just the bytes that the sheet has.
    program: Program,
    text: Vec<u8>,
}

/// Returns a list of `events` lines of the kind with questions between them, or none if there is no such kind.
///
/// A question stands after about every twelfth line and right after the `open`. Long lines and those that begin as a line
/// does that begins another list are left out; none of them is an event.
pub fn asked_list(kind: &str, seed: u64, events: u64, limits: Limits) -> Option<Vec<u8>> {
    let number = KINDS.iter().position(|name| *name == kind)?;
    let events = list(kind, seed, events, limits)?;
    let mut asked = Asked {
        // Draws other numbers than the list was made from.
        random: Random::new(Random::new(!seed).next().wrapping_add(number as u64)),
        program: Program::new(limits, false),
        text: Vec::new(),
    };
    if asked.random.once_in(3) {
        asked.ask();
    }
    let lines = crate::lines::lines_of(&events);
    for line in lines.filter(|line| line.len() <= LONGEST && !line.starts_with(b"=")) {
        asked.run(line);
    }
    Some(asked.finish())
}

impl Asked {
    /// Adds an event line, and a question after some.
    fn run(&mut self, line: &[u8]) {
        let opened = self.program.sheet_rows().is_some();
        self.program.run(line, &mut Vec::new());
        self.add(line);
        let opens = !opened && self.program.sheet_rows().is_some();
        if opens || self.random.once_in(12) {
            self.ask();
        }
    }

    fn add(&mut self, line: &[u8]) {
        self.text.extend_from_slice(line);
        self.text.push(b'\n');
    }

    /// Adds a question.
    fn ask(&mut self) {
        if self.random.once_in(8) {
            let line = ODD[self.random.below(ODD.len() as u64) as usize];
            self.add(line.as_bytes());
        } else {
            let bytes = self.bytes();
            self.add(format!("sheet,{bytes}").as_bytes());
        }
    }

    /// Draws the bytes of a buffer, mostly close to those of the sheet. Large ones are rare, since all of it is printed.
    fn bytes(&mut self) -> u64 {
        let rows = self.program.sheet_rows().unwrap_or_default();
        let length = sheet::length(&rows) as u64;
        match self.random.below(30) {
            0..=9 => length,
            10..=13 => length - 1,
            14..=17 => length + 1,
            18 => length - sheet::LINE_BYTES as u64,
            19 => length + sheet::LINE_BYTES as u64,
            // Leaves out the line feeds.
            20 => length - rows.len() as u64 - 2,
            21 => 0,
            22 => self.random.one_of(&[1, 72, 73, 74]),
            23 => 146,
            24..=28 => self.random.below(1_001),
            _ if self.random.once_in(12) => MOST_BYTES,
            _ => self.random.within(1_001, 3_000),
        }
    }

    /// Returns the list; every other one lacks its last line feed.
    fn finish(mut self) -> Vec<u8> {
        if self.random.once_in(2) {
            self.text.pop();
        }
        self.text
    }
}
