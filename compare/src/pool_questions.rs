//! Runs event lines, which print nothing, and answers questions about the published pool that they leave.
//!
//! The stores are the event program's. A line whose first field is `=` begins a list of its own.

use crate::limited::Limits;
use crate::program::Program;
use crate::refusal::Refusal;
use crate::text::{Fields, push_field, push_number};
use crate::texture_versions::inspect::SheetRow;

/// Limits the buffer that a question may ask for.
pub const MOST_BYTES: u64 = 65_536;

/// Fills a buffer before the sheet is printed into it, so that what the sheet leaves can be seen.
const BEFORE: u8 = b'#';

/// Prints a sheet into a buffer: `sheet::print`, or a wrong one in the tests.
pub type Printer = fn(&[SheetRow], &mut [u8]) -> Result<usize, Refusal>;

/// Holds the program between two lines.
pub struct PoolQuestions {
    printer: Printer,
    program: Program,
    /// Lines of the list read so far.
    line: u64,
}

/// Says what a line is.
enum Line {
    BeginsList,
    Event,
    /// Asks for the sheet in a buffer of so many bytes; none if the question is malformed.
    Sheet(Option<usize>),
}

impl PoolQuestions {
    pub fn new(printer: Printer) -> Self {
        Self {
            printer,
            program: Program::new(Limits::default(), false),
            line: 0,
        }
    }

    /// Runs one line and appends what it prints.
    pub fn run(&mut self, line: &[u8], out: &mut Vec<u8>) {
        let sort = parse(line);
        if let Line::BeginsList = sort {
            *self = Self::new(self.printer);
            out.extend_from_slice(line);
            out.push(b'\n');
            return;
        }
        self.line += 1;
        // Gives it questions too, which are no events and call nothing, so that it counts the same lines.
        self.program.run(line, &mut Vec::new());
        if let Line::Sheet(bytes) = sort {
            self.answer_sheet(bytes, out);
        }
    }

    fn answer_sheet(&self, bytes: Option<usize>, out: &mut Vec<u8>) {
        push_number(out, self.line);
        let (Some(bytes), Some(rows)) = (bytes, self.program.sheet_rows()) else {
            out.extend_from_slice(b",?\n");
            return;
        };
        let mut buffer = vec![BEFORE; bytes];
        match (self.printer)(&rows, &mut buffer) {
            Ok(length) => {
                push_field(out, 0);
                push_field(out, length as u64);
            }
            Err(refusal) => push_field(out, refusal.number()),
        }
        out.push(b'\n');
        out.extend_from_slice(&buffer);
        out.push(b'\n');
    }
}

fn parse(line: &[u8]) -> Line {
    let mut fields = Fields::new(line);
    match fields.next_field() {
        Some(b"=") => Line::BeginsList,
        Some(b"sheet") => Line::Sheet(sheet_bytes(fields)),
        _ => Line::Event,
    }
}

/// Returns the one number behind the word, if it is there and the buffer is not too large.
fn sheet_bytes(mut fields: Fields) -> Option<usize> {
    let bytes = fields.next_u64().filter(|bytes| *bytes <= MOST_BYTES)?;
    fields.finish(bytes as usize)
}
