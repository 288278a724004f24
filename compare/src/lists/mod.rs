//! Lists of events from a seed, the same on every machine: for the comparison of two event programs.
//!
//! A program answers beside the list while it is written, so that the lines can follow its answers.

mod ages;
mod bursts;
mod chaos;
mod driver;
pub mod edges;
mod fills;
mod pressure;
mod renames;
mod shapes;
pub mod sheets;
pub mod sized;
mod stamps;
mod texture;

use crate::limited::Limits;
use crate::program::Program;
use crate::random::Random;
use crate::replies::{Replies, Reply};

/// The kinds of lists.
pub const KINDS: [&str; 9] = [
    "renames", "texels", "chaos", "pressure", "fills", "ages", "shapes", "bursts", "stamps",
];

/// Answers one line, appending to the output. A test may put something else than the Rust here.
pub type Answering<'a> = Box<dyn FnMut(&[u8], &mut Vec<u8>) + 'a>;

/// A list being written.
pub struct List<'a> {
    /// The seed as it was given: eight seeds in a row give each sort of list that a kind has.
    pub seed: u64,
    pub random: Random,
    pub limits: Limits,
    text: Vec<u8>,
    lines: u64,
    wanted: u64,
    answering: Answering<'a>,
    /// The output for the latest line.
    out: Vec<u8>,
}

impl<'a> List<'a> {
    fn new(
        seed: u64,
        random: Random,
        wanted: u64,
        limits: Limits,
        answering: Answering<'a>,
    ) -> Self {
        Self {
            seed,
            random,
            limits,
            text: Vec::new(),
            lines: 0,
            wanted,
            answering,
            out: Vec::new(),
        }
    }

    pub const fn is_full(&self) -> bool {
        self.lines >= self.wanted
    }

    /// Adds a line, which has no line feed in it, and tells what it is answered. A full list takes no more lines
    /// and answers "?".
    pub fn say(&mut self, line: &[u8]) -> Reply {
        if self.is_full() {
            return Reply::default();
        }
        debug_assert!(!line.contains(&b'\n'));
        self.lines += 1;
        self.text.extend_from_slice(line);
        self.text.push(b'\n');
        self.out.clear();
        (self.answering)(line, &mut self.out);
        let reply = Replies::new(&self.out).next();
        reply
            .expect("a line is answered")
            .expect("the answer is well formed")
    }

    /// The list; every other one lacks its last line feed.
    fn finish(mut self) -> Vec<u8> {
        if self.random.once_in(2) {
            self.text.pop();
        }
        self.text
    }
}

/// A list of `wanted` lines for a program with these limits, or none if there is no such kind.
pub fn list(kind: &str, seed: u64, wanted: u64, limits: Limits) -> Option<Vec<u8>> {
    let mut program = Program::new(limits, false);
    let answering = Box::new(move |line: &[u8], out: &mut Vec<u8>| program.run(line, out));
    list_beside(kind, seed, wanted, limits, answering)
}

/// The same beside another program.
pub fn list_beside(
    kind: &str,
    seed: u64,
    wanted: u64,
    limits: Limits,
    answering: Answering,
) -> Option<Vec<u8>> {
    let edges = (kind == edges::EDGES).then_some(KINDS.len());
    let number = KINDS.iter().position(|name| *name == kind).or(edges)?;
    // Kinds of one seed are to differ in their numbers too.
    let random = Random::new(Random::new(seed).next().wrapping_add(number as u64));
    let mut list = List::new(seed, random, wanted, limits, answering);
    match kind {
        "renames" => renames::fill(&mut list, renames::EXTENTS),
        "texels" => renames::fill(&mut list, renames::SMALL_EXTENTS),
        "chaos" => chaos::fill(&mut list),
        "pressure" => pressure::fill(&mut list),
        "fills" => fills::fill(&mut list),
        "ages" => ages::fill(&mut list),
        "shapes" => shapes::fill(&mut list),
        "bursts" => bursts::fill(&mut list),
        edges::EDGES => edges::fill(&mut list),
        _ => stamps::fill(&mut list),
    }
    Some(list.finish())
}
