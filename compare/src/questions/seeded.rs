//! Random questions from a seed, for the live comparison.

use super::Questions;
use super::copies::random_copy;
use super::rects::writes_into;
use super::tables::random_table;
use crate::random::Random;

/// So many questions from a seed, without budgets. Every fifth is about a copy, and the one before every fourth of these about a table.
pub fn seeded(seed: u64, count: u64) -> Questions {
    let mut list = Questions::new();
    let mut random = Random::new(seed);
    // Draw other numbers, so that the other questions of a seed do not change with these.
    let mut others = Random::new(!seed);
    let (mut copies, mut tables) = (Random::new(others.next()), Random::new(others.next()));
    for number in 1..=count {
        match number % 20 {
            0 | 5 | 10 | 15 => random_copy(&mut list, &mut copies),
            19 => random_table(&mut list, &mut tables),
            _ => add_random(&mut list, &mut random),
        }
    }
    list
}

/// Adds one random question about anything but a copy and a table.
pub fn add_random(q: &mut Questions, random: &mut Random) {
    match random.below(32) {
        0 | 1 => {
            let (extent, level) = (random.length() - random.below(2), random.below(15));
            q.ask("level_extent", &[extent, level]);
        }
        2 | 3 => {
            let (extent, block) = (random.length(), random.one_of(&[1, 4]));
            q.ask("tile_edge", &[extent, block]);
        }
        4 | 5 => {
            let (extent, block) = (random.length() - random.below(2), random.one_of(&[1, 4]));
            q.ask("tiles", &[extent, block]);
        }
        6..=11 => q.ask("bytes", &shape(random)),
        12 => q.ask("slices", &shape(random)),
        13 | 14 => {
            let usage = random.below(8);
            q.ask("records", &[&shape(random)[..], &[usage]].concat());
        }
        15..=18 => upload(q, random),
        19..=22 => {
            let (format, numbers) = (format(random), sides_in_extent(random));
            q.ask("ongrid", &[&[format], &numbers[..]].concat());
        }
        23..=30 => grid(q, random),
        _ => damaged(q, random),
    }
}

/// A format, past 8 now and then.
fn format(random: &mut Random) -> u64 {
    match random.below(40) {
        0 => random.within(9, 11),
        1 => random.next(),
        _ => random.below(9),
    }
}

/// A shape, with a bad field now and then.
fn shape(random: &mut Random) -> [u64; 6] {
    let depth = match random.below(3) {
        0 => random.within(0, 3),
        1 => random.within(0, 70),
        _ => random.within(1_990, 2_050),
    };
    let mut shape = [
        format(random),
        random.length(),
        random.length(),
        depth,
        random.within(1, 15),
        random.below(3),
    ];
    if random.once_in(8) {
        let place = random.within(1, 5) as usize;
        shape[place] = match random.below(3) {
            0 => random.one_of(&[0, 16, 2_049, 16_385]),
            1 => random.below(20),
            _ => random.below(1 << 32),
        };
    }
    shape
}

/// A rectangle and its level's extent, the sides often in blocks or ending at the level's edge.
fn sides_in_extent(random: &mut Random) -> [u64; 6] {
    const U32: u64 = u32::MAX as u64;
    let mut numbers = [0; 6];
    for axis in 0..2 {
        let extent = random.length();
        let mut origin = random.coordinate(extent);
        if !random.once_in(4) {
            origin -= origin % 4;
        }
        let size = match random.below(4) {
            0 => random.coordinate(extent),
            1 => 4 * random.below(9),
            _ => extent.saturating_sub(origin),
        };
        numbers[axis] = origin;
        numbers[axis + 2] = size;
        numbers[axis + 4] = match random.below(12) {
            0 => (origin + size).min(U32),
            // What the sum is if it is taken modulo 2^32.
            1 => (origin + size) % (U32 + 1),
            _ => extent,
        };
    }
    numbers
}

fn upload(q: &mut Questions, random: &mut Random) {
    let numbers = sides_in_extent(random);
    if random.once_in(8) {
        let rest = numbers.map(|number| number.to_string()).join(",");
        q.line(&format!("upload,-,{rest}"));
    } else {
        let format = if random.once_in(2) {
            random.within(5, 6)
        } else {
            format(random)
        };
        q.ask("upload", &[&[format], &numbers[..]].concat());
    }
}

fn grid(q: &mut Questions, random: &mut Random) {
    let (width, height) = (random.length(), random.length());
    let writes = random.within(1, 8);
    let rects = writes_into(random, width, height, writes);
    let (format, held) = (random.below(9), random.below(writes + 1));
    q.ask(
        "grid",
        &[&[format, width, height, held], &rects[..]].concat(),
    );
}

/// A good question with one byte changed, most often into a malformed one.
fn damaged(q: &mut Questions, random: &mut Random) {
    let mut good = Questions::new();
    good.ask("tile_edge", &[random.length(), 4]);
    good.ask(
        "ongrid",
        &[5, 4, 8, random.below(40), random.below(40), 37, 33],
    );
    let lines: Vec<&str> = good.text().lines().collect();
    let line = lines[random.below(2) as usize].to_string();
    q.line(&damage(line, random));
}

/// Changes one byte of a question.
pub fn damage(mut line: String, random: &mut Random) -> String {
    let at = random.below(line.len() as u64) as usize;
    let new = ["", ",", "-", "x", " ", "9", ";", "1,"][random.below(8) as usize];
    line.replace_range(at..=at, new);
    line
}
