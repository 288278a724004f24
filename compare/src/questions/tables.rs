//! Questions about the tables of tile edges (02, W-204): every entry, both ends of its extents, numbers that have no entry.

use super::Questions;
use super::seeded::damage;
use crate::random::Random;

const MAX: u64 = u64::MAX;
const TWO_32: u64 = 1 << 32;

/// Lists the edges of blocks that have a table.
const BLOCKS: [u64; 2] = [1, 4];

/// Is the last index of a table.
const LAST: u64 = 512;

/// Adds the questions about tables.
pub fn tables(q: &mut Questions) {
    entries(q);
    ends_of_extents(q);
    past_the_last_entry(q);
    other_blocks(q);
    malformed(q);
}

fn entries(q: &mut Questions) {
    (0..=LAST).for_each(|index| entry_of_each(q, index));
}

/// Asks about the entry of an index in each table.
fn entry_of_each(q: &mut Questions, index: u64) {
    for block in BLOCKS {
        q.ask("table", &[block, index]);
    }
}

/// Asks about the edge at the first and at the last extent of each entry; entry 0 has the extent 0 alone, which other questions have.
fn ends_of_extents(q: &mut Questions) {
    for index in 1..=LAST {
        for extent in [32 * index - 31, 32 * index] {
            for block in BLOCKS {
                q.ask("tile_edge", &[extent, block]);
            }
        }
    }
}

/// Asks about indices that no table has; the last three are there if they are cut to 32 bits.
fn past_the_last_entry(q: &mut Questions) {
    for index in [
        LAST + 1,
        LAST + 2,
        1_024,
        TWO_32 - 1,
        MAX,
        TWO_32,
        TWO_32 + 17,
        TWO_32 + LAST,
    ] {
        entry_of_each(q, index);
    }
}

/// Asks about blocks that have no table; the last two have one if they are cut to 32 bits.
fn other_blocks(q: &mut Questions) {
    for block in [
        0,
        2,
        3,
        5,
        8,
        12,
        16,
        TWO_32 - 1,
        TWO_32,
        MAX,
        TWO_32 + 1,
        TWO_32 + 4,
    ] {
        for index in [0, 1, 4, 17, LAST, LAST + 1] {
            q.ask("table", &[block, index]);
        }
    }
}

/// Adds lines that are nearly questions about a table, and two questions with numbers of twenty digits.
fn malformed(q: &mut Questions) {
    const LINES: [&str; 25] = [
        "table",
        "table,",
        "table,,",
        "table,-",
        "table,1",
        "table,1,",
        "table,,17",
        "table,-,17",
        "table,1,-",
        "table,-,-",
        "table,1,17,",
        "table,1,17,0",
        "table,4,17,-",
        "table,1,-1",
        "table,+1,17",
        "table, 1,17",
        "table,1,17 ",
        "table,1,17\r",
        "table,1,0x11",
        "table,1,18446744073709551616",
        "table,18446744073709551616,17",
        "table,1,000000000000000000017",
        "table,000000000000000000004,17",
        "Table,1,17",
        "tables,1,17",
    ];
    LINES.iter().for_each(|line| q.line(line));
    q.line("table,1,00000000000000000017");
    q.line("table,00000000000000000004,00000000000000000512");
}

/// Adds one random question: mostly an entry that is there, often one close to the least edge or to the last index.
pub fn random_table(q: &mut Questions, random: &mut Random) {
    let block = match random.below(24) {
        0 => random.below(18),
        1 => random.next() >> random.below(64),
        _ => random.one_of(&BLOCKS),
    };
    let index = match random.below(24) {
        0 => LAST + random.below(3),
        1 => random.next() >> random.below(64),
        2..=5 => random.within(12, 24),
        _ => random.below(LAST + 1),
    };
    let mut line = format!("table,{block},{index}");
    if random.once_in(25) {
        line = damage(line, random);
    }
    q.line(&line);
}
