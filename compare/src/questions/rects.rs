//! Questions about rectangles: uploads, the block grid, the stamp grid.

use super::Questions;
use super::fixed::around;
use crate::random::Random;

const U32: u64 = u32::MAX as u64;

/// Origin, size and extent along one axis: on and off the grid of 4, at the level's edge, past it, past 2^32.
const AXIS: [[u64; 3]; 30] = [
    [0, 0, 0],
    [0, 0, 16],
    [0, 4, 16],
    [0, 3, 16],
    [0, 5, 16],
    [0, 16, 16],
    [0, 17, 17],
    [0, 17, 16],
    [0, 1, 1],
    [0, 3, 3],
    [0, 20, 17],
    [1, 4, 16],
    [1, 15, 16],
    [2, 2, 4],
    [3, 1, 4],
    [4, 1, 5],
    [4, 2, 5],
    [4, 13, 17],
    [4, 14, 17],
    [4, 12, 17],
    [16, 1, 17],
    [16, 0, 16],
    [20, 4, 16],
    [20, 3, 16],
    [U32 - 3, 4, 0],
    [U32 - 3, 3, U32],
    [U32 - 3, 5, 1],
    [U32 - 3, U32, U32 - 4],
    [U32, 1, 0],
    [4, U32, 3],
];

pub fn uploads(q: &mut Questions) {
    // Both axes at once for a format with blocks, one after the other and then paired.
    for (at, case) in AXIS.iter().enumerate() {
        for other in [[0, 4, 16], [1, 4, 16], AXIS[(at * 7 + 3) % 30]] {
            ask_both(q, 5, *case, other);
            ask_both(q, 6, other, *case);
        }
    }
    let mut random = Random::new(2);
    for format in [0, 1, 2, 3, 4, 7, 8, 9, 10, U32 + 1, U32 + 6, u64::MAX] {
        for _ in 0..8 {
            let first = AXIS[random.below(30) as usize];
            ask_both(q, format, first, AXIS[random.below(30) as usize]);
        }
    }
    for (at, case) in AXIS.iter().enumerate() {
        let [x, width, across] = *case;
        let [y, height, down] = AXIS[(at * 11 + 5) % 30];
        q.line(&format!(
            "upload,-,{x},{y},{width},{height},{across},{down}"
        ));
    }
}

fn ask_both(q: &mut Questions, format: u64, across: [u64; 3], down: [u64; 3]) {
    let [x, width, extent_w] = across;
    let [y, height, extent_h] = down;
    let numbers = [format, x, y, width, height, extent_w, extent_h];
    q.ask("upload", &numbers);
    q.ask("ongrid", &numbers);
}

pub fn grids(q: &mut Questions) {
    tile_lines(q);
    empty_cuts(q);
    let mut random = Random::new(3);
    for format in 0..=8 {
        (0..50).for_each(|_| grid_at_every_held(q, &mut random, format));
    }
}

/// One write that ends or begins at a tile line, one texel before it and one after.
fn tile_lines(q: &mut Questions) {
    for (format, extent, edge) in [
        (2, 64, 16),
        (2, 513, 17),
        (5, 513, 20),
        (2, 16_384, 512),
        (6, 16_383, 512),
        (5, 5, 16),
        (0, 1, 16),
    ] {
        for line in around(edge).into_iter().chain(around(extent)) {
            q.ask("grid", &[format, extent, extent, 0, 0, 0, line, 1]);
            q.ask("grid", &[format, extent, extent, 0, 0, line, 1, 1]);
            q.ask(
                "grid",
                &[format, extent, 1, 0, line.saturating_sub(1), 0, 2, 1],
            );
            q.ask(
                "grid",
                &[format, 1, extent, 0, 0, line.saturating_sub(1), 1, U32],
            );
        }
    }
}

/// Cuts that are empty, alone and after a write that stamped; and cuts at the last texel.
fn empty_cuts(q: &mut Questions) {
    for (width, height) in [(1, 1), (64, 64), (100, 37), (16_384, 3)] {
        for [x, y, w, h] in [
            [0, 0, 0, 0],
            [0, 0, 0, 1],
            [0, 0, 1, 0],
            [width, 0, 1, 1],
            [0, height, 1, 1],
            [width - 1, height - 1, 1, 1],
            [width - 1, height - 1, U32, U32],
            [U32, U32, U32, U32],
            [U32, 0, 1, 1],
            [0, 0, U32, U32],
        ] {
            for held in 0..=2 {
                q.ask("grid", &[2, width, height, held, x, y, w, h]);
                q.ask("grid", &[5, width, height, held, 0, 0, 1, 1, x, y, w, h]);
            }
        }
    }
}

/// Some writes into one grid, asked about for every count of held writes, or for two of them.
fn grid_at_every_held(q: &mut Questions, random: &mut Random, format: u64) {
    let (width, height) = (random.length(), random.length());
    let writes = random.within(1, 5);
    let rects = writes_into(random, width, height, writes);
    let held: Vec<u64> = if random.once_in(10) {
        (0..=writes + 1).chain([u64::MAX]).collect()
    } else {
        vec![0, random.within(1, writes)]
    };
    for held in held {
        q.ask(
            "grid",
            &[&[format, width, height, held], &rects[..]].concat(),
        );
    }
}

/// The numbers of so many rectangles in a level, some of them out of it.
pub fn writes_into(random: &mut Random, width: u64, height: u64, count: u64) -> Vec<u64> {
    let mut rects = Vec::new();
    for _ in 0..count {
        rects.push(random.origin(width));
        rects.push(random.origin(height));
        for extent in [width, height] {
            // Mostly short sides: long ones make every box the whole level.
            let length = if random.once_in(3) {
                random.coordinate(extent)
            } else {
                random.below(extent.div_ceil(8) + 2)
            };
            rects.push(length);
        }
    }
    rects
}
