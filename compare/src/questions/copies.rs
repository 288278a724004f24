//! Questions about the bytes of a copy (02, W-203): blocks, edges of levels, levels, depths, limits, sums past 2^64.

use super::Questions;
use super::fixed::around;
use super::seeded::damage;
use crate::random::Random;

const MAX: u64 = u64::MAX;
const TWO_32: u64 = 1 << 32;

/// Names a whole copy.
const WHOLE: Option<[u64; 4]> = None;

/// Has the level 0 of 5 by 5 texels, format 5 and one level, where other numbers matter.
const SMALL: [u64; 6] = [5, 5, 5, 1, 1, 0];

/// Adds the questions about copies, those from a seed of their own last.
pub fn copies(q: &mut Questions) {
    every_format(q);
    places_in_a_block(q);
    level_edges(q);
    empty_boxes(q);
    large_sums(q);
    levels(q);
    small_levels(q);
    depths(q);
    limits(q);
    bad_numbers(q);
    malformed(q);
    let mut random = Random::new(4);
    (0..150).for_each(|_| random_copy(q, &mut random));
}

/// Adds a question.
fn ask(q: &mut Questions, shape: [u64; 6], level: u64, region: Option<[u64; 4]>) {
    q.line(&question(shape, level, region));
}

fn question(shape: [u64; 6], level: u64, region: Option<[u64; 4]>) -> String {
    let numbers = |numbers: &[u64]| -> String {
        let fields = numbers.iter().map(|number| format!(",{number}"));
        fields.collect()
    };
    let region = region.map_or(",-".to_string(), |region| numbers(&region));
    format!("copy{},{level}{region}", numbers(&shape))
}

fn every_format(q: &mut Questions) {
    for format in 0..=9 {
        for kind in 0..=3 {
            let shape = [format, 13, 9, 7, 3, kind];
            ask(q, shape, 0, WHOLE);
            ask(q, shape, 1, WHOLE);
            ask(q, shape, 0, Some([3, 3, 2, 2]));
            ask(q, shape, 1, Some([1, 2, 40, 2]));
        }
    }
}

/// Asks about one texel, two by two and five by four at each place of a block, in the level's middle and at its edge.
fn places_in_a_block(q: &mut Questions) {
    for (x, y) in (0..4).flat_map(|y| (0..4).map(move |x| (x, y))) {
        ask(q, [5, 10, 9, 1, 1, 0], 0, Some([4 + x, 4 + y, 1, 1]));
        ask(q, [6, 64, 64, 1, 1, 0], 0, Some([32 + x, 16 + y, 1, 1]));
        ask(q, [5, 64, 64, 1, 1, 0], 0, Some([32 + x, 16 + y, 2, 2]));
        ask(q, [6, 22, 21, 1, 1, 1], 0, Some([12 + x, 12 + y, 5, 4]));
    }
}

/// Asks along each axis about boxes that end one texel before a level's edge, at it and past it, and that begin there.
fn level_edges(q: &mut Questions) {
    for extent in [1_u64, 3, 4, 5, 7, 8, 9, 16_381, 16_384] {
        let last = extent - 1;
        for [first, length] in [
            [0, last],
            [0, extent],
            [0, extent + 1],
            [last, 1],
            [last, 2],
            [extent, 1],
            [extent + 1, 4],
            [last.saturating_sub(3), 4],
        ] {
            ask(q, [5, extent, 6, 1, 1, 0], 0, Some([first, 1, length, 4]));
            ask(q, [6, 3, extent, 1, 1, 0], 0, Some([0, first, 9, length]));
        }
    }
}

/// Asks about boxes without width or height, and about those of which one axis alone leaves the level.
fn empty_boxes(q: &mut Questions) {
    for region in [
        [0, 0, 0, 0],
        [0, 0, 0, 5],
        [0, 0, 5, 0],
        [3, 3, 0, 4],
        [3, 3, 4, 0],
        [4, 4, 0, 0],
        [5, 0, 4, 4],
        [0, 5, 4, 4],
        [5, 5, 1, 1],
        [8, 8, 8, 8],
        [MAX, MAX, 0, 0],
    ] {
        ask(q, SMALL, 0, Some(region));
        ask(q, [4, 5, 5, 3, 1, 2], 0, Some(region));
    }
}

/// Asks along each axis about sums close to 2^32 and 2^64 and past them; some give a small number if they wrap around.
fn large_sums(q: &mut Questions) {
    let firsts = [0, 1, 3, 4, 7, 8, TWO_32 - 1, TWO_32, 1 << 63, MAX - 1, MAX];
    for (at, first) in firsts.into_iter().enumerate() {
        let to_the_end = MAX - first;
        for length in [
            1,
            TWO_32 - 1,
            TWO_32,
            to_the_end,
            to_the_end.wrapping_add(1),
            to_the_end.wrapping_add(3),
            MAX,
        ] {
            let format = [5, 2][at % 2];
            ask(q, [format, 9, 6, 1, 1, 0], 0, Some([first, 3, length, 2]));
            ask(q, [format, 6, 9, 1, 1, 0], 0, Some([3, first, 2, length]));
        }
    }
    for region in [[1, 1, MAX, MAX], [MAX; 4], [4, 2, MAX, MAX - 1]] {
        ask(q, SMALL, 0, Some(region));
    }
}

/// Asks about levels that a shape has and lacks.
fn levels(q: &mut Questions) {
    for (levels, kind) in [(1, 0), (3, 2), (15, 1)] {
        let lacking = [14, 15, 16, 31, 32, 33, 63, 64, 65, TWO_32, TWO_32 + 1, MAX];
        let mut asked: Vec<u64> = around(levels).into_iter().chain(lacking).collect();
        asked.extend([0, 1, 2]);
        asked.sort_unstable();
        asked.dedup();
        for level in asked {
            ask(q, [5, 1_000, 37, 9, levels, kind], level, WHOLE);
            let region = Some([2, 0, 12, 5]);
            ask(q, [6, 1_000, 37, 9, levels, kind], level, region);
        }
    }
}

/// Asks about levels smaller than a block or with an edge of few texels, by themselves and at the end of many levels.
fn small_levels(q: &mut Questions) {
    for (width, height) in [(0, 0), (1, 1), (2, 2), (3, 5), (5, 3), (4, 4), (1, 16_384)] {
        for format in [5, 6] {
            let shape = [format, width, height, 1, 15, 0];
            ask(q, shape, 0, WHOLE);
            ask(q, shape, 1, WHOLE);
            ask(q, shape, 0, Some([0, 0, 1, 1]));
            ask(q, shape, 1, Some([1, 1, 4, 4]));
            ask(q, shape, 0, Some([2, 3, MAX, MAX]));
        }
    }
    for level in 0..15 {
        ask(q, [5, 16_384, 9_001, 1, 15, 0], level, WHOLE);
        ask(q, [6, 5_003, 16_383, 1, 15, 1], level, Some([3, 2, 27, 6]));
    }
}

/// Asks about depths, which halve by level and count for volumes alone.
fn depths(q: &mut Questions) {
    for depth in [0, 1, 2, 3, 5, 8, 2_047, 2_048] {
        for level in [0, 1, 2, 11] {
            ask(q, [5, 5, 6, depth, 12, 2], level, WHOLE);
            ask(q, [0, 9, 6, depth, 12, 2], level, Some([0, 0, 3, 3]));
        }
        for kind in 0..=1 {
            ask(q, [6, 5, 6, depth, 2, kind], 1, WHOLE);
            ask(q, [5, 5, 6, depth, 2, kind], 0, Some([3, 3, 9, 1]));
        }
    }
    // Has the most bytes that a copy can have, 2^43.
    let largest = [4, 16_384, 16_384, 2_048, 1, 2];
    ask(q, largest, 0, WHOLE);
    ask(q, largest, 0, Some([0, 0, MAX, MAX]));
    ask(q, largest, 0, Some([16_383, 16_383, 1, 1]));
    ask(q, largest, 0, Some([1, 1, 16_383, 16_383]));
}

/// Asks at each limit of a shape, one short of it and past it, with numbers that are good if they are cut to 32 bits; all else is good, then bad.
fn limits(q: &mut Questions) {
    const GOOD: [u64; 6] = [5, 61, 62, 4, 3, 2];
    let wide = [0, 1, 16_383, 16_384, 16_385, TWO_32, TWO_32 + 61, MAX];
    let edges: [&[u64]; 6] = [
        &[8, 9, 10, 255, 256, TWO_32, TWO_32 + 5, MAX],
        &wide,
        &wide,
        &[0, 1, 2_047, 2_048, 2_049, TWO_32, TWO_32 + 4, MAX],
        &[0, 1, 14, 15, 16, 17, TWO_32, TWO_32 + 3, MAX],
        &[0, 1, 2, 3, 4, TWO_32, TWO_32 + 2, MAX],
    ];
    for (place, values) in edges.iter().enumerate() {
        for value in *values {
            let mut shape = GOOD;
            shape[place] = *value;
            ask(q, shape, 0, WHOLE);
            ask(q, shape, 0, Some([59, 3, 5, 2]));
            let mut shape = [9, 16_385, 16_385, 2_049, 16, 3];
            shape[place] = *value;
            ask(q, shape, 0, WHOLE);
        }
    }
}

/// Asks about bad shapes with levels that they lack and with empty boxes: 2 goes before 0.
fn bad_numbers(q: &mut Questions) {
    for shape in [
        [9, 5, 5, 1, 1, 0],
        [5, 16_385, 5, 1, 1, 0],
        [5, 5, 16_385, 1, 1, 1],
        [5, 5, 5, 2_049, 1, 0],
        [5, 5, 5, 2_049, 1, 2],
        [5, 5, 5, 1, 0, 0],
        [5, 5, 5, 1, 16, 0],
        [5, 5, 5, 1, 1, 3],
    ] {
        ask(q, shape, 20, WHOLE);
        ask(q, shape, MAX, Some([0, 0, 0, 0]));
        ask(q, shape, 0, Some([5, 5, 0, 0]));
    }
}

/// Lists lines that are nearly questions about a copy.
const MALFORMED: [&str; 38] = [
    "copy",
    "copy,",
    "copy,-",
    "copy,5,5,5,1,1,0",
    "copy,5,5,5,1,1,0,",
    "copy,5,5,5,1,1,0,0",
    "copy,5,5,5,1,1,0,0,",
    "copy,5,5,5,1,1,-",
    "copy,5,5,5,1,1,0,-",
    "copy,5,5,5,1,1,0,-,-",
    "copy,-,5,5,1,1,0,0,-",
    "copy,5,5,5,1,1,0,0,--",
    "copy,5,5,5,1,1,0,0,-,-",
    "copy,5,5,5,1,1,0,0,-,",
    "copy,5,5,5,1,1,0,0,-,0",
    "copy,5,5,5,1,1,0,0,-,0,0,1,1",
    "copy,5,5,5,1,1,0,0,-,-,-,-",
    "copy,5,5,5,1,1,0,0,-1",
    "copy,5,5,5,1,1,0,0,1",
    "copy,5,5,5,1,1,0,0,1,1",
    "copy,5,5,5,1,1,0,0,0,1,1",
    "copy,5,5,5,1,1,0,0,0,0,1,",
    "copy,5,5,5,1,1,0,0,0,0,1,-",
    "copy,5,5,5,1,1,0,0,0,0,1,1,",
    "copy,5,5,5,1,1,0,0,0,0,1,1,1",
    "copy,5,5,5,1,1,0,0,0,0,1,1,-",
    "copy,5,5,5,1,1,0,0,0,,1,1",
    "copy,5,5,5,1,1,0,0, 0,0,1,1",
    "copy,5,5,5,1,1,0,0,- ",
    "copy,5,5,5,1,1,0,0,-\r",
    "copy,5,18446744073709551616,5,1,1,0,0,-",
    "copy,18446744073709551616,5,5,1,1,0,0,-",
    "copy,5,5,5,1,1,0,18446744073709551616,-",
    "copy,5,5,5,1,1,0,0,18446744073709551616,0,1,1",
    "copy,5,5,5,1,1,0,0,0,0,1,18446744073709551616",
    "copy,5,5,5,1,1,0,0,0,0,000000000000000000001,1",
    "Copy,5,5,5,1,1,0,0,-",
    "copys,5,5,5,1,1,0,0,-",
];

/// Adds these, and two questions with numbers of twenty digits.
fn malformed(q: &mut Questions) {
    MALFORMED.iter().for_each(|line| q.line(line));
    q.line("copy,5,00000000000000000005,5,1,1,0,0,0,0,00000000000000000002,5");
    q.line("copy,5,5,5,1,1,0,00000000000000000000,-");
}

/// Adds one random question: mostly a good shape, a level that it has and a box close to block lines and edges.
pub fn random_copy(q: &mut Questions, random: &mut Random) {
    let blocks = random.within(5, 6);
    let mut shape = [
        if random.once_in(3) {
            random.below(9)
        } else {
            blocks
        },
        extent(random),
        extent(random),
        random.one_of(&[0, 1, 1, 2, 3, 7, 100, 2_048]),
        random.within(1, 15),
        random.below(3),
    ];
    let level = match random.below(24) {
        0 => shape[4] + random.below(3),
        1 => random.next() >> random.below(64),
        // Prefers the first levels: the last ones have few texels.
        _ => random.below(shape[4]).min(random.below(5)),
    };
    if random.once_in(12) {
        let any = random.next() >> random.below(64);
        let number = random.one_of(&[0, 3, 9, 16, 2_049, 16_385, TWO_32 + 1, any]);
        shape[random.below(6) as usize] = number;
    }
    let region = (!random.once_in(8)).then(|| random_box(random, &shape, level));
    let mut line = question(shape, level, region);
    if random.once_in(25) {
        line = damage(line, random);
    }
    q.line(&line);
}

/// Draws an extent, mostly a small one.
fn extent(random: &mut Random) -> u64 {
    match random.below(4) {
        0 => random.length(),
        1 => random.below(700),
        _ => random.below(40),
    }
}

fn random_box(random: &mut Random, shape: &[u64; 6], level: u64) -> [u64; 4] {
    let [x, width] = side(random, shape[1].max(1) >> level.min(14));
    let [y, height] = side(random, shape[2].max(1) >> level.min(14));
    [x, y, width, height]
}

/// Draws the first texel and the length along an axis of so many texels, rarely huge numbers.
fn side(random: &mut Random, extent: u64) -> [u64; 2] {
    let extent = extent.clamp(1, 16_384);
    let first = match random.below(40) {
        0 => MAX - random.below(6),
        1 => random.next() >> random.below(64),
        2 => extent + random.below(3),
        3..=12 => extent.saturating_sub(random.within(1, 6)),
        13..=22 => (4 * random.below(extent.div_ceil(4)) + random.below(3)).saturating_sub(1),
        _ => random.below(extent),
    };
    let length = match random.below(40) {
        0 => MAX - random.below(6),
        // Wraps around to a small sum, or nearly.
        1 | 2 => 0_u64.wrapping_sub(first).wrapping_add(random.below(9)),
        3 => random.next() >> random.below(64),
        4 => 0,
        5..=16 => extent.saturating_sub(first).saturating_add(random.below(3)),
        17..=30 => random.within(1, 9),
        _ => random.within(1, extent),
    };
    [first, length]
}
