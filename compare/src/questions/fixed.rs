//! The fixed list: every edge that documents 01 and 02 and the Rust have in these functions.

use super::Questions;
use super::copies;
use super::rects;
use super::seeded::add_random;
use super::tables;
use crate::random::Random;

/// The fixed list, without budgets.
pub fn fixed() -> Questions {
    let mut list = Questions::new();
    let q = &mut list;
    level_extents(q);
    tiles(q);
    every_format(q);
    shape_limits(q);
    level_counts(q);
    recordings(q);
    rects::uploads(q);
    rects::grids(q);
    malformed(q);
    let mut random = Random::new(0);
    (0..400).for_each(|_| add_random(q, &mut random));
    copies::copies(q);
    tables::tables(q);
    list.without_repeats()
}

/// The budgets, a list of their own.
pub fn budgets() -> Questions {
    const GIB: u64 = 1 << 30;
    let mut list = Questions::new();
    let mut sets: Vec<u64> = (0..=9).collect();
    for power in 3..64 {
        sets.extend(around(1 << power));
    }
    for eighths in 1..=12 {
        sets.extend(around(eighths * GIB));
        sets.extend(around(8 * GIB + 8 * eighths));
        sets.extend([8 * GIB - eighths, 8 * GIB + eighths]);
    }
    sets.extend((0..20).map(|less| u64::MAX - less));
    let mut random = Random::new(1);
    sets.extend((0..40).map(|shift| random.next() >> shift));
    sets.sort_unstable();
    sets.dedup();
    sets.iter().for_each(|set| list.ask("budget", &[*set]));
    list
}

/// A number with its neighbours.
pub fn around(number: u64) -> [u64; 3] {
    [number - 1, number, number + 1]
}

/// Extents at which something may change: powers of two, tile counts, odd ones.
fn extents() -> Vec<u64> {
    let mut extents = vec![
        0, 5, 6, 7, 20, 48, 100, 480, 514, 528, 544, 545, 640, 1000, 12_345,
    ];
    (0..15).for_each(|power| extents.extend(around(1 << power)));
    extents.retain(|extent| *extent <= 16_384);
    extents.sort_unstable();
    extents.dedup();
    extents
}

fn level_extents(q: &mut Questions) {
    for extent in extents() {
        (0..15).for_each(|level| q.ask("level_extent", &[extent, level]));
    }
}

fn tiles(q: &mut Questions) {
    let mut all = extents();
    (1..=24).for_each(|times| all.extend(around(32 * times)));
    (32..=512)
        .step_by(16)
        .for_each(|times| all.extend(around(32 * times)));
    all.extend((0..16_384).step_by(397));
    all.retain(|extent| *extent <= 16_384);
    all.sort_unstable();
    all.dedup();
    for extent in all {
        for block in [1, 4] {
            q.ask("tile_edge", &[extent, block]);
            q.ask("tiles", &[extent, block]);
        }
    }
}

fn every_format(q: &mut Questions) {
    const SIZES: [[u64; 3]; 7] = [
        [0, 0, 0],
        [1, 1, 1],
        [4, 4, 4],
        [5, 5, 1],
        [17, 3, 5],
        [1000, 37, 9],
        [16_384, 16_384, 2_048],
    ];
    for format in 0..=9 {
        for kind in 0..=2 {
            for [width, height, depth] in SIZES {
                for levels in [1, 2, 15] {
                    q.ask("bytes", &[format, width, height, depth, levels, kind]);
                }
            }
            q.ask("slices", &[format, 64, 64, 1, 1 + format, kind]);
        }
    }
}

/// At each limit, one short of it and one past it, all else good; then two past it at once.
fn shape_limits(q: &mut Questions) {
    const GOOD: [u64; 6] = [2, 64, 64, 4, 3, 0];
    const U32: u64 = u32::MAX as u64;
    let edges: [&[u64]; 6] = [
        &[8, 9, 10, 255, U32, U32 + 1, U32 + 6, u64::MAX],
        &[0, 1, 16_383, 16_384, 16_385, 16_386, U32],
        &[0, 1, 16_383, 16_384, 16_385, 16_386, U32],
        &[0, 1, 2_047, 2_048, 2_049, 2_050, U32],
        &[0, 1, 14, 15, 16, 17, 32, U32],
        &[0, 1, 2, 3, 4, U32, U32 + 1, U32 + 2, u64::MAX],
    ];
    for (place, values) in edges.iter().enumerate() {
        for value in *values {
            for kind in 0..=2 {
                let mut shape = GOOD;
                shape[5] = kind;
                shape[place] = *value;
                q.ask("bytes", &shape);
                q.ask("slices", &shape);
            }
            let mut shape = [9, 16_385, 16_385, 2_049, 16, 3];
            shape[place] = *value;
            q.ask("bytes", &shape);
        }
    }
}

fn level_counts(q: &mut Questions) {
    const SIZES: [[u64; 3]; 4] = [
        [5, 5, 1],
        [257, 3, 31],
        [100, 16_383, 2_047],
        [16_384, 1, 2_048],
    ];
    for [width, height, depth] in SIZES {
        for levels in 0..=16 {
            for kind in 0..=2 {
                let format = (levels + kind) % 9;
                q.ask("bytes", &[format, width, height, depth, levels, kind]);
            }
        }
    }
}

fn recordings(q: &mut Questions) {
    for format in 0..=9 {
        for kind in 0..=3 {
            for usage in 0..=7 {
                q.ask("records", &[format, 64, 64, 1, 1, kind, usage]);
            }
        }
    }
    for shape in [
        [2, 16_385, 64, 1, 1, 0],
        [2, 64, 64, 2_049, 1, 0],
        [2, 64, 64, 1, 16, 0],
    ] {
        (0..=1).for_each(|usage| q.ask("records", &[&shape[..], &[usage]].concat()));
    }
    q.ask("records", &[2, 64, 64, 1, 1, 0, u64::from(u32::MAX)]);
    q.ask("records", &[2, 64, 64, 1, 1, 0, u64::from(u32::MAX) - 3]);
}

/// Lines that are no questions.
fn malformed(q: &mut Questions) {
    const LINES: [&str; 30] = [
        "",
        ",",
        "?",
        "level_extent",
        "level_extent,",
        "level_extent,1",
        "level_extent,1,",
        "level_extent,1,0,",
        "level_extent,1,0,0",
        "level_extent,-1,0",
        "level_extent,+1,0",
        "level_extent, 1,0",
        "level_extent,1,0 ",
        "level_extent,0x1,0",
        "Level_extent,1,0",
        "level_extents,1,0",
        "level_extent,4294967296,0",
        "tile_edge,64,2",
        "tile_edge,64,0",
        "tiles,64,-",
        "bytes,2,4294967296,1,1,1,0",
        "bytes,18446744073709551616,1,1,1,1,0",
        "bytes,2,1,1,1,1",
        "slices,-,1,1,1,1,0",
        "upload,5,0,0,4294967296,1,1,1",
        "upload,--,0,0,1,1,1,1",
        "ongrid,-,0,0,1,1,1,1",
        "grid,2,64,64,0,1,2,3",
        "grid,2,0,64,0,0,0,1,1",
        "grid,9,64,64,0,0,0,1,1",
    ];
    LINES.iter().for_each(|line| q.line(line));
    // Leading zeros count as digits, of which a number has at most 20.
    q.line("level_extent,00000000000000000064,00000000000000000001");
    q.line("level_extent,000000000000000000064,1");
}
