//! What a texture's record says of its shape and its history: from documents 01 and 02, over numbers of any size.

use super::memory::*;
use crate::shape::BLOCKS;

/// The records of the tracked textures.
pub fn tracked(memory: &Memory) -> impl Iterator<Item = &[u64]> {
    (0..memory.counts[TRACKED] as usize).map(|place| memory.record(TEXTURES, place))
}

/// Slices of a shape's kind: six of a cube.
fn slices(record: &[u64]) -> u64 {
    if record[6] == 1 { 6 } else { 1 }
}

/// Grids of a texture's history, if it has one: one for each slice and level.
fn grid_count(record: &[u64]) -> u128 {
    if record[HISTORY] == 0 {
        return 0;
    }
    u128::from(slices(record)) * u128::from(record[5])
}

/// Numbers of `newest` that a texture's history has: two for each grid.
pub fn newest_count(record: &[u64]) -> u128 {
    2 * grid_count(record)
}

/// Stamps of a texture's history, if it has one: of each grid the columns times the rows. Levels past the 64th have one tile, as
/// far as a number goes.
pub fn stamp_count(record: &[u64]) -> u128 {
    if record[HISTORY] == 0 {
        return 0;
    }
    let levels = record[5];
    let some = (0..levels.min(64)).map(|level| u128::from(grid_stamps(record, level)));
    u128::from(slices(record)) * (some.sum::<u128>() + u128::from(levels.saturating_sub(64)))
}

/// Whether a record's shape passes refusal 2.
pub fn passes_2(record: &[u64]) -> bool {
    record[1] <= 8
        && record[2] <= 16_384
        && record[3] <= 16_384
        && record[4] <= 2_048
        && (1..=15).contains(&record[5])
        && record[6] <= 2
}

/// "(base, at least 1) shifted right by the level, at least 1".
fn level_extent(base: u64, level: u64) -> u64 {
    base.max(1).checked_shr(level as u32).unwrap_or(0).max(1)
}

/// The bytes of a version of a shape that passes 2: "per level, whole blocks across times down times depth (volumes only) times block bytes; summed; times slices".
pub fn shape_bytes(record: &[u64]) -> u64 {
    let (edge, bytes) = BLOCKS[record[1] as usize];
    let level_bytes = |level| {
        let across = level_extent(record[2], level).div_ceil(edge);
        let down = level_extent(record[3], level).div_ceil(edge);
        let deep = if record[6] == 2 {
            level_extent(record[4], level)
        } else {
            1
        };
        across * down * deep * bytes
    };
    (0..record[5]).map(level_bytes).sum::<u64>() * slices(record)
}

/// "extent / 32 rounded up, at least 16, raised to a multiple of the block edge".
fn tile_edge(extent: u64, block: u64) -> u64 {
    extent.div_ceil(32).max(16).next_multiple_of(block)
}

/// Tiles of that edge along the extent.
fn tiles(extent: u64, block: u64) -> u64 {
    extent.div_ceil(tile_edge(extent, block))
}

/// Stamps of a level's grid. A format past 8 is taken for one with blocks of one texel.
fn grid_stamps(record: &[u64], level: u64) -> u64 {
    grid_columns(record, level) * tiles(level_extent(record[3], level), block_edge(record))
}

/// Columns of a level's grid.
pub fn grid_columns(record: &[u64], level: u64) -> u64 {
    tiles(level_extent(record[2], level), block_edge(record))
}

fn block_edge(record: &[u64]) -> u64 {
    if matches!(record[1], 5 | 6) { 4 } else { 1 }
}

/// The tilings of a history's grids, slice by slice, level by level: each begins where the grid before it ends. The shape passes 2.
pub fn tilings(record: &[u64]) -> Vec<Tiling> {
    let block = block_edge(record);
    let mut start = 0;
    let mut tilings = Vec::new();
    for _ in 0..slices(record) {
        for level in 0..record[5] {
            tilings.push(Tiling {
                start,
                across: tile_edge(level_extent(record[2], level), block),
                down: tile_edge(level_extent(record[3], level), block),
            });
            start += grid_stamps(record, level);
        }
    }
    tilings
}

/// Where in `newest` the tiling of each grid is to stand, and which it is: texture by texture, without those that the records have
/// past its end. All shapes pass 2.
pub fn placed_tilings(memory: &Memory) -> Vec<(usize, Tiling)> {
    let length = memory.slices[NEWEST].len() as u128;
    let mut placed = Vec::new();
    for record in tracked(memory).filter(|record| record[HISTORY] != 0) {
        for (grid, tiling) in tilings(record).into_iter().enumerate() {
            let at = u128::from(record[FIRST_GRID]) + 2 * grid as u128 + 1;
            if at < length {
                placed.push((at as usize, tiling));
            }
        }
    }
    placed
}

/// A grid where its texture's record has it: the place of its newest stamp, its first stamp, how many there are, and the texture's
/// writes.
pub struct Grid {
    pub writes: u64,
    pub newest: usize,
    pub first: usize,
    pub stamps: usize,
}

impl Grid {
    /// Its stamps, of all of them.
    pub fn of<'a>(&self, stamps: &'a [u64]) -> &'a [u64] {
        &stamps[self.first..][..self.stamps]
    }
}

/// The grids of all histories, texture by texture, slice by slice, level by level, without those that the records have past the
/// stores' ends. All shapes pass 2.
pub fn grids(memory: &Memory) -> Vec<Grid> {
    let mut grids = Vec::new();
    for record in tracked(memory).filter(|record| record[HISTORY] != 0) {
        let mut newest = u128::from(record[FIRST_GRID]);
        let mut first = u128::from(record[FIRST_STAMP]);
        for _ in 0..slices(record) {
            for level in 0..record[5] {
                let stamps = grid_stamps(record, level);
                let end = first + u128::from(stamps);
                if newest < memory.slices[NEWEST].len() as u128
                    && end <= memory.slices[STAMPS].len() as u128
                {
                    grids.push(Grid {
                        writes: record[HISTORY] - 1,
                        newest: newest as usize,
                        first: first as usize,
                        stamps: stamps as usize,
                    });
                }
                (newest, first) = (newest + 2, end);
            }
        }
    }
    grids
}
