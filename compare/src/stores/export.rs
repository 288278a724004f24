//! A pool of the Rust's, written into lent memory as docs/POOL.md has it ("What is lent").

use super::memory::*;
use crate::texture_versions::TextureVersions;
use crate::texture_versions::inspect::{self, TextureRow};

/// Writes a pool and the version in the hand, the rings begun at `head` and `first`.
pub fn write_pool(
    memory: &mut Memory,
    pool: &TextureVersions<u64>,
    hand: Option<[u64; 7]>,
    head: usize,
    first: usize,
) {
    for (place, row) in inspect::textures(pool).iter().enumerate() {
        write_texture(memory, place, row);
        memory.counts[TRACKED] += 1;
    }
    let queue = inspect::queue(pool);
    memory.counts[HEAD] = head as u64;
    memory.counts[POPPED] = hand.is_some().into();
    memory.counts[QUEUED] = queue.len() as u64;
    let places = memory.places(RETIRING);
    for (at, record) in hand.into_iter().chain(queue).enumerate() {
        memory
            .record_mut(RETIRING, (head + at) % places)
            .copy_from_slice(&record);
    }
    let doomed = inspect::doomed(pool);
    memory.counts[FIRST] = first as u64;
    memory.counts[WAITING] = doomed.len() as u64;
    for (at, record) in doomed.into_iter().enumerate() {
        memory
            .record_mut(DOOMED, (first + at) % places)
            .copy_from_slice(&record);
    }
    memory.counts[TRACKINGS] = inspect::trackings(pool);
    let totals = inspect::totals(pool);
    for (count, total) in [SINCE, PARKED, DOOMING, CAP, LINE].into_iter().zip(totals) {
        memory.counts[count] = total;
    }
    memory.book = inspect::book(pool);
}

/// Writes one texture: its record, its spares and its grids, each with its tiling, after those of the textures before it.
fn write_texture(memory: &mut Memory, place: usize, row: &TextureRow) {
    for (view, held, parked) in &row.spares {
        let at = memory.counts[KEPT] as usize;
        let held = held.map_or(0, |count| count + 1);
        memory
            .record_mut(SPARES, at)
            .copy_from_slice(&[*view, held, *parked]);
        memory.counts[KEPT] += 1;
    }
    let (first_grid, first_stamp) = (memory.counts[GRIDS], memory.counts[STAMPED]);
    for grid in row.history.iter().flat_map(|(_, grids)| grids) {
        let (newest, at) = (
            memory.counts[GRIDS] as usize,
            memory.counts[STAMPED] as usize,
        );
        // Takes the edges that the Rust's grid has, so that the judge's are held to them.
        let tiling = Tiling {
            start: memory.counts[STAMPED] - first_stamp,
            across: grid.tile[0],
            down: grid.tile[1],
        };
        memory.slices[NEWEST][newest..][..2].copy_from_slice(&[grid.newest, tiling.number()]);
        memory.slices[STAMPS][at..][..grid.stamps.len()].copy_from_slice(&grid.stamps);
        memory.counts[GRIDS] += 2;
        memory.counts[STAMPED] += grid.stamps.len() as u64;
    }
    let record = memory.record_mut(TEXTURES, place);
    record[0] = row.id;
    record[1..13].copy_from_slice(&row.shape);
    record[TRACKING] = row.tracking;
    record[HISTORY] = row.history.as_ref().map_or(0, |(writes, _)| writes + 1);
    record[BIRTH] = row.birth;
    record[RENAME] = row.rename;
    record[DUE] = row.due;
    record[OWN_SPARES] = row.spares.len() as u64;
    record[BYTES] = row.bytes;
    record[FIRST_GRID] = first_grid;
    record[FIRST_STAMP] = first_stamp;
}
