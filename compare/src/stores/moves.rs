//! Damage to histories: stamps that do not fit their grids; gaps, overlaps, histories that end past what is lent, and one more or less of
//! all that is counted.

use super::damage::past;
use super::judge::{self, Condition as C};
use super::memory::*;
use super::shapes;
use super::tilings;
use crate::lists::sized;
use crate::random::Random;

/// Damage that several conditions tell at once, by its number; tells whether it was done.
pub fn move_histories(memory: &mut Memory, sort: usize, random: &mut Random) -> bool {
    let broken: &[C] = match sort {
        // Grids and stamps agree with each other, and all that is read is well: but for a gap or an overlap.
        0..=2 => {
            if !move_starts(memory, &[FIRST_GRID, FIRST_STAMP], random) {
                return false;
            }
            &[C::FirstGrid, C::FirstStamp]
        }
        // So is the gap counted as used.
        3 => {
            let counts = [GRIDS, STAMPED].map(|at| memory.counts[at]);
            if !move_starts(memory, &[FIRST_GRID, FIRST_STAMP], random) {
                return false;
            }
            let last = memory.counts[TRACKED] as usize - 1;
            let ends = claimed_ends(memory, last);
            (memory.counts[GRIDS], memory.counts[STAMPED]) = ends;
            if ends.0 == counts[0] || ends.1 == counts[1] {
                return false;
            }
            &[C::Grids, C::GridStamps, C::FirstGrid, C::FirstStamp]
        }
        // A grid too many or too few: those behind it are where they would be then.
        4 => {
            let place = random.below(memory.counts[TRACKED].max(1)) as usize;
            let by = random.one_of(&[1, u64::MAX]);
            for at in place + 1..memory.counts[TRACKED] as usize {
                let record = memory.record_mut(TEXTURES, at);
                record[FIRST_GRID] = record[FIRST_GRID].wrapping_add(by.wrapping_mul(2));
                record[FIRST_STAMP] = record[FIRST_STAMP].wrapping_add(by);
            }
            memory.counts[GRIDS] = memory.counts[GRIDS].wrapping_add(by.wrapping_mul(2));
            memory.counts[STAMPED] = memory.counts[STAMPED].wrapping_add(by);
            if random.once_in(2) {
                tilings::put_tilings(memory);
            }
            return judge::faults(memory).contains(&C::Grids);
        }
        // A history that comes or goes, all else as it was; or numbers that were kept from before one went.
        5 => {
            let place = random.below(memory.counts[TRACKED].max(1)) as usize;
            if memory.counts[TRACKED] == 0 {
                return false;
            }
            let history = &mut memory.record_mut(TEXTURES, place)[HISTORY];
            *history = u64::from(*history == 0);
            if random.once_in(2) {
                recount(memory);
            }
            if random.once_in(2) {
                tilings::put_tilings(memory);
            }
            return judge::faults(memory).contains(&C::FirstStamp)
                || judge::faults(memory).contains(&C::GridStamps);
        }
        // Histories past the end of stamps that are not lent at all.
        6 => {
            if !memory.slices[STAMPS].is_empty() || !claim(memory, 1 + random.below(9), random) {
                return false;
            }
            &[C::GridPlaces, C::StampPlaces]
        }
        // Exchanges the two numbers of a grid.
        _ => {
            let grids = shapes::grids(memory);
            if grids.is_empty() {
                return false;
            }
            let newest = grids[random.below(grids.len() as u64) as usize].newest;
            memory.slices[NEWEST].swap(newest, newest + 1);
            &[C::Newest, C::Tiling]
        }
    };
    judge::faults(memory) == broken
}

/// Gives a texture without spares a history that ends `past` stamps behind those lent, all stamps 0 and all counted.
pub fn claim(memory: &mut Memory, past: u64, random: &mut Random) -> bool {
    let tracked = memory.counts[TRACKED] as usize;
    let bare = |place: &usize| memory.record(TEXTURES, *place)[OWN_SPARES] == 0;
    let found: Vec<usize> = (0..tracked).filter(bare).collect();
    if found.is_empty() || !judge::faults(memory).is_empty() {
        return false;
    }
    let place = found[random.below(found.len() as u64) as usize];
    let lent = memory.slices[STAMPS].len() as u64;
    let others = memory.counts[STAMPED] - own_count(memory, FIRST_STAMP, place);
    let Some(shape) = sized::exactly(random, lent - others + past) else {
        return false;
    };
    let record = memory.record_mut(TEXTURES, place);
    record[1] = shape.format;
    record[2] = shape.width.into();
    record[3] = shape.height.into();
    record[4] = shape.depth.into();
    record[5] = shape.levels.into();
    record[6] = shape.kind;
    record[HISTORY] = record[HISTORY].max(1);
    record[BYTES] = shapes::shape_bytes(record);
    tilings::stand_anew(memory);
    true
}

/// Counts the numbers of `newest` and the stamps up to the end of the last record's.
fn recount(memory: &mut Memory) {
    let last = memory.counts[TRACKED] as usize - 1;
    (memory.counts[GRIDS], memory.counts[STAMPED]) = claimed_ends(memory, last);
}

/// Where the record has its grids and its stamps end.
fn claimed_ends(memory: &Memory, place: usize) -> (u64, u64) {
    let record = memory.record(TEXTURES, place);
    (
        record[FIRST_GRID].wrapping_add(own_count(memory, FIRST_GRID, place)),
        record[FIRST_STAMP].wrapping_add(own_count(memory, FIRST_STAMP, place)),
    )
}

/// Moves where histories begin, from one record on or of one alone, by the numbers of the record given: up or down, and mostly what
/// stands there too, so that it is read as it was.
pub fn move_starts(memory: &mut Memory, numbers: &[usize], random: &mut Random) -> bool {
    let tracked = memory.counts[TRACKED] as usize;
    if tracked == 0 {
        return false;
    }
    let place = random.below(tracked as u64) as usize;
    let last = if random.once_in(3) {
        place
    } else {
        tracked - 1
    };
    // An overlap is seldom read as it was.
    let up = random.once_in(6);
    let fresh = random.once_in(if up { 3 } else { 2 });
    if fresh {
        tilings::unstamp(memory);
    }
    // Makes two histories of the same shape, the second to stand where the first does: their tilings do not tell.
    let twin = !up && random.once_in(2);
    if twin && !make_twin(memory, place) {
        return false;
    }
    let (part, some) = (random.below(4), 1 + random.below(16));
    for number in numbers {
        // Moves by whole grids, but sometimes so that the two numbers of a grid are read for each other.
        let unit = match *number {
            FIRST_GRID if !random.once_in(4) => 2,
            _ => 1,
        };
        let by = match part {
            // Moves just to where the neighbour begins or ends, which a history of the same size would not tell.
            _ if twin || part == 3 => own_count(memory, *number, place).max(unit),
            2 => unit * some,
            _ => unit,
        };
        if !move_start(memory, *number, place..last + 1, by, up) {
            return false;
        }
    }
    true
}

/// Counts the numbers of `newest` or the stamps of the record's history, by the number of the record that says where they begin.
fn own_count(memory: &Memory, number: usize, place: usize) -> u64 {
    let record = memory.record(TEXTURES, place);
    if number == FIRST_GRID {
        shapes::newest_count(record) as u64
    } else {
        shapes::stamp_count(record) as u64
    }
}

/// Gives a texture without spares the shape of the one before it, and both a history; all stamps are 0 then.
fn make_twin(memory: &mut Memory, place: usize) -> bool {
    if place == 0 || memory.record(TEXTURES, place)[OWN_SPARES] != 0 {
        return false;
    }
    let before = memory.record_mut(TEXTURES, place - 1);
    before[HISTORY] = before[HISTORY].max(1);
    let (shape, bytes) = (before[1..13].to_vec(), before[BYTES]);
    let record = memory.record_mut(TEXTURES, place);
    record[1..13].copy_from_slice(&shape);
    record[HISTORY] = record[HISTORY].max(1);
    record[BYTES] = bytes;
    tilings::stand_anew(memory);
    judge::faults(memory).is_empty()
}

/// The records' number `by` more or less, and what stands in the store from there on.
fn move_start(
    memory: &mut Memory,
    number: usize,
    places: std::ops::Range<usize>,
    by: u64,
    up: bool,
) -> bool {
    let (slice, count) = if number == FIRST_GRID {
        (NEWEST, GRIDS)
    } else {
        (STAMPS, STAMPED)
    };
    let first = memory.record(TEXTURES, places.start)[number];
    let end = if places.end == memory.counts[TRACKED] as usize {
        memory.counts[count]
    } else {
        memory.record(TEXTURES, places.end)[number]
    };
    let room = memory.slices[slice].len() as u64;
    if (up && end + by > room) || (!up && first < by) {
        return false;
    }
    let to = if up { first + by } else { first - by };
    memory.slices[slice].copy_within(first as usize..end as usize, to as usize);
    for place in places {
        let start = &mut memory.record_mut(TEXTURES, place)[number];
        *start = if up { *start + by } else { *start - by };
    }
    true
}

/// A stamp past the write count, or a `newest` that is not the largest stamp.
pub fn misstamp(memory: &mut Memory, condition: C, random: &mut Random) -> bool {
    let grids = shapes::grids(memory);
    if grids.is_empty() {
        return false;
    }
    let grid = &grids[random.below(grids.len() as u64) as usize];
    // The first and the last tile more often than others: what stands beside them belongs to another grid, or is free.
    let tile = match random.below(3) {
        0 => grid.stamps - 1,
        1 => 0,
        _ => random.below(grid.stamps as u64) as usize,
    };
    let (at, newest) = (grid.first + tile, memory.slices[NEWEST][grid.newest]);
    if condition == C::Stamps {
        let stamp = past(grid.writes, random);
        memory.slices[STAMPS][at] = stamp;
        memory.slices[NEWEST][grid.newest] = stamp;
        return true;
    }
    match random.below(4) {
        0 => memory.slices[NEWEST][grid.newest] = newest.wrapping_sub(1),
        1 => memory.slices[NEWEST][grid.newest] = newest + 1,
        2 => memory.slices[STAMPS][at] = (newest + 1).min(grid.writes),
        // The newest stamp of another grid.
        _ => {
            let other = &grids[random.below(grids.len() as u64) as usize];
            memory.slices[NEWEST].swap(grid.newest, other.newest);
        }
    }
    true
}
