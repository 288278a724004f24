//! Damage to what stands in `newest` beside a grid's newest stamp, and histories whose tilings are as large as can be.

use super::memory::*;
use super::shapes;
use crate::random::Random;

/// Sorts of damage, by which callers go in turn.
pub const SORTS: u64 = 12;

/// Pages that the largest history has room in, with some stamps left.
const MOST_PAGES: usize = 40;

/// Alters a tiling, by the number of the damage; tells whether it was done. All shapes pass 2.
pub fn mistile(memory: &mut Memory, sort: u64, random: &mut Random) -> bool {
    if random.once_in(4) && !widen(memory, random) {
        return false;
    }
    let with: Vec<usize> = (0..memory.counts[TRACKED] as usize)
        .filter(|place| memory.record(TEXTURES, *place)[HISTORY] != 0)
        .collect();
    if with.is_empty() {
        return false;
    }
    let place = with[random.below(with.len() as u64) as usize];
    let record = memory.record(TEXTURES, place);
    let tilings = shapes::tilings(record);
    let grids = tilings.len() as u64;
    // Takes the last grid and the first more often than others: a rule that is wrong at an end of a history is wrong there.
    let grid = match random.below(4) {
        0 => grids - 1,
        1 => 0,
        _ => random.below(grids),
    } as usize;
    let newest = record[FIRST_GRID] as usize + STRIDES[NEWEST] * grid;
    let own = tilings[grid];
    let second = random.below(grids) as usize;
    let number = match sort {
        0..=6 => match altered(sort, own, tilings[second], random) {
            Some(tiling) => tiling.number(),
            None => return false,
        },
        // Sets a bit above the three numbers of 17, 15 and 15, which by themselves are the right ones.
        7 => own.number() + (1 << (47 + random.below(17))),
        8 => return swap_pair(memory, place, newest, own, random),
        // Leaves what a store without tilings has there.
        9 => random.one_of(&[0, 1, memory.slices[NEWEST][newest]]),
        // Exchanges two of them.
        10 => {
            let second = record[FIRST_GRID] as usize + STRIDES[NEWEST] * second;
            memory.slices[NEWEST].swap(newest + 1, second + 1);
            return true;
        }
        _ => return reshape(memory, place, random),
    };
    memory.slices[NEWEST][newest + 1] = number;
    true
}

/// Gives a tiling in place of a grid's own, by the number of the damage and another grid's tiling; none where that would be no damage.
fn altered(sort: u64, own: Tiling, other: Tiling, random: &mut Random) -> Option<Tiling> {
    let Tiling {
        start,
        across,
        down,
    } = own;
    let tiling = match sort {
        0 => Tiling {
            start: near(start, random),
            ..own
        },
        // Takes the start of another level or slice of the history.
        1 => Tiling {
            start: other.start,
            ..own
        },
        2 => Tiling {
            across: near(across, random),
            ..own
        },
        3 => Tiling {
            down: near(down, random),
            ..own
        },
        4 => Tiling {
            start,
            across: down,
            down: across,
        },
        // Takes the edges of another level, with its start or without: where they are others, since the start alone is damage 1.
        _ if (other.across, other.down) == (across, down) => return None,
        5 => Tiling { start, ..other },
        _ => other,
    };
    (tiling != own).then_some(tiling)
}

/// Gives a number near this one, mostly the next: one less, one more, half or double.
fn near(number: u64, random: &mut Random) -> u64 {
    match random.below(8) {
        0..=2 => number.saturating_sub(1),
        3..=5 => number + 1,
        6 => number / 2,
        _ => 2 * number,
    }
}

/// Exchanges a grid's two numbers, where the newest stamp is what the tiling was: only what stands behind it tells then.
fn swap_pair(
    memory: &mut Memory,
    place: usize,
    newest: usize,
    own: Tiling,
    random: &mut Random,
) -> bool {
    let stamp = own.number();
    let grids = shapes::grids(memory);
    let Some(grid) = grids.iter().find(|grid| grid.newest == newest) else {
        return false;
    };
    let tile = grid.first + random.below(grid.stamps as u64) as usize;
    let stamps = &mut memory.slices[STAMPS];
    stamps[tile] = stamp;
    if stamps[grid.first..][..grid.stamps].iter().max() != Some(&stamp) {
        return false;
    }
    let history = &mut memory.record_mut(TEXTURES, place)[HISTORY];
    *history = (*history).max(stamp + 1);
    memory.slices[NEWEST].swap(newest, newest + 1);
    true
}

/// Gives the texture another shape whose history has as many stamps, so that the tilings which stand there are another shape's.
fn reshape(memory: &mut Memory, place: usize, random: &mut Random) -> bool {
    let stamps = shapes::stamp_count(memory.record(TEXTURES, place));
    let record = memory.record_mut(TEXTURES, place);
    if record[OWN_SPARES] != 0 {
        return false;
    }
    let extent = random.one_of(&[2, 3]) as usize;
    match random.below(3) {
        // Takes blocks of four instead of one, or the other way round, which raises some edges.
        0 if matches!(record[1], 5 | 6) => record[1] = random.below(5),
        0 => record[1] = 5 + random.below(2),
        1 => record[extent] *= 2,
        _ => record[extent] = (record[extent] + 1 + random.below(32)).min(16_384),
    }
    if !shapes::passes_2(record) || shapes::stamp_count(record) != stamps {
        return false;
    }
    record[BYTES] = shapes::shape_bytes(record);
    true
}

/// Gives a texture without spares a history whose edges are large, and sometimes, with as many pages as it needs, the largest one. All
/// stamps are 0 then.
pub fn widen(memory: &mut Memory, random: &mut Random) -> bool {
    let tracked = memory.counts[TRACKED] as usize;
    let bare: Vec<usize> = (0..tracked)
        .filter(|place| memory.record(TEXTURES, *place)[OWN_SPARES] == 0)
        .collect();
    if bare.is_empty() {
        return false;
    }
    let place = bare[random.below(bare.len() as u64) as usize];
    let largest = random.once_in(3);
    let narrow = random.one_of(&[1, 16, 100, 513, 16_384]);
    let wide = random.one_of(&[16_384, 16_384, 16_383, 8_192, 4_097, 1_025, 513]);
    let (width, height) = if random.once_in(2) {
        (wide, narrow)
    } else {
        (narrow, wide)
    };
    let record = memory.record_mut(TEXTURES, place);
    record[1] = random.below(9);
    (record[2], record[3]) = if largest {
        (wide, wide)
    } else {
        (width, height)
    };
    record[4] = 1;
    record[5] = if largest { 15 } else { random.within(1, 15) };
    record[6] = if largest {
        1
    } else {
        random.one_of(&[0, 0, 1])
    };
    record[HISTORY] = record[HISTORY].max(1);
    record[BYTES] = shapes::shape_bytes(record);
    if largest {
        let pages = STRIDES[STAMPS] * MOST_PAGES;
        let stamps = memory.slices[STAMPS].len().max(pages);
        memory.slices[STAMPS].resize(stamps, 0);
        let newest = memory.newest_length();
        memory.slices[NEWEST].resize(newest, 0);
    }
    stand_anew(memory);
    let [newest, stamps] = [NEWEST, STAMPS].map(|at| memory.slices[at].len() as u64);
    memory.counts[GRIDS] <= newest && memory.counts[STAMPED] <= stamps
}

/// Lets the histories stand one behind the other by their records' shapes, all stamps 0, and counts them.
pub fn stand_anew(memory: &mut Memory) {
    let (mut newest, mut stamps) = (0, 0);
    for place in 0..memory.counts[TRACKED] as usize {
        let record = memory.record_mut(TEXTURES, place);
        (record[FIRST_GRID], record[FIRST_STAMP]) = (newest, stamps);
        newest += shapes::newest_count(record) as u64;
        stamps += shapes::stamp_count(record) as u64;
    }
    (memory.counts[GRIDS], memory.counts[STAMPED]) = (newest, stamps);
    unstamp(memory);
}

/// Makes every stamp 0 and all that is free in both slices, and puts the tilings where the records have their grids.
pub fn unstamp(memory: &mut Memory) {
    memory.slices[NEWEST].fill(0);
    memory.slices[STAMPS].fill(0);
    put_tilings(memory);
}

/// Puts the tilings where the records have their grids.
pub fn put_tilings(memory: &mut Memory) {
    for (at, tiling) in shapes::placed_tilings(memory) {
        memory.slices[NEWEST][at] = tiling.number();
    }
}
