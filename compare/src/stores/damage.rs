//! Pools from seeds, and damage to them: one condition broken, a number at its limit, or any few numbers altered.

use super::judge::{self, CONDITIONS, Condition as C};
use super::memory::*;
use super::moves;
use super::tilings;
use crate::limited::Limits;
use crate::lines::lines_of;
use crate::lists;
use crate::program::Program;
use crate::random::Random;

/// 2^48 and 2^44.
const MOST: u64 = 1 << 48;
const MOST_BYTES: u64 = 1 << 44;

/// The kinds of lists that make pools small enough.
const KINDS: [&str; 7] = [
    "texels", "ages", "pressure", "fills", "bursts", "stamps", "stamps",
];

/// The most numbers other than 0 in a pool that is taken.
const HEAVIEST: usize = 140;

/// Sorts of damage, by which seeds go in turn: each condition alone, those of `moves`, tilings, numbers at their limit, any numbers.
const SORTS: u64 = 80;
const MOVES: usize = CONDITIONS.len();
const TILINGS: usize = MOVES + 8;
const LIMITS: usize = TILINGS + 3;
const ANY: usize = LIMITS + 12;

/// Memory from a seed: a pool that one of the Rust's lists made, damaged in one of five ways.
pub fn store(seed: u64) -> Memory {
    let mut random = Random::new(seed.wrapping_mul(0x2545_f491_4f6c_dd1d));
    let sort = (seed % SORTS) as usize;
    loop {
        let pool = pool(&mut random);
        let mut memory = pool.clone();
        let done = match sort {
            // Each condition in turn is broken alone.
            ..MOVES => {
                let target = CONDITIONS[sort];
                damage(&mut memory, target, &mut random) && is_alone(&memory, target)
            }
            MOVES..TILINGS => moves::move_histories(&mut memory, sort - MOVES, &mut random),
            // Takes each sort of damage to a tiling in turn: some need shapes that few pools have, and would be seldom met by chance.
            TILINGS..LIMITS => {
                let turn = seed / SORTS * (LIMITS - TILINGS) as u64 + (sort - TILINGS) as u64;
                tilings::mistile(&mut memory, turn % tilings::SORTS, &mut random)
                    && is_alone(&memory, C::Tiling)
            }
            // A number is put at its limit, and the memory is a pool still.
            LIMITS..ANY => {
                let target = CONDITIONS[random.below(CONDITIONS.len() as u64) as usize];
                to_the_limit(&mut memory, target, &mut random) && judge::faults(&memory).is_empty()
            }
            _ => {
                for _ in 0..random.within(1, 3) {
                    alter(&mut memory, &mut random);
                }
                true
            }
        };
        if done {
            return memory;
        }
    }
}

/// Whether the condition alone is broken, or is the one that cannot be.
fn is_alone(memory: &Memory, condition: C) -> bool {
    let broken = judge::faults(memory);
    broken == [condition] || (condition == judge::NEVER_ALONE && broken.contains(&condition))
}

/// A pool as a list left it, with some numbers in the places that are free.
fn pool(random: &mut Random) -> Memory {
    loop {
        let limits = Limits {
            textures: random.within(1, 4) as usize,
            versions: random.within(1, 8) as usize,
            pages: random.one_of(&[0, 1, 1, 1, 2, 3, 7]) as usize,
            answers: 8,
        };
        let kind = KINDS[random.below(KINDS.len() as u64) as usize];
        let list = lists::list(kind, random.next(), random.within(2, 70), limits)
            .expect("there is such a kind");
        let mut program = Program::new(limits, false);
        lines_of(&list).for_each(|line| program.run(line, &mut Vec::new()));
        let mut place = || random.below(limits.versions as u64) as usize;
        let (head, first) = (place(), place());
        let Some(pool) = program.pool() else { continue };
        let mut memory = pool.memory(head, first);
        if memory.weight() <= HEAVIEST {
            fill_free(&mut memory, random);
            return memory;
        }
    }
}

/// Puts numbers where nothing is read: past the counts, outside the rings.
fn fill_free(memory: &mut Memory, random: &mut Random) {
    for _ in 0..random.below(4) {
        let slice = random.below(6) as usize;
        let free: Vec<usize> = free_indexes(memory, slice);
        if !free.is_empty() {
            let index = free[random.below(free.len() as u64) as usize];
            memory.slices[slice][index] = random.next() >> random.below(64);
        }
    }
}

fn free_indexes(memory: &Memory, slice: usize) -> Vec<usize> {
    let counts = &memory.counts;
    let packed = |stride: usize, count: usize| {
        (stride * counts[count] as usize..memory.slices[slice].len()).collect()
    };
    let ring = |head: usize, count: u64| {
        let used: Vec<usize> = memory.ring(slice, counts[head], count).collect();
        let free = |index: &usize| !used.contains(&(index / STRIDES[slice]));
        (0..memory.slices[slice].len()).filter(free).collect()
    };
    match slice {
        TEXTURES => packed(STRIDES[TEXTURES], TRACKED),
        RETIRING => ring(HEAD, counts[POPPED] + counts[QUEUED]),
        DOOMED => ring(FIRST, counts[WAITING]),
        SPARES => packed(STRIDES[SPARES], KEPT),
        NEWEST => packed(1, GRIDS),
        _ => packed(1, STAMPED),
    }
}

/// A number that a condition limits: its store, its index and the largest that it may be.
type Limited = (usize, usize, u64);

/// Some number that the condition limits, if the memory has one.
fn limited(memory: &Memory, condition: C, random: &mut Random) -> Option<Limited> {
    let counts = &memory.counts;
    let mut below = |count: u64| (count > 0).then(|| random.below(count));
    let place = |slice: usize, place: u64, number: usize| {
        (slice + 2, STRIDES[slice] * place as usize + number)
    };
    let mut texture = |number: usize, most: u64| {
        let (store, index) = place(TEXTURES, below(counts[TRACKED])?, number);
        Some((store, index, most))
    };
    match condition {
        C::Format => return texture(1, 8),
        C::Width => return texture(2, 16_384),
        C::Height => return texture(3, 16_384),
        C::Depth => return texture(4, 2_048),
        C::Levels => return texture(5, 15),
        C::Kind => return texture(6, 2),
        C::Tracking => return texture(TRACKING, MOST),
        C::WriteCount => return texture(HISTORY, MOST + 1),
        C::Birth => return texture(BIRTH, MOST),
        C::Rename => return texture(RENAME, MOST),
        C::Due => return texture(DUE, MOST),
        _ => {}
    }
    let mut ring = |slice: usize, head: usize, count: u64, number: usize, most: u64| {
        let at = below(count)?;
        let turned = (counts[head] + at) % memory.places(slice) as u64;
        let (store, index) = place(slice, turned, number);
        Some((store, index, most))
    };
    let retiring = counts[POPPED] + counts[QUEUED];
    match condition {
        C::Submission => return ring(RETIRING, HEAD, retiring, 2, MOST),
        C::RetiredTracking => return ring(RETIRING, HEAD, retiring, 3, MOST),
        C::RetiredBirth => return ring(RETIRING, HEAD, retiring, 4, MOST),
        C::RetiredHeld => return ring(RETIRING, HEAD, retiring, 5, MOST),
        C::RetiredBytes => return ring(RETIRING, HEAD, retiring, 6, MOST_BYTES),
        C::DoomedBytes => return ring(DOOMED, FIRST, counts[WAITING], 1, MOST_BYTES),
        _ => {}
    }
    let places = |slice: usize| memory.places(slice) as u64;
    let used = counts[QUEUED] + counts[POPPED] + counts[KEPT] + counts[WAITING];
    let mut spare = |number: usize, most: u64| {
        let (store, index) = place(SPARES, below(counts[KEPT])?, number);
        Some((store, index, most))
    };
    Some(match condition {
        C::SpareHeld => return spare(1, MOST + 1),
        C::Parking => return spare(2, MOST),
        C::TexturePlaces => (0, TRACKED, places(TEXTURES)),
        C::GridPlaces => (0, GRIDS, memory.slices[NEWEST].len() as u64),
        C::VersionPlaces => (0, QUEUED, places(RETIRING) - (used - counts[QUEUED])),
        C::Head => (0, HEAD, places(RETIRING) - 1),
        C::First => (0, FIRST, places(DOOMED) - 1),
        C::Hand => (0, POPPED, 1),
        C::Trackings => (0, TRACKINGS, MOST),
        C::Cap => (0, PARKED, counts[CAP]),
        C::Slot => (1, SLOT, 7),
        C::Arrivals => (1, random.below(8) as usize, 4_096),
        C::Since => (0, SINCE, counts[WAITING]),
        C::Mark => (1, PRESSED, 1),
        _ => return None,
    })
}

/// Puts a number that the condition limits at its limit.
fn to_the_limit(memory: &mut Memory, condition: C, random: &mut Random) -> bool {
    if condition == C::StampPlaces {
        return moves::claim(memory, 0, random);
    }
    if condition == C::Tiling {
        return tilings::widen(memory, random);
    }
    let Some((store, index, most)) = limited(memory, condition, random) else {
        return false;
    };
    *memory.number_mut(store, index) = most;
    settle(memory, condition);
    true
}

/// Sets what follows from the number that was altered, so that only the condition tells.
fn settle(memory: &mut Memory, condition: C) {
    let counts = memory.counts;
    match condition {
        C::DoomedBytes => {
            let places: Vec<usize> = memory
                .ring(DOOMED, counts[FIRST], counts[WAITING])
                .collect();
            let sum =
                |total: u64, place: usize| total.wrapping_add(memory.record(DOOMED, place)[1]);
            memory.counts[DOOMING] = places.into_iter().fold(0, sum);
        }
        C::Spares | C::Bytes => {
            let records = (0..counts[TRACKED] as usize).map(|place| memory.record(TEXTURES, place));
            memory.counts[PARKED] = records
                .map(|record| record[OWN_SPARES].wrapping_mul(record[BYTES]))
                .fold(0, u64::wrapping_add);
        }
        C::Cap => memory.counts[CAP] = counts[PARKED],
        _ => {}
    }
}

/// Breaks the condition, and as little else as possible.
fn damage(memory: &mut Memory, condition: C, random: &mut Random) -> bool {
    match condition {
        C::Places => lend_nothing(memory, random),
        C::Lengths => lend_odd(memory, random),
        C::Ids => mix_ids(memory, random),
        C::Grids | C::GridStamps | C::Spares | C::Bytes | C::ParkedTotal | C::DestroyTotal => {
            miscount(memory, condition, random)
        }
        C::StampPlaces => moves::claim(memory, 1 + random.below(2) * random.below(9), random),
        C::FirstGrid => moves::move_starts(memory, &[FIRST_GRID], random),
        C::FirstStamp => moves::move_starts(memory, &[FIRST_STAMP], random),
        C::Stamps | C::Newest => moves::misstamp(memory, condition, random),
        C::Tiling => tilings::mistile(memory, random.below(tilings::SORTS), random),
        C::Cap if memory.counts[PARKED] > 0 => {
            memory.counts[CAP] = random.below(memory.counts[PARKED]);
            true
        }
        C::Levels if random.once_in(2) => {
            let found = limited(memory, condition, random);
            found.is_some_and(|(store, index, _)| {
                *memory.number_mut(store, index) = 0;
                true
            })
        }
        _ => {
            let Some((store, index, most)) = limited(memory, condition, random) else {
                return false;
            };
            *memory.number_mut(store, index) = past(most, random);
            if condition != C::Cap {
                settle(memory, condition);
            }
            true
        }
    }
}

/// A number past the limit: mostly just past it.
pub fn past(most: u64, random: &mut Random) -> u64 {
    match random.below(4) {
        0 | 1 => most + 1,
        2 => most + 1 + random.below(1 << 20),
        _ => u64::MAX - random.below(2),
    }
}

fn lend_nothing(memory: &mut Memory, random: &mut Random) -> bool {
    if random.once_in(2) {
        memory.slices[TEXTURES].clear();
        memory.slices[NEWEST].clear();
    } else {
        for slice in [RETIRING, DOOMED, SPARES] {
            memory.slices[slice].clear();
        }
    }
    true
}

/// Slices that have no whole places, or not as many as they should.
fn lend_odd(memory: &mut Memory, random: &mut Random) -> bool {
    let slice = random.below(6) as usize;
    let numbers = memory.slices[slice].len();
    if slice == NEWEST && random.once_in(2) {
        // Lends one number a grid; two a page, two for ninety grids a texture, two a stamp: where that is another number.
        let other = [
            numbers / 2,
            2 * memory.places(STAMPS),
            2 * MOST_GRIDS * memory.places(TEXTURES),
            2 * memory.slices[STAMPS].len(),
        ];
        memory.slices[NEWEST].resize(other[random.below(4) as usize], 0);
        return true;
    }
    let by = match random.below(3) {
        // A whole place: well where the others still fit.
        0 => STRIDES[slice],
        1 if STRIDES[slice] > 1 => 1 + random.below(STRIDES[slice] as u64 - 1) as usize,
        _ => 1,
    };
    if random.once_in(2) && numbers >= by {
        memory.slices[slice].truncate(numbers - by);
    } else {
        memory.slices[slice].resize(numbers + by, 0);
    }
    true
}

fn mix_ids(memory: &mut Memory, random: &mut Random) -> bool {
    if memory.counts[TRACKED] < 2 {
        return false;
    }
    let place = random.below(memory.counts[TRACKED] - 1) as usize;
    let (id, next) = (
        memory.record(TEXTURES, place)[0],
        memory.record(TEXTURES, place + 1)[0],
    );
    match random.below(3) {
        0 => memory.record_mut(TEXTURES, place + 1)[0] = id,
        1 => memory.record_mut(TEXTURES, place)[0] = next.saturating_add(random.below(2)),
        _ => {
            memory.record_mut(TEXTURES, place)[0] = next;
            memory.record_mut(TEXTURES, place + 1)[0] = id;
        }
    }
    true
}

/// One more or one less of what is counted or summed; of the numbers of `newest` also a whole grid's two.
fn miscount(memory: &mut Memory, condition: C, random: &mut Random) -> bool {
    let step = |number: u64, up: bool| {
        if up {
            number.wrapping_add(1)
        } else {
            number.wrapping_sub(1)
        }
    };
    let up = random.once_in(2);
    let place = random.below(memory.counts[TRACKED].max(1)) as usize;
    let whole = random.once_in(2);
    match condition {
        C::Grids if whole => {
            memory.counts[GRIDS] = step(step(memory.counts[GRIDS], up), up);
        }
        C::Grids => memory.counts[GRIDS] = step(memory.counts[GRIDS], up),
        C::GridStamps => memory.counts[STAMPED] = step(memory.counts[STAMPED], up),
        C::Spares if whole => memory.counts[KEPT] = step(memory.counts[KEPT], up),
        C::ParkedTotal => memory.counts[PARKED] = step(memory.counts[PARKED], up),
        C::DestroyTotal => memory.counts[DOOMING] = step(memory.counts[DOOMING], up),
        _ => {
            let number = if condition == C::Spares {
                OWN_SPARES
            } else {
                BYTES
            };
            let record = memory.record_mut(TEXTURES, place);
            record[number] = step(record[number], up);
            settle(memory, condition);
        }
    }
    true
}

/// Alters any number.
fn alter(memory: &mut Memory, random: &mut Random) {
    let store = random.below(8) as usize;
    let used = used_numbers(memory, store);
    if used == 0 {
        return;
    }
    let number = memory.number_mut(store, random.below(used) as usize);
    *number = match random.below(6) {
        0 => number.wrapping_add(1),
        1 => number.wrapping_sub(1),
        2 => random.below(4),
        3 => random.one_of(&[7, 8, 15, 16, 64, 2_048, 4_096, 4_097, 16_384]),
        4 => random.one_of(&[
            MOST_BYTES,
            MOST_BYTES + 1,
            MOST,
            MOST + 1,
            MOST + 2,
            u64::MAX,
        ]),
        _ => random.next() >> random.below(64),
    };
}

/// Numbers of a store up to a little past those in use.
fn used_numbers(memory: &Memory, store: usize) -> u64 {
    let numbers = memory.store(store);
    let last = numbers.iter().rposition(|number| *number != 0).unwrap_or(0);
    (last + 3).min(numbers.len()) as u64
}
