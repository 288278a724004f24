//! The judge of what forms a pool, and the damage that it is asked about.

use std::collections::BTreeMap;

use compare::limited::Limits;
use compare::lines::lines_of;
use compare::lists::{self, KINDS};
use compare::program::Program;
use compare::shape::RawShape;
use compare::stores::asks::ask;
use compare::stores::damage::store;
use compare::stores::judge::{CONDITIONS, Condition, NEVER_ALONE, faults};
use compare::stores::memory::*;

/// The seeds whose stores are in the gate.
const GATE: std::ops::Range<u64> = 0..2_000;

/// A judge without the condition that a store breaks alone takes it for a pool, and is found out by its answers. That the grids
/// counted have room in `newest` cannot be broken alone: it follows from others (`NEVER_ALONE`), so it is looked for among these.
#[test]
fn each_condition_fails_alone_in_the_gate_and_is_missed() {
    let mut alone: BTreeMap<Condition, usize> = BTreeMap::new();
    let (mut pools, mut never_alone) = (0, 0);
    for seed in GATE {
        let memory = store(seed);
        let [condition] = faults(&memory)[..] else {
            pools += usize::from(faults(&memory).is_empty());
            never_alone += usize::from(faults(&memory).contains(&NEVER_ALONE));
            continue;
        };
        *alone.entry(condition).or_default() += 1;
        let (right, wrong) = (
            ask(&memory, seed, None),
            ask(&memory, seed, Some(condition)),
        );
        assert_eq!(right.list, wrong.list);
        assert_ne!(right.answers, wrong.answers, "{condition:?}, seed {seed}");
    }
    for condition in CONDITIONS {
        let times = alone.get(&condition).copied().unwrap_or(0);
        if condition == NEVER_ALONE {
            assert_eq!(times, 0, "{condition:?}");
            assert!(never_alone >= 10, "{condition:?}: {never_alone} times");
        } else {
            assert!(times >= 10, "{condition:?} fails alone {times} times");
        }
    }
    assert!(pools >= 200, "{pools} stores form a pool");
}

/// Every pool that a list of the Rust's reaches is one, wherever its rings begin.
#[test]
fn the_rusts_pools_form_pools() {
    for kind in KINDS {
        for seed in 0..16 {
            let limits = Limits {
                textures: 6,
                versions: 11,
                pages: 20,
                answers: 90,
            };
            let list = lists::list(kind, seed, 300, limits).expect("there is such a kind");
            let mut program = Program::new(limits, false);
            for (at, line) in lines_of(&list).enumerate() {
                program.run(line, &mut Vec::new());
                if let Some(pool) = program.pool() {
                    let memory = pool.memory(at % 11, at * 7 % 11);
                    assert_eq!(faults(&memory), [], "{kind} {seed}, line {}", at + 1);
                }
            }
        }
    }
}

/// The tiling of a history's first grid with tiles of 16 by 16 texels: 16 * 2^17 + 16 * 2^32.
const OF_16: u64 = 68_721_573_888;

/// One texture of 64 by 64 texels with a history of one write, one spare, one version in the queue and one in the destroy queue.
fn small() -> Memory {
    let mut memory = Memory::lent(2, 4, 1);
    memory.counts = [1, 1, 2, 16, 3, 0, 1, 2, 1, 1, 1, 16_384, 50, 20_000, 0];
    memory.slices[TEXTURES][..22].copy_from_slice(&[
        7, 2, 64, 64, 1, 1, 0, 0, 0, 0, 0, 0, 0, 1, 2, 0, 0, 0, 1, 16_384, 0, 0,
    ]);
    memory
        .record_mut(RETIRING, 3)
        .copy_from_slice(&[7, 901, 5, 1, 0, 1, 16_384]);
    memory.record_mut(DOOMED, 2).copy_from_slice(&[902, 50]);
    memory.record_mut(SPARES, 0).copy_from_slice(&[900, 1, 5]);
    memory.slices[NEWEST][..2].copy_from_slice(&[1, OF_16]);
    memory.slices[STAMPS][15] = 1;
    memory
}

#[test]
fn a_small_pool_and_its_limits() {
    assert_eq!(faults(&small()), []);
    let told = |store: usize, index: usize, value: u64| {
        let mut memory = small();
        *memory.number_mut(store, index) = value;
        faults(&memory)
    };
    let limit = 1 << 48;
    for (store, index, most, condition) in [
        (0, TRACKINGS, limit, Condition::Trackings),
        (0, CAP, u64::MAX, Condition::Cap),
        (0, HEAD, 3, Condition::Head),
        (0, SINCE, 1, Condition::Since),
        (1, SLOT, 7, Condition::Slot),
        (1, PRESSED, 1, Condition::Mark),
        (1, 3, 4_096, Condition::Arrivals),
        (2, TRACKING, limit, Condition::Tracking),
        (2, HISTORY, limit + 1, Condition::WriteCount),
        (2, BIRTH, limit, Condition::Birth),
        (3, 21 + 5, limit, Condition::RetiredHeld),
        (3, 21 + 6, 1 << 44, Condition::RetiredBytes),
        (5, 1, limit + 1, Condition::SpareHeld),
        (5, 2, limit, Condition::Parking),
    ] {
        assert_eq!(told(store, index, most), [], "{condition:?}");
        if most < u64::MAX {
            let past = told(store, index, most + 1);
            assert_eq!(past, [condition], "{condition:?}");
        }
    }
    assert_eq!(told(0, CAP, 16_383), [Condition::Cap]);
    assert_eq!(told(0, PARKED, 16_383), [Condition::ParkedTotal]);
    assert_eq!(told(0, DOOMING, 51), [Condition::DestroyTotal]);
    assert_eq!(
        told(2, 5, 0),
        [Condition::Levels, Condition::Grids, Condition::GridStamps]
    );
    // Four by four tiles: the sixteenth stamp counts, the seventeenth number is free.
    assert_eq!(told(7, 15, 2), [Condition::Stamps, Condition::Newest]);
    assert_eq!(told(7, 15, 0), [Condition::Newest]);
    assert_eq!(told(7, 16, 9), []);
    // One grid has two numbers, the third is free.
    for other in [0, 1, OF_16 - 1, OF_16 + 1, OF_16 + (1 << 47), u64::MAX] {
        assert_eq!(told(6, 1, other), [Condition::Tiling], "{other}");
    }
    assert_eq!(told(6, 2, 9), []);
    // What is outside the rings and past the counts is free.
    assert_eq!(told(2, 22, 7), []);
    assert_eq!(told(3, 2, u64::MAX), []);
    assert_eq!(told(4, 1, u64::MAX), []);
}

/// Three textures, the second of two levels (16 and 4 stamps), the third of one tile; the middle one may have no history.
fn packed(middle: bool) -> Memory {
    let mut memory = Memory::lent(3, 1, 1);
    let shapes: [[u64; 6]; 3] = [
        [0, 64, 64, 1, 1, 0],
        [0, 64, 64, 1, 2, 0],
        [0, 1, 1, 1, 1, 0],
    ];
    let starts = if middle {
        [[0, 0], [2, 16], [6, 36]]
    } else {
        [[0, 0], [2, 16], [2, 16]]
    };
    let bytes = [4_096, 5_120, 1];
    for place in 0..3 {
        let record = memory.record_mut(TEXTURES, place);
        record[0] = place as u64;
        record[1..7].copy_from_slice(&shapes[place]);
        record[HISTORY] = if place == 1 && !middle { 0 } else { 3 };
        record[BYTES] = bytes[place];
        [record[FIRST_GRID], record[FIRST_STAMP]] = starts[place];
    }
    memory.counts[TRACKED] = 3;
    [memory.counts[GRIDS], memory.counts[STAMPED]] = if middle { [8, 37] } else { [4, 17] };
    let tilings: &[u64] = if middle {
        &[OF_16, OF_16, OF_16 + 16, OF_16]
    } else {
        &[OF_16, OF_16]
    };
    for (grid, tiling) in tilings.iter().enumerate() {
        memory.slices[NEWEST][2 * grid + 1] = *tiling;
    }
    memory
}

#[test]
fn where_histories_stand() {
    use Condition::{
        FirstGrid, FirstStamp, GridPlaces, GridStamps, Grids, Newest, StampPlaces, Tiling,
    };
    for middle in [true, false] {
        assert_eq!(faults(&packed(middle)), []);
        let told = |changes: &[(usize, usize, u64)]| {
            let mut memory = packed(middle);
            for (store, index, value) in changes {
                *memory.number_mut(*store, *index) = *value;
            }
            faults(&memory)
        };
        let [grids, stamps] = [GRIDS, STAMPED].map(|at| packed(middle).counts[at]);
        // Counts one off.
        assert_eq!(told(&[(0, GRIDS, grids + 1)]), [Grids]);
        assert_eq!(told(&[(0, STAMPED, stamps - 1)]), [GridStamps]);
        assert_eq!(told(&[(0, GRIDS, grids - 2)]), [Grids]);
        assert_eq!(told(&[(0, GRIDS, grids / 2)]), [Grids]);
        assert_eq!(told(&[(0, GRIDS, 540)]), [Grids]);
        assert_eq!(told(&[(0, GRIDS, 541)]), [GridPlaces, Grids]);
        assert_eq!(told(&[(0, STAMPED, 1_024)]), [GridStamps]);
        assert_eq!(told(&[(0, STAMPED, 1_025)]), [StampPlaces, GridStamps]);
        // Of every record, with a history or without.
        for place in 0..3 {
            let first = STRIDES[TEXTURES] * place;
            let [grid, stamp] =
                [FIRST_GRID, FIRST_STAMP].map(|at| packed(middle).slices[TEXTURES][first + at]);
            // A place further its two numbers are read for each other, if it has any.
            let read: &[Condition] = if place == 1 && !middle {
                &[FirstGrid]
            } else {
                &[FirstGrid, Newest, Tiling]
            };
            assert_eq!(told(&[(2, first + FIRST_GRID, grid + 1)]), read);
            assert_eq!(told(&[(2, first + FIRST_STAMP, stamp + 1)]), [FirstStamp]);
            let huge = [
                (2, first + FIRST_GRID, u64::MAX),
                (2, first + FIRST_STAMP, u64::MAX),
            ];
            assert_eq!(told(&huge), [FirstGrid, FirstStamp]);
        }
        // The last texture one grid and one stamp further, and counted so: a gap.
        let last = STRIDES[TEXTURES] * 2;
        let starts = packed(middle);
        let [grid, stamp] = [FIRST_GRID, FIRST_STAMP].map(|at| starts.slices[TEXTURES][last + at]);
        let mut gap = vec![
            (2, last + FIRST_GRID, grid + 2),
            (2, last + FIRST_STAMP, stamp + 1),
            // Its one stamp, where its record has it.
            (6, grid as usize + 2, 2),
            (6, grid as usize + 3, OF_16),
            (7, stamp as usize + 1, 2),
        ];
        assert_eq!(told(&gap), [FirstGrid, FirstStamp]);
        gap.extend([(0, GRIDS, grids + 2), (0, STAMPED, stamps + 1)]);
        assert_eq!(told(&gap), [Grids, GridStamps, FirstGrid, FirstStamp]);
        // One before: an overlap, which a second level's tiling tells too.
        let overlap = [
            (2, last + FIRST_GRID, grid - 2),
            (2, last + FIRST_STAMP, stamp - 1),
        ];
        let read: &[Condition] = if middle {
            &[FirstGrid, FirstStamp, Tiling]
        } else {
            &[FirstGrid, FirstStamp]
        };
        assert_eq!(told(&overlap), read);
        // The newest stamps of two grids, changed for each other.
        let (first, other) = (0, grid as usize);
        assert_eq!(told(&[(7, 3, 2), (6, first, 2)]), []);
        assert_eq!(told(&[(7, 3, 2), (6, other, 2)]), [Newest]);
    }
}

/// One texture of a shape, its bytes and stamps, with a history without writes whose tilings are given by hand.
fn tiled(shape: [u64; 6], bytes: u64, stamps: u64, tilings: &[u64]) -> Memory {
    let mut memory = Memory::lent(1, 1, 1);
    let record = memory.record_mut(TEXTURES, 0);
    record[1..7].copy_from_slice(&shape);
    record[HISTORY] = 1;
    record[BYTES] = bytes;
    memory.counts[TRACKED] = 1;
    memory.counts[STAMPED] = stamps;
    memory.counts[GRIDS] = 2 * tilings.len() as u64;
    for (grid, tiling) in tilings.iter().enumerate() {
        memory.slices[NEWEST][2 * grid + 1] = *tiling;
    }
    memory
}

/// Tilings worked out by hand from 01's "Tile edge", and others beside them.
#[test]
fn tilings_by_hand() {
    // 513 by 20 texels in blocks of four: tiles of 20 by 16, 26 by 2 of them. 256 by 10: of 16 by 16, 16 by 1. So 68 stamps a slice.
    let (level_0, level_1) = (68_722_098_176, OF_16);
    let starts = [0, 52, 68, 120, 136, 188, 204, 256, 272, 324, 340, 392];
    let cube: Vec<u64> = (starts.iter().enumerate())
        .map(|(grid, start)| start + if grid % 2 == 0 { level_0 } else { level_1 })
        .collect();
    // 129 by 5 and 64 by 3 blocks of 8 bytes.
    let cube = tiled([5, 513, 20, 1, 2, 1], 6 * (645 + 192) * 8, 408, &cube);
    // 16,384 texels along one axis: edges of 512 and of 16, in 32 tiles; then 8,192: 256, in as many.
    let wide = [68_786_585_600, 68_753_031_168 + 32];
    let wide = tiled([0, 16_384, 1, 1, 2, 0], 24_576, 64, &wide);
    let high = [2_199_025_352_704, 1_099_513_724_928 + 32];
    let high = tiled([0, 1, 16_384, 1, 2, 0], 24_576, 64, &high);
    for sound in [cube, wide, high] {
        assert_eq!(faults(&sound), []);
        for at in (1..sound.counts[GRIDS] as usize).step_by(2) {
            let own = sound.slices[NEWEST][at];
            let second = sound.slices[NEWEST][(at + 2) % sound.counts[GRIDS] as usize];
            let (start, across, down) = (own % (1 << 17), own >> 17 & 0x7fff, own >> 32);
            let mut others = vec![
                own + 1,
                own.wrapping_sub(1),
                own + (1 << 17),
                own - (1 << 17),
                own + (1 << 32),
                own - (1 << 32),
                own + (1 << 47),
                own + (1 << 63),
                second,
                0,
            ];
            if across != down {
                others.push(start + (down << 17) + (across << 32));
            }
            for other in others {
                let mut memory = sound.clone();
                memory.slices[NEWEST][at] = other;
                assert_eq!(faults(&memory), [Condition::Tiling], "{own} {other}");
            }
            let mut memory = sound.clone();
            memory.slices[NEWEST].swap(at - 1, at);
            assert_eq!(faults(&memory), [Condition::Newest, Condition::Tiling]);
        }
    }
}

/// `newest` has two numbers for each of ninety grids a texture place or of one a stamp, whichever is less.
#[test]
fn lengths_of_newest() {
    for (textures, pages, newest) in [
        (1, 1, 180),
        (3, 1, 540),
        (11, 1, 1_980),
        (12, 1, 2_048),
        (2, 0, 0),
    ] {
        let memory = Memory::lent(textures, 1, pages);
        assert_eq!(memory.slices[NEWEST].len(), newest);
        assert_eq!(faults(&memory), []);
        for other in [
            newest.wrapping_sub(1),
            newest + 1,
            newest.wrapping_sub(2),
            newest + 2,
            newest / 2,
            pages,
            2 * pages,
            90 * textures,
            180 * textures,
            1_024 * pages,
            2_048 * pages,
        ] {
            if other < 5_000 && other != newest {
                let mut memory = memory.clone();
                memory.slices[NEWEST].resize(other, 0);
                assert_eq!(
                    faults(&memory),
                    [Condition::Lengths],
                    "{textures} {pages} {other}"
                );
            }
        }
    }
}

/// The numbers of a put line, behind its word.
fn put_numbers(put: &str) -> Vec<u64> {
    put.split(',')
        .map(|it| it.parse().expect("a number"))
        .collect()
}

/// What `stored/pool.asked` has the program print of packed pools and of tilings, number by number, is what the Rust's pool is in our
/// layout. Numbers that are free, which the Rust lacks, are left out. Of the numbers that are put there afterwards the judge says what
/// the answers by hand say.
#[test]
fn asked_dumps() {
    assert_eq!(compare_dumps(3, 2, "packed"), (3, 26));
    assert_eq!(compare_dumps(1, 1, "tilings"), (3, 12));
}

/// Tells how many dumps and how many answers were compared.
fn compare_dumps(textures: usize, answers: usize, name: &str) -> (usize, usize) {
    let limits = Limits {
        textures,
        versions: 1,
        pages: 1,
        answers,
    };
    let asked = include_str!("../stored/pool.asked");
    let header = format!("{textures},1,1,{answers},{name}\n");
    let list = asked.split("\n=,").find(|list| list.starts_with(&header));
    let mut program = Program::new(limits, false);
    let (mut expected, mut dumps) = (None, 0);
    let (mut damaged, mut judged) = (None, 0);
    for line in list.expect("a list of that name").lines().skip(1) {
        if let Some(put) = line.strip_prefix("put,") {
            let memory: &mut Memory =
                damaged.get_or_insert_with(|| program.pool().expect("open").memory(0, 0));
            let numbers = put_numbers(put);
            for (index, value) in (numbers[1]..).zip(&numbers[2..]) {
                *memory.number_mut(numbers[0] as usize, index as usize) = *value;
            }
            continue;
        }
        if let Some(memory) = &damaged {
            if let Some(answer) = line.strip_prefix("> ") {
                assert!(answer.ends_with(" same"), "{answer}");
                assert_eq!(
                    faults(memory).is_empty(),
                    answer.starts_with('0'),
                    "{:?}",
                    faults(memory)
                );
                judged += 1;
            }
            continue;
        }
        if let Some(put) = line.strip_prefix(">> put,") {
            let numbers = put_numbers(put);
            let memory = expected.get_or_insert_with(|| Memory::lent(textures, 1, 1));
            *memory.number_mut(numbers[0] as usize, numbers[1] as usize) = numbers[2];
            continue;
        }
        if let Some(mut memory) = expected.take() {
            let [grids, stamps] = [GRIDS, STAMPED].map(|at| memory.counts[at] as usize);
            memory.slices[NEWEST][grids..].fill(0);
            memory.slices[STAMPS][stamps..].fill(0);
            assert_eq!(memory, program.pool().expect("open").memory(0, 0));
            assert_eq!(faults(&memory), []);
            dumps += 1;
        }
        if !line.starts_with(['>', '#']) && line != "dump" {
            program.run(line.as_bytes(), &mut Vec::new());
        }
    }
    (dumps, judged)
}

/// The shape that a record names, without what is only compared.
fn shape_of(record: &[u64]) -> RawShape {
    RawShape {
        format: record[1],
        width: record[2] as u32,
        height: record[3] as u32,
        depth: record[4] as u32,
        levels: record[5] as u32,
        kind: record[6],
        compared: [0; 6],
    }
}

/// Gaps, overlaps and numbers of textures without a history, each told by the two numbers of a record alone; and pools that are full.
#[test]
fn gaps_and_overlaps_in_the_gate() {
    use Condition::{FirstGrid, FirstStamp};
    let (mut gaps, mut overlaps, mut bare, mut full) = (0, 0, 0, 0);
    for seed in GATE {
        let memory = store(seed);
        let broken = faults(&memory);
        let stamps = memory.slices[STAMPS].len() as u64;
        full += u32::from(broken.is_empty() && stamps > 0 && memory.counts[STAMPED] == stamps);
        if ![&[FirstGrid][..], &[FirstStamp], &[FirstGrid, FirstStamp]].contains(&&broken[..]) {
            continue;
        }
        let mut sums = [0, 0];
        for place in 0..memory.counts[TRACKED] as usize {
            let record = memory.record(TEXTURES, place);
            let starts = [record[FIRST_GRID], record[FIRST_STAMP]];
            if starts != sums {
                let further = starts[0] > sums[0] || starts[1] > sums[1];
                match record[HISTORY] {
                    0 => bare += 1,
                    _ if further => gaps += 1,
                    _ => overlaps += 1,
                }
                break;
            }
            if record[HISTORY] != 0 {
                let shape = shape_of(record);
                sums = [sums[0] + 2 * shape.grids(), sums[1] + shape.stamps()];
            }
        }
    }
    for (what, times) in [
        ("gaps", gaps),
        ("overlaps", overlaps),
        ("bare", bare),
        ("full", full),
    ] {
        assert!(times >= 20, "{what}: {times}");
    }
}

/// The tilings of a shape's history, worked out beside the judge: start, edge across, edge down.
fn tilings_of(shape: &RawShape) -> Vec<[u64; 3]> {
    let block = if matches!(shape.format, 5 | 6) { 4 } else { 1 };
    let edge = |extent: u32| u64::from(extent.div_ceil(32).max(16).next_multiple_of(block));
    let mut start = 0;
    let mut tilings = Vec::new();
    for grid in 0..shape.grids() as u32 {
        let (width, height) = shape.level(grid % shape.levels);
        let (across, down) = (edge(width), edge(height));
        tilings.push([start, across, down]);
        start += u64::from(width).div_ceil(across) * u64::from(height).div_ceil(down);
    }
    tilings
}

/// What is wrong with a tiling, by the tilings of its history; none if it is right.
fn wrong_tiling(number: u64, grid: usize, history: &[[u64; 3]]) -> Option<&'static str> {
    let [start, across, down] = history[grid];
    let told = [number % (1 << 17), number >> 17 & 0x7fff, number >> 32];
    let edges = [told[1], told[2]];
    let others = history.iter().any(|other| other[1..] == edges);
    Some(match told {
        _ if told == history[grid] => return None,
        _ if number >> 47 > 0 => "past 2^47",
        _ if number < 1 << 17 => "no edges",
        [other, ..] if edges == [across, down] && other.abs_diff(start) == 1 => "start one off",
        [other, ..] if edges == [across, down] && history.iter().any(|it| it[0] == other) => {
            "another grid's start"
        }
        _ if edges == [across, down] => "another start",
        _ if told[0] == start && edges == [down, across] => "edges exchanged",
        _ if told[0] == start && others => "another level's edges",
        _ if others => "another level's tiling",
        _ if told[0] == start && told[2] == down && told[1].abs_diff(across) == 1 => {
            "across one off"
        }
        _ if told[0] == start && told[1] == across && told[2].abs_diff(down) == 1 => "down one off",
        _ => "other edges",
    })
}

/// Each sort of wrong tiling is in the gate, and tilings of large edges and starts are in pools.
#[test]
fn tilings_in_the_gate() {
    let mut sorts: BTreeMap<&str, usize> = BTreeMap::new();
    for seed in GATE {
        let memory = store(seed);
        let broken = faults(&memory);
        if !broken.is_empty() && broken != [Condition::Tiling] {
            continue;
        }
        let mut told = std::collections::BTreeSet::new();
        for place in 0..memory.counts[TRACKED] as usize {
            let record = memory.record(TEXTURES, place);
            if record[HISTORY] == 0 {
                continue;
            }
            let history = tilings_of(&shape_of(record));
            for grid in 0..history.len() {
                let number = memory.slices[NEWEST][record[FIRST_GRID] as usize + 2 * grid + 1];
                let wrong = wrong_tiling(number, grid, &history);
                told.extend(wrong);
                if broken.is_empty() {
                    let [start, across, down] = history[grid];
                    told.extend((across == 512).then_some("pool: 512 across"));
                    told.extend((down == 512).then_some("pool: 512 down"));
                    told.extend((across != down).then_some("pool: edges differ"));
                    told.extend((start >= 1 << 15).then_some("pool: start of 2^15"));
                }
            }
        }
        let wrong = told.iter().any(|what| !what.starts_with("pool"));
        assert_eq!(wrong, !broken.is_empty(), "seed {seed}: {told:?}");
        for what in told {
            *sorts.entry(what).or_default() += 1;
        }
    }
    for (what, least) in [
        ("start one off", 5),
        ("another grid's start", 5),
        ("across one off", 5),
        ("down one off", 5),
        ("edges exchanged", 5),
        ("another level's edges", 5),
        ("another level's tiling", 5),
        ("other edges", 5),
        ("past 2^47", 5),
        ("no edges", 5),
        ("pool: 512 across", 5),
        ("pool: 512 down", 5),
        ("pool: edges differ", 20),
        ("pool: start of 2^15", 2),
    ] {
        let times = sorts.get(what).copied().unwrap_or(0);
        assert!(times >= least, "{what}: {times}");
    }
}
