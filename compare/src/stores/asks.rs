//! What is asked of lent memory, and what document 01 has answered: 1 and nothing altered where it forms no pool.

use super::judge::{Condition, faults};
use super::memory::*;
use super::shapes::{grid_columns, grids, stamp_count};
use crate::lists::sized;
use crate::random::Random;
use crate::sheet::LINE_BYTES;

/// 2^48.
const MOST: u64 = 1 << 48;

/// Entries of the answer buffers that are lent.
const ANSWERS: usize = 8;

/// The most bytes of a sheet's buffer that our program lends.
const MOST_BYTES: u64 = 1_024;

/// A take that is accepted and finds no spare.
const FRESH: &str = "0,-,-";

/// A list for our program, and what it is to answer.
pub struct Asked {
    pub list: Vec<u8>,
    pub answers: Vec<u8>,
}

/// Asks whether the memory forms a pool, and one call of the checked face. `unasked` is a condition that the judge leaves out.
pub fn ask(memory: &Memory, seed: u64, unasked: Option<Condition>) -> Asked {
    let header = memory.header(ANSWERS, &format!("s{seed}"));
    let mut list = header.clone().into_bytes();
    let mut answers = header.into_bytes();
    let mut line = memory.push_puts(&mut list);
    let broken = faults(memory);
    let forms = broken.iter().all(|fault| Some(*fault) == unasked);
    let mut random = Random::new(seed ^ 0x5bd1_e995);
    let mut say = |text: &str, answer: &str| {
        line += 1;
        list.extend_from_slice(text.as_bytes());
        list.push(b'\n');
        for said in answer.lines() {
            answers.extend_from_slice(format!("{line},{said}\n").as_bytes());
        }
    };
    // Every second store is asked with the pacing book lent.
    if seed % 2 == 1 {
        say("lend", "");
    }
    say("formed", if forms { "0\nsame" } else { "1\nsame" });
    let id = some_id(memory, &mut random);
    if broken.is_empty() {
        let (call, answer) = settled_call(memory, id, &mut random);
        if call.starts_with("plan") {
            say("shape,2,16385,1,1,1,0,0,0,0,0,0,0", "");
        }
        say(&call, &answer);
        // What an accepted take leaves is a pool, and a full one may take no further stamp.
        if call.starts_with("take") && answer == FRESH {
            say("formed", "0\nsame");
        }
    } else {
        let call = any_call(id, &mut random);
        if call.starts_with("plan") {
            say(&format!("shape,{},0,0,0,0,0,0", any_shape(&mut random)), "");
        }
        say(&call, if forms { "0" } else { "1\nsame" });
    }
    Asked { list, answers }
}

/// The id of a record, or another.
fn some_id(memory: &Memory, random: &mut Random) -> u64 {
    let places = memory.places(TEXTURES) as u64;
    if places == 0 || random.once_in(3) {
        return random.below(20);
    }
    memory.record(TEXTURES, random.below(places) as usize)[0]
}

/// The six fields of a shape: mostly a good one.
fn any_shape(random: &mut Random) -> String {
    let levels = random.below(6);
    let (width, height) = (random.below(80), random.below(80));
    format!(
        "{},{width},{height},1,{levels},{}",
        random.below(10),
        random.below(3)
    )
}

/// A submission: small, or at the end of those that are taken.
fn submission(random: &mut Random) -> u64 {
    match random.below(3) {
        0 => random.below(30),
        1 => MOST + random.below(2),
        _ => random.below(300),
    }
}

/// A call with any numbers: on memory that forms no pool none of them matters.
fn any_call(id: u64, random: &mut Random) -> String {
    let seq = submission(random);
    match random.below(19) {
        0 => format!("take,{id},{},1,{seq}", any_shape(random)),
        1 => format!("take,{id},{},0,0,1,2,3,4,1,{seq}", any_shape(random)),
        2 => format!("plan,{id},-,0,0,1"),
        3 => format!("plan,{id},{},0,0,0", random.below(9)),
        4 => format!("retire,{id},{},{seq}", random.below(99)),
        5 => format!("write,{id},0,0,0,0,16,16"),
        6 => format!("write,{id},{},{},3,3,1,1", random.below(7), random.below(4)),
        7 => format!("regen,{id}"),
        8 => format!("pop,{seq}"),
        9 => format!("park,{},{seq}", submission(random)),
        10 => format!("note,{}", random.next() >> random.below(64)),
        11 => "doomed".into(),
        12 => "drain".into(),
        13 => format!("trim,{seq}"),
        14 => format!("forget,{id}"),
        15 => format!("records,{id}"),
        16 => {
            if random.once_in(2) {
                "parked".into()
            } else {
                "pending".into()
            }
        }
        17 => format!("sheet,{}", random.below(MOST_BYTES + 1)),
        _ => format!("dirty,{id},0,0,{}", random.below(4)),
    }
}

/// A call whose answer follows from 01's text and a look at the memory, which forms a pool.
fn settled_call(memory: &Memory, id: u64, random: &mut Random) -> (String, String) {
    let late = MOST + 1 + random.below(9);
    let refused = |outcome: u64| format!("{outcome}\nsame");
    match random.below(19) {
        0 => (format!("take,{id},2,16385,1,1,1,0,1,{late}"), refused(2)),
        1 => (format!("take,{id},2,1,1,1,1,0,1,{late}"), refused(3)),
        2 => (format!("plan,{id},-,0,0,1"), refused(2)),
        3 => (format!("retire,{id},5,{late}"), refused(3)),
        4 => (format!("pop,{late}"), refused(3)),
        5 => (format!("park,{late},0"), refused(3)),
        6 => (format!("park,0,{late}"), refused(3)),
        7 => (format!("trim,{late}"), refused(3)),
        8 => (
            "parked".into(),
            format!("0,{}\nsame", memory.counts[PARKED]),
        ),
        9 => (
            "pending".into(),
            format!("0,{}\nsame", memory.counts[DOOMING]),
        ),
        10 => (
            format!("records,{id}"),
            format!("0,{}\nsame", u64::from(records(memory, id))),
        ),
        11 => (format!("note,{}", memory.counts[LINE]), "0".into()),
        12 => ("drain".into(), drained(memory)),
        13 | 14 => taken(memory, id, random),
        15 => printed(memory, random),
        _ => dirty(memory, id, random),
    }
}

/// The texture's record, if it is tracked.
fn tracked(memory: &Memory, id: u64) -> Option<&[u64]> {
    (0..memory.counts[TRACKED] as usize)
        .map(|place| memory.record(TEXTURES, place))
        .find(|record| record[0] == id)
}

/// Whether the texture is tracked with a history.
fn records(memory: &Memory, id: u64) -> bool {
    tracked(memory, id).is_some_and(|record| record[HISTORY] != 0)
}

/// A take that needs as many stamps as are free, the id's own counted as free, or one more: 6.
fn taken(memory: &Memory, id: u64, random: &mut Random) -> (String, String) {
    let record = tracked(memory, id);
    let own = record.map_or(0, |record| stamp_count(record) as u64);
    let room = memory.slices[STAMPS].len() as u64 - memory.counts[STAMPED] + own;
    let size = room + random.below(2);
    let found = sized::exactly(random, size.max(1));
    let shape = found.unwrap_or_else(|| sized::at_most(random, size.max(1)));
    // Storage 9 is another shape than any that is tracked here.
    let call = format!("take,{id},{shape},9,0,0,0,0,0,1,7");
    let answer = if record.is_none() && memory.counts[TRACKED] == memory.places(TEXTURES) as u64 {
        "5\nsame"
    } else if shape.stamps() > room {
        "6\nsame"
    } else if memory.counts[TRACKINGS] >= MOST {
        "12\nsame"
    } else {
        FRESH
    };
    (call, answer.into())
}

/// The sheet in a buffer of just its bytes, of one fewer or of others: it has a line for each texture between two others.
fn printed(memory: &Memory, random: &mut Random) -> (String, String) {
    let size = LINE_BYTES as u64 * (memory.counts[TRACKED] + 2);
    let others = random.below(MOST_BYTES + 1);
    let bytes = random.one_of(&[size, size - 1, others]).min(MOST_BYTES);
    let answer = if bytes < size {
        "11\nsame".into()
    } else {
        format!("0,{size}\nsame")
    };
    (format!("sheet,{bytes}"), answer)
}

/// The dirty tile of a grid of the texture, where one tile or none is stamped above the held count.
fn dirty(memory: &Memory, id: u64, random: &mut Random) -> (String, String) {
    let none = "0,-,-\nsame".to_string();
    let Some(record) = tracked(memory, id).filter(|record| record[HISTORY] != 0) else {
        return (format!("dirty,{id},0,0,0"), none);
    };
    let levels = record[5];
    let slice = random.below(if record[6] == 1 { 6 } else { 1 });
    let level = random.below(levels);
    let before = u128::from(slice) * u128::from(levels) + u128::from(level);
    let newest = record[FIRST_GRID] as usize + STRIDES[NEWEST] * before as usize;
    let grids = grids(memory);
    let grid = grids.iter().find(|grid| grid.newest == newest);
    let stamps = grid.expect("a pool's grid").of(&memory.slices[STAMPS]);
    let columns = grid_columns(record, level) as usize;
    // From the largest stamp that stands there once on, one tile at most is above.
    let mut sorted = stamps.to_vec();
    sorted.sort_unstable();
    let second = sorted.iter().rev().nth(1).copied().unwrap_or(0);
    let held = random.one_of(&[second, sorted[sorted.len() - 1]]);
    let call = format!("dirty,{id},{slice},{level},{held}");
    match stamps.iter().position(|stamp| *stamp > held) {
        Some(at) => {
            let (column, row) = (at % columns, at / columns);
            (call, format!("0,{column},{row}\nsame"))
        }
        None => (call, none),
    }
}

/// "`drain_versions` hands out the queue, then the destroy queue, then the spares, and leaves the hand as it is."
fn drained(memory: &Memory) -> String {
    let counts = &memory.counts;
    let queue = memory.ring(RETIRING, counts[HEAD] + counts[POPPED], counts[QUEUED]);
    let mut views: Vec<u64> = queue
        .map(|place| memory.record(RETIRING, place)[1])
        .collect();
    let waiting = memory.ring(DOOMED, counts[FIRST], counts[WAITING]);
    views.extend(waiting.map(|place| memory.record(DOOMED, place)[0]));
    views.extend((0..counts[KEPT] as usize).map(|place| memory.record(SPARES, place)[0]));
    let lines = views.iter().map(|view| format!("\n{view}"));
    format!("0,{}{}", views.len(), lines.collect::<String>())
}
