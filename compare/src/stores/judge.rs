//! Whether lent memory forms a pool: document 01's paragraph "Stores form a pool when", read over numbers, with 02's grids "without
//! overlap or gap" (W-201) in place of pages, and what our layout asks so that they can be read (docs/DECISIONS.md, "What `isPool`
//! asks beyond 01's words").
//!
//! Written from the text, to be held against the test that the program makes. Sums are of 128 bits: nothing wraps.

use std::collections::BTreeSet;

use super::memory::*;
use super::shapes::{
    grids, newest_count, passes_2, placed_tilings, shape_bytes, stamp_count, tracked,
};

/// 2^48: no count and no submission is larger.
const MOST: u64 = 1 << 48;

/// 2^44: no version has more bytes.
const MOST_BYTES: u64 = 1 << 44;

/// The most places of a sort.
const MOST_PLACES: usize = 4_096;

/// What memory that forms a pool meets, in the order in which it is looked at.
#[derive(Clone, Copy, Debug, PartialEq, Eq, PartialOrd, Ord)]
pub enum Condition {
    // What was lent.
    Places,
    Lengths,
    // What lets the numbers be read.
    TexturePlaces,
    VersionPlaces,
    GridPlaces,
    StampPlaces,
    Head,
    First,
    Hand,
    // "ids are distinct", and ascend.
    Ids,
    // "each shape passes 2".
    Width,
    Height,
    Depth,
    Levels,
    Kind,
    Format,
    // "counts and submissions are at most 2^48".
    Trackings,
    Tracking,
    WriteCount,
    Birth,
    Rename,
    Due,
    SpareHeld,
    Parking,
    Submission,
    RetiredTracking,
    RetiredBirth,
    RetiredHeld,
    // "grids without overlap or gap": as many as are counted, and each history begins where those before it end.
    Grids,
    GridStamps,
    FirstGrid,
    FirstStamp,
    // "no stamp passes its texture's write count", "each grid's newest is its largest stamp".
    Stamps,
    Newest,
    // Beside it: where the grid begins among its history's stamps, and 01's "Tile edge" of its level's width and height.
    Tiling,
    // "spares belong to tracked textures and have their bytes".
    Spares,
    Bytes,
    // "no version's bytes pass 2^44".
    RetiredBytes,
    DoomedBytes,
    // "the parked and destroy totals are their sums", "parked bytes are within the cap".
    ParkedTotal,
    DestroyTotal,
    Cap,
    // "the slot is below 8, arrivals at most 4,096, those since the last drain at most the destroy queue's length".
    Slot,
    Arrivals,
    Since,
    // The mark is 0 or 1.
    Mark,
}

use Condition as C;

/// All of them.
pub const CONDITIONS: [Condition; 46] = [
    C::Places,
    C::Lengths,
    C::TexturePlaces,
    C::VersionPlaces,
    C::GridPlaces,
    C::StampPlaces,
    C::Head,
    C::First,
    C::Hand,
    C::Ids,
    C::Width,
    C::Height,
    C::Depth,
    C::Levels,
    C::Kind,
    C::Format,
    C::Trackings,
    C::Tracking,
    C::WriteCount,
    C::Birth,
    C::Rename,
    C::Due,
    C::SpareHeld,
    C::Parking,
    C::Submission,
    C::RetiredTracking,
    C::RetiredBirth,
    C::RetiredHeld,
    C::Grids,
    C::GridStamps,
    C::FirstGrid,
    C::FirstStamp,
    C::Stamps,
    C::Newest,
    C::Tiling,
    C::Spares,
    C::Bytes,
    C::RetiredBytes,
    C::DoomedBytes,
    C::ParkedTotal,
    C::DestroyTotal,
    C::Cap,
    C::Slot,
    C::Arrivals,
    C::Since,
    C::Mark,
];

/// The one that is never broken alone. `newest` has two numbers for each of ninety grids a texture place, or of one a stamp. As many
/// grids as the records have are at most ninety a texture, and none has no stamp: where they are those counted, and their stamps
/// within those lent, they have room.
pub const NEVER_ALONE: Condition = C::GridPlaces;

impl Condition {
    /// The condition of that name.
    pub fn named(name: &str) -> Option<Self> {
        (CONDITIONS.into_iter())
            .find(|condition| format!("{condition:?}").eq_ignore_ascii_case(name))
    }
}

/// Every condition that the memory does not meet, in order. Where numbers cannot be read, what they would say is left out.
pub fn faults(memory: &Memory) -> Vec<Condition> {
    let mut broken = BTreeSet::new();
    lent_faults(memory, &mut broken);
    if broken.is_empty() {
        count_faults(memory, &mut broken);
        let textures = !broken.contains(&C::TexturePlaces);
        let versions = [C::VersionPlaces, C::Head, C::First, C::Hand];
        let versions = versions.iter().all(|at| !broken.contains(at));
        if textures {
            texture_faults(memory, &mut broken);
        }
        if versions {
            version_faults(memory, &mut broken);
        }
        if textures && versions {
            total_faults(memory, &mut broken);
        }
    }
    if !broken.contains(&C::Places) && !broken.contains(&C::Lengths) {
        book_faults(memory, &mut broken);
    }
    broken.into_iter().collect()
}

/// Notes a condition unless it holds.
fn ask(broken: &mut BTreeSet<Condition>, condition: Condition, holds: bool) {
    if !holds {
        broken.insert(condition);
    }
}

/// "At opening the caller lends 1 to 4,096 texture places, 1 to 4,096 version places and 0 to 4,096 history pages of 1,024 stamps."
fn lent_faults(memory: &Memory, broken: &mut BTreeSet<Condition>) {
    let versions = memory.places(RETIRING);
    let whole = (0..6).all(|at| memory.slices[at].len() % STRIDES[at] == 0);
    let fit = memory.places(DOOMED) == versions
        && memory.places(SPARES) == versions
        && memory.slices[NEWEST].len() == memory.newest_length();
    ask(broken, C::Lengths, whole && fit);
    let places = 1..=MOST_PLACES;
    let lent = places.contains(&memory.places(TEXTURES))
        && places.contains(&versions)
        && memory.places(STAMPS) <= MOST_PLACES;
    ask(broken, C::Places, !(whole && fit) || lent);
}

fn count_faults(memory: &Memory, broken: &mut BTreeSet<Condition>) {
    let counts = &memory.counts;
    let places = |slice| memory.places(slice) as u64;
    ask(
        broken,
        C::TexturePlaces,
        counts[TRACKED] <= places(TEXTURES),
    );
    let [newest, stamps] = [NEWEST, STAMPS].map(|at| memory.slices[at].len() as u64);
    ask(broken, C::GridPlaces, counts[GRIDS] <= newest);
    ask(broken, C::StampPlaces, counts[STAMPED] <= stamps);
    ask(broken, C::Head, counts[HEAD] < places(RETIRING));
    ask(broken, C::First, counts[FIRST] < places(DOOMED));
    ask(broken, C::Hand, counts[POPPED] <= 1);
    // "each version is in just one of queue, hand, spares, destroy queue": the four share the places.
    let versions = [QUEUED, POPPED, KEPT, WAITING].map(|at| u128::from(counts[at]));
    ask(
        broken,
        C::VersionPlaces,
        versions.iter().sum::<u128>() <= u128::from(places(RETIRING)),
    );
}

fn texture_faults(memory: &Memory, broken: &mut BTreeSet<Condition>) {
    let ids: Vec<u64> = tracked(memory).map(|record| record[0]).collect();
    ask(
        broken,
        C::Ids,
        ids.is_sorted_by(|before, after| before < after),
    );
    for record in tracked(memory) {
        ask(broken, C::Format, record[1] <= 8);
        ask(broken, C::Width, record[2] <= 16_384);
        ask(broken, C::Height, record[3] <= 16_384);
        ask(broken, C::Depth, record[4] <= 2_048);
        ask(broken, C::Levels, (1..=15).contains(&record[5]));
        ask(broken, C::Kind, record[6] <= 2);
        ask(broken, C::Tracking, record[TRACKING] <= MOST);
        // The history is the write count and one.
        ask(broken, C::WriteCount, record[HISTORY] <= MOST + 1);
        ask(broken, C::Birth, record[BIRTH] <= MOST);
        ask(broken, C::Rename, record[RENAME] <= MOST);
        ask(broken, C::Due, record[DUE] <= MOST);
        if passes_2(record) {
            ask(broken, C::Bytes, record[BYTES] == shape_bytes(record));
        }
    }
    ask(broken, C::Trackings, memory.counts[TRACKINGS] <= MOST);
    start_faults(memory, broken);
    let kept: u128 = tracked(memory)
        .map(|record| u128::from(record[OWN_SPARES]))
        .sum();
    ask(broken, C::Spares, kept == u128::from(memory.counts[KEPT]));
    if tracked(memory).all(passes_2) {
        grid_faults(memory, broken);
    }
}

/// The grids and stamps of the histories stand one behind the other in the order of the records, and a record has how many numbers of
/// `newest` and how many stamps stand before its own, also where it has none.
fn start_faults(memory: &Memory, broken: &mut BTreeSet<Condition>) {
    let (mut grids, mut stamps) = (0, 0);
    for record in tracked(memory) {
        ask(
            broken,
            C::FirstGrid,
            u128::from(record[FIRST_GRID]) == grids,
        );
        ask(
            broken,
            C::FirstStamp,
            u128::from(record[FIRST_STAMP]) == stamps,
        );
        grids += newest_count(record);
        stamps += stamp_count(record);
    }
    ask(broken, C::Grids, u128::from(memory.counts[GRIDS]) == grids);
    ask(
        broken,
        C::GridStamps,
        u128::from(memory.counts[STAMPED]) == stamps,
    );
}

fn grid_faults(memory: &Memory, broken: &mut BTreeSet<Condition>) {
    for grid in grids(memory) {
        let stamps = grid.of(&memory.slices[STAMPS]);
        let largest = *stamps.iter().max().expect("a level has a tile");
        ask(broken, C::Stamps, largest <= grid.writes);
        let newest = memory.slices[NEWEST][grid.newest];
        ask(broken, C::Newest, newest == largest);
    }
    for (at, tiling) in placed_tilings(memory) {
        let number = memory.slices[NEWEST][at];
        ask(broken, C::Tiling, number == tiling.number());
    }
}

/// The versions in hand and queue: the ring's first is in the hand if one is.
fn retiring(memory: &Memory) -> impl Iterator<Item = &[u64]> {
    let count = memory.counts[POPPED] + memory.counts[QUEUED];
    (memory.ring(RETIRING, memory.counts[HEAD], count)).map(|place| memory.record(RETIRING, place))
}

/// The versions in the destroy queue.
fn waiting(memory: &Memory) -> impl Iterator<Item = &[u64]> {
    (memory.ring(DOOMED, memory.counts[FIRST], memory.counts[WAITING]))
        .map(|place| memory.record(DOOMED, place))
}

fn version_faults(memory: &Memory, broken: &mut BTreeSet<Condition>) {
    for record in retiring(memory) {
        ask(broken, C::Submission, record[2] <= MOST);
        ask(broken, C::RetiredTracking, record[3] <= MOST);
        ask(broken, C::RetiredBirth, record[4] <= MOST);
        ask(broken, C::RetiredHeld, record[5] <= MOST);
        ask(broken, C::RetiredBytes, record[6] <= MOST_BYTES);
    }
    for record in waiting(memory) {
        ask(broken, C::DoomedBytes, record[1] <= MOST_BYTES);
    }
    for place in 0..memory.counts[KEPT] as usize {
        let record = memory.record(SPARES, place);
        // Held writes are 0 where unknown, else the count and one.
        ask(broken, C::SpareHeld, record[1] <= MOST + 1);
        ask(broken, C::Parking, record[2] <= MOST);
    }
}

fn total_faults(memory: &Memory, broken: &mut BTreeSet<Condition>) {
    let of_spares = |record: &[u64]| u128::from(record[OWN_SPARES]) * u128::from(record[BYTES]);
    let parked: u128 = tracked(memory).map(of_spares).sum();
    ask(
        broken,
        C::ParkedTotal,
        u128::from(memory.counts[PARKED]) == parked,
    );
    let dooming: u128 = waiting(memory).map(|record| u128::from(record[1])).sum();
    ask(
        broken,
        C::DestroyTotal,
        u128::from(memory.counts[DOOMING]) == dooming,
    );
    ask(broken, C::Cap, memory.counts[PARKED] <= memory.counts[CAP]);
}

fn book_faults(memory: &Memory, broken: &mut BTreeSet<Condition>) {
    ask(broken, C::Slot, memory.book[SLOT] < 8);
    ask(
        broken,
        C::Arrivals,
        memory.book[..8].iter().all(|arrivals| *arrivals <= 4_096),
    );
    ask(
        broken,
        C::Since,
        memory.counts[SINCE] <= memory.counts[WAITING],
    );
    ask(broken, C::Mark, memory.book[PRESSED] <= 1);
}
