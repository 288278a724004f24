//! What lists do to the stamps: how often histories begin, are renewed and end, at the last stamp and between others.

use std::collections::{BTreeMap, BTreeSet};
use std::fmt::Write;

use crate::event::{self, Call, Event};
use crate::limited::Limits;
use crate::lines::lines_of;
use crate::program::Program;
use crate::replies::{Replies, Reply};
use crate::shape::RawShape;
use crate::texture_versions::inspect::{self, Tracked};

/// Each is to occur. "Between others": a texture with a smaller id has a history, and one with a larger id.
const SORTS: [&str; 22] = [
    "6 of a beginning, by one stamp",
    "6 of a beginning, by more",
    "6 of a renewal, by one stamp, its own counted as free",
    "6 of a renewal, by more",
    "6 of ninety grids of one stamp each",
    "begun, all stamps used",
    "renewed, all stamps used",
    "begun between others",
    "renewed smaller between others",
    "renewed larger between others",
    "renewed equal between others",
    "renewed to no history between others",
    "renewed from no history between others",
    "dropped by a write outside between others",
    "forgotten between others",
    "trimmed between others",
    "several trimmed in one call",
    "a box after the stamps moved down",
    "a box after the stamps moved up",
    "ninety grids of one stamp begun",
    "eight such histories at once",
    "nine such histories at once",
];

/// What nine places are needed for.
const NINE: &str = "nine such histories at once";

/// Counts over the lists that were run.
#[derive(Default)]
pub struct Changes {
    lines: u64,
    counts: BTreeMap<&'static str, u64>,
}

/// Textures whose stamps moved since they were last read by a plan.
#[derive(Default)]
struct Moved {
    down: BTreeSet<u64>,
    up: BTreeSet<u64>,
}

impl Changes {
    /// Runs a list by a program of the Rust and counts what it does.
    pub fn add(&mut self, list: &[u8], limits: Limits) {
        let mut program = Program::new(limits, false);
        let mut before = Vec::new();
        let mut moved = Moved::default();
        let mut out = Vec::new();
        for line in lines_of(list) {
            self.lines += 1;
            out.clear();
            program.run(line, &mut out);
            let reply = Replies::new(&out).next();
            let reply = reply.expect("an answer").expect("a well formed one");
            let (Some(event), Some(pool)) = (event::parse(line), program.pool()) else {
                continue;
            };
            let after = inspect::all_tracked(pool.published());
            self.count(&event, &reply, &before, &after, limits.stamps());
            self.count_read(&event, &reply, &mut moved);
            moved.note(&before, &after);
            before = after;
        }
    }

    fn note(&mut self, sort: &'static str, occurs: bool) {
        debug_assert!(SORTS.contains(&sort));
        if occurs {
            *self.counts.entry(sort).or_default() += 1;
        }
    }

    fn count(
        &mut self,
        event: &Event,
        reply: &Reply,
        before: &[Tracked],
        after: &[Tracked],
        lent: u64,
    ) {
        match event {
            Event::Take(take) if reply.outcome == Some(6) => {
                let (own, used) = (stamps(before, take.id), total(before));
                let past = take.shape.stamps() - (lent - used + own);
                self.count_6(&take.shape, past, find(before, take.id).is_some());
            }
            Event::Take(take) if reply.accepted() => {
                self.count_take(take.id, before, after, lent);
            }
            Event::Other(Call::Write(write)) => {
                let dropped = stamps(before, write.id) > 0 && stamps(after, write.id) == 0;
                let sort = "dropped by a write outside between others";
                self.note(sort, dropped && is_between(after, write.id));
            }
            Event::Other(Call::Forget { id }) => {
                let ended = stamps(before, *id) > 0;
                self.note("forgotten between others", ended && is_between(after, *id));
            }
            Event::Other(Call::Trim { .. }) => {
                let held = before.iter().filter(|row| row.stamps.is_some());
                let gone: Vec<u64> = held
                    .map(|row| row.id)
                    .filter(|id| stamps(after, *id) == 0)
                    .collect();
                let between = gone.iter().any(|id| is_between(after, *id));
                self.note("trimmed between others", between);
                self.note("several trimmed in one call", between && gone.len() > 1);
            }
            _ => {}
        }
    }

    fn count_6(&mut self, shape: &RawShape, past: u64, renewal: bool) {
        let ninety = (shape.grids(), shape.stamps()) == (90, 90);
        self.note("6 of ninety grids of one stamp each", ninety);
        let sort = match (renewal, past == 1) {
            (false, true) => "6 of a beginning, by one stamp",
            (false, false) => "6 of a beginning, by more",
            (true, true) => "6 of a renewal, by one stamp, its own counted as free",
            (true, false) => "6 of a renewal, by more",
        };
        self.note(sort, true);
    }

    /// An accepted take: whether it began or renewed a tracking is told by the tracking's number.
    fn count_take(&mut self, id: u64, before: &[Tracked], after: &[Tracked], lent: u64) {
        let (old, new) = (find(before, id), find(after, id).expect("taken"));
        if old.is_some_and(|old| old.tracking == new.tracking) {
            return;
        }
        let full = new.stamps.is_some() && total(after) == lent;
        let between = is_between(after, id);
        let Some(old) = old else {
            self.note("begun, all stamps used", full);
            self.note("begun between others", between && new.stamps.is_some());
            self.count_ninety(new, after);
            return;
        };
        self.note("renewed, all stamps used", full);
        let sort = match (old.stamps, new.stamps) {
            (None, None) => return,
            (Some(_), None) => "renewed to no history between others",
            (None, Some(_)) => "renewed from no history between others",
            (Some(old), Some(new)) if new < old => "renewed smaller between others",
            (Some(old), Some(new)) if new > old => "renewed larger between others",
            _ => "renewed equal between others",
        };
        self.note(sort, between);
    }

    fn count_ninety(&mut self, new: &Tracked, after: &[Tracked]) {
        let ninety = |row: &Tracked| (row.grids, row.stamps) == (90, Some(90));
        let count = after.iter().filter(|row| ninety(row)).count();
        self.note("ninety grids of one stamp begun", ninety(new));
        self.note("eight such histories at once", ninety(new) && count == 8);
        self.note(NINE, ninety(new) && count == 9);
    }

    /// A plan with a box, of a texture whose stamps moved since the last one.
    fn count_read(&mut self, event: &Event, reply: &Reply, moved: &mut Moved) {
        let Event::Plan(plan) = event else { return };
        if reply.entries.iter().any(|copy| copy.last() != Some(&None)) {
            let (down, up) = (moved.down.remove(&plan.id), moved.up.remove(&plan.id));
            self.note("a box after the stamps moved down", down);
            self.note("a box after the stamps moved up", up);
        }
    }

    /// How often each sort occurred that did.
    pub fn counts(&self) -> impl Iterator<Item = (&'static str, u64)> {
        self.counts.iter().map(|(sort, times)| (*sort, *times))
    }

    /// What can occur with these limits and did not.
    pub fn faults(&self, limits: &Limits) -> Vec<String> {
        let can =
            |sort: &str| limits.pages > 0 && limits.textures >= if sort == NINE { 9 } else { 8 };
        let missed = |sort: &&&str| can(sort) && !self.counts.contains_key(**sort);
        let faults = SORTS.iter().filter(missed);
        faults
            .map(|sort| format!("\"{sort}\" did not occur"))
            .collect()
    }

    pub fn table(&self) -> String {
        let mut table = String::new();
        for sort in SORTS {
            let count = self.counts.get(sort).copied().unwrap_or(0);
            writeln!(table, "{sort:56}{count:>9}").expect("memory");
        }
        table + &format!("{} lines\n", self.lines)
    }
}

impl Moved {
    fn note(&mut self, before: &[Tracked], after: &[Tracked]) {
        let old = starts(before);
        let new = starts(after);
        self.down.retain(|id| new.contains_key(id));
        self.up.retain(|id| new.contains_key(id));
        for (id, (tracking, start)) in new {
            match old.get(&id) {
                Some((same, from)) if *same == tracking && start < *from => {
                    self.down.insert(id);
                }
                Some((same, from)) if *same == tracking && start > *from => {
                    self.up.insert(id);
                }
                _ => {}
            }
        }
    }
}

/// For each id that has a history its tracking and the stamps before its own.
fn starts(rows: &[Tracked]) -> BTreeMap<u64, (u64, u64)> {
    let mut start = 0;
    let mut starts = BTreeMap::new();
    for row in rows {
        if let Some(stamps) = row.stamps {
            starts.insert(row.id, (row.tracking, start));
            start += stamps;
        }
    }
    starts
}

fn find(rows: &[Tracked], id: u64) -> Option<&Tracked> {
    rows.iter().find(|row| row.id == id)
}

/// Stamps of the texture's history, 0 if it has none.
fn stamps(rows: &[Tracked], id: u64) -> u64 {
    find(rows, id).and_then(|row| row.stamps).unwrap_or(0)
}

fn total(rows: &[Tracked]) -> u64 {
    rows.iter().filter_map(|row| row.stamps).sum()
}

/// Whether a smaller id and a larger one have histories.
fn is_between(rows: &[Tracked], id: u64) -> bool {
    let mut held = rows.iter().filter(|row| row.stamps.is_some());
    held.clone().any(|row| row.id < id) && held.any(|row| row.id > id)
}
