//! A store of stamps in which grids stand one behind the other, as 02's W-201 has it, with a fault or without. Beside a grid's newest stamp
//! stands its tiling, which writes and plans go by.

use compare::event::{Call, Event, Plan, Take, Write};
use compare::limited::Limits;
use compare::replies::Reply;
use compare::shape::RawShape;
use compare::texture_versions::inspect::Tracked;

/// What may be wrong with a store. A `newest` that is too large is no fault here: no plan tells, only the test of stores does.
#[derive(Clone, Copy, Debug, PartialEq, Eq)]
pub enum Fault {
    None,
    OwnStampsNotFree,
    RefusesAtJustEnough,
    MovesOneStampLess,
    MovesOneGridLess,
    NewestStays,
    FirstStampStaysAfterADrop,
    FirstStampStaysAfterARenewal,
    FirstGridStays,
    FreshKeepsStamps,
    SlicesStandInEachOther,
    FreshKeepsTilings,
    TilingsStay,
    StartsCountOtherHistories,
    EdgesExchanged,
    EdgesOfTheFirstLevel,
}

pub const FAULTS: [Fault; 15] = [
    Fault::OwnStampsNotFree,
    Fault::RefusesAtJustEnough,
    Fault::MovesOneStampLess,
    Fault::MovesOneGridLess,
    Fault::NewestStays,
    Fault::FirstStampStaysAfterADrop,
    Fault::FirstStampStaysAfterARenewal,
    Fault::FirstGridStays,
    Fault::FreshKeepsStamps,
    Fault::SlicesStandInEachOther,
    Fault::FreshKeepsTilings,
    Fault::TilingsStay,
    Fault::StartsCountOtherHistories,
    Fault::EdgesExchanged,
    Fault::EdgesOfTheFirstLevel,
];

/// A tracked texture.
struct Record {
    id: u64,
    tracking: u64,
    shape: RawShape,
    /// The write count, if there is a history.
    writes: Option<u64>,
    first_grid: usize,
    first_stamp: usize,
}

impl Record {
    /// Numbers of `newest`, two for each grid, and stamps of its history.
    fn sizes(&self) -> (usize, usize) {
        match self.writes {
            None => (0, 0),
            Some(_) => (
                2 * self.shape.grids() as usize,
                self.shape.stamps() as usize,
            ),
        }
    }
}

/// A level's tiles.
struct Tiles {
    width: u32,
    height: u32,
    across: u32,
    down: u32,
    columns: u32,
    rows: u32,
}

impl Tiles {
    fn of(shape: &RawShape, level: u32) -> Self {
        let (width, height) = shape.level(level);
        let block = if matches!(shape.format, 5 | 6) { 4 } else { 1 };
        let edge = |extent: u32| extent.div_ceil(32).max(16).next_multiple_of(block);
        Self::with_edges(shape, level, edge(width), edge(height))
    }

    fn with_edges(shape: &RawShape, level: u32, across: u32, down: u32) -> Self {
        let (width, height) = shape.level(level);
        Self {
            width,
            height,
            across,
            down,
            columns: width.div_ceil(across),
            rows: height.div_ceil(down),
        }
    }

    fn count(&self) -> usize {
        (self.columns * self.rows) as usize
    }
}

/// A grid where the store has it: the place of its newest stamp, its first stamp, and its tiles.
struct Place {
    newest: usize,
    first: usize,
    tiles: Tiles,
}

pub struct Packed {
    fault: Fault,
    /// In ascending id.
    records: Vec<Record>,
    newest: Vec<u64>,
    stamps: Vec<u64>,
    grids: usize,
    used: usize,
    /// The shape of the latest take line.
    latest: Option<RawShape>,
}

impl Packed {
    pub fn new(limits: &Limits, fault: Fault) -> Self {
        let stamps = limits.stamps() as usize;
        Self {
            fault,
            records: Vec::new(),
            newest: vec![0; 2 * stamps.min(90 * limits.textures)],
            stamps: vec![0; stamps],
            grids: 0,
            used: 0,
            latest: None,
        }
    }

    fn is(&self, fault: Fault) -> bool {
        self.fault == fault
    }

    fn find(&self, id: u64) -> Option<usize> {
        self.records.iter().position(|record| record.id == id)
    }

    /// Whether a new history of the id would be refused with 6.
    fn is_full(&self, take: &Take) -> bool {
        let own = self
            .find(take.id)
            .map_or(0, |at| self.records[at].sizes().1);
        let own = if self.is(Fault::OwnStampsNotFree) {
            0
        } else {
            own
        };
        let room = self.stamps.len() - self.used + own;
        let needed = take.shape.stamps() as usize;
        needed > room || (self.is(Fault::RefusesAtJustEnough) && needed == room)
    }

    /// The record's history becomes one of that write count and shape, or none: all behind it move, and it is fresh.
    fn change(&mut self, at: usize, shape: RawShape, writes: Option<u64>) {
        let (grids, stamps) = self.records[at].sizes();
        let renewal = writes.is_some();
        (self.records[at].shape, self.records[at].writes) = (shape, writes);
        let (new_grids, new_stamps) = self.records[at].sizes();
        let grid = self.records[at].first_grid;
        let stamp = self.records[at].first_stamp;
        let less = 2 * usize::from(self.is(Fault::MovesOneGridLess));
        let before = self.newest.clone();
        move_part(
            &mut self.newest,
            grid + grids..self.grids,
            grid + new_grids,
            less,
        );
        // Of the two numbers of a grid the first or the second stays where it stood.
        let stays = match self.fault {
            Fault::NewestStays => grid + new_grids,
            Fault::TilingsStay => grid + new_grids + 1,
            _ => before.len(),
        };
        for at in (stays..before.len()).step_by(2) {
            self.newest[at] = before[at];
        }
        let less = usize::from(self.is(Fault::MovesOneStampLess));
        move_part(
            &mut self.stamps,
            stamp + stamps..self.used,
            stamp + new_stamps,
            less,
        );
        for (at, tiling) in (0..new_grids / 2).zip(self.tilings(&shape, stamp)) {
            put(&mut self.newest, grid + 2 * at, 0);
            if !self.is(Fault::FreshKeepsTilings) {
                put(&mut self.newest, grid + 2 * at + 1, tiling);
            }
        }
        if !self.is(Fault::FreshKeepsStamps) {
            fill_part(&mut self.stamps, stamp..stamp + new_stamps);
        }
        (self.grids, self.used) = (
            self.grids + new_grids - grids,
            self.used + new_stamps - stamps,
        );
        let stays = match renewal {
            true => self.is(Fault::FirstStampStaysAfterARenewal),
            false => self.is(Fault::FirstStampStaysAfterADrop),
        };
        let grid_stays = self.is(Fault::FirstGridStays);
        for record in &mut self.records[at + 1..] {
            if !grid_stays {
                record.first_grid = (record.first_grid + new_grids).saturating_sub(grids);
            }
            if !stays {
                record.first_stamp = (record.first_stamp + new_stamps).saturating_sub(stamps);
            }
        }
    }

    /// Follows the trackings that the Rust has after a line.
    fn follow(&mut self, event: &Event, after: &[Tracked]) {
        for at in (0..self.records.len()).rev() {
            let record = &self.records[at];
            let (id, tracking, shape) = (record.id, record.tracking, record.shape);
            let there = after.iter().find(|row| row.id == id);
            let dropped = there.is_some_and(|row| row.tracking == tracking && row.stamps.is_none());
            if there.is_none() || (dropped && record.writes.is_some()) {
                self.change(at, shape, None);
            }
            if there.is_none() {
                self.records.remove(at);
            }
        }
        let Event::Take(take) = event else { return };
        let Some(row) = after.iter().find(|row| row.id == take.id) else {
            return;
        };
        let at = self.find(take.id).unwrap_or_else(|| self.begin(take));
        if self.records[at].tracking != row.tracking {
            self.records[at].tracking = row.tracking;
            self.change(at, take.shape, row.stamps.map(|_| 0));
        }
    }

    /// A record without a history, in its place.
    fn begin(&mut self, take: &Take) -> usize {
        let at = self.records.partition_point(|record| record.id < take.id);
        let (first_grid, first_stamp) = match self.records.get(at) {
            Some(record) => (record.first_grid, record.first_stamp),
            None => (self.grids, self.used),
        };
        self.records.insert(
            at,
            Record {
                id: take.id,
                tracking: 0,
                shape: take.shape,
                writes: None,
                first_grid,
                first_stamp,
            },
        );
        at
    }

    /// The tilings of a shape's grids, slice by slice, level by level: start, edge across times 2^17, edge down times 2^32.
    fn tilings(&self, shape: &RawShape, first_stamp: usize) -> Vec<u64> {
        let mut start = if self.is(Fault::StartsCountOtherHistories) {
            first_stamp
        } else {
            0
        };
        let mut tilings = Vec::new();
        for slice in 0..shape.slices() {
            if self.is(Fault::SlicesStandInEachOther) {
                start = slice as usize;
            }
            for level in 0..shape.levels {
                let cut = if self.is(Fault::EdgesOfTheFirstLevel) {
                    Tiles::of(shape, 0)
                } else {
                    Tiles::of(shape, level)
                };
                let (across, down) = if self.is(Fault::EdgesExchanged) {
                    (cut.down, cut.across)
                } else {
                    (cut.across, cut.down)
                };
                let edges = (u64::from(across) << 17) + (u64::from(down) << 32);
                tilings.push(start as u64 + edges);
                start += Tiles::of(shape, level).count();
            }
        }
        tilings
    }

    /// Where a slice's level has its grid, by the tiling that stands there.
    fn place(&self, at: usize, slice: u32, level: u32) -> Place {
        let record = &self.records[at];
        let newest = record.first_grid + 2 * (slice * record.shape.levels + level) as usize;
        let tiling = get(&self.newest, newest + 1);
        // A fault may leave no edges: any that are not 0 serve.
        let edge = |number: u64| if number == 0 { 512 } else { number as u32 };
        let (across, down) = (edge(tiling >> 17 & 0x7fff), edge(tiling >> 32));
        Place {
            newest,
            first: record.first_stamp + (tiling % (1 << 17)) as usize,
            tiles: Tiles::with_edges(&record.shape, level, across, down),
        }
    }

    /// Puts a stamp on the tiles that the rectangle touches in the level.
    fn stamp(&mut self, at: usize, slice: u32, level: u32, rect: [u64; 4], stamp: u64) {
        let Place {
            newest,
            first,
            tiles,
        } = self.place(at, slice, level);
        let [x, y, width, height] = rect;
        let right = (x + width).min(tiles.width.into());
        let bottom = (y + height).min(tiles.height.into());
        if x >= right || y >= bottom {
            return;
        }
        for row in y / u64::from(tiles.down)..bottom.div_ceil(tiles.down.into()) {
            for column in x / u64::from(tiles.across)..right.div_ceil(tiles.across.into()) {
                let tile = row * u64::from(tiles.columns) + column;
                put(&mut self.stamps, first + tile as usize, stamp);
            }
        }
        put(&mut self.newest, newest, stamp);
    }

    fn write(&mut self, write: &Write) {
        let Some(at) = self.find(write.id) else {
            return;
        };
        let shape = self.records[at].shape;
        let (slice, level) = (write.slice, write.level);
        let inside = slice < shape.slices() && level < shape.levels;
        if let (Some(writes), true) = (self.records[at].writes, inside) {
            let rect = &write.rect;
            let rect = [rect.x(), rect.y(), rect.width(), rect.height()].map(u64::from);
            self.stamp(at, slice, level, rect, writes + 1);
            self.records[at].writes = Some(writes + 1);
        }
    }

    fn regenerate(&mut self, id: u64) {
        let Some(at) = self.find(id) else { return };
        let shape = self.records[at].shape;
        let Some(writes) = self.records[at].writes else {
            return;
        };
        for slice in 0..shape.slices() {
            for level in 1..shape.levels {
                let whole = [0, 0, 1 << 20, 1 << 20];
                self.stamp(at, slice, level, whole, writes + 1);
            }
        }
        self.records[at].writes = Some(writes + 1);
    }

    /// The copies of an accepted plan.
    fn copies(&self, plan: &Plan) -> Vec<Vec<Option<u64>>> {
        let shape = self.latest.expect("a take line before it");
        let at = self.find(plan.id);
        let at = at.filter(|at| self.records[*at].writes.is_some());
        let mut copies = Vec::new();
        for slice in 0..shape.slices() {
            for level in 0..shape.levels {
                let covered = (slice, level) == (plan.slice, plan.level) && plan.full_cover;
                let part = match (at, plan.held) {
                    _ if covered => None,
                    (Some(at), Some(held)) => self.written_since(at, slice, level, held),
                    _ => Some([None; 4]),
                };
                if let Some(part) = part {
                    let mut copy = vec![Some(slice.into()), Some(level.into())];
                    copy.extend(part);
                    copies.push(copy);
                }
            }
        }
        copies
    }

    /// The box around the tiles stamped later: four numbers, or none of them for a whole level.
    fn written_since(
        &self,
        at: usize,
        slice: u32,
        level: u32,
        held: u64,
    ) -> Option<[Option<u64>; 4]> {
        let Place {
            newest,
            first,
            tiles,
        } = self.place(at, slice, level);
        if get(&self.newest, newest) <= held {
            return None;
        }
        let later: Vec<(u32, u32)> = (0..tiles.rows)
            .flat_map(|row| (0..tiles.columns).map(move |column| (column, row)))
            .filter(|(column, row)| {
                get(
                    &self.stamps,
                    first + (row * tiles.columns + column) as usize,
                ) > held
            })
            .collect();
        let left = later.iter().map(|tile| tile.0).min()? * tiles.across;
        let top = later.iter().map(|tile| tile.1).min()? * tiles.down;
        let right = (later.iter().map(|tile| tile.0 + 1).max()? * tiles.across).min(tiles.width);
        let bottom = (later.iter().map(|tile| tile.1 + 1).max()? * tiles.down).min(tiles.height);
        let numbers = [left, top, right - left, bottom - top];
        if numbers == [0, 0, tiles.width, tiles.height] {
            return Some([None; 4]);
        }
        Some(numbers.map(|number| Some(number.into())))
    }

    /// Follows a line that the Rust has answered; tells whether this store would have answered so.
    pub fn agrees(
        &mut self,
        event: &Event,
        reply: &Reply,
        before: &[Tracked],
        after: &[Tracked],
    ) -> bool {
        if let Event::Take(take) = event {
            self.latest = Some(take.shape);
            let begins = reply.accepted() && tracking(before, take.id) != tracking(after, take.id);
            let refused = reply.outcome == Some(6);
            if (begins && take.records && self.is_full(take)) || (refused && !self.is_full(take)) {
                return false;
            }
        }
        if let Event::Plan(plan) = event
            && reply.accepted()
        {
            return self.copies(plan) == reply.entries;
        }
        match event {
            Event::Other(Call::Write(write)) => self.write(write),
            Event::Other(Call::Regen { id }) => self.regenerate(*id),
            _ => {}
        }
        self.follow(event, after);
        true
    }

    /// Whether what it counts is what the histories have, and each grid's tiling is its own; asked of a store without a fault.
    pub fn is_packed(&self) -> bool {
        let (mut grids, mut stamps) = (0, 0);
        for record in &self.records {
            if (record.first_grid, record.first_stamp) != (grids, stamps) {
                return false;
            }
            let (more, wide) = record.sizes();
            let placed = (0..more / 2).zip(self.tilings(&record.shape, stamps));
            for (at, tiling) in placed {
                if self.newest[grids + 2 * at + 1] != tiling {
                    return false;
                }
            }
            (grids, stamps) = (grids + more, stamps + wide);
        }
        (self.grids, self.used) == (grids, stamps)
    }
}

fn tracking(rows: &[Tracked], id: u64) -> Option<u64> {
    rows.iter().find(|row| row.id == id).map(|row| row.tracking)
}

/// Moves a part, or all of it but its last numbers. What a fault has past the end is left out.
fn move_part(store: &mut [u64], part: std::ops::Range<usize>, to: usize, less: usize) {
    let length = part.len().saturating_sub(less);
    let length = length.min(store.len().saturating_sub(part.start.max(to)));
    if length > 0 {
        store.copy_within(part.start..part.start + length, to);
    }
}

fn fill_part(store: &mut [u64], part: std::ops::Range<usize>) {
    let end = part.end.min(store.len());
    store[part.start.min(end)..end].fill(0);
}

fn put(store: &mut [u64], at: usize, number: u64) {
    if let Some(place) = store.get_mut(at) {
        *place = number;
    }
}

fn get(store: &[u64], at: usize) -> u64 {
    store.get(at).copied().unwrap_or(0)
}
