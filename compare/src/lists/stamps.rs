//! Histories that fill the lent stamps to the last one, and pass them by one. Trackings begin, are renewed, lose their history and
//! end between others, which are read afterwards.

use super::List;
use super::driver::{Driver, MOST};
use super::sized;
use super::texture::{self, Texture};
use crate::shape::RawShape;

/// What the answers tell of a texture.
#[derive(Clone, Copy, Default)]
struct Held {
    tracked: bool,
    /// Stamps of its history: 0 if it has none.
    stamps: u64,
}

/// A caller who knows how many stamps are free.
struct Packing<'d, 'a> {
    driver: Driver<'d, 'a>,
    /// One for each of the driver's textures.
    held: Vec<Held>,
}

pub fn fill(list: &mut List) {
    let textures = textures(list);
    let held = vec![Held::default(); textures.len()];
    let working_set = list.random.one_of(&[0, 0, 0, 4_000_000]);
    let driver = Driver::open(list, working_set, textures);
    let mut packing = Packing { driver, held };
    while !packing.driver.list.is_full() {
        packing.step();
    }
}

/// A few more textures than there are places, whose ids are in no order.
fn textures(list: &mut List) -> Vec<Texture> {
    let count = list.limits.textures as u64 + 2;
    let mut ids: Vec<u64> = (1..count - 1).map(|number| number * 3).collect();
    ids.extend([0, u64::MAX]);
    for at in 1..ids.len() {
        let other = list.random.below(at as u64 + 1) as usize;
        ids.swap(at, other);
    }
    let texture = |id| Texture {
        id,
        shape: sized::ninety(&mut list.random),
        records: false,
        live: 0,
        writes: 0,
        calm: true,
    };
    ids.into_iter().map(texture).collect()
}

impl Packing<'_, '_> {
    fn step(&mut self) {
        match self.driver.below(40) {
            0..=4 => self.begin(),
            5..=12 => self.renew(),
            13 | 14 => self.drop_history(),
            15 | 16 => self.end(),
            17 => self.trim(),
            18 | 19 => self.fill_up(),
            20 if self.driver.once_in(2) => self.begin_ninety(),
            20..=30 => self.write_some(),
            31..=36 => self.rename(),
            37 => self.settle(),
            _ => {
                let count = self.driver.below(4);
                self.driver.submit(count);
            }
        }
    }

    fn free(&self) -> u64 {
        let used: u64 = self.held.iter().map(|held| held.stamps).sum();
        self.driver.list.limits.stamps().saturating_sub(used)
    }

    /// One of the textures for which it holds, if there is one.
    fn one(&mut self, holds: impl Fn(&Held) -> bool) -> Option<usize> {
        let found: Vec<usize> = (0..self.held.len())
            .filter(|at| holds(&self.held[*at]))
            .collect();
        if found.is_empty() {
            return None;
        }
        Some(found[self.driver.below(found.len() as u64) as usize])
    }

    /// One with a history, mostly one that stands between others.
    fn one_between(&mut self) -> Option<usize> {
        let mut found: Vec<usize> = (0..self.held.len())
            .filter(|at| self.held[*at].stamps > 0)
            .collect();
        found.sort_by_key(|at| self.driver.textures[*at].id);
        let all = found.len() as u64;
        match all {
            0 => None,
            1 | 2 => Some(found[self.driver.below(all) as usize]),
            _ if self.driver.once_in(5) => Some(found[self.driver.below(all) as usize]),
            _ => Some(found[1 + self.driver.below(all - 2) as usize]),
        }
    }

    /// Takes the texture, and notes what that made of its history.
    fn take(&mut self, at: usize, shape: RawShape, records: bool) -> Option<u64> {
        let (id, seq) = (self.driver.textures[at].id, self.driver.submission());
        let flag = u64::from(records);
        let taken = self.driver.say(&format!("take,{id},{shape},{flag},{seq}"));
        let same = self.held[at].tracked && shape == self.driver.textures[at].shape;
        if taken.accepted() && !same {
            let stamps = if records { shape.stamps() } else { 0 };
            self.held[at] = Held {
                tracked: true,
                stamps,
            };
            self.driver.give_shape(at, shape);
            self.driver.textures[at].records = records;
        }
        taken.outcome
    }

    /// A shape with that many stamps, or with about as many where no shape has so many.
    fn shape(&mut self, stamps: u64) -> RawShape {
        let random = &mut self.driver.list.random;
        sized::exactly(random, stamps).unwrap_or_else(|| sized::at_most(random, stamps))
    }

    /// A size for a history that has `room` stamps: often just these, or one more.
    fn size(&mut self, room: u64) -> u64 {
        let more = match self.driver.below(12) {
            0..=2 => room,
            3..=5 => room + 1,
            6 => room + 1 + self.driver.below(60),
            7 => 1,
            8 => 1 + self.driver.below(32),
            _ => 1 + self.driver.below(room.max(1)),
        };
        more.clamp(1, sized::MOST_STAMPS)
    }

    /// A tracking with a history begins, mostly between others.
    fn begin(&mut self) {
        let tracked = self.held.iter().filter(|held| held.tracked).count();
        if tracked >= self.driver.list.limits.textures && !self.driver.once_in(6) {
            return;
        }
        let Some(at) = self.one(|held| !held.tracked) else {
            return;
        };
        let room = self.free();
        let size = self.size(room);
        let shape = self.shape(size);
        let records = !self.driver.once_in(12);
        self.take(at, shape, records);
        self.read_some();
    }

    /// A tracking is renewed: by a smaller or a larger history, one of the same size, none, or one that is too large.
    fn renew(&mut self) {
        let Some(at) = self.one(|held| held.tracked) else {
            return;
        };
        let (own, free) = (self.held[at].stamps, self.free());
        let size = match self.driver.below(8) {
            0 | 1 if own > 0 => own,
            2 | 3 if own > 0 => 1 + self.driver.below(own),
            4 => own + 1 + self.driver.below(free.max(1)),
            _ => self.size(own + free),
        };
        let shape = self.shape(size.min(sized::MOST_STAMPS));
        let records = !self.driver.once_in(8);
        self.take(at, shape, records);
        self.read_some();
    }

    /// A write outside slices or levels drops a history.
    fn drop_history(&mut self) {
        let Some(at) = self.one_between() else { return };
        let (id, shape) = (self.driver.textures[at].id, self.driver.textures[at].shape);
        let (mut slice, mut level) = texture::place(&mut self.driver.list.random, &shape);
        if self.driver.once_in(2) {
            slice = shape.slices() + self.driver.below(2) as u32;
        } else {
            level = shape.levels + self.driver.below(2) as u32;
        }
        let dropped = self
            .driver
            .say(&format!("write,{id},{slice},{level},0,0,9,9"));
        if dropped.accepted() {
            self.held[at].stamps = 0;
        }
        self.read_some();
    }

    /// A tracking ends.
    fn end(&mut self) {
        let Some(at) = self.one_between() else { return };
        self.forget(at);
        self.read_some();
    }

    fn forget(&mut self, at: usize) {
        self.driver.forget(at);
        self.held[at] = Held::default();
    }

    /// Trackings end by their age, some of them between others that were renamed since.
    fn trim(&mut self) {
        let count = 119 + self.driver.below(5);
        self.driver.submit(count);
        for at in 0..self.held.len() {
            if self.held[at].tracked && self.driver.once_in(2) {
                let texture = &self.driver.textures[at];
                self.take(at, texture.shape, texture.records);
            }
        }
        let now = self.driver.now;
        self.driver.say(&format!("trim,{now}"));
        for at in 0..self.held.len() {
            self.look(at);
        }
    }

    /// Histories begin until no stamp is free, then one more is asked for.
    fn fill_up(&mut self) {
        for _ in 0..self.held.len() {
            let (Some(at), free) = (self.one(|held| !held.tracked), self.free()) else {
                break;
            };
            if free == 0 {
                break;
            }
            let part = match self.driver.below(3) {
                0 => free,
                1 => free.div_ceil(2),
                _ => free.div_ceil(4),
            };
            let shape = self.shape(part.min(sized::MOST_STAMPS));
            self.take(at, shape, true);
        }
        if let Some(at) = self.one(|held| held.tracked) {
            // A renewal takes what is left.
            let room = self.free() + self.held[at].stamps;
            for size in [room + 1, room] {
                let shape = self.shape(size.clamp(1, sized::MOST_STAMPS));
                self.take(at, shape, true);
            }
        }
        if let Some(at) = self.one(|held| !held.tracked) {
            let shape = self.shape(1 + self.free());
            self.take(at, shape, true);
        }
        self.write_some();
        self.read_some();
    }

    /// Cubes of fifteen levels with one stamp a grid, until one is refused: for want of stamps, or of places.
    fn begin_ninety(&mut self) {
        for at in 0..self.held.len() {
            if self.held[at].tracked {
                self.forget(at);
            }
        }
        let places = self.driver.list.limits.textures as u64;
        let count = 1 + self.driver.below(places);
        let part = match self.driver.below(4) {
            0 => 0,
            1 => 89,
            _ => self.driver.below(90),
        };
        let left = 90 * count + part;
        while let Some(at) = self.one(|held| !held.tracked) {
            if self.free() <= left || count == places {
                break;
            }
            let rest = (self.free() - left).min(sized::MOST_STAMPS);
            let shape = self.shape(rest);
            if self.take(at, shape, true) != Some(0) {
                break;
            }
        }
        while let Some(at) = self.one(|held| !held.tracked) {
            let shape = sized::ninety(&mut self.driver.list.random);
            if self.take(at, shape, true) != Some(0) {
                break;
            }
        }
        self.write_some();
        if self.driver.once_in(2) {
            self.drop_history();
        } else {
            self.end();
        }
        self.begin();
    }

    /// Writes into some of those that have a history.
    fn write_some(&mut self) {
        let count = 1 + self.driver.below(8);
        for _ in 0..count {
            let Some(at) = self.one(|held| held.stamps > 0) else {
                return;
            };
            if self.driver.once_in(8) {
                self.driver.regen(at);
            } else {
                self.write(at);
            }
        }
    }

    fn write(&mut self, at: usize) {
        let texture = &self.driver.textures[at];
        let random = &mut self.driver.list.random;
        let (slice, level) = texture::place(random, &texture.shape);
        let [x, y, width, height] = texture::rect(random, texture, level);
        let id = texture.id;
        self.driver.textures[at].writes += 1;
        let line = format!("write,{id},{slice},{level},{x},{y},{width},{height}");
        self.driver.say(&line);
    }

    /// A rename of one that is tracked: it begins nothing.
    fn rename(&mut self) {
        if let Some(at) = self.one(|held| held.tracked) {
            self.driver.rename(at);
        }
    }

    fn settle(&mut self) {
        self.driver.submit(1);
        self.driver.settle();
        let line = ["doomed", "drain", "note,0"][self.driver.below(3) as usize];
        self.driver.say(line);
    }

    /// Reads some of those that have a history, mostly right after another changed.
    fn read_some(&mut self) {
        if self.driver.once_in(4) {
            return;
        }
        for _ in 0..5 {
            if let Some(at) = self.one(|held| held.stamps > 0) {
                self.read(at);
            }
        }
    }

    /// The shape of the plans that follow, by a take that is refused: it begins nothing.
    fn say_shape(&mut self, id: u64, shape: &RawShape) {
        let late = MOST + 1;
        self.driver.say(&format!("take,{id},{shape},1,{late}"));
    }

    /// Plans of the texture as it is, with few and with more held writes.
    fn read(&mut self, at: usize) {
        let texture = &self.driver.textures[at];
        let (id, shape, writes) = (texture.id, texture.shape, texture.writes);
        self.say_shape(id, &shape);
        for back in [1 + self.driver.below(3), 1 + self.driver.below(12)] {
            let held = writes.saturating_sub(back);
            let (slice, level) = texture::place(&mut self.driver.list.random, &shape);
            let cover = u64::from(self.driver.once_in(8));
            let line = format!("plan,{id},{held},{slice},{level},{cover}");
            self.driver.say(&line);
        }
    }

    /// Finds out by plans whether the texture has a history still, and whether it is tracked.
    fn look(&mut self, at: usize) {
        if !self.held[at].tracked {
            return;
        }
        if self.held[at].stamps > 0 {
            self.read(at);
        }
        let (id, shape) = (self.driver.textures[at].id, self.driver.textures[at].shape);
        self.say_shape(id, &shape);
        // Nothing was written after so many writes, where writes are known.
        let none = self.driver.say(&format!("plan,{id},{},0,0,0", u64::MAX));
        if none.outcome.is_some() && none.field(0) != Some(0) {
            self.held[at].stamps = 0;
            let other = RawShape {
                format: (shape.format + 1) % 9,
                ..shape
            };
            self.say_shape(id, &other);
            let tracked = self.driver.say(&format!("plan,{id},-,0,0,1"));
            self.held[at].tracked = tracked.outcome == Some(4);
        }
    }
}
