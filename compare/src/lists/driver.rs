//! Renames as a caller makes them, following the answers: the plan uses the held writes of the taken spare, a
//! retired version has the view number under which it was live, submissions settle with a lag and some fail.

use super::List;
use super::texture::{self, Texture};
use crate::replies::Reply;
use crate::shape::RawShape;

/// The largest submission.
pub const MOST: u64 = 1 << 48;

/// A caller between two calls.
pub struct Driver<'d, 'a> {
    pub list: &'d mut List<'a>,
    pub textures: Vec<Texture>,
    /// The submission being built, the last that has settled, the highest that has failed (0 if none).
    pub now: u64,
    pub settled: u64,
    pub failed: u64,
    /// A version was popped and not parked.
    pub hand: bool,
    /// A retirement was out of order: a very large number stands in the queue.
    stuck: bool,
    next_view: u64,
    /// Levels that a rename covered and that are still to be written: texture, slice, level.
    owed: Vec<(usize, u32, u32)>,
}

impl<'d, 'a> Driver<'d, 'a> {
    /// Opens the pool. Each texture's live version gets a view number of its own.
    pub fn open(list: &'d mut List<'a>, working_set: u64, textures: Vec<Texture>) -> Self {
        list.say(format!("open,{working_set}").as_bytes());
        let next_view = list.random.next() >> list.random.within(1, 60);
        let now = list.random.one_of(&[0, 1, 10, 200, MOST / 2]);
        let mut driver = Self {
            list,
            textures,
            now,
            settled: now,
            failed: 0,
            hand: false,
            stuck: false,
            next_view,
            owed: Vec::new(),
        };
        for at in 0..driver.textures.len() {
            driver.textures[at].live = driver.fresh_view();
        }
        driver
    }

    pub fn say(&mut self, line: &str) -> Reply {
        self.list.say(line.as_bytes())
    }

    pub fn once_in(&mut self, many: u64) -> bool {
        self.list.random.once_in(many)
    }

    pub fn below(&mut self, end: u64) -> u64 {
        self.list.random.below(end)
    }

    /// A view number that no version has.
    pub fn fresh_view(&mut self) -> u64 {
        self.next_view += 1;
        self.next_view
    }

    /// One of the textures, the first three more often than others.
    pub fn any(&mut self) -> usize {
        let most = self.textures.len() as u64;
        let end = if self.once_in(2) { most.min(3) } else { most };
        self.below(end) as usize
    }

    /// The submission being built, rarely another number.
    pub fn submission(&mut self) -> u64 {
        let now = self.now;
        match self.below(400) {
            0 => MOST + self.below(3),
            1 => now + self.below(130),
            2..=6 => now.saturating_sub(self.below(12)),
            _ => now,
        }
    }

    /// Take, plan and retire in a row, as far as they are accepted.
    pub fn rename(&mut self, at: usize) -> bool {
        let (id, shape) = (self.textures[at].id, self.textures[at].shape);
        let records = u64::from(self.textures[at].records);
        let seq = self.submission();
        let taken = self.say(&format!("take,{id},{shape},{records},{seq}"));
        if !taken.accepted() {
            return false;
        }
        let view = taken.field(0).unwrap_or_else(|| self.fresh_view());
        let held = taken
            .field(1)
            .map_or("-".to_string(), |held| held.to_string());
        let (slice, level) = texture::place(&mut self.list.random, &shape);
        let calm = self.textures[at].calm;
        let covers = self.once_in(if calm { 20 } else { 3 });
        let cover = u64::from(covers);
        let planned = self.say(&format!("plan,{id},{held},{slice},{level},{cover}"));
        if !planned.accepted() {
            return false;
        }
        let (live, seq) = (self.textures[at].live, self.submission());
        let retired = self.say(&format!("retire,{id},{live},{seq}"));
        self.stuck |= retired.outcome == Some(8);
        if !retired.accepted() {
            return false;
        }
        self.textures[at].live = view;
        if covers {
            self.owed.push((at, slice, level));
            if !self.once_in(6) {
                self.write_owed();
            }
        }
        true
    }

    /// The next rename has this texture in another shape: its live version is then another one.
    pub fn reshape(&mut self, at: usize, most: u32) {
        let all = self.list.limits.stamps();
        let own = self.textures[at].shape.stamps();
        let stamps = if self.once_in(4) { all } else { own };
        let shape = texture::shape(&mut self.list.random, most, stamps);
        self.give_shape(at, shape);
    }

    /// The texture has that shape from here on, and a live version of it.
    pub fn give_shape(&mut self, at: usize, shape: RawShape) {
        self.textures[at].writes = 0;
        self.textures[at].shape = shape;
        self.textures[at].live = self.fresh_view();
        self.owed.retain(|owed| owed.0 != at);
    }

    /// Writes the level that the latest unfinished rename covered, if there is one.
    pub fn write_owed(&mut self) {
        let Some((at, slice, level)) = self.owed.pop() else {
            return;
        };
        let (width, height) = self.textures[at].shape.level(level);
        let beyond = if self.once_in(8) {
            self.below(1 << 31)
        } else {
            0
        };
        let (width, height) = (u64::from(width) + beyond, u64::from(height) + beyond);
        let id = self.textures[at].id;
        self.say(&format!("write,{id},{slice},{level},0,0,{width},{height}"));
    }

    /// Writes somewhere, rarely outside the shape.
    pub fn write(&mut self, at: usize) {
        let shape = self.textures[at].shape;
        let (mut slice, mut level) = texture::place(&mut self.list.random, &shape);
        match self.below(300) {
            0 => slice = shape.slices() + self.below(2) as u32,
            1 => level = shape.levels,
            _ => {}
        }
        let [x, y, width, height] = texture::rect(&mut self.list.random, &self.textures[at], level);
        let id = self.textures[at].id;
        self.textures[at].writes += 1;
        self.say(&format!(
            "write,{id},{slice},{level},{x},{y},{width},{height}"
        ));
    }

    pub fn regen(&mut self, at: usize) {
        let id = self.textures[at].id;
        self.textures[at].writes += 1;
        self.say(&format!("regen,{id}"));
    }

    pub fn forget(&mut self, at: usize) {
        let id = self.textures[at].id;
        self.textures[at].writes = 0;
        self.say(&format!("forget,{id}"));
    }

    /// Some submissions end, some settle, and rarely one of those has failed.
    pub fn submit(&mut self, count: u64) {
        self.now += count;
        let lag = self.list.random.below(9);
        let settled = self.now.saturating_sub(lag).max(self.settled);
        if settled > self.settled && self.once_in(12) {
            self.failed = self.list.random.within(self.settled + 1, settled);
        }
        self.settled = settled;
    }

    /// Pops one version; tells whether there was one.
    pub fn pop(&mut self) -> bool {
        let settled = match self.below(300) {
            0 => MOST + self.below(2),
            1 => self.now,
            _ if self.stuck => MOST,
            _ => self.settled,
        };
        let popped = self.say(&format!("pop,{settled}"));
        let found = popped.accepted() && popped.field(0).is_some();
        self.hand |= found;
        self.stuck &= found;
        found
    }

    /// Parks what was popped.
    pub fn park(&mut self) {
        let failed = match self.below(40) {
            0 => self.now.saturating_sub(self.below(10)),
            1 => 0,
            _ => self.failed,
        };
        let now = self.submission();
        if self.say(&format!("park,{failed},{now}")).accepted() {
            self.hand = false;
        }
    }

    /// Pops and parks until nothing is settled, or rarely stops with a version in the hand.
    pub fn settle(&mut self) {
        if self.hand {
            self.park();
        }
        while self.pop() {
            if self.once_in(100) {
                return;
            }
            self.park();
        }
    }
}
