//! Document 01's two books, kept beside a list of renames and the answers of a program: the plain book, and the
//! version book by view number. Demand 3 says that they agree about the live versions after every line.

mod texels;

use std::collections::{BTreeMap, BTreeSet};

use crate::event::{self, Call, Event, Plan, Take, Write};
use crate::replies::Reply;
use crate::texture_versions::TexelRect;
use texels::{Texels, UNKNOWN};

/// What is wrong.
#[derive(Debug, PartialEq, Eq)]
pub enum Fault {
    /// The answers break the demand, or name versions that are not there.
    Answers(String),
    /// The list is not one of renames with a view number of its own for each version, so it shows nothing.
    List(String),
}

/// Where a retired version is, as far as the answers tell.
#[derive(PartialEq, Eq)]
enum Stage {
    Queue,
    Hand,
    /// A spare, or in the destroy queue.
    Parked,
}

struct Retired {
    id: u64,
    texels: Texels,
    /// The submission of its texture's retirement before its own, 0 if none.
    before: u64,
    stage: Stage,
}

/// A rename that is under way, between two of its three calls.
enum Rename {
    None,
    Taken(Taken),
    Planned(Planned),
}

/// The version that a rename is to make live, after its take.
struct Taken {
    id: u64,
    held: Option<u64>,
    version: Texels,
}

/// The same after its plan.
struct Planned {
    id: u64,
    version: Texels,
    /// The slice and level that the plan skipped as covered.
    covered: Option<(u32, u32)>,
}

/// The plain book and the live version of one id, and the levels left out.
struct Texture {
    plain: Texels,
    live: Texels,
    left_out: BTreeSet<(u32, u32)>,
    /// The submission of its latest retirement. It stays when the books start anew.
    retired: u64,
}

pub struct Books {
    textures: BTreeMap<u64, Texture>,
    versions: BTreeMap<u64, Retired>,
    rename: Rename,
    /// The last number given to a write.
    writes: u64,
}

impl Default for Books {
    fn default() -> Self {
        Self {
            textures: BTreeMap::new(),
            versions: BTreeMap::new(),
            rename: Rename::None,
            writes: 0,
        }
    }
}

fn list_fault<T>(fault: &str) -> Result<T, Fault> {
    Err(Fault::List(fault.to_string()))
}

fn answer_fault<T>(fault: String) -> Result<T, Fault> {
    Err(Fault::Answers(fault))
}

impl Books {
    /// Books one line with its answer, and compares what it touched: nothing else has changed.
    pub fn step(&mut self, line: &[u8], reply: &Reply) -> Result<(), Fault> {
        // A line that calls nothing interrupts no rename.
        let (Some(event), Some(_)) = (event::parse(line), reply.outcome) else {
            return Ok(());
        };
        let rename = std::mem::replace(&mut self.rename, Rename::None);
        let touched = match (event, rename) {
            (Event::Open { .. }, Rename::None) => None,
            (Event::Take(take), Rename::None) => self.take(&take, reply)?,
            (Event::Plan(plan), Rename::Taken(taken)) => self.plan(&plan, taken, reply)?,
            (Event::Other(Call::Retire { id, view, seq }), Rename::Planned(planned)) => {
                if id != planned.id {
                    return list_fault("a retirement that is not of its rename");
                }
                if reply.accepted() {
                    self.retire(view, seq, planned)?;
                }
                Some(id)
            }
            (Event::Other(call), Rename::None) if !matches!(call, Call::Retire { .. }) => {
                self.other(call, reply)?
            }
            _ => return list_fault("take, plan and retire do not stand in a row"),
        };
        touched.map_or(Ok(()), |id| self.compare(id))
    }

    fn take(&mut self, take: &Take, reply: &Reply) -> Result<Option<u64>, Fault> {
        if !reply.accepted() {
            return Ok(None);
        }
        let (id, shape) = (take.id, take.shape);
        if self
            .textures
            .get(&id)
            .is_none_or(|book| book.plain.shape != shape)
        {
            let retired = self.textures.get(&id).map_or(0, |book| book.retired);
            let book = Texture {
                plain: Texels::new(shape, 0),
                live: Texels::new(shape, 0),
                left_out: BTreeSet::new(),
                retired,
            };
            self.textures.insert(id, book);
        }
        let version = match reply.field(0) {
            None => Texels::new(shape, UNKNOWN),
            Some(view) => match self.versions.remove(&view) {
                Some(spare) if spare.id != id || spare.texels.shape != shape => {
                    return answer_fault(format!("version {view} is of another texture or shape"));
                }
                Some(spare) if spare.stage == Stage::Parked => spare.texels,
                _ => return answer_fault(format!("version {view} was not parked")),
            },
        };
        let held = reply.field(1);
        self.rename = Rename::Taken(Taken { id, held, version });
        Ok(Some(id))
    }

    fn plan(&mut self, plan: &Plan, taken: Taken, reply: &Reply) -> Result<Option<u64>, Fault> {
        if (plan.id, plan.held) != (taken.id, taken.held) {
            return list_fault("a plan that is not of its rename");
        }
        if !reply.accepted() {
            return Ok(None);
        }
        let (id, mut version) = (taken.id, taken.version);
        let book = &self.textures[&id];
        let mut copied = BTreeSet::new();
        for copy in &reply.entries {
            let Some((slice, level, rect)) = copy_of(copy, &version) else {
                return answer_fault("a copy that its shape does not have".to_string());
            };
            version.copy(&book.live, slice, level, &rect);
            copied.insert((slice, level));
        }
        let named = (plan.slice, plan.level);
        let skipped = plan.full_cover && version.has(named.0, named.1) && !copied.contains(&named);
        let covered = skipped.then_some(named);
        self.rename = Rename::Planned(Planned {
            id,
            version,
            covered,
        });
        Ok(None)
    }

    fn retire(&mut self, view: u64, seq: u64, planned: Planned) -> Result<(), Fault> {
        let id = planned.id;
        let book = self
            .textures
            .get_mut(&id)
            .expect("its take started the book");
        let retired = Retired {
            id,
            texels: std::mem::replace(&mut book.live, planned.version),
            before: std::mem::replace(&mut book.retired, seq),
            stage: Stage::Queue,
        };
        book.left_out.extend(planned.covered);
        if self.versions.insert(view, retired).is_some() {
            return list_fault("a view number that another version has");
        }
        Ok(())
    }

    /// The accepted calls that stand outside renames; tells which texture they touched.
    fn other(&mut self, call: Call, reply: &Reply) -> Result<Option<u64>, Fault> {
        if !reply.accepted() {
            return Ok(None);
        }
        match call {
            Call::Write(write) => Ok(self.write(&write)),
            Call::Regen { id } => {
                self.writes += 1;
                let number = self.writes;
                Ok(self.textures.get_mut(&id).map(|book| {
                    book.plain.regenerate(number);
                    book.live.regenerate(number);
                    id
                }))
            }
            Call::Pop { .. } => self.pop(reply),
            Call::Park { failed, .. } => self.park(failed),
            Call::Doomed => self.destroy(reply, |stage| *stage == Stage::Parked),
            Call::Drain => self.destroy(reply, |stage| *stage != Stage::Hand),
            Call::Retire { .. } | Call::Note { .. } | Call::Trim { .. } | Call::Forget { .. } => {
                Ok(None)
            }
        }
    }

    fn write(&mut self, write: &Write) -> Option<u64> {
        self.writes += 1;
        let book = self.textures.get_mut(&write.id)?;
        let (slice, level) = (write.slice, write.level);
        if !book.plain.has(slice, level) {
            return None;
        }
        book.plain.mark(slice, level, &write.rect, self.writes);
        book.live.mark(slice, level, &write.rect, self.writes);
        if texels::is_whole(book.plain.shape.level(level), &write.rect) {
            book.left_out.remove(&(slice, level));
        }
        Some(write.id)
    }

    fn pop(&mut self, reply: &Reply) -> Result<Option<u64>, Fault> {
        let (Some(id), Some(view)) = (reply.field(0), reply.field(1)) else {
            return Ok(None);
        };
        match self.versions.get_mut(&view) {
            Some(version) if version.id == id && version.stage == Stage::Queue => {
                version.stage = Stage::Hand;
                Ok(None)
            }
            _ => answer_fault(format!("version {view} of {id} was not in the queue")),
        }
    }

    fn park(&mut self, failed: u64) -> Result<Option<u64>, Fault> {
        let mut versions = self.versions.values_mut();
        let Some(version) = versions.find(|version| version.stage == Stage::Hand) else {
            return answer_fault("nothing was popped".to_string());
        };
        version.stage = Stage::Parked;
        if failed != 0 && failed >= version.before {
            version.texels.forget_all();
        }
        Ok(None)
    }

    /// The versions handed out to be destroyed, which must have been where the call takes them from.
    fn destroy(&mut self, reply: &Reply, from: fn(&Stage) -> bool) -> Result<Option<u64>, Fault> {
        for entry in &reply.entries {
            let view = entry.first().copied().flatten();
            let version = view.and_then(|view| self.versions.remove(&view));
            if !version.is_some_and(|version| from(&version.stage)) {
                return answer_fault(format!("version {view:?} is not there"));
            }
        }
        Ok(None)
    }

    /// Demand 3 for one id.
    fn compare(&self, id: u64) -> Result<(), Fault> {
        let Some(book) = self.textures.get(&id) else {
            return Ok(());
        };
        let shape = book.plain.shape;
        let places = (0..shape.slices())
            .flat_map(|slice| (0..shape.levels).map(move |level| (slice, level)));
        for (slice, level) in places.filter(|place| !book.left_out.contains(place)) {
            if let Some((x, y, [live, plain])) = book.live.difference(&book.plain, slice, level) {
                let live = if live == UNKNOWN {
                    "unknown".to_string()
                } else {
                    format!("write {live}")
                };
                return answer_fault(format!(
                    "texture {id}, slice {slice}, level {level}, texel {x}, {y}: the live version has {live}, \
                     the plain book write {plain}"
                ));
            }
        }
        Ok(())
    }
}

/// Slice, level and rectangle of a plan's entry, if the shape has them.
fn copy_of(entry: &[Option<u64>], version: &Texels) -> Option<(u32, u32, TexelRect)> {
    let [Some(slice), Some(level), rect @ ..] = entry else {
        return None;
    };
    let (slice, level) = (u32::try_from(*slice).ok()?, u32::try_from(*level).ok()?);
    if !version.has(slice, level) {
        return None;
    }
    let (width, height) = version.shape.level(level);
    let small = |number: &u64| u32::try_from(*number).ok();
    let rect = match rect {
        [None, None, None, None] => TexelRect::level(width, height),
        [Some(x), Some(y), Some(width), Some(height)] => {
            TexelRect::new(small(x)?, small(y)?, small(width)?, small(height)?)
        }
        _ => return None,
    };
    Some((slice, level, rect))
}
