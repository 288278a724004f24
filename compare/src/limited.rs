//! The published pool with document 01's limits: each call is looked at before it reaches the Rust.
//!
//! Every refusal is decided from the state before the call, in ascending order of number, so a refused
//! call leaves the Rust's state alone. Refusal 1 does not occur: the sizes are tested when the program starts.

use crate::refusal::Refusal;
use crate::shape::RawShape;
use crate::standins::TextureId;
use crate::stores::export::write_pool;
use crate::stores::memory::Memory;
use crate::texture_versions::inspect::{self, SheetRow, Tracking};
use crate::texture_versions::laws;
use crate::texture_versions::{
    PreserveCopy, Retiring, TexelRect, TextureVersions, UploadFootprint, VersionBudget,
    VersionShape,
};

/// The largest submission, write count and tracking count: 2^48.
pub const MOST: u64 = 1 << 48;

/// Stamps of a lent page.
pub const PAGE_STAMPS: u64 = 1_024;

/// How many places of each sort are lent.
#[derive(Clone, Copy)]
pub struct Limits {
    pub textures: usize,
    pub versions: usize,
    /// Pages of 1,024 stamps.
    pub pages: usize,
    /// Entries of an answer buffer.
    pub answers: usize,
}

/// What document 01's event program lends.
impl Default for Limits {
    fn default() -> Self {
        Self {
            textures: 8,
            versions: 64,
            pages: 6,
            answers: 90,
        }
    }
}

impl Limits {
    /// Stamps lent.
    pub const fn stamps(&self) -> u64 {
        PAGE_STAMPS * self.pages as u64
    }
}

/// A spare as `take_spare` hands it out: its view number, and its held writes if known.
pub type TakenSpare = (u64, Option<u64>);

/// The pool, the version in the hand (document 01 allows one) and the limits.
pub struct LimitedPool {
    pool: TextureVersions<u64>,
    /// The version popped and not yet parked.
    hand: Option<Retiring<u64>>,
    limits: Limits,
}

impl LimitedPool {
    pub fn new(working_set: u64, limits: Limits) -> Self {
        Self {
            pool: TextureVersions::new(VersionBudget::from_working_set(working_set)),
            hand: None,
            limits,
        }
    }

    /// The Rust's pool, for tests that set its counters.
    pub fn published(&mut self) -> &mut TextureVersions<u64> {
        &mut self.pool
    }

    pub fn take_spare(
        &mut self,
        id: u64,
        shape: &RawShape,
        records: bool,
        seq: u64,
    ) -> Result<Option<TakenSpare>, Refusal> {
        let asked = VersionShape::of(&shape.desc().ok_or(Refusal::BadShape)?);
        Refusal::BadSubmission.when(seq > MOST)?;
        let id = TextureId::from_raw(id);
        let tracking = inspect::tracking(&self.pool, id, &asked);
        let places_used = inspect::tracked(&self.pool) >= self.limits.textures;
        Refusal::TexturesFull.when(tracking == Tracking::Untracked && places_used)?;
        let begins = tracking != Tracking::SameShape;
        if begins && records {
            // "more stamps needed than free, the same id's own counted as free"
            let others = inspect::stamps_used(&self.pool) - inspect::stamps_of(&self.pool, id);
            Refusal::HistoryFull.when(shape.stamps() > self.limits.stamps() - others)?;
        }
        Refusal::CounterSpent.when(begins && inspect::trackings(&self.pool) >= MOST)?;
        let spare = self.pool.take_spare(id, asked, records, seq);
        Ok(spare.map(|spare| spare.into_parts()))
    }

    pub fn preserve_plan(
        &self,
        id: u64,
        shape: &RawShape,
        held: Option<u64>,
        upload: &UploadFootprint,
    ) -> Result<Vec<PreserveCopy>, Refusal> {
        let shape = VersionShape::of(&shape.desc().ok_or(Refusal::BadShape)?);
        let id = TextureId::from_raw(id);
        // Tested first: the Rust would look for grids that another shape does not have.
        let tracking = inspect::tracking(&self.pool, id, &shape);
        Refusal::OtherShape.when(tracking == Tracking::OtherShape)?;
        let plan = self.pool.preserve_plan(id, &shape, held, upload);
        Refusal::ShortAnswer.when(plan.len() > self.limits.answers)?;
        let skips = inspect::skips_covered(&shape, upload);
        Refusal::CounterSpent.when(skips && self.writes_spent(id))?;
        Ok(plan)
    }

    pub fn retire(&mut self, id: u64, view: u64, seq: u64) -> Result<(), Refusal> {
        Refusal::BadSubmission.when(seq > MOST)?;
        Refusal::VersionsFull.when(self.versions() >= self.limits.versions)?;
        let last = inspect::last_queued(&self.pool);
        Refusal::OutOfOrder.when(last.is_some_and(|last| seq < last))?;
        self.pool.retire(TextureId::from_raw(id), view, seq);
        Ok(())
    }

    pub fn note_write(
        &mut self,
        id: u64,
        slice: u32,
        level: u32,
        rect: &TexelRect,
    ) -> Result<(), Refusal> {
        let id = TextureId::from_raw(id);
        // A write outside the history drops it and counts nothing, whatever the count.
        let counts = inspect::in_history(&self.pool, id, slice, level);
        Refusal::CounterSpent.when(counts && self.writes_spent(id))?;
        self.pool.note_write(id, slice, level, rect);
        Ok(())
    }

    pub fn note_mip_regeneration(&mut self, id: u64) -> Result<(), Refusal> {
        let id = TextureId::from_raw(id);
        Refusal::CounterSpent.when(self.writes_spent(id))?;
        self.pool.note_mip_regeneration(id);
        Ok(())
    }

    /// The popped version's id and view number, if one had settled.
    pub fn pop_retired(&mut self, settled: u64) -> Result<Option<(u64, u64)>, Refusal> {
        Refusal::BadSubmission.when(settled > MOST)?;
        Refusal::HandFull.when(self.hand.is_some())?;
        self.hand = self.pool.pop_retired(settled);
        Ok(self.hand.as_ref().map(inspect::name))
    }

    pub fn park(&mut self, failed: u64, now: u64) -> Result<(), Refusal> {
        Refusal::BadSubmission.when(failed > MOST || now > MOST)?;
        let entry = self.hand.take().ok_or(Refusal::HandEmpty)?;
        self.pool.park(entry, failed, now);
        Ok(())
    }

    pub fn note_allocated(&mut self, allocated: u64) {
        self.pool.note_allocated(allocated);
    }

    pub fn take_doomed(&mut self) -> Result<Vec<u64>, Refusal> {
        let batch = inspect::next_batch(&self.pool);
        Refusal::ShortAnswer.when(batch > self.limits.answers)?;
        let taken = self.pool.take_doomed();
        assert_eq!(taken.len(), batch, "the batch foretold is not the Rust's");
        Ok(taken)
    }

    pub fn drain_versions(&mut self) -> Result<Vec<u64>, Refusal> {
        let count = inspect::versions(&self.pool);
        Refusal::ShortAnswer.when(count > self.limits.answers)?;
        let drained = self.pool.drain_versions();
        assert_eq!(drained.len(), count, "the count foretold is not the Rust's");
        Ok(drained)
    }

    pub fn trim(&mut self, now: u64) -> Result<(), Refusal> {
        Refusal::BadSubmission.when(now > MOST)?;
        self.pool.trim(now);
        Ok(())
    }

    pub fn forget_texture(&mut self, id: u64) {
        self.pool.forget_texture(TextureId::from_raw(id));
    }

    pub fn records_writes(&self, id: u64) -> bool {
        self.pool.records_writes(TextureId::from_raw(id))
    }

    /// The Rust has this and the next method for its own tests alone; they are two of its fields.
    pub fn parked_bytes(&self) -> u64 {
        inspect::totals(&self.pool)[1]
    }

    pub fn pending_destroy_bytes(&self) -> u64 {
        inspect::totals(&self.pool)[2]
    }

    /// Returns what a pool sheet shows of each texture, in ascending id.
    pub fn sheet_rows(&self) -> Vec<SheetRow> {
        inspect::sheet_rows(&self.pool)
    }

    /// The pool as memory in our layout, both rings begun at the places given.
    pub fn memory(&self, head: usize, first: usize) -> Memory {
        let limits = &self.limits;
        let mut memory = Memory::lent(limits.textures, limits.versions, limits.pages);
        let hand = self.hand.as_ref().map(inspect::retired);
        write_pool(&mut memory, &self.pool, hand, head, first);
        memory
    }

    /// The first of document 01's conditions on a pool that does not hold, the limits included.
    pub fn fault(&self) -> Option<&'static str> {
        if self.versions() > self.limits.versions {
            return Some("more versions than places");
        }
        if inspect::tracked(&self.pool) > self.limits.textures {
            return Some("more textures than places");
        }
        if inspect::stamps_used(&self.pool) > self.limits.stamps() {
            return Some("more stamps than lent");
        }
        if (inspect::shapes(&self.pool).iter()).any(|(shape, stamps)| shape.stamps() != *stamps) {
            return Some("a history has not the stamps that document 01 gives its shape");
        }
        laws::fault(&self.pool)
    }

    /// Version places used: the hand's is one of them.
    fn versions(&self) -> usize {
        inspect::versions(&self.pool) + usize::from(self.hand.is_some())
    }

    fn writes_spent(&self, id: TextureId) -> bool {
        inspect::writes(&self.pool, id).is_some_and(|writes| writes >= MOST)
    }
}
