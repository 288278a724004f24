//! Document 01's conditions on a pool, read over the published module's state: a child of it.
//!
//! The Rust keeps no stores, so only the conditions that have a counterpart there are looked at, and
//! those that the Rust's own comments promise. A fault means that 01 and the Rust disagree.

use std::collections::BTreeSet;

use super::{StampGrid, TextureVersions, VersionState};
use crate::standins::TextureId;

/// The largest count or submission.
const MOST: u64 = 1 << 48;

/// The most bytes that a version has.
const MOST_BYTES: u64 = 1 << 44;

/// The first condition that the pool does not meet, if there is one.
pub fn fault<V>(pool: &TextureVersions<V>) -> Option<&'static str> {
    for (id, state) in &pool.textures {
        if let Some(fault) = state_fault(pool, *id, state) {
            return Some(fault);
        }
    }
    totals_fault(pool).or_else(|| queues_fault(pool))
}

fn state_fault<V>(
    pool: &TextureVersions<V>,
    id: TextureId,
    state: &VersionState<V>,
) -> Option<&'static str> {
    if state.bytes != state.shape.bytes() || state.bytes > MOST_BYTES {
        return Some("a texture's bytes are not its shape's, or past 2^44");
    }
    if state.live_birth_seq > MOST || state.last_rename_seq > MOST {
        return Some("a texture's submission is past 2^48");
    }
    if state.epoch == 0 || state.epoch >= pool.next_epoch {
        return Some("a texture's tracking was not begun");
    }
    if state.spares.is_empty() == pool.with_spares.contains(&id) {
        return Some("the set of textures with spares is not what its name says");
    }
    let dues = pool
        .idle
        .iter()
        .filter(|due| (due.1, due.2) == (id.raw(), state.epoch));
    if dues.count() != 1 {
        return Some("a texture has not just one due number");
    }
    let history = state.history.as_ref()?;
    if history.writes > MOST {
        return Some("a write count is past 2^48");
    }
    let known = state.spares.iter().filter_map(|spare| spare.held_writes);
    if known.into_iter().any(|held| held > history.writes) {
        return Some("a spare holds more writes than its texture has");
    }
    history
        .grids
        .iter()
        .find_map(|grid| grid_fault(grid, history.writes))
}

fn grid_fault(grid: &StampGrid, writes: u64) -> Option<&'static str> {
    if grid.columns > 32 || grid.rows > 32 {
        return Some("a grid has more than 32 tiles along an axis");
    }
    if grid.stamps.len() as u64 != u64::from(grid.columns) * u64::from(grid.rows) {
        return Some("a grid has not as many stamps as tiles");
    }
    let largest = grid.stamps.iter().copied().max().unwrap_or(0);
    if largest > writes {
        return Some("a stamp is past its texture's write count");
    }
    (grid.newest != largest).then_some("a grid's newest is not its largest stamp")
}

fn totals_fault<V>(pool: &TextureVersions<V>) -> Option<&'static str> {
    let parked: u64 = pool
        .textures
        .values()
        .map(|state| state.bytes * state.spares.len() as u64)
        .sum();
    if pool.parked_bytes != parked {
        return Some("the parked bytes are not the sum of the spares' bytes");
    }
    if parked > pool.budget.spare_cap {
        return Some("the parked bytes are past the cap");
    }
    let doomed: u64 = pool.doomed.iter().map(|entry| entry.1).sum();
    if pool.doomed_bytes != doomed {
        return Some("the destroy queue's bytes are not the sum of its versions' bytes");
    }
    if pool.doomed.iter().any(|entry| entry.1 > MOST_BYTES) {
        return Some("a version's bytes are past 2^44");
    }
    None
}

fn queues_fault<V>(pool: &TextureVersions<V>) -> Option<&'static str> {
    if pool.doomed_since_take > pool.doomed.len() {
        return Some("more arrived since the last drain than wait in the destroy queue");
    }
    if pool.arrival_slot >= pool.doomed_arrivals.len() {
        return Some("the slot is not below 8");
    }
    if pool
        .doomed_arrivals
        .iter()
        .any(|arrivals| *arrivals > 4_096)
    {
        return Some("a drain's arrivals are past 4,096");
    }
    let submissions: Vec<u64> = pool.retiring.iter().map(|entry| entry.seq).collect();
    if !submissions.is_sorted() || submissions.last().is_some_and(|last| *last > MOST) {
        return Some("the queue is out of order, or past 2^48");
    }
    let dues: BTreeSet<(u64, u64)> = pool.idle.iter().map(|due| (due.1, due.2)).collect();
    (dues.len() != pool.idle.len()).then_some("a tracking has two due numbers")
}
