//! Looks into the published module: a child of it, so that it sees the private fields and functions.
//!
//! Nothing here changes a pool but the two setters at the end, which only tests call.

use super::{
    DESTROY_SPREAD_DRAINS, MIN_DESTROYS_PER_DRAIN, Retiring, StampGrid, TexelRect, TextureVersions,
    UploadFootprint, VersionShape, VersionState, WriteHistory,
};
use crate::shape::RawShape;
use crate::standins::TextureId;
use crate::standins::mtl::{PixelFormat, TextureCreateFlags};

pub fn level_extent(base: u32, level: u32) -> u32 {
    super::level_extent(base, level)
}

pub fn tile_edge(extent: u32, block: u32) -> u32 {
    super::tile_edge(extent, block)
}

/// How many tiles a grid has along an axis of `extent` texels in a format with blocks of 1 or 4.
pub fn tiles(extent: u32, block: u32) -> u32 {
    let format = if block == 1 {
        PixelFormat::Texel1
    } else {
        PixelFormat::Block8
    };
    StampGrid::new(extent, 1, format.block_layout()).columns
}

/// One level's grid of stamps, on its own.
pub struct Grid(StampGrid);

impl Grid {
    pub fn new(format: PixelFormat, width: u32, height: u32) -> Self {
        Self(StampGrid::new(width, height, format.block_layout()))
    }

    pub fn stamp(&mut self, rect: &TexelRect, stamp: u64) {
        self.0.stamp(rect, stamp);
    }

    pub fn newest(&self) -> u64 {
        self.0.newest
    }

    pub fn written_since(&self, held: u64) -> Option<TexelRect> {
        self.0.written_since(held)
    }
}

/// How a pool stands to a texture of a shape.
#[derive(PartialEq, Eq)]
pub enum Tracking {
    Untracked,
    SameShape,
    OtherShape,
}

pub fn tracking<V>(pool: &TextureVersions<V>, id: TextureId, shape: &VersionShape) -> Tracking {
    match pool.textures.get(&id) {
        None => Tracking::Untracked,
        Some(state) if state.shape == *shape => Tracking::SameShape,
        Some(_) => Tracking::OtherShape,
    }
}

/// Textures tracked, with or without spares.
pub fn tracked<V>(pool: &TextureVersions<V>) -> usize {
    pool.textures.len()
}

/// Trackings begun so far: 0 when the pool is new.
pub fn trackings<V>(pool: &TextureVersions<V>) -> u64 {
    pool.next_epoch - 1
}

/// Grids of all histories, one for each slice and level.
pub fn grids_used<V>(pool: &TextureVersions<V>) -> u64 {
    histories(pool)
        .map(|history| history.grids.len() as u64)
        .sum()
}

/// Stamps of all histories, as many as the Rust has memory for.
pub fn stamps_used<V>(pool: &TextureVersions<V>) -> u64 {
    histories(pool).map(stamps).sum()
}

/// Stamps of the texture's history, if it has one.
pub fn stamps_of<V>(pool: &TextureVersions<V>, id: TextureId) -> u64 {
    history(pool, id).map_or(0, stamps)
}

fn histories<V>(pool: &TextureVersions<V>) -> impl Iterator<Item = &WriteHistory> {
    let textures = pool.textures.values();
    textures.filter_map(|state| state.history.as_ref())
}

fn stamps(history: &WriteHistory) -> u64 {
    let grids = history.grids.iter();
    grids.map(|grid| grid.stamps.len() as u64).sum()
}

/// A tracked texture: its id, the number of its tracking, the stamps of its history if it has one.
pub struct Tracked {
    pub id: u64,
    pub tracking: u64,
    pub stamps: Option<u64>,
    pub grids: u64,
}

/// The tracked textures in ascending id.
pub fn all_tracked<V>(pool: &TextureVersions<V>) -> Vec<Tracked> {
    let row = |(id, state): (&TextureId, &VersionState<V>)| Tracked {
        id: id.raw(),
        tracking: state.epoch,
        stamps: state.history.as_ref().map(stamps),
        grids: (state.history.as_ref()).map_or(0, |history| history.grids.len() as u64),
    };
    pool.textures.iter().map(row).collect()
}

/// The shapes of the textures that have a history, with the stamps of these.
pub fn shapes<V>(pool: &TextureVersions<V>) -> Vec<(RawShape, u64)> {
    let textures = pool.textures.values();
    let held = textures.filter_map(|state| Some((&state.shape, state.history.as_ref()?)));
    held.map(|(shape, history)| (raw_shape(shape), stamps(history)))
        .collect()
}

/// A shape without what is only compared.
fn raw_shape(shape: &VersionShape) -> RawShape {
    let numbers = shape_numbers(shape);
    RawShape {
        format: numbers[0],
        width: shape.width,
        height: shape.height,
        depth: shape.depth,
        levels: shape.levels,
        kind: numbers[5],
        compared: [0; 6],
    }
}

/// Versions in the queue, among the spares and in the destroy queue: all but the one in the hand.
pub fn versions<V>(pool: &TextureVersions<V>) -> usize {
    let spares: usize = pool.textures.values().map(|state| state.spares.len()).sum();
    pool.retiring.len() + spares + pool.doomed.len()
}

/// The submission under which the last version still queued retired.
pub fn last_queued<V>(pool: &TextureVersions<V>) -> Option<u64> {
    pool.retiring.back().map(|entry| entry.seq)
}

fn history<V>(pool: &TextureVersions<V>, id: TextureId) -> Option<&WriteHistory> {
    pool.textures.get(&id)?.history.as_ref()
}

/// Writes counted in the texture's history, if it has one.
pub fn writes<V>(pool: &TextureVersions<V>, id: TextureId) -> Option<u64> {
    Some(history(pool, id)?.writes)
}

/// Whether the texture has a history and the history that slice and level.
pub fn in_history<V>(pool: &TextureVersions<V>, id: TextureId, slice: u32, level: u32) -> bool {
    history(pool, id).is_some_and(|history| slice < history.slices && level < history.levels)
}

/// Whether a plan for the shape leaves out a level because the upload covers it.
pub fn skips_covered(shape: &VersionShape, upload: &UploadFootprint) -> bool {
    upload.full_cover && upload.slice < shape.slices() && upload.level < shape.levels
}

/// A retiring version's texture and view number: the Rust tells the latter alone.
pub fn name(entry: &Retiring<u64>) -> (u64, u64) {
    (entry.id.raw(), entry.views)
}

/// How many versions `take_doomed` would hand out now, by its own rule on a copy of its counts.
pub fn next_batch<V>(pool: &TextureVersions<V>) -> usize {
    let mut arrivals = pool.doomed_arrivals;
    arrivals[pool.arrival_slot] = pool.doomed_since_take;
    let rate = arrivals
        .iter()
        .sum::<usize>()
        .div_ceil(DESTROY_SPREAD_DRAINS);
    let waiting = pool.doomed.len();
    let paced = rate + waiting.div_ceil(DESTROY_SPREAD_DRAINS);
    let mut batch = MIN_DESTROYS_PER_DRAIN.max(paced).min(waiting);
    let mut covered: u64 = pool.doomed.iter().take(batch).map(|entry| entry.1).sum();
    while covered < pool.relieve_bytes && batch < waiting {
        covered += pool.doomed[batch].1;
        batch += 1;
    }
    batch
}

/// A grid: its newest stamp, its tiles' width and height, and its stamps.
pub struct GridRow {
    pub newest: u64,
    pub tile: [u64; 2],
    pub stamps: Vec<u64>,
}

/// A spare: its view number, its held writes if known, its parking number.
pub type SpareRow = (u64, Option<u64>, u64);

/// What the pool knows of one texture, as numbers.
pub struct TextureRow {
    pub id: u64,
    /// Format, width, height, depth, levels, kind, storage, usage, swizzle.
    pub shape: [u64; 12],
    pub tracking: u64,
    /// The write count and the grids, slice by slice and level by level.
    pub history: Option<(u64, Vec<GridRow>)>,
    pub birth: u64,
    pub rename: u64,
    pub due: u64,
    pub bytes: u64,
    /// The oldest first.
    pub spares: Vec<SpareRow>,
}

/// The textures in ascending id.
pub fn textures(pool: &TextureVersions<u64>) -> Vec<TextureRow> {
    let row = |(id, state): (&TextureId, &VersionState<u64>)| TextureRow {
        id: id.raw(),
        shape: shape_numbers(&state.shape),
        tracking: state.epoch,
        history: (state.history.as_ref()).map(|history| {
            let grids = history.grids.iter();
            let rows = grids.map(|grid| GridRow {
                newest: grid.newest,
                tile: [grid.tile_width.into(), grid.tile_height.into()],
                stamps: grid.stamps.to_vec(),
            });
            (history.writes, rows.collect())
        }),
        birth: state.live_birth_seq,
        rename: state.last_rename_seq,
        due: due(pool, id.raw(), state.epoch),
        bytes: state.bytes,
        spares: (state.spares.iter())
            .map(|spare| (spare.views, spare.held_writes, spare.parked_seq))
            .collect(),
    };
    pool.textures.iter().map(row).collect()
}

/// Holds what a pool sheet (02, W-202) shows of a texture, but for the parked bytes, which are spares times bytes.
#[derive(Clone)]
pub struct SheetRow {
    pub id: u64,
    /// 0 flat, 1 cube, 2 volume: the Rust has two flags.
    pub kind: u64,
    pub levels: u64,
    pub spares: u64,
    /// Bytes of a version of the texture's shape.
    pub bytes: u64,
    /// The submission of its latest rename.
    pub rename: u64,
}

/// Returns a row for each tracked texture, in ascending id.
pub fn sheet_rows<V>(pool: &TextureVersions<V>) -> Vec<SheetRow> {
    let row = |(id, state): (&TextureId, &VersionState<V>)| {
        let shape = raw_shape(&state.shape);
        SheetRow {
            id: id.raw(),
            kind: shape.kind,
            levels: shape.levels.into(),
            spares: state.spares.len() as u64,
            bytes: state.bytes,
            rename: state.last_rename_seq,
        }
    };
    pool.textures.iter().map(row).collect()
}

fn due(pool: &TextureVersions<u64>, id: u64, epoch: u64) -> u64 {
    let mut dues = pool.idle.iter();
    let found = dues.find(|due| (due.1, due.2) == (id, epoch));
    found.expect("a tracked texture has a due number").0
}

fn shape_numbers(shape: &VersionShape) -> [u64; 12] {
    let kind = if shape.flags.contains(TextureCreateFlags::TYPE_CUBE) {
        1
    } else {
        u64::from(shape.flags.contains(TextureCreateFlags::TYPE_3D)) * 2
    };
    let swizzle = shape.swizzle.map(|channel| u64::from(channel.0));
    [
        shape.pixel_format as u64,
        shape.width.into(),
        shape.height.into(),
        shape.depth.into(),
        shape.levels.into(),
        kind,
        shape.storage_mode.0.into(),
        shape.usage.bits().into(),
        swizzle[0],
        swizzle[1],
        swizzle[2],
        swizzle[3],
    ]
}

/// A retired version: id, view number, submission, tracking number, birth, held writes, bytes.
pub fn retired(entry: &Retiring<u64>) -> [u64; 7] {
    [
        entry.id.raw(),
        entry.views,
        entry.seq,
        entry.epoch,
        entry.birth_seq,
        entry.held_writes,
        entry.bytes,
    ]
}

/// The queue, from its front on.
pub fn queue(pool: &TextureVersions<u64>) -> Vec<[u64; 7]> {
    pool.retiring.iter().map(retired).collect()
}

/// The destroy queue, from its front on: view numbers and bytes.
pub fn doomed(pool: &TextureVersions<u64>) -> Vec<[u64; 2]> {
    (pool.doomed.iter()).map(|(view, bytes)| [*view, *bytes]).collect()
}

/// Versions that arrived in the destroy queue since the last take, parked bytes, bytes to be destroyed, cap and line.
pub fn totals<V>(pool: &TextureVersions<V>) -> [u64; 5] {
    let budget = &pool.budget;
    [
        pool.doomed_since_take as u64,
        pool.parked_bytes,
        pool.doomed_bytes,
        budget.spare_cap,
        budget.pressure_above,
    ]
}

/// The pacing book: the eight arrivals, the slot, the mark, the excess.
pub fn book<V>(pool: &TextureVersions<V>) -> [u64; 11] {
    let mut numbers = [0; 11];
    for (number, arrivals) in numbers.iter_mut().zip(pool.doomed_arrivals) {
        *number = arrivals as u64;
    }
    numbers[8] = pool.arrival_slot as u64;
    numbers[9] = pool.pressed.into();
    numbers[10] = pool.relieve_bytes;
    numbers
}

/// Sets a history's write count, which no test could reach by writing. For tests of the refusal 12.
pub fn set_writes<V>(pool: &mut TextureVersions<V>, id: TextureId, writes: u64) {
    if let Some(state) = pool.textures.get_mut(&id)
        && let Some(history) = state.history.as_mut()
    {
        history.writes = writes;
    }
}

/// Sets the count of trackings begun. For tests of the refusal 12.
pub fn set_trackings<V>(pool: &mut TextureVersions<V>, trackings: u64) {
    pool.next_epoch = trackings + 1;
}
