//! Leaf questions: one call of a small function each, answered by the published code. The bytes of a copy, which it lacks, are answered by
//! `copies`; the tables of tile edges, which it lacks too, by its `tile_edge` at the extents of an entry.
//!
//! README.md has the grammar. A second program, in another language, answers the same questions, so the
//! words and the order of fields are fixed.

use crate::copies::{self, CopyBytes, Region, Shape};
use crate::event::{rect, shape};
use crate::format::mapping;
use crate::refusal::Refusal;
use crate::standins::mtl::{PixelFormat, TextureUsage};
use crate::text::{Fields, push_field, push_number};
use crate::texture_versions::inspect::{self, Grid};
use crate::texture_versions::{
    TexelRect, VersionBudget, VersionShape, records_every_write, upload_written_rect,
};

/// The deepest level that a shape can have.
const LAST_LEVEL: u32 = 14;

/// The largest extent of a level.
const WIDEST: u32 = 16_384;

/// The last index of a table of tile edges (02, W-204).
const LAST_ENTRY: u64 = 512;

/// How many extents have the same index.
const EXTENTS_OF_AN_ENTRY: u32 = 32;

/// An answer's fields: numbers, or "-" for no box.
type Answer = Vec<Option<u64>>;

/// Returns the tile edge along an axis of an extent, the first number, in blocks of an edge, the second.
pub type TileEdge<'a> = &'a dyn Fn(u32, u32) -> u32;

/// Returns an entry of a table of tile edges by the block's edge and the index, none if there is no such table or entry.
pub type TableEntry<'a> = &'a dyn Fn(u64, u64) -> Option<u32>;

/// Holds the functions that a test may replace by wrong ones, to see what the lists can tell.
#[derive(Clone, Copy)]
pub struct Functions<'a> {
    pub copy_bytes: CopyBytes,
    pub tile_edge: TileEdge<'a>,
    pub table_entry: TableEntry<'a>,
}

impl Functions<'_> {
    pub const RIGHT: Self = Self {
        copy_bytes: copies::bytes,
        tile_edge: &inspect::tile_edge,
        table_entry: &|block, index| table_entry(&inspect::tile_edge, block, index),
    };
}

/// Answers one question, with its line feed.
pub fn answer(line: &[u8], out: &mut Vec<u8>) {
    answer_by(&Functions::RIGHT, line, out);
}

/// Answers one question by the functions given.
pub fn answer_by(functions: &Functions, line: &[u8], out: &mut Vec<u8>) {
    match numbers(functions, line) {
        None => out.push(b'?'),
        Some(numbers) => {
            for (at, number) in numbers.into_iter().enumerate() {
                match (at, number) {
                    (0, Some(number)) => push_number(out, number),
                    (0, None) => out.push(b'-'),
                    (_, Some(number)) => push_field(out, number),
                    (_, None) => out.extend_from_slice(b",-"),
                }
            }
        }
    }
    out.push(b'\n');
}

/// The answer's fields, or none if the question is malformed.
fn numbers(functions: &Functions, line: &[u8]) -> Option<Answer> {
    let mut fields = Fields::new(line);
    let f = &mut fields;
    let answer = match f.next_field()? {
        b"level_extent" => level_extent(f)?,
        b"tile_edge" => along_axis(f, functions.tile_edge)?,
        b"tiles" => along_axis(f, inspect::tiles)?,
        b"table" => table(functions.table_entry, f)?,
        b"bytes" => of_shape(f, |shape| shape.bytes())?,
        b"slices" => of_shape(f, |shape| u64::from(shape.slices()))?,
        b"records" => records(f)?,
        b"upload" => upload(f)?,
        b"ongrid" => on_grid(f)?,
        b"grid" => grid(f)?,
        b"budget" => budget(f)?,
        b"copy" => copy(functions.copy_bytes, f)?,
        _ => return None,
    };
    fields.finish(answer)
}

fn level_extent(f: &mut Fields) -> Option<Answer> {
    let (base, level) = (f.next_u32()?, f.next_u32()?);
    let extent = (level <= LAST_LEVEL).then(|| inspect::level_extent(base, level))?;
    Some(vec![Some(u64::from(extent))])
}

/// A number that follows from an extent and a block's edge.
fn along_axis(f: &mut Fields, number: impl Fn(u32, u32) -> u32) -> Option<Answer> {
    let (extent, block) = (f.next_u32()?, f.next_u32()?);
    matches!(block, 1 | 4).then(|| vec![Some(u64::from(number(extent, block)))])
}

/// Reads both numbers with 64 bits: a larger one than the Rust has is a block or an index that is not there.
fn table(table_entry: TableEntry, f: &mut Fields) -> Option<Answer> {
    let (block, index) = (f.next_u64()?, f.next_u64()?);
    Some(vec![Some(u64::from(table_entry(block, index)?))])
}

/// Returns an entry of a block's table, "indexed by extent over 32 rounded up, with 513 entries from 0 to 512" (02, W-204): the tile edge
/// at the extents that have this index.
///
/// The Rust has no tables. Its edge at the first of these extents has to be that at the last one, or it has no such table either.
pub fn table_entry(tile_edge: TileEdge, block: u64, index: u64) -> Option<u32> {
    if !matches!(block, 1 | 4) || index > LAST_ENTRY {
        return None;
    }
    let (block, index) = (block as u32, index as u32);
    let last = EXTENTS_OF_AN_ENTRY * index;
    // Is the last one again, 0, in entry 0.
    let first = last.saturating_sub(EXTENTS_OF_AN_ENTRY - 1);
    let edge = tile_edge(last, block);
    assert_eq!(
        tile_edge(first, block),
        edge,
        "block {block}: the edges at {first} and {last} differ"
    );
    Some(edge)
}

fn of_shape(f: &mut Fields, number: impl Fn(&VersionShape) -> u64) -> Option<Answer> {
    let desc = shape(f)?.desc();
    Some(accepted_or_2(desc, |desc| {
        vec![number(&VersionShape::of(&desc))]
    }))
}

fn records(f: &mut Fields) -> Option<Answer> {
    let desc = shape(f)?.desc();
    let usage = TextureUsage::from_bits(f.next_u32()?);
    Some(accepted_or_2(desc, |desc| {
        vec![u64::from(records_every_write(&desc, usage))]
    }))
}

fn upload(f: &mut Fields) -> Option<Answer> {
    let format = f.next_or_none()?.map(PixelFormat::numbered);
    let (rect, extent) = (rect(f)?, (f.next_u32()?, f.next_u32()?));
    if format == Some(None) {
        return Some(vec![Some(Refusal::BadShape.number())]);
    }
    let format = format.flatten().map(mapping::of_format);
    let written = upload_written_rect(rect, extent, format.as_ref());
    let mut answer = vec![Some(0)];
    answer.extend(sides(&written));
    Some(answer)
}

fn on_grid(f: &mut Fields) -> Option<Answer> {
    let format = PixelFormat::numbered(f.next_u64()?);
    let origin = (f.next_u32()?, f.next_u32()?);
    let size = (f.next_u32()?, f.next_u32()?);
    let extent = (f.next_u32()?, f.next_u32()?);
    Some(accepted_or_2(format, |format| {
        let mapping = mapping::of_format(format);
        vec![u64::from(mapping.rect_on_block_grid(origin, size, extent))]
    }))
}

/// Whether a rectangle lies on the grid of blocks of `edge` by `edge` texels, by the published rule. No question asks it, since a
/// format's edge is 1 or 4.
#[must_use]
pub const fn on_grid_of_blocks(edge: u32, rect: [u32; 4], extent: (u32, u32)) -> bool {
    let [x, y, width, height] = rect;
    mapping::of_block(edge).rect_on_block_grid((x, y), (width, height), extent)
}

fn grid(f: &mut Fields) -> Option<Answer> {
    let format = PixelFormat::numbered(f.next_u64()?)?;
    let (width, height) = (f.next_u32()?, f.next_u32()?);
    let held = f.next_u64()?;
    let lengths = 1..=WIDEST;
    if !lengths.contains(&width) || !lengths.contains(&height) {
        return None;
    }
    let mut grid = Grid::new(format, width, height);
    let mut stamp = 0;
    while stamp == 0 || !f.is_finished() {
        stamp += 1;
        grid.stamp(&rect(f)?, stamp);
    }
    let mut answer = vec![Some(grid.newest())];
    match grid.written_since(held) {
        None => answer.push(None),
        Some(dirty) => answer.extend(sides(&dirty)),
    }
    Some(answer)
}

fn budget(f: &mut Fields) -> Option<Answer> {
    let budget = VersionBudget::from_working_set(f.next_u64()?);
    Some(vec![
        Some(budget.spare_cap()),
        Some(budget.pressure_above()),
        Some(budget.resume_below()),
    ])
}

/// Reads all numbers with 64 bits: a shape with a larger one than the Rust has is a bad one, no malformed line.
fn copy(copy_bytes: CopyBytes, f: &mut Fields) -> Option<Answer> {
    let shape = Shape {
        format: f.next_u64()?,
        width: f.next_u64()?,
        height: f.next_u64()?,
        depth: f.next_u64()?,
        levels: f.next_u64()?,
        kind: f.next_u64()?,
    };
    let level = f.next_u64()?;
    let region = match f.next_or_none()? {
        None => None,
        Some(x) => Some(Region {
            x,
            y: f.next_u64()?,
            width: f.next_u64()?,
            height: f.next_u64()?,
        }),
    };
    Some(match copy_bytes(&shape, level, region.as_ref()) {
        Ok(bytes) => vec![Some(0), Some(bytes)],
        Err(refusal) => vec![Some(refusal.number())],
    })
}

/// 0 and the numbers of what there is, or the refusal 2 where there is nothing.
fn accepted_or_2<T>(what: Option<T>, numbers: impl Fn(T) -> Vec<u64>) -> Answer {
    match what {
        None => vec![Some(Refusal::BadShape.number())],
        Some(what) => [0].into_iter().chain(numbers(what)).map(Some).collect(),
    }
}

/// Left, top, width and height.
fn sides(rect: &TexelRect) -> [Option<u64>; 4] {
    [rect.x(), rect.y(), rect.width(), rect.height()].map(|number| Some(u64::from(number)))
}
