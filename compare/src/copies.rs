//! Counts the bytes of a copy, from the text of document 02's W-203: the Rust has no such function.
//!
//! "The bytes of a copy are therefore the blocks that its texels in the level touch, at all depths, times the block's bytes."

use crate::refusal::Refusal;
use crate::shape::{BLOCKS, RawShape};
use crate::texture_versions::TexelRect;

/// Holds a shape's six numbers, before anyone has looked whether it is one.
#[derive(Clone, Copy, Debug, PartialEq, Eq)]
pub struct Shape {
    pub format: u64,
    pub width: u64,
    pub height: u64,
    pub depth: u64,
    pub levels: u64,
    pub kind: u64,
}

/// Holds a copy's box; each number may be any, so the box may begin and end outside the level.
#[derive(Clone, Copy, Debug, PartialEq, Eq)]
pub struct Region {
    pub x: u64,
    pub y: u64,
    pub width: u64,
    pub height: u64,
}

/// Counts the bytes of a copy of a shape's level, in a box or whole: `bytes`, or a wrong one in the tests.
pub type CopyBytes = fn(&Shape, u64, Option<&Region>) -> Result<u64, Refusal>;

/// Returns the bytes of a copy: "shape, level, box or whole ..; 0 if the shape lacks the level; 2 alone refuses" (01).
pub fn bytes(shape: &Shape, level: u64, region: Option<&Region>) -> Result<u64, Refusal> {
    Refusal::BadShape.when(shape.is_bad())?;
    if level >= shape.levels {
        return Ok(0);
    }
    let (edge, block_bytes) = BLOCKS[shape.format as usize];
    let across = region.map(|region| (region.x, region.width));
    let down = region.map(|region| (region.y, region.height));
    let columns = blocks_touched(level_extent(shape.width, level), edge, across);
    let rows = blocks_touched(level_extent(shape.height, level), edge, down);
    Ok(columns * rows * depths(shape, level) * block_bytes)
}

/// Walks the level's block lines along one axis and counts the blocks that hold one of the copy's texels in the level.
///
/// Goes from texel to texel in place of working with first and last block, so that it shares no rounding with what is held to it.
fn blocks_touched(extent: u64, edge: u64, side: Option<(u64, u64)>) -> u64 {
    let mut touched = 0;
    let mut line = 0;
    while line < extent {
        let mut texels = (line..line + edge).filter(|texel| *texel < extent);
        if texels.any(|texel| is_copied(texel, side)) {
            touched += 1;
        }
        line += edge;
    }
    touched
}

/// Says whether a texel of the level is the copy's, along one axis: in 128 bits, where a caller's sum can't wrap around.
fn is_copied(texel: u64, side: Option<(u64, u64)>) -> bool {
    side.is_none_or(|(first, length)| {
        let end = u128::from(first) + u128::from(length);
        texel >= first && u128::from(texel) < end
    })
}

/// Returns a level's extent: "(base, at least 1) shifted right by the level, at least 1" (01). No shape has a level past 14.
fn level_extent(base: u64, level: u64) -> u64 {
    (base.max(1) >> level).max(1)
}

/// Returns the depths of a level: "depth (volumes only)" (01), a level extent like the two others.
fn depths(shape: &Shape, level: u64) -> u64 {
    if shape.kind == 2 {
        level_extent(shape.depth, level)
    } else {
        1
    }
}

impl Shape {
    /// Says whether the shape is refused: "width or height over 16,384, depth over 2,048, levels not 1 to 15, kind not 0 to 2, format not
    /// 0 to 8" (01).
    const fn is_bad(&self) -> bool {
        self.width > 16_384
            || self.height > 16_384
            || self.depth > 2_048
            || self.levels < 1
            || self.levels > 15
            || self.kind > 2
            || self.format > 8
    }
}

impl From<&RawShape> for Shape {
    fn from(shape: &RawShape) -> Self {
        Self {
            format: shape.format,
            width: shape.width.into(),
            height: shape.height.into(),
            depth: shape.depth.into(),
            levels: shape.levels.into(),
            kind: shape.kind,
        }
    }
}

impl From<&TexelRect> for Region {
    fn from(rect: &TexelRect) -> Self {
        Self {
            x: rect.x().into(),
            y: rect.y().into(),
            width: rect.width().into(),
            height: rect.height().into(),
        }
    }
}
