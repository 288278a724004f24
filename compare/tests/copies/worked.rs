//! Works the bytes of a copy out from first and last blocks, in parts that a wrong function can alter one by one.

use compare::copies::{self, Region, Shape};
use compare::refusal::Refusal;

/// Returns a level's extent.
pub fn extent(base: u64, level: u64) -> u64 {
    (base.max(1) >> level).max(1)
}

/// Returns the edge and bytes of a format's block.
pub fn block(format: u64) -> (u64, u64) {
    let bytes = [1, 2, 4, 8, 16, 8, 16, 4, 8][format as usize];
    (if matches!(format, 5 | 6) { 4 } else { 1 }, bytes)
}

/// Returns the first texel and the end of a side in a level of so many texels.
pub fn cut(side: Option<(u64, u64)>, extent: u64) -> (u64, u64) {
    let (first, length) = side.unwrap_or((0, extent));
    let end = first.saturating_add(length).min(extent);
    (first.min(end), end)
}

/// Returns the blocks from the first texel's to the last one's.
pub fn blocks(first: u64, end: u64, edge: u64) -> u64 {
    if first < end {
        (end - 1) / edge - first / edge + 1
    } else {
        0
    }
}

/// Holds what a copy's bytes are worked out from, so that a wrong function alters one part of it.
pub struct Copy {
    pub format: u64,
    pub depths: u64,
    /// Has, along each axis, the level's extent and the side, none for the whole.
    pub axes: [(u64, Option<(u64, u64)>); 2],
}

impl Copy {
    /// Returns the bytes by blocks from first to last texel: the right function once more, worked out in another way.
    pub fn bytes(&self) -> u64 {
        self.bytes_by(|edge, extent, side| {
            let (first, end) = cut(side, extent);
            blocks(first, end, edge)
        })
    }

    /// Returns the bytes with the blocks along an axis counted by the function given.
    pub fn bytes_by(&self, count: impl Fn(u64, u64, Option<(u64, u64)>) -> u64) -> u64 {
        let (edge, bytes) = block(self.format);
        let [columns, rows] = self.axes.map(|(extent, side)| count(edge, extent, side));
        columns * rows * self.depths * bytes
    }

    /// Returns the texels in the level, at all depths.
    pub fn texels(&self) -> u64 {
        let [columns, rows] = self.axes.map(|(extent, side)| {
            let (first, end) = cut(side, extent);
            end - first
        });
        columns * rows * self.depths
    }
}

/// Refuses and answers 0 as the right function does, and has the rest worked out by the function given.
pub fn copied(
    shape: &Shape,
    level: u64,
    region: Option<&Region>,
    bytes: impl Fn(&Copy) -> u64,
) -> Result<u64, Refusal> {
    // Leaves the refusals to the right function.
    copies::bytes(shape, level, region)?;
    if level >= shape.levels {
        return Ok(0);
    }
    Ok(bytes(&parts(shape, level, region)))
}

pub fn parts(shape: &Shape, level: u64, region: Option<&Region>) -> Copy {
    let volume = shape.kind == 2;
    Copy {
        format: shape.format,
        depths: if volume {
            extent(shape.depth, level)
        } else {
            1
        },
        axes: [
            (
                extent(shape.width, level),
                region.map(|region| (region.x, region.width)),
            ),
            (
                extent(shape.height, level),
                region.map(|region| (region.y, region.height)),
            ),
        ],
    }
}
