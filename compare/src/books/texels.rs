//! The numbers of one version, texel by texel.

use crate::shape::RawShape;
use crate::texture_versions::TexelRect;

/// A texel of which nothing is known. No write has this number.
pub const UNKNOWN: u64 = u64::MAX;

/// A number for each texel of each slice and level. In a volume a rectangle takes in every depth, so all depths
/// have the same numbers and one of them stands for all.
pub struct Texels {
    pub shape: RawShape,
    /// Slice by slice, level by level, each row by row.
    levels: Vec<Vec<u64>>,
}

impl Texels {
    pub fn new(shape: RawShape, number: u64) -> Self {
        let levels = (0..shape.slices())
            .flat_map(|_| 0..shape.levels)
            .map(|level| {
                let (width, height) = shape.level(level);
                vec![number; width as usize * height as usize]
            })
            .collect();
        Self { shape, levels }
    }

    pub fn has(&self, slice: u32, level: u32) -> bool {
        slice < self.shape.slices() && level < self.shape.levels
    }

    fn at(&self, slice: u32, level: u32) -> usize {
        (slice * self.shape.levels + level) as usize
    }

    /// Puts the number in the texels of a rectangle, cut to the level.
    pub fn mark(&mut self, slice: u32, level: u32, rect: &TexelRect, number: u64) {
        let (rows, columns, width) = cut(self.shape.level(level), rect);
        let at = self.at(slice, level);
        for row in rows {
            self.levels[at][row * width..][columns.clone()].fill(number);
        }
    }

    /// Puts the number in every texel of every level but the first.
    pub fn regenerate(&mut self, number: u64) {
        let levels = self.shape.levels as usize;
        for (at, texels) in self.levels.iter_mut().enumerate() {
            if at % levels != 0 {
                texels.fill(number);
            }
        }
    }

    /// Brings in the numbers that another version of the same shape has in a rectangle, cut to the level.
    pub fn copy(&mut self, from: &Self, slice: u32, level: u32, rect: &TexelRect) {
        let (rows, columns, width) = cut(self.shape.level(level), rect);
        let at = self.at(slice, level);
        for row in rows {
            let source = &from.levels[at][row * width..][columns.clone()];
            self.levels[at][row * width..][columns.clone()].copy_from_slice(source);
        }
    }

    pub fn forget_all(&mut self) {
        self.levels
            .iter_mut()
            .for_each(|texels| texels.fill(UNKNOWN));
    }

    /// The first texel of a slice and level whose numbers differ: column, row, and both numbers.
    pub fn difference(
        &self,
        other: &Self,
        slice: u32,
        level: u32,
    ) -> Option<(usize, usize, [u64; 2])> {
        let at = self.at(slice, level);
        let (these, those) = (&self.levels[at], &other.levels[at]);
        if these == those {
            return None;
        }
        let width = self.shape.level(level).0 as usize;
        let texel = these
            .iter()
            .zip(those)
            .position(|(this, that)| this != that)?;
        Some((texel % width, texel / width, [these[texel], those[texel]]))
    }
}

type Range = std::ops::Range<usize>;

/// The rows and columns of a rectangle in a level, and the level's width.
fn cut((width, height): (u32, u32), rect: &TexelRect) -> (Range, Range, usize) {
    let range = |from: u32, length: u32, end: u32| {
        let from = from.min(end) as usize;
        from..(from + length as usize).min(end as usize)
    };
    let rows = range(rect.y(), rect.height(), height);
    (rows, range(rect.x(), rect.width(), width), width as usize)
}

/// Whether a rectangle takes in the whole level.
pub fn is_whole((width, height): (u32, u32), rect: &TexelRect) -> bool {
    (rect.x(), rect.y()) == (0, 0) && rect.width() >= width && rect.height() >= height
}
