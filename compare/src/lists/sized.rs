//! Shapes whose history has a given number of stamps.

use std::sync::OnceLock;

use crate::random::Random;
use crate::shape::RawShape;

/// The most stamps of one slice: 16,384 by 16,384 texels with fifteen levels.
const MOST_SLICE: usize = 6_489;

/// The most stamps of a history: a cube of such slices.
pub const MOST_STAMPS: u64 = 6 * MOST_SLICE as u64;

/// The shapes of one slice by their stamps: columns, rows and levels of `16 * columns << doubled` by `16 * rows << doubled` texels.
struct Table(Vec<Vec<[u8; 4]>>);

impl Table {
    fn new() -> Self {
        let mut rows = vec![Vec::new(); MOST_SLICE + 1];
        for doubled in 0..6 {
            for columns in 1..=32 {
                for down in 1..=32 {
                    for levels in 1..=15 {
                        let entry = [columns, down, levels, doubled];
                        rows[plain(entry).stamps() as usize].push(entry);
                    }
                }
            }
        }
        Self(rows)
    }
}

/// A flat shape of one byte a texel.
fn plain([columns, rows, levels, doubled]: [u8; 4]) -> RawShape {
    RawShape {
        format: 0,
        width: (16 * u32::from(columns)) << doubled,
        height: (16 * u32::from(rows)) << doubled,
        depth: 1,
        levels: levels.into(),
        kind: 0,
        compared: [0; 6],
    }
}

fn table() -> &'static Table {
    static TABLE: OnceLock<Table> = OnceLock::new();
    TABLE.get_or_init(Table::new)
}

/// A shape with just so many stamps, of any kind and format, if there is one.
pub fn exactly(random: &mut Random, stamps: u64) -> Option<RawShape> {
    let cube = stamps.is_multiple_of(6) && (stamps > MOST_SLICE as u64 || random.once_in(2));
    let slice = if cube { stamps / 6 } else { stamps };
    let found = table().0.get(slice as usize)?;
    if found.is_empty() {
        return None;
    }
    let mut shape = plain(found[random.below(found.len() as u64) as usize]);
    shape.kind = if cube { 1 } else { random.one_of(&[0, 0, 2]) };
    if shape.kind == 2 {
        shape.depth = random.below(6) as u32;
    }
    shape.format = random.below(9);
    // Extents that are no multiples of the tile's edge, where the tiles are as many.
    let other = RawShape {
        width: shape.width - random.below(16) as u32,
        height: shape.height - random.below(16) as u32,
        ..shape
    };
    let fits = |shape: &RawShape| shape.stamps() == stamps;
    if fits(&other) {
        return Some(other);
    }
    if !fits(&shape) {
        // Blocks of four raise some edges.
        shape.format = random.below(5);
    }
    Some(shape)
}

/// A shape with as many stamps as can be, at most so many; so many are at least one.
pub fn at_most(random: &mut Random, stamps: u64) -> RawShape {
    let most = stamps.min(MOST_STAMPS);
    let found = (1..=most).rev().find_map(|less| exactly(random, less));
    found.expect("a texture of one tile has one stamp")
}

/// A cube of fifteen levels whose grids have one stamp each: ninety of them.
pub fn ninety(random: &mut Random) -> RawShape {
    RawShape {
        format: random.below(9),
        width: random.below(17) as u32,
        height: random.below(17) as u32,
        depth: 1,
        levels: 15,
        kind: 1,
        compared: [0; 6],
    }
}
