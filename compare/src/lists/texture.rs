//! Textures with random shapes, and rectangles in their levels.

use crate::random::Random;
use crate::shape::RawShape;

/// A texture as the caller of a pool sees it.
pub struct Texture {
    pub id: u64,
    pub shape: RawShape,
    pub records: bool,
    /// The live version's view number.
    pub live: u64,
    /// Writes and regenerations reported since it was last forgotten or reshaped.
    pub writes: u64,
    /// Mostly written in small rectangles of one region, so that a plan's boxes stay smaller than their levels.
    pub calm: bool,
}

/// Textures of which the first few have histories of some stamps, as long as there are stamps, and the others
/// mostly none.
pub fn textures(random: &mut Random, count: u64, stamps: u64, most: u32) -> Vec<Texture> {
    let mut left = stamps;
    (0..count)
        .map(|number| {
            // Those without a history may need more stamps than there are.
            let bare = number >= 3 && random.once_in(2);
            let room = match number {
                _ if bare => u64::MAX,
                0..3 => (left / 2).max(1),
                _ => (left / 4).max(1),
            };
            let mut shape = shape(random, most, room);
            if number == 2 && room >= 12 {
                // Several slices with levels to regenerate, where the stamps allow it.
                shape.kind = 1;
                shape.levels = random.within(2, (room / 6).min(15)) as u32;
                shrink(&mut shape, room);
            }
            let fits = shape.stamps() <= left;
            let records = random.once_in(8) != (fits && !bare);
            if fits && records {
                left -= shape.stamps();
            }
            Texture {
                id: if number == 1 { u64::MAX } else { number * 3 },
                shape,
                records,
                live: 0,
                writes: 0,
                calm: number == 0 || random.once_in(2),
            }
        })
        .collect()
}

/// A shape that is not bad, with extents up to `most`, whose history mostly needs at most `stamps` stamps if that can be.
pub fn shape(random: &mut Random, most: u32, stamps: u64) -> RawShape {
    let kind = random.one_of(&[0, 0, 0, 0, 1, 2]);
    let mut shape = RawShape {
        format: random.below(9),
        width: extent(random, most),
        height: extent(random, most),
        depth: if kind == 2 {
            random.within(0, 9) as u32
        } else {
            1
        },
        levels: 1,
        kind,
        compared: [0; 6],
    };
    if !random.once_in(8) {
        if kind == 1 && stamps < 6 {
            shape.kind = 0;
        }
        shrink(&mut shape, stamps);
    }
    let with = |levels: u32| RawShape { levels, ..shape };
    let room = (1..=15)
        .rev()
        .find(|levels| with(*levels).stamps() <= stamps);
    let room = u64::from(room.unwrap_or(1));
    let levels = match random.below(4) {
        0 => 1,
        1 => room,
        _ => random.within(1, room),
    };
    with(levels as u32)
}

/// Halves the larger extent until a history needs at most `stamps` stamps, or both extents are 1.
fn shrink(shape: &mut RawShape, stamps: u64) {
    while shape.stamps() > stamps && shape.width.max(shape.height) > 1 {
        let larger = if shape.width > shape.height {
            &mut shape.width
        } else {
            &mut shape.height
        };
        *larger /= 2;
    }
}

/// From 1 to `most`, rarely 0.
fn extent(random: &mut Random, most: u32) -> u32 {
    if random.once_in(40) {
        return 0;
    }
    let length = random.length();
    let most = u64::from(most);
    if length <= most {
        length as u32
    } else {
        // Rather more than one tile.
        let least = if random.once_in(3) { 1 } else { most / 2 };
        random.within(least, most) as u32
    }
}

/// A slice and level of the shape.
pub fn place(random: &mut Random, shape: &RawShape) -> (u32, u32) {
    let slice = random.below(u64::from(shape.slices()));
    (slice as u32, random.below(u64::from(shape.levels)) as u32)
}

/// Left, top, width, height in or about a level of the texture.
pub fn rect(random: &mut Random, texture: &Texture, level: u32) -> [u64; 4] {
    let (width, height) = texture.shape.level(level);
    let (width, height) = (u64::from(width), u64::from(height));
    if texture.calm && !random.once_in(40) {
        let right = texture.id % 2 * (width / 2);
        let edges = [random.within(0, 16), random.within(1, 16)];
        let left = right + random.below(width.div_ceil(4));
        return [left, random.below(height.div_ceil(2)), edges[0], edges[1]];
    }
    if random.once_in(2) {
        // A small one, since large ones soon stamp every tile.
        let edges = [random.within(1, 20), random.within(1, 20)];
        return [
            random.below(width),
            random.below(height),
            edges[0],
            edges[1],
        ];
    }
    [
        random.origin(width),
        random.origin(height),
        random.coordinate(width),
        random.coordinate(height),
    ]
}
