//! Writes lists of plans whose boxes end at the edges of levels, for what their copies cost (02, W-203): compressed formats, extents that are no
//! multiples of a block, several levels, cubes and volumes.
//!
//! Stands beside the other kinds, not among them: those have few such boxes, and some of their lists are stored.

use super::List;
use super::driver::Driver;
use super::texture::{self, Texture};
use crate::random::Random;
use crate::shape::RawShape;

/// Names the kind.
pub const EDGES: &str = "edges";

/// Limits how often a shape is drawn that does not fit, since none may.
const DRAWS: u64 = 40;

pub fn fill(list: &mut List) {
    let room = room(list);
    let textures = (0..list.limits.textures as u64)
        .map(|number| Texture {
            id: if number == 1 { u64::MAX } else { number * 5 },
            shape: shape(&mut list.random, room),
            records: true,
            live: 0,
            writes: 0,
            calm: false,
        })
        .collect();
    let mut driver = Driver::open(list, 0, textures);
    // Begins the histories, since writes before are not counted.
    for at in 0..driver.textures.len() {
        take(&mut driver, at);
    }
    while !driver.list.is_full() {
        step(&mut driver);
    }
}

/// Returns the stamps that each texture may have, so that all have histories.
const fn room(list: &List) -> u64 {
    list.limits.stamps() / list.limits.textures as u64
}

fn step(driver: &mut Driver) {
    let at = driver.any();
    match driver.below(40) {
        0..=25 => {
            let before = driver.textures[at].writes;
            for _ in 0..=driver.below(2) {
                write(driver, at);
            }
            plan(driver, at, before);
        }
        26..=33 => {
            driver.rename(at);
            driver.submit(1);
            driver.settle();
        }
        34 => {
            let before = driver.textures[at].writes;
            driver.regen(at);
            plan(driver, at, before);
        }
        35 | 36 => driver.write_owed(),
        37 => {
            let room = room(driver.list);
            let shape = shape(&mut driver.list.random, room);
            driver.give_shape(at, shape);
            take(driver, at);
        }
        38 => {
            // Names a texture without a history, so that every copy is whole.
            driver.say("plan,3,-,0,0,0");
        }
        _ => {
            let held = driver.below(1 << 20);
            plan(driver, at, held);
        }
    }
}

/// Draws a shape that is not bad and whose history needs at most so many stamps, if one is found.
fn shape(random: &mut Random, stamps: u64) -> RawShape {
    let mut shape = any_shape(random);
    for _ in 0..DRAWS {
        if shape.stamps() <= stamps {
            break;
        }
        shape = any_shape(random);
    }
    shape
}

fn any_shape(random: &mut Random) -> RawShape {
    let kind = random.below(3);
    let compressed = random.within(5, 6);
    RawShape {
        format: if random.once_in(5) {
            random.below(9)
        } else {
            compressed
        },
        width: extent(random),
        height: extent(random),
        depth: random.one_of(&[0, 1, 2, 3, 5, 8]) as u32,
        levels: random.within(1, 6) as u32,
        kind,
        compared: [0; 6],
    }
}

/// Draws an extent of one tile to many, mostly no multiple of 4.
fn extent(random: &mut Random) -> u32 {
    let extent = match random.below(8) {
        0 => random.within(1, 20),
        1 => random.within(16_300, 16_384),
        2 => random.within(200, 700),
        3 => 16 * random.within(2, 9) + random.within(0, 3),
        _ => random.within(17, 150),
    };
    extent as u32
}

/// Writes a small rectangle into a level, mostly up to its right or lower edge or past it.
fn write(driver: &mut Driver, at: usize) {
    let (id, shape) = (driver.textures[at].id, driver.textures[at].shape);
    let random = &mut driver.list.random;
    let (slice, mut level) = texture::place(random, &shape);
    // Prefers the first levels: the last ones have one tile, and a copy of that is whole.
    level = level.min(random.below(3) as u32);
    let (width, height) = shape.level(level);
    let [x, w] = side(random, width.into());
    let [y, h] = side(random, height.into());
    driver.textures[at].writes += 1;
    driver.say(&format!("write,{id},{slice},{level},{x},{y},{w},{h}"));
}

fn side(random: &mut Random, extent: u64) -> [u64; 2] {
    let length = random.within(1, 20);
    match random.below(5) {
        0 | 1 => [random.below(extent), length],
        2 => [extent.saturating_sub(length), length + random.below(9)],
        3 => [extent - 1, 1],
        _ => [extent.saturating_sub(random.within(1, 40)), length],
    }
}

fn take(driver: &mut Driver, at: usize) {
    let (id, shape, now) = (
        driver.textures[at].id,
        driver.textures[at].shape,
        driver.now,
    );
    driver.say(&format!("take,{id},{shape},1,{now}"));
}

/// Plans by the texture's own shape, mostly for a version that holds what was written before.
fn plan(driver: &mut Driver, at: usize, before: u64) {
    take(driver, at);
    let (id, shape) = (driver.textures[at].id, driver.textures[at].shape);
    let held = match driver.below(12) {
        0 => "-".to_string(),
        1 => before.saturating_sub(driver.below(6)).to_string(),
        _ => before.to_string(),
    };
    let (slice, level) = texture::place(&mut driver.list.random, &shape);
    let cover = u64::from(driver.once_in(4));
    driver.say(&format!("plan,{id},{held},{slice},{level},{cover}"));
}
