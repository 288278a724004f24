//! Shapes of every sort: kinds, formats, extents, levels, bad ones too; trackings renewed by another shape; plans
//! after writes about the tiles' edges.

use super::List;
use super::driver::Driver;
use super::texture;
use crate::random::Random;
use crate::shape::RawShape;

const MOST_EXTENT: u32 = 16_384;

pub fn fill(list: &mut List) {
    let (places, stamps) = (list.limits.textures as u64, list.limits.stamps());
    let textures = texture::textures(&mut list.random, places, stamps, MOST_EXTENT);
    let working_set = list.random.one_of(&[0, 0, 1 << 33, 1 << 28]);
    let mut driver = Driver::open(list, working_set, textures);
    while !driver.list.is_full() {
        step(&mut driver);
    }
}

fn step(driver: &mut Driver) {
    let at = driver.any();
    match driver.below(100) {
        0..=19 => {
            driver.rename(at);
        }
        20..=54 => driver.write(at),
        55..=58 => driver.regen(at),
        59..=79 => plan(driver, at),
        80..=83 => {
            driver.submit(1);
            driver.settle();
        }
        84..=86 => driver.reshape(at, MOST_EXTENT),
        87 => change_one_field(driver, at),
        88..=90 => any_take(driver, at),
        91 | 92 => {
            // Frees its stamps for others.
            driver.forget(at);
        }
        93 => {
            driver.textures[at].records = driver.once_in(2);
        }
        94 => {
            driver.say("doomed");
        }
        95 => {
            let now = driver.now;
            driver.say(&format!("trim,{now}"));
        }
        _ => driver.write_owed(),
    }
}

/// A plan on its own, for the texture of the latest take line or another, with held writes of any sort.
fn plan(driver: &mut Driver, at: usize) {
    let texture = &driver.textures[at];
    let (id, shape, records) = (texture.id, texture.shape, u64::from(texture.records));
    let writes = texture.writes;
    let now = driver.now;
    if !driver.once_in(4) {
        driver.say(&format!("take,{id},{shape},{records},{now}"));
    }
    let held = match driver.below(12) {
        0 => "-".to_string(),
        1 => u64::MAX.to_string(),
        2 => driver.below(4).to_string(),
        _ => writes.saturating_sub(driver.below(8)).to_string(),
    };
    let (slice, level) = texture::place(&mut driver.list.random, &shape);
    let cover = driver.below(2);
    driver.say(&format!("plan,{id},{held},{slice},{level},{cover}"));
}

/// The next rename has the texture in a shape that differs in one number.
fn change_one_field(driver: &mut Driver, at: usize) {
    let other = texture::shape(&mut driver.list.random, MOST_EXTENT, 1);
    let which = driver.below(6);
    let shape = &mut driver.textures[at].shape;
    match which {
        0 => shape.format = other.format,
        1 => shape.width = other.width,
        2 => shape.height = other.height,
        3 => shape.depth = shape.depth.wrapping_add(1) % 5,
        4 => shape.levels = other.levels,
        _ => shape.kind = other.kind,
    }
}

/// A take with numbers at the ends of what a shape may have, and past them.
fn any_take(driver: &mut Driver, at: usize) {
    let random = &mut driver.list.random;
    let shape = RawShape {
        format: any(random, &[0, 5, 6, 7, 8, 9, u64::MAX], 9),
        width: any(random, &[0, 1, 16_384, 16_385, 0xffff_ffff], 16_385) as u32,
        height: any(random, &[0, 1, 16_384, 16_385, 0xffff_ffff], 16_385) as u32,
        depth: any(random, &[0, 1, 2_048, 2_049, 0xffff_ffff], 2_049) as u32,
        levels: any(random, &[0, 1, 15, 16, 0xffff_ffff], 16) as u32,
        kind: any(random, &[0, 1, 2, 3, 1 << 32], 3),
        compared: [0; 6],
    };
    let records = random.below(2);
    let id = driver.textures[at].id;
    let seq = driver.submission();
    driver.say(&format!("take,{id},{shape},{records},{seq}"));
    if driver.once_in(2) {
        let cover = driver.below(2);
        driver.say(&format!("plan,{id},-,0,0,{cover}"));
    }
}

fn any(random: &mut Random, ends: &[u64], end: u64) -> u64 {
    if random.once_in(3) {
        random.one_of(ends)
    } else {
        random.below(end)
    }
}
