//! Textures, stamps and versions filled up to their places and past them; answers up to their buffers and past them.

use super::List;
use super::driver::Driver;
use super::sized;
use super::texture::{self, Texture};
use crate::shape::RawShape;

/// A cube of small levels.
const fn cube(levels: u32) -> RawShape {
    RawShape {
        format: 2,
        width: 64,
        height: 32,
        depth: 1,
        levels,
        kind: 1,
        compared: [0; 6],
    }
}

pub fn fill(list: &mut List) {
    let places = list.limits.textures as u64;
    let textures = (0..2 * places + 2)
        .map(|number| Texture {
            id: number,
            shape: texture::shape(&mut list.random, 64, 1),
            records: false,
            live: 0,
            writes: 0,
            calm: true,
        })
        .collect();
    let working_set = list.random.one_of(&[0, 0, 7, 40_000]);
    let mut driver = Driver::open(list, working_set, textures);
    while !driver.list.is_full() {
        match driver.below(8) {
            0 => fill_textures(&mut driver),
            1 | 2 => fill_stamps(&mut driver),
            3..=5 => fill_versions(&mut driver),
            6 => fill_answers(&mut driver),
            _ => hand_over(&mut driver),
        }
        empty_some(&mut driver);
    }
}

fn take(driver: &mut Driver, id: u64, shape: &RawShape, records: bool) -> Option<u64> {
    let (now, records) = (driver.submission(), u64::from(records));
    driver
        .say(&format!("take,{id},{shape},{records},{now}"))
        .outcome
}

/// Takes ids until every place is used, and a few more; ids that are tracked are still taken.
fn fill_textures(driver: &mut Driver) {
    let mut refused = 0;
    for at in 0..driver.textures.len() {
        let (id, shape) = (driver.textures[at].id, driver.textures[at].shape);
        refused += u64::from(take(driver, id, &shape, false) == Some(5));
        if refused > 3 {
            break;
        }
    }
    for _ in 0..3 {
        let at = driver.any();
        driver.rename(at);
    }
}

/// Histories of any size up to all stamps and a little past them; an id's own stamps again.
fn fill_stamps(driver: &mut Driver) {
    let tries = driver.below(30) + 3;
    for _ in 0..tries {
        let stamps = driver.list.limits.stamps();
        let need = match driver.below(6) {
            0 => stamps.max(1),
            1 => stamps + 1 + driver.below(40),
            _ => driver.below(stamps.max(1)) + 1,
        };
        let at = driver.any();
        let shape = sized::at_most(&mut driver.list.random, need);
        let id = driver.textures[at].id;
        let records = !driver.once_in(6);
        if take(driver, id, &shape, records) == Some(6) && driver.once_in(2) {
            // The refused take left the texture as it was, and is the latest take line.
            driver.say(&format!("plan,{id},-,0,0,0"));
        }
        if driver.once_in(3) {
            driver.write(at);
        }
        if driver.once_in(8) {
            // Outside every shape: frees the stamps.
            driver.say(&format!("write,{id},9,0,0,0,1,1"));
        }
    }
}

/// Retires until all version places are used, in queue, hand, spares and destroy queue, and past that.
fn fill_versions(driver: &mut Driver) {
    let mut refused = 0;
    let parks = driver.below(4);
    while refused < 4 && !driver.list.is_full() {
        let (id, view) = (driver.below(6), driver.fresh_view());
        let seq = driver.submission();
        let outcome = driver.say(&format!("retire,{id},{view},{seq}")).outcome;
        refused += u64::from(outcome != Some(0));
        if outcome == Some(8) {
            driver.say("pop,281474976710656");
            driver.say("park,0,281474976710656");
        }
        if parks > 0 && driver.once_in(parks + 1) {
            let now = driver.now;
            driver.say(&format!("pop,{now}"));
            if !driver.once_in(9) {
                driver.say(&format!("park,0,{now}"));
            }
        }
        if driver.once_in(50) {
            driver.submit(1);
        }
    }
    if driver.once_in(2) {
        driver.say("pop,281474976710656");
        driver.say(&format!("retire,1,1,{}", driver.now));
        driver.say("park,0,1");
        driver.say(&format!("retire,1,2,{}", driver.now));
    }
}

/// Plans and drains of as many entries as the answer's buffer has, and of more.
fn fill_answers(driver: &mut Driver) {
    let answers = driver.list.limits.answers as u64;
    for levels in [1, answers / 6, answers / 6 + 1, 15] {
        let shape = cube(levels.clamp(1, 15) as u32);
        let at = driver.any();
        let id = driver.textures[at].id;
        take(driver, id, &shape, false);
        for cover in 0..2 {
            driver.say(&format!("plan,{id},-,5,0,{cover}"));
        }
    }
    // A pool with as many versions as an answer has entries, and one more.
    driver.say("drain");
    for view in 0..answers.min(driver.list.limits.versions as u64) + 1 {
        let now = driver.now;
        driver.say(&format!("retire,1,{view},{now}"));
    }
    driver.say("drain");
    let spread = driver.once_in(2);
    let allocated = if spread { 0 } else { u64::MAX };
    driver.say(&format!("note,{allocated}"));
    while driver.once_in(400) || driver.pop() {
        driver.park();
    }
    driver.say("doomed");
}

/// Pops twice, parks twice: the hand is full, then empty.
fn hand_over(driver: &mut Driver) {
    for _ in 0..2 {
        let at = driver.any();
        driver.rename(at);
        driver.submit(1);
    }
    let settled = driver.now;
    driver.say(&format!("pop,{settled}"));
    driver.say(&format!("pop,{settled}"));
    driver.say("pop,0");
    driver.say("drain");
    driver.say(&format!("park,0,{settled}"));
    driver.say(&format!("park,{settled},{settled}"));
    driver.say("pop,281474976710657");
    driver.say("park,281474976710657,0");
    driver.say("park,0,281474976710657");
}

/// Makes room again in one of several ways.
fn empty_some(driver: &mut Driver) {
    let at = driver.any();
    match driver.below(7) {
        0 => {
            driver.say("drain");
        }
        1 => driver.settle(),
        2 => {
            driver.settle();
            driver.say("note,18446744073709551615");
            driver.say("doomed");
            driver.say("note,0");
        }
        3 => {
            driver.submit(130);
            let now = driver.now;
            driver.say(&format!("trim,{now}"));
            driver.say("doomed");
        }
        4 | 5 => {
            for at in 0..driver.textures.len() {
                driver.forget(at);
            }
        }
        _ => driver.forget(at),
    }
}
