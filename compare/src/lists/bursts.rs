//! Bursts of versions to destroy, and batches between them: by arrivals over eight takes, by an excess, refused ones.

use super::List;
use super::driver::{Driver, MOST};
use super::texture;

pub fn fill(list: &mut List) {
    let places = (list.limits.textures as u64).min(20);
    let stamps = list.limits.stamps();
    let textures = texture::textures(&mut list.random, places, stamps, 40);
    // Caps of nothing, of some, of all.
    let working_set = [0, 7, 200_000, 4_000_000][list.seed as usize % 4];
    let mut driver = Driver::open(list, working_set, textures);
    let line = if working_set == 0 {
        u64::MAX
    } else {
        working_set / 4 * 3
    };
    while !driver.list.is_full() {
        let all = driver.list.limits.versions as u64;
        match driver.below(12) {
            0 if driver.once_in(2) => burst(&mut driver, all),
            0 | 1 => burst(&mut driver, (all / 4).max(16)),
            2..=4 => burst(&mut driver, (all / 12).max(8)),
            5 => give_back(&mut driver, line),
            6 => steady(&mut driver),
            7 => renew(&mut driver),
            8 | 9 => drained(&mut driver, line, (all / 16).max(8)),
            10 => drained(&mut driver, line, (all / 6).max(8)),
            _ => {}
        }
        batches(&mut driver);
    }
}

/// Retires up to `most` versions, tracked or not, and pops and parks them all.
fn burst(driver: &mut Driver, most: u64) {
    let count = driver.list.random.within(1, most);
    burst_of(driver, count);
}

fn burst_of(driver: &mut Driver, count: u64) {
    let tracked = driver.once_in(5);
    for _ in 0..count {
        if tracked {
            let at = driver.any();
            driver.rename(at);
        } else {
            let (view, now) = (driver.fresh_view(), driver.now);
            let retired = driver.say(&format!("retire,1,{view},{now}"));
            if !retired.accepted() {
                break;
            }
        }
    }
    driver.submit(1);
    let now = driver.now;
    while driver.say(&format!("pop,{MOST}")).field(0).is_some() {
        driver.say(&format!("park,0,{now}"));
    }
    // In case one was in the hand before.
    driver.say(&format!("park,0,{now}"));
}

/// Takes batches, a few or until none is left, with few arrivals between them.
fn batches(driver: &mut Driver) {
    let count = driver.list.random.within(1, 12);
    for _ in 0..count {
        let batch = driver.say("doomed");
        if batch.accepted() && batch.field(0) == Some(0) && driver.once_in(2) {
            break;
        }
        if driver.once_in(4) {
            let some = driver.list.random.within(1, 9);
            burst(driver, some);
        }
    }
    if driver.once_in(12) {
        driver.say("drain");
    }
}

/// Past the line by some versions' bytes.
fn give_back(driver: &mut Driver, line: u64) {
    let at = driver.any();
    let (width, height) = driver.textures[at].shape.level(0);
    let excess = u64::from(width) * u64::from(height) * driver.below(300);
    let allocated = line.saturating_add(excess);
    driver.say(&format!("note,{allocated}"));
    if driver.once_in(5) {
        driver.say("note,0");
    }
}

/// A batch and a drain between bursts, with an excess before: what they clear and leave shows in the batches.
fn drained(driver: &mut Driver, line: u64, some: u64) {
    burst_of(driver, some);
    if driver.once_in(2) {
        driver.say("doomed");
    }
    if !driver.once_in(3) {
        let allocated = line.saturating_add(driver.below(5_000));
        driver.say(&format!("note,{allocated}"));
    }
    if !driver.once_in(4) {
        driver.say("drain");
    }
    burst_of(driver, some);
    driver.say("doomed");
    burst_of(driver, some / 2);
}

/// About as many arrivals between batches, some times.
fn steady(driver: &mut Driver) {
    let most = (driver.list.limits.versions as u64 / 10).max(6);
    let count = driver.list.random.within(most / 2, most);
    for _ in 0..5 {
        burst_of(driver, count);
        driver.say("doomed");
    }
}

/// Spares queued by trims, by forgetting and by other shapes.
fn renew(driver: &mut Driver) {
    let at = driver.any();
    match driver.below(3) {
        0 => {
            driver.submit(10);
            let now = driver.now;
            driver.say(&format!("trim,{now}"));
        }
        1 => driver.forget(at),
        _ => {
            driver.reshape(at, 40);
            driver.rename(at);
        }
    }
    for _ in 0..6 {
        driver.regen(at);
        driver.rename(at);
        driver.write(at);
    }
}
