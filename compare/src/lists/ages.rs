//! Trims and submissions around the ages 8 and 120.

use super::List;
use super::driver::{Driver, MOST};
use super::texture;

pub fn fill(list: &mut List) {
    let (places, stamps) = (list.limits.textures as u64, list.limits.stamps());
    let textures = texture::textures(&mut list.random, places + 1, stamps, 100);
    let mut driver = Driver::open(list, 0, textures);
    while !driver.list.is_full() {
        step(&mut driver);
    }
}

/// A distance about one of the two ages.
fn distance(driver: &mut Driver) -> u64 {
    match driver.below(6) {
        0..=2 => 6 + driver.below(5),
        3 | 4 => 118 + driver.below(5),
        _ => driver.below(260),
    }
}

fn step(driver: &mut Driver) {
    let at = driver.any();
    match driver.below(100) {
        0..=39 => {
            driver.rename(at);
        }
        40..=46 => driver.write(at),
        47..=59 => {
            let count = driver.below(4);
            driver.submit(count);
            driver.settle();
        }
        60..=68 => {
            // Parked under a number of the past or of the future.
            if driver.pop() {
                let apart = distance(driver);
                let now = if driver.once_in(2) {
                    driver.now.saturating_sub(apart)
                } else {
                    driver.now + apart
                };
                driver.hand = !driver.say(&format!("park,0,{now}")).accepted();
            }
        }
        69..=86 => trim(driver),
        87..=90 => {
            driver.say("doomed");
        }
        91 => driver.forget(at),
        92 if driver.once_in(5) => {
            driver.say("drain");
        }
        93 => take_under_another_number(driver, at),
        94 => driver.reshape(at, 100),
        _ => {
            let apart = distance(driver);
            driver.submit(apart);
        }
    }
}

fn trim(driver: &mut Driver) {
    let apart = distance(driver);
    let now = match driver.below(50) {
        0 => MOST + driver.below(2),
        1 => 0,
        2..=10 => driver.now.saturating_sub(apart),
        _ => driver.now + apart,
    };
    driver.say(&format!("trim,{now}"));
}

/// A take on its own: the due number and the last rename then differ.
fn take_under_another_number(driver: &mut Driver, at: usize) {
    let apart = distance(driver);
    let seq = driver.now.saturating_sub(apart);
    let (id, shape) = (driver.textures[at].id, driver.textures[at].shape);
    let records = u64::from(driver.textures[at].records);
    driver.say(&format!("take,{id},{shape},{records},{seq}"));
}
