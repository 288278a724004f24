//! Renames that follow the answers, with all that goes on between them. Takes, plans and retirements stand only in
//! renames, so these are lists of document 01's demand 3.

use super::List;
use super::driver::Driver;
use super::texture;

/// The largest extents: any, or so small that books can be kept of every texel.
pub const EXTENTS: u32 = 16_384;
pub const SMALL_EXTENTS: u32 = 64;

fn working_set(list: &mut List, most: u32) -> u64 {
    if list.seed.is_multiple_of(2) {
        return 0;
    }
    // A cap of some versions.
    u64::from(most) * u64::from(most) * list.random.within(8, 400)
}

pub fn fill(list: &mut List, most: u32) {
    let (places, stamps) = (list.limits.textures as u64, list.limits.stamps());
    // A few more textures than there are places.
    let textures = texture::textures(&mut list.random, places + 2, stamps, most);
    let working_set = working_set(list, most);
    let line = working_set / 4 * 3;
    let mut driver = Driver::open(list, working_set, textures);
    while !driver.list.is_full() {
        step(&mut driver, most, line);
    }
}

fn step(driver: &mut Driver, most: u32, line: u64) {
    let at = driver.any();
    match driver.below(200) {
        0..=75 => {
            driver.rename(at);
        }
        76..=144 => driver.write(at),
        145..=152 => driver.regen(at),
        153..=164 => driver.write_owed(),
        165..=190 => end_submission(driver, line),
        191 => driver.forget(at),
        192 | 193 => driver.reshape(at, most),
        194 if driver.once_in(4) => {
            driver.say("drain");
        }
        195 => {
            driver.say("doomed");
        }
        196 => driver.park(),
        197 => {
            driver.pop();
        }
        _ => driver.submit(1),
    }
}

/// What a caller does once for each submission.
fn end_submission(driver: &mut Driver, line: u64) {
    let count = match driver.below(60) {
        0 => 9 + driver.below(3),
        1 => 119 + driver.below(5),
        _ => 1,
    };
    driver.submit(count);
    if line > 0 && driver.once_in(3) {
        // Parking resumes below five sixths of the line.
        let allocated = match driver.below(5) {
            0 => line + driver.below(line / 8 + 1),
            1 => line / 6 * 5 + driver.below(line / 6),
            _ => driver.below(line / 6 * 5),
        };
        driver.say(&format!("note,{allocated}"));
    }
    driver.settle();
    if driver.once_in(2) {
        driver.say("doomed");
    }
    let now = driver.submission();
    driver.say(&format!("trim,{now}"));
}
