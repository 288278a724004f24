//! Working sets, caps and notes around the pressure line and the line below which parking resumes.

use super::List;
use super::driver::Driver;
use super::texture::{self, Texture};
use crate::shape::RawShape;
use crate::texture_versions::VersionShape;

/// A flat texture of `edge` times `edge` bytes.
const fn square(id: u64, edge: u32) -> Texture {
    let shape = RawShape {
        format: 0,
        width: edge,
        height: edge,
        depth: 1,
        levels: 1,
        kind: 0,
        compared: [0; 6],
    };
    Texture {
        id,
        shape,
        records: id.is_multiple_of(2),
        live: 0,
        writes: 0,
        calm: true,
    }
}

/// The numbers around which things change.
struct Lines {
    cap: u64,
    line: u64,
    resume: u64,
}

impl Lines {
    fn of(working_set: u64) -> Self {
        if working_set == 0 {
            let cap = 1 << 30;
            return Self {
                cap,
                line: u64::MAX,
                resume: u64::MAX - cap,
            };
        }
        let (cap, line) = ((working_set / 8).min(1 << 30), working_set / 4 * 3);
        Self {
            cap,
            line,
            resume: line.saturating_sub(cap),
        }
    }
}

/// The bytes of one version of the texture.
fn bytes(texture: &Texture) -> u64 {
    let desc = texture.shape.desc().expect("the shape is not bad");
    VersionShape::of(&desc).bytes()
}

/// Squares of these edges, one of them for each texture place.
fn squares(list: &mut List, edges: &[u64]) -> Vec<Texture> {
    (0..list.limits.textures as u64)
        .map(|id| square(id, list.random.one_of(edges) as u32))
        .collect()
}

/// The textures and the working set, of eight sorts.
fn sizes(list: &mut List) -> (Vec<Texture>, u64) {
    const SMALL: &[u64] = &[1, 4, 5, 6, 10, 30];
    // Of 2^26 to 2^28 bytes, for the largest caps.
    const LARGE: &[u64] = &[8_192, 16_384, 16_384, 16_384];
    match list.seed % 8 {
        0 => (squares(list, LARGE), 0),
        // A cap of a whole number of versions, so that one just fits.
        1 => (squares(list, &[4]), 8 * 16 * list.random.within(1, 40)),
        2 => any_shapes(list),
        // Numbers that four and eight do not divide.
        3 => (
            squares(list, &[1, 1, 2]),
            list.random.one_of(&[7, 43, 59, 103]),
        ),
        4 => (squares(list, SMALL), list.random.within(800, 20_000)),
        // About where the cap becomes the largest.
        5 => (
            squares(list, LARGE),
            (1 << 33) + 8 * list.random.below(3) - 8,
        ),
        6 => (squares(list, LARGE), u64::MAX - list.random.below(9)),
        _ => (squares(list, SMALL), 8_000),
    }
}

/// Shapes of any sort, and a cap that some versions of two textures just fill.
fn any_shapes(list: &mut List) -> (Vec<Texture>, u64) {
    let (places, stamps) = (list.limits.textures as u64, list.limits.stamps());
    let textures = texture::textures(&mut list.random, places, stamps, 40);
    let filled = bytes(&textures[0]) * list.random.within(1, 6)
        + bytes(&textures[textures.len() - 1]) * list.random.below(6);
    (textures, 8 * filled)
}

pub fn fill(list: &mut List) {
    let (textures, working_set) = sizes(list);
    let lines = Lines::of(working_set);
    let mut driver = Driver::open(list, working_set, textures);
    while !driver.list.is_full() {
        step(&mut driver, &lines);
    }
}

fn step(driver: &mut Driver, lines: &Lines) {
    let at = driver.any();
    match driver.below(100) {
        0..=49 => {
            driver.rename(at);
        }
        50..=57 => driver.write(at),
        58..=69 => {
            let allocated = allocated(driver, lines);
            driver.say(&format!("note,{allocated}"));
        }
        70..=80 => {
            driver.submit(1);
            driver.settle();
        }
        81..=90 => {
            driver.say("doomed");
        }
        91 => {
            driver.say("drain");
        }
        92 => driver.forget(at),
        93 => {
            let now = driver.now;
            driver.say(&format!("trim,{now}"));
        }
        94 => driver.submit(3),
        95..=97 => squeeze(driver, lines),
        _ => {
            // A parking number out of the order of parking.
            if driver.pop() {
                let now = driver.now.saturating_sub(driver.below(20));
                driver.hand = !driver.say(&format!("park,0,{now}")).accepted();
            }
        }
    }
}

/// Just past the line, some versions destroyed at once, then past it by about the bytes that wait: the next spare goes
/// or stays.
fn squeeze(driver: &mut Driver, lines: &Lines) {
    let some = driver.list.random.within(1, 3);
    let mut waiting = 0;
    driver.submit(9);
    driver.settle();
    driver.say("doomed");
    for _ in 0..some {
        let at = driver.any();
        driver.rename(at);
        waiting += bytes(&driver.textures[at]);
    }
    driver.submit(9);
    let line = lines.line;
    driver.say(&format!("note,{}", line.saturating_add(1)));
    driver.settle();
    let at = driver.any();
    let one = bytes(&driver.textures[at]) * driver.below(3);
    let excess = (waiting + one + driver.below(4)).saturating_sub(1);
    driver.say(&format!("note,{}", line.saturating_add(excess)));
    driver.say("doomed");
    driver.say(&format!("note,{}", lines.resume.saturating_sub(1)));
}

/// Bytes allocated: close to one of the lines, or past the first by some versions' bytes.
fn allocated(driver: &mut Driver, lines: &Lines) -> u64 {
    let base = match driver.below(10) {
        0 | 1 => lines.resume,
        2 | 3 => lines.line,
        4 => lines.cap,
        5 if driver.once_in(4) => u64::MAX,
        5 => 0,
        _ => {
            let at = driver.any();
            let excess = bytes(&driver.textures[at]) * driver.below(12);
            lines.line.saturating_add(excess)
        }
    };
    base.saturating_add(driver.below(3)).saturating_sub(1)
}
