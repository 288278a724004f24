//! Stand-ins for rustc-hash's map and set: std's, over a hasher of the same kind.
//!
//! The keys are single numbers, and for one number this hasher does what version 2 of rustc-hash does: a multiplication and a rotation,
//! so that the bits which the map takes for the place are the upper ones of the product.

use std::collections::{HashMap, HashSet};
use std::hash::{BuildHasherDefault, Hasher};

pub type FxHashMap<K, V> = HashMap<K, V, BuildHasherDefault<FxHasher>>;
pub type FxHashSet<K> = HashSet<K, BuildHasherDefault<FxHasher>>;

const FACTOR: u64 = 0xf135_7aea_2e62_a9c5;
const TURN: u32 = 26;

#[derive(Default)]
pub struct FxHasher(u64);

impl Hasher for FxHasher {
    fn write(&mut self, bytes: &[u8]) {
        for byte in bytes {
            self.write_u64(u64::from(*byte));
        }
    }

    fn write_u64(&mut self, number: u64) {
        self.0 = self.0.wrapping_add(number).wrapping_mul(FACTOR);
    }

    fn finish(&self) -> u64 {
        self.0.rotate_left(TURN)
    }
}
