//! Numbers that look random and follow from a seed (splitmix64).

pub struct Random(u64);

impl Random {
    pub const fn new(seed: u64) -> Self {
        Self(seed)
    }

    pub const fn next(&mut self) -> u64 {
        self.0 = self.0.wrapping_add(0x9e37_79b9_7f4a_7c15);
        let mut mixed = self.0;
        mixed = (mixed ^ (mixed >> 30)).wrapping_mul(0xbf58_476d_1ce4_e5b9);
        mixed = (mixed ^ (mixed >> 27)).wrapping_mul(0x94d0_49bb_1331_11eb);
        mixed ^ (mixed >> 31)
    }

    /// A number below `end`, which is not 0.
    pub const fn below(&mut self, end: u64) -> u64 {
        self.next() % end
    }

    /// A number from `first` to `last`, both included.
    pub const fn within(&mut self, first: u64, last: u64) -> u64 {
        first + self.below(last - first + 1)
    }

    /// True once in `many` times.
    pub const fn once_in(&mut self, many: u64) -> bool {
        self.below(many) == 0
    }

    pub fn one_of(&mut self, numbers: &[u64]) -> u64 {
        numbers[self.below(numbers.len() as u64) as usize]
    }

    /// A length from 1 to 16,384: small, large or close to where tiles change, about as often.
    pub fn length(&mut self) -> u64 {
        let length = match self.below(5) {
            0 => self.within(1, 40),
            1 => self.within(1, 700),
            2 => self.within(1, 16_384),
            3 => 32 * self.within(1, 512) + self.within(0, 2) - 1,
            _ => (1 << self.below(15)) + self.within(0, 2) - 1,
        };
        length.clamp(1, 16_384)
    }

    /// A number that a rectangle may have, close to `extent` or to its tile lines more often than not.
    pub fn coordinate(&mut self, extent: u64) -> u64 {
        let edge = extent.div_ceil(32).max(16);
        match self.below(10) {
            0 => 0,
            1 => self.within(1, 9),
            2..=4 => self.below(extent + 1),
            5 | 6 => (self.below(extent / edge + 2) * edge + self.within(0, 2)).saturating_sub(1),
            7 => (extent + self.within(0, 4)).saturating_sub(2),
            8 => 4 * self.below(extent / 4 + 2),
            _ if self.once_in(3) => u64::from(u32::MAX) - self.below(20),
            _ => self.below(1 << 32),
        }
    }
    /// Where a rectangle begins: mostly in the level, since what begins outside stamps nothing.
    pub fn origin(&mut self, extent: u64) -> u64 {
        let origin = self.coordinate(extent);
        if origin < extent || self.once_in(5) {
            origin
        } else {
            origin % extent
        }
    }
}
