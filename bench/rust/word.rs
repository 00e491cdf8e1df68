//! The counters of an inner word, and the bits of a leaf word.

/// A counter, by the mask of its bits.
#[derive(Clone, Copy)]
pub struct Counter(u64);

pub const TCNT: Counter = Counter(0x7fff << 47);
pub const TMAX: Counter = Counter(0x7fff << 32);
pub const DCNT: Counter = Counter(0xffff << 16);
pub const DMAX: Counter = Counter(0xffff);

/// A single bit, to which adding 1 or taking 1 away is flipping it.
pub const OCC: u64 = 1 << 62;

impl Counter {
    pub fn of(self, word: u64) -> u64 {
        (word & self.0) >> self.0.trailing_zeros()
    }

    /// A counter wraps by itself: what it carries stays out of its neighbour.
    pub fn add_one(self, word: &mut u64) {
        *word = *word & !self.0 | word.wrapping_add(1 << self.0.trailing_zeros()) & self.0;
    }
}

/// The bits of the window [l, r) in a leaf that it meets, whose first unit is `edge`.
pub fn wanted_bits(edge: u64, l: u64, r: u64) -> u64 {
    let low = l.saturating_sub(edge);
    let high = (r - edge).min(64);
    u64::MAX << low & u64::MAX >> (64 - high)
}
