//! Random numbers, windows and records, the same in every run.

use crate::lent::Window;
use crate::nolthewyr::{Outcome, Phase, Record};

/// The generator of Steele, Lea and Flood (splitmix64), so that every run makes the same calls.
pub struct Random(pub u64);

impl Random {
    fn next(&mut self) -> u64 {
        self.0 = self.0.wrapping_add(0x9e37_79b9_7f4a_7c15);
        let mixed = (self.0 ^ self.0 >> 30).wrapping_mul(0xbf58_476d_1ce4_e5b9);
        let mixed = (mixed ^ mixed >> 27).wrapping_mul(0x94d0_49bb_1331_11eb);
        mixed ^ mixed >> 31
    }

    pub fn below(&mut self, bound: u64) -> u64 {
        self.next() % bound
    }

    pub fn one_of<T: Copy>(&mut self, items: &[T]) -> T {
        items[self.below(items.len() as u64) as usize]
    }

    /// True once in so many times.
    pub fn seldom(&mut self, times: u64) -> bool {
        self.below(times) == 0
    }

    /// A window of any length, which may be empty or end past the tree.
    pub fn window(&mut self, levels: u64) -> Window {
        if self.seldom(50) {
            return (self.next(), self.next());
        }
        let l = self.below(64 << (2 * (levels - 1)));
        let bound = 2 << self.below(2 * levels + 5);
        (l, l + self.below(bound))
    }

    /// The first unit of a leaf, and a window that has a unit of it and fewer than 128 on either side of that unit.
    pub fn met_leaf(&mut self) -> (u64, Window) {
        let edge = 64 * (2 + self.below(1 << 20));
        let unit = edge + self.below(64);
        (edge, (unit - self.below(128), unit + 1 + self.below(128)))
    }

    /// A word in which nobody has set Occ: all 0, all counters at their highest, or anything.
    pub fn word(&mut self) -> u64 {
        let any = self.next();
        self.one_of(&[0, u64::MAX, any]) & !(1 << 62)
    }

    /// The record with one field altered: to a small number, as most fields are, to one beside what it was, or to one at or past
    /// an end of a range.
    pub fn damaged(&mut self, mut record: Record) -> Record {
        let Record {
            phase: Phase(phase),
            outcome: Outcome(outcome),
            left,
            right,
            first,
            second,
            current,
            giving,
            grip,
            ticket,
            place,
            notices,
            t1,
            t0,
            taken,
        } = &mut record;
        let fields = [phase, outcome, left, right, first, second, current, giving, grip, ticket, place, notices, t1, t0, taken];
        let (field, small) = (self.below(fields.len() as u64) as usize, self.below(12));
        let number = *fields[field];
        *fields[field] = self.one_of(&[small, number.wrapping_add(1), number.wrapping_sub(1), 32767, 32768, u64::MAX]);
        record
    }
}
