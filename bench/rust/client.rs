//! The calls on one client, after causes 1 to 4.

use super::record::grip;
use super::tree::{cover, Cover};
use super::Cause;
use crate::nolthewyr::{Client, Outcome, Phase, Record, Settings};

impl Client {
    /// The noted times are those of the client's own clock.
    #[inline(always)]
    pub fn unreadable(&self, settings: &Settings) -> bool {
        self.record.unreadable(settings, self.clock)
    }

    /// Cause 6.
    fn readable(&self, settings: &Settings) -> Result<(), Cause> {
        if self.unreadable(settings) {
            Err(Cause::Unreadable)
        } else {
            Ok(())
        }
    }

    /// Cause 5.
    fn in_time(&self, clock: u64) -> Result<(), Cause> {
        if clock < self.clock {
            Err(Cause::Clock)
        } else {
            Ok(())
        }
    }

    pub fn request(&mut self, settings: &Settings, left: u64, right: u64) -> Result<(), Cause> {
        self.readable(settings)?;
        let Cover { first, second, .. } = cover(settings.levels, left, right).ok_or(Cause::Window)?;
        if self.record.phase != Phase::IDLE {
            return Err(Cause::Phase);
        }
        self.record = Record { phase: settings.first_phase(first), left, right, first, second, ..Record::default() };
        Ok(())
    }

    pub fn step(&mut self, words: &mut [u64], settings: &Settings, clock: u64) -> Result<(), Cause> {
        self.in_time(clock)?;
        self.readable(settings)?;
        self.advance(words, settings, clock)
    }

    pub fn untested_step(&mut self, words: &mut [u64], settings: &Settings, clock: u64) -> Result<(), Cause> {
        self.in_time(clock)?;
        self.advance(words, settings, clock)
    }

    /// An accepted step sets its client's clock.
    fn advance(&mut self, words: &mut [u64], settings: &Settings, clock: u64) -> Result<(), Cause> {
        self.record.advance(words, settings, clock)?;
        self.clock = clock;
        Ok(())
    }

    pub fn release(&mut self, settings: &Settings) -> Result<(), Cause> {
        self.readable(settings)?;
        if self.record.phase != Phase::HELD {
            return Err(Cause::Phase);
        }
        self.record.return_all(Outcome::RELEASED);
        Ok(())
    }

    pub fn cancel(&mut self, settings: &Settings) -> Result<(), Cause> {
        self.readable(settings)?;
        let record = &mut self.record;
        match record.phase {
            Phase::IDLE | Phase::HELD | Phase::RETURNING => return Err(Cause::Phase),
            _ if record.current == 0 && record.grip == grip::NOTHING => record.become_idle(Outcome::CANCELLED),
            _ => record.return_all(Outcome::CANCELLED),
        }
        Ok(())
    }
}
