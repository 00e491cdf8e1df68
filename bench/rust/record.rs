//! What the calls of a client do with its record.

use super::tree::level;
use crate::nolthewyr::{Outcome, Phase, Record, Settings};

/// What of its current piece a client has.
pub mod grip {
    pub const NOTHING: u64 = 0;
    pub const TICKET: u64 = 1;
    pub const TURN: u64 = 2;
    pub const TAKEN: u64 = 3;
}

impl Settings {
    /// In which phase a piece begins.
    pub fn first_phase(&self, node: u64) -> Phase {
        if self.is_leaf(node) {
            Phase::CLIMB
        } else {
            Phase::TICKET
        }
    }
}

impl Record {
    pub fn piece(&self, i: u64) -> u64 {
        if i == 0 {
            self.first
        } else {
            self.second
        }
    }

    /// How many notices the piece being given back gave: a piece before the current one gave all of them.
    pub fn notices_to_return(&self, settings: &Settings) -> u64 {
        if self.giving < self.current {
            settings.notify_count(level(self.first))
        } else {
            self.notices
        }
    }

    /// A change of phase sets the place to 0, except from 3 to 4.
    pub fn go_to(&mut self, phase: Phase) {
        self.phase = phase;
        self.place = 0;
    }

    pub fn become_idle(&mut self, outcome: Outcome) {
        *self = Record { outcome, ..Record::default() };
    }

    pub fn return_all(&mut self, outcome: Outcome) {
        self.outcome = outcome;
        self.go_to(Phase::RETURNING);
    }
}
