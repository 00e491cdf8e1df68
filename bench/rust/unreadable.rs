//! Whether a record is unreadable, which every call asks first: the clauses of document 01's paragraph "Unreadable", and those that
//! request 2.2 adds.

use super::record::grip;
use super::tree::{cover, level};
use crate::nolthewyr::{Outcome, Phase, Record, Settings};

const MOST_TICKET: u64 = 32767;

impl Record {
    #[inline(always)]
    fn wrong_in_returning(&self, settings: &Settings, leaf: bool) -> bool {
        let no_grip = if leaf { !matches!(self.grip, grip::NOTHING | grip::TAKEN) } else { self.grip > grip::TAKEN };
        self.place > self.notices_to_return(settings)
            || self.outcome == Outcome::NONE
            || no_grip
            || self.giving > self.current
            || self.giving == self.current && self.grip == grip::NOTHING
            || self.outcome == Outcome::OUT_OF_PATIENCE && self.current == 0
    }

    /// A time at which the first piece was taken, while this piece is not yet taken or was never taken.
    #[inline(always)]
    fn taken_too_early(&self) -> bool {
        let released = self.phase == Phase::RETURNING && self.outcome == Outcome::RELEASED;
        self.taken != 0 && self.current == 0 && self.phase != Phase::HELD && !released
    }

    /// The clauses that go by the phase: place, grip, and which node may be in it. The root needs no clause: its lists of ancestors
    /// are empty, so that any place is past them.
    #[inline(always)]
    fn wrong_in_phase(&self, settings: &Settings, d: u64, notices: u64) -> bool {
        let leaf = d == settings.levels;
        let turn = if leaf { grip::NOTHING } else { grip::TURN };
        match self.phase {
            Phase::TICKET => self.place != 0 || leaf || self.grip != grip::NOTHING,
            Phase::TURN => self.place != 0 || leaf || self.grip != grip::TICKET,
            Phase::CLIMB | Phase::BLOCKED => self.place >= d - 1 || self.grip != turn,
            Phase::CLAIM => self.place != 0 || self.grip != turn,
            Phase::NOTIFY => self.place >= notices || self.notices != self.place || self.grip != grip::TAKEN,
            Phase::WAIT => self.place != 0 || leaf || self.grip != grip::TAKEN,
            Phase::CHECK => leaf || self.place >= settings.check_count(d) || self.grip != grip::TAKEN,
            Phase::HELD => self.place != 0 || self.current == 0 && self.second != 0 || self.grip != grip::TAKEN,
            _ => self.wrong_in_returning(settings, leaf),
        }
    }

    /// All clauses have one answer, so their order is free: those that go by the phase are last.
    #[inline(always)]
    pub fn unreadable(&self, settings: &Settings, last: u64) -> bool {
        if self.phase > Phase::RETURNING || self.outcome > Outcome::OUT_OF_PATIENCE {
            return true;
        }
        if self.phase == Phase::IDLE {
            return *self != Record { outcome: self.outcome, ..Record::default() };
        }
        let cover = cover(settings.levels, self.left, self.right);
        if !cover.is_some_and(|cover| cover.first == self.first && cover.second == self.second) {
            return true;
        }
        if self.current > (self.second != 0) as u64 || self.ticket > MOST_TICKET {
            return true;
        }
        if self.t1 > last || self.t0 > last || self.taken > last || self.taken_too_early() {
            return true;
        }
        let d = level(self.piece(self.current));
        let notices = settings.notify_count(d);
        self.notices > notices
            || self.notices != 0 && self.grip < grip::TAKEN
            || self.phase != Phase::RETURNING && (self.outcome != Outcome::NONE || self.giving != 0)
            || self.wrong_in_phase(settings, d, notices)
    }
}
