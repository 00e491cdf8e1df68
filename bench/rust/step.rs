//! The step of a readable record: a method for each row of the phase table, which changes what the row names.

use super::record::grip;
use super::tree::{check_node, climb, level, nodes};
use super::word::{wanted_bits, DCNT, DMAX, OCC, TCNT, TMAX};
use super::Cause;
use crate::nolthewyr::{Outcome, Phase, Record, Settings};

fn word_of(words: &mut [u64], node: u64) -> &mut u64 {
    &mut words[node as usize - 1]
}

impl Record {
    pub fn advance(&mut self, words: &mut [u64], settings: &Settings, clock: u64) -> Result<(), Cause> {
        if self.out_of_patience(settings, clock) {
            self.return_all(Outcome::OUT_OF_PATIENCE);
            return Ok(());
        }
        match self.phase {
            Phase::TICKET => self.take_ticket(words),
            Phase::TURN => self.await_turn(words),
            Phase::CLIMB => self.go_up(words, clock),
            Phase::BLOCKED => self.await_ancestor(words),
            Phase::CLAIM => self.claim(words, settings, clock),
            Phase::NOTIFY => self.notify(words, settings, clock),
            Phase::WAIT => self.wait(settings, clock),
            Phase::CHECK => self.check(words, settings, clock),
            Phase::RETURNING => return self.give_back(words, settings),
            _ => {}
        }
        Ok(())
    }

    /// Patience runs from the first piece for every later one, in phases 1 to 8.
    fn out_of_patience(&self, settings: &Settings, clock: u64) -> bool {
        self.current > 0 && self.phase < Phase::HELD && clock - self.taken >= settings.patience
    }

    fn take_ticket(&mut self, words: &mut [u64]) {
        let word = word_of(words, self.piece(self.current));
        self.ticket = TMAX.of(*word);
        TMAX.add_one(word);
        self.grip = grip::TICKET;
        self.go_to(Phase::TURN);
    }

    fn await_turn(&mut self, words: &mut [u64]) {
        let node = self.piece(self.current);
        if TCNT.of(*word_of(words, node)) == self.ticket {
            self.grip = grip::TURN;
            self.go_to(if node == 1 { Phase::CLAIM } else { Phase::CLIMB });
        }
    }

    fn go_up(&mut self, words: &mut [u64], clock: u64) {
        let ancestor = climb(self.piece(self.current), self.place + 1);
        if *word_of(words, ancestor) & OCC != 0 {
            self.phase = Phase::BLOCKED;
            return;
        }
        if self.place == 0 {
            self.t1 = clock;
        }
        if ancestor == 1 {
            self.go_to(Phase::CLAIM);
        } else {
            self.place += 1;
        }
    }

    fn await_ancestor(&mut self, words: &mut [u64]) {
        let ancestor = climb(self.piece(self.current), self.place + 1);
        if *word_of(words, ancestor) & OCC == 0 {
            self.go_to(Phase::CLIMB);
        }
    }

    /// The bits of the window in a leaf that it meets.
    fn wanted(&self, settings: &Settings, leaf: u64) -> u64 {
        wanted_bits(64 * (leaf - 1 - nodes(settings.levels - 1)), self.left, self.right)
    }

    fn claim(&mut self, words: &mut [u64], settings: &Settings, clock: u64) {
        let node = self.piece(self.current);
        let word = word_of(words, node);
        if !settings.is_leaf(node) {
            *word ^= OCC;
            self.t0 = clock;
            self.grip = grip::TAKEN;
            self.go_to(if node == 1 { Phase::WAIT } else { Phase::NOTIFY });
            return;
        }
        let bits = self.wanted(settings, node);
        if *word & bits == 0 {
            *word |= bits;
            self.grip = grip::TAKEN;
            self.go_to(Phase::NOTIFY);
        } else {
            self.go_to(Phase::CLIMB);
        }
    }

    /// Late unless 10,001 × (clock - t1) < 9,999 × T. From T on it is late in any case; below T, which has 32 bits, both products fit 64.
    fn late(&self, settings: &Settings, clock: u64) -> bool {
        let elapsed = clock - self.t1;
        elapsed >= settings.wait || 10_001 * elapsed >= 9_999 * settings.wait
    }

    fn notify(&mut self, words: &mut [u64], settings: &Settings, clock: u64) {
        let node = self.piece(self.current);
        let d = level(node);
        DMAX.add_one(word_of(words, settings.notify_node(node, d, self.place)));
        self.place += 1;
        self.notices = self.place;
        if self.notices < settings.notify_count(d) {
            return;
        }
        if self.late(settings, clock) {
            self.return_all(Outcome::LATE);
        } else if d == settings.levels {
            self.end_piece(settings, clock);
        } else {
            self.go_to(Phase::WAIT);
        }
    }

    fn wait(&mut self, settings: &Settings, clock: u64) {
        if clock - self.t0 >= settings.wait {
            self.go_to(Phase::CHECK);
        }
    }

    fn check(&mut self, words: &mut [u64], settings: &Settings, clock: u64) {
        let node = self.piece(self.current);
        let word = *word_of(words, check_node(node, self.place));
        if DCNT.of(word) != DMAX.of(word) {
            return;
        }
        self.place += 1;
        if self.place == settings.check_count(level(node)) {
            self.end_piece(settings, clock);
        }
    }

    /// The piece is taken: the next one begins, or the window is held.
    fn end_piece(&mut self, settings: &Settings, clock: u64) {
        if self.current == 0 {
            self.taken = clock;
        }
        if self.current == 1 || self.second == 0 {
            self.go_to(Phase::HELD);
            return;
        }
        (self.current, self.grip, self.ticket, self.notices, self.t1, self.t0) = (1, grip::NOTHING, 0, 0, 0, 0);
        self.go_to(settings.first_phase(self.second));
    }

    fn give_back(&mut self, words: &mut [u64], settings: &Settings) -> Result<(), Cause> {
        let node = self.piece(self.giving);
        if self.place != 0 {
            DCNT.add_one(word_of(words, settings.notify_node(node, level(node), self.place - 1)));
        } else if settings.is_leaf(node) {
            let (word, bits) = (word_of(words, node), self.wanted(settings, node));
            if *word & bits != bits {
                return Err(Cause::ClearBit);
            }
            *word &= !bits;
        } else if !self.give_back_inner(word_of(words, node)) {
            return Ok(());
        }
        self.go_on_returning(settings);
        Ok(())
    }

    /// Whether the word was given back: a ticket first waits for its turn.
    fn give_back_inner(&mut self, word: &mut u64) -> bool {
        let grip = if self.giving < self.current { grip::TAKEN } else { self.grip };
        if grip == grip::TICKET {
            if TCNT.of(*word) == self.ticket {
                self.grip = grip::TURN;
            }
            return false;
        }
        if grip == grip::TAKEN {
            *word ^= OCC;
        }
        TCNT.add_one(word);
        true
    }

    /// After a word was given back: the piece's next notice, the next piece, or idle.
    fn go_on_returning(&mut self, settings: &Settings) {
        if self.place < self.notices_to_return(settings) {
            self.place += 1;
        } else if self.giving < self.current && self.grip != grip::NOTHING {
            self.giving = 1;
            self.place = 0;
        } else {
            self.become_idle(self.outcome);
        }
    }
}
