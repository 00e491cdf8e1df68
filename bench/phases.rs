//! The calls whose instructions callgrind counts. Each is made from a function for the phase that its client is in, so that
//! callgrind's output, which has the cost of every called function by its caller, tells the phases apart.

use crate::lent::{Lent, Window};
use crate::nolthewyr::{Call, Client, Phase, Settings};
use crate::settings::{SETTINGS, WINDOWS};
use crate::sides::{Kind, Linked, OnTable, Side, SIDES};
use std::hint::black_box;

type InPhase = fn(OnTable, &mut [Client], &mut [u64], Settings, Call) -> u64;

#[inline(never)]
fn in_phase<const PHASE: u64>(
    on_table: OnTable,
    clients: &mut [Client],
    words: &mut [u64],
    settings: Settings,
    call: Call,
) -> u64 {
    let number = unsafe { on_table(clients.as_mut_ptr(), clients.len(), words.as_mut_ptr(), words.len(), settings, call) };
    // Something after the call, another thing for each phase: otherwise the compiler could jump in place of calling, or make one
    // function of all.
    black_box(PHASE);
    number
}

const IN_PHASE: [InPhase; 11] = [
    in_phase::<0>,
    in_phase::<1>,
    in_phase::<2>,
    in_phase::<3>,
    in_phase::<4>,
    in_phase::<5>,
    in_phase::<6>,
    in_phase::<7>,
    in_phase::<8>,
    in_phase::<9>,
    in_phase::<10>,
];

/// A side whose calls are told apart by phase where they are to be counted.
struct Counted {
    linked: Linked,
    counting: bool,
}

impl Side for Counted {
    fn open(&mut self, clients: &mut [Client], words: &mut [u64], settings: Settings) -> u64 {
        self.linked.open(clients, words, settings)
    }

    fn make(&mut self, kind: Kind, clients: &mut [Client], words: &mut [u64], settings: Settings, call: Call) -> u64 {
        if !self.counting {
            return self.linked.make(kind, clients, words, settings, call);
        }
        let Phase(phase) = clients[call.client as usize].record.phase;
        IN_PHASE[phase as usize](self.linked.calls[kind as usize], clients, words, settings, call)
    }
}

impl Lent<Counted> {
    fn counted(&mut self, calls: impl FnOnce(&mut Self)) {
        self.side.counting = true;
        calls(self);
        self.side.counting = false;
    }

    /// A cancel after every number of steps with which the window is not yet held.
    fn cancel_everywhere(&mut self, client: u64, window: Window) {
        for steps in 0.. {
            self.request(client, window);
            (0..steps).for_each(|_| self.step(client));
            if self.phase(client) == Phase::HELD {
                return self.give_back(client);
            }
            self.counted(|lent| lent.cancel(client));
            self.step_until(client, Phase::IDLE);
        }
    }

    /// A step that finds the ancestor held, and one that finds it free again.
    fn block(&mut self, client: u64, window: Window, other: u64, ancestor: Window) {
        self.take(other, ancestor);
        self.request(client, window);
        self.step_until(client, Phase::BLOCKED);
        self.counted(|lent| lent.step(client));
        self.give_back(other);
        self.counted(|lent| lent.step(client));
        self.step_until(client, Phase::HELD);
        self.give_back(client);
    }
}

pub fn run() {
    for linked in SIDES {
        let mut lent = Lent::opened(Counted { linked, counting: false }, SETTINGS, 2);
        for (_, window) in WINDOWS {
            lent.counted(|lent| lent.take_and_give_back(0, window));
            lent.cancel_everywhere(0, window);
            lent.block(0, window, 1, (0, 16384));
        }
    }
}
