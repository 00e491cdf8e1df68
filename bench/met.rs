//! A client before each of its calls, alone in the tree, from a window's request until it is idle.

use crate::lent::{Lent, Window};
use crate::nolthewyr::{Call, Client, Phase, Settings};
use crate::sides::{Kind, Linked, Side, RUST};

/// A side of which the clients before their calls are kept.
struct Watched {
    linked: Linked,
    met: Vec<Client>,
}

impl Side for Watched {
    fn open(&mut self, clients: &mut [Client], words: &mut [u64], settings: Settings) -> u64 {
        self.linked.open(clients, words, settings)
    }

    fn make(&mut self, kind: Kind, clients: &mut [Client], words: &mut [u64], settings: Settings, call: Call) -> u64 {
        self.met.push(clients[call.client as usize]);
        self.linked.make(kind, clients, words, settings, call)
    }
}

pub fn met(settings: Settings, window: Window) -> Vec<Client> {
    let mut lent = Lent::opened(Watched { linked: RUST, met: Vec::new() }, settings, 1);
    lent.take_and_give_back(0, window);
    lent.side.met
}

/// How many of the calls touch a word: all steps but that of the wait. A request finds the record idle, a release finds it held.
pub fn operations(met: &[Client]) -> usize {
    met.iter().filter(|client| !matches!(client.record.phase, Phase::IDLE | Phase::WAIT | Phase::HELD)).count()
}
