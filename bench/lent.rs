//! A lent table with the calls of one side over it, and what is measured: a window from its request to idle.

use crate::nolthewyr::{Call, Client, Phase, Record, Settings};
use crate::rust;
use crate::sides::{Kind, Linked, Side};

/// Left and right edge.
pub type Window = (u64, u64);

pub struct Lent<S> {
    pub side: S,
    pub settings: Settings,
    pub words: Vec<u64>,
    pub clients: Vec<Client>,
    /// All clients that are measured are stepped by this one clock.
    clock: u64,
}

impl<S: Side> Lent<S> {
    /// Words and clients are filled, so that an opening that leaves some as they were is seen.
    pub fn filled(side: S, settings: Settings, count: usize, clients: usize) -> Lent<S> {
        // The pointers are hidden from the compiler, which could otherwise use what it knows of the Rust side's bodies.
        let side = std::hint::black_box(side);
        let filled = Client { clock: u64::MAX, record: Record { phase: Phase::HELD, ..Record::default() } };
        Lent { side, settings, words: vec![u64::MAX; count], clients: vec![filled; clients], clock: 0 }
    }

    pub fn open(&mut self) -> u64 {
        self.side.open(&mut self.clients, &mut self.words, self.settings)
    }

    /// An opened table with as many words as the tree has nodes.
    pub fn opened(side: S, settings: Settings, clients: usize) -> Lent<S> {
        let mut lent = Lent::filled(side, settings, rust::nodes(settings.levels) as usize, clients);
        assert_eq!(lent.open(), 0, "the opening is refused");
        lent
    }

    /// Makes the call on what the last one left.
    pub fn make(&mut self, kind: Kind, client: u64, a: u64, b: u64) -> u64 {
        let call = Call { kind: kind as u64, client, a, b };
        self.side.make(kind, &mut self.clients, &mut self.words, self.settings, call)
    }

    fn accepted(&mut self, kind: Kind, client: u64, a: u64, b: u64) {
        let number = self.make(kind, client, a, b);
        assert_eq!(number, 0, "{:?}", self.clients[client as usize]);
    }

    pub fn phase(&self, client: u64) -> Phase {
        self.clients[client as usize].record.phase
    }

    pub fn request(&mut self, client: u64, (l, r): Window) {
        self.accepted(Kind::Request, client, l, r);
    }

    pub fn cancel(&mut self, client: u64) {
        self.accepted(Kind::Cancel, client, 0, 0);
    }

    /// One step. Only in the wait does the clock move on, since with T 1 a piece is late if it moves between the climb and the last
    /// notice.
    pub fn step(&mut self, client: u64) {
        self.clock += (self.phase(client) == Phase::WAIT) as u64;
        self.accepted(Kind::Step, client, self.clock, 0);
    }

    pub fn step_until(&mut self, client: u64, phase: Phase) {
        while self.phase(client) != phase {
            self.step(client);
        }
    }

    /// Requests the window and steps until it is held.
    pub fn take(&mut self, client: u64, window: Window) {
        self.request(client, window);
        self.step_until(client, Phase::HELD);
    }

    /// Releases the window and steps until the client is idle.
    pub fn give_back(&mut self, client: u64) {
        self.accepted(Kind::Release, client, 0, 0);
        self.step_until(client, Phase::IDLE);
    }

    pub fn take_and_give_back(&mut self, client: u64, window: Window) {
        self.take(client, window);
        self.give_back(client);
    }
}

/// Whether words and clients of both tables are equal.
pub fn agree([one, other]: &[Lent<Linked>; 2]) -> bool {
    one.words == other.words && one.clients == other.clients
}
