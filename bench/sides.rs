//! The two sides, the library's calls and those in plain Rust, and the ways in which a side is called.

use crate::nolthewyr::{nolthewyr_cancel, nolthewyr_open, nolthewyr_release, nolthewyr_request, nolthewyr_step};
use crate::nolthewyr::{Call, Client, Settings};
use crate::rust::{self, linked};
use std::mem::transmute;

pub type Open = unsafe extern "C" fn(*mut Client, usize, *mut u64, usize, Settings) -> u64;
pub type OnTable = unsafe extern "C" fn(*mut Client, usize, *mut u64, usize, Settings, Call) -> u64;

#[derive(Clone, Copy, Debug)]
pub enum Kind {
    Request,
    Step,
    Release,
    Cancel,
}

pub const KINDS: [Kind; 4] = [Kind::Request, Kind::Step, Kind::Release, Kind::Cancel];

/// An opening and the calls over a lent table.
pub trait Side {
    fn open(&mut self, clients: &mut [Client], words: &mut [u64], settings: Settings) -> u64;
    fn make(&mut self, kind: Kind, clients: &mut [Client], words: &mut [u64], settings: Settings, call: Call) -> u64;
}

/// A side as C and Rust link it: the opening, and the calls in the order of their kinds. Both are called by C's convention, so that
/// both pay the same for a call.
#[derive(Clone, Copy)]
pub struct Linked {
    pub open: Open,
    pub calls: [OnTable; KINDS.len()],
}

pub const RATTLE: Linked =
    Linked { open: nolthewyr_open, calls: [nolthewyr_request, nolthewyr_step, nolthewyr_release, nolthewyr_cancel] };
pub const RUST: Linked = Linked { open: linked::open, calls: [linked::request, linked::step, linked::release, linked::cancel] };

/// Plain Rust whose steps do not ask whether the record is unreadable, which document 01 does not allow: what the test costs.
pub const UNTESTED: Linked = Linked { calls: [linked::request, linked::untested_step, linked::release, linked::cancel], ..RUST };

pub const SIDES: [Linked; 2] = [RATTLE, RUST];

impl Side for Linked {
    fn open(&mut self, clients: &mut [Client], words: &mut [u64], settings: Settings) -> u64 {
        unsafe { (self.open)(clients.as_mut_ptr(), clients.len(), words.as_mut_ptr(), words.len(), settings) }
    }

    fn make(&mut self, kind: Kind, clients: &mut [Client], words: &mut [u64], settings: Settings, call: Call) -> u64 {
        let on_table = self.calls[kind as usize];
        unsafe { on_table(clients.as_mut_ptr(), clients.len(), words.as_mut_ptr(), words.len(), settings, call) }
    }
}

/// Settings and call as single numbers. C's convention on x86-64 puts a struct of more than 16 bytes on the stack, and numbers too
/// once six stand in registers: after two that nobody reads, the fields of the structs lie where the structs would.
type ByNumbers =
    unsafe extern "C" fn(*mut Client, usize, *mut u64, usize, u64, u64, u64, u64, u64, u64, u64, u64, u64, u64) -> u64;

/// A side whose caller writes the fields of settings and call where the function reads them, in place of copying the structs there.
pub struct Written(pub Linked);

impl Side for Written {
    fn open(&mut self, clients: &mut [Client], words: &mut [u64], settings: Settings) -> u64 {
        self.0.open(clients, words, settings)
    }

    fn make(&mut self, kind: Kind, clients: &mut [Client], words: &mut [u64], settings: Settings, call: Call) -> u64 {
        let Settings { levels, distance, wait, patience } = settings;
        let Call { kind: number, client, a, b } = call;
        let (clients, client_count, words, word_count) = (clients.as_mut_ptr(), clients.len(), words.as_mut_ptr(), words.len());
        unsafe {
            let on_table: ByNumbers = transmute(self.0.calls[kind as usize]);
            on_table(clients, client_count, words, word_count, 0, 0, levels, distance, wait, patience, number, client, a, b)
        }
    }
}

/// Plain Rust as Rust calls Rust: by reference, and the compiler sees what it calls.
pub struct Seen;

impl Side for Seen {
    fn open(&mut self, clients: &mut [Client], words: &mut [u64], settings: Settings) -> u64 {
        rust::open(clients, words, &settings)
    }

    fn make(&mut self, kind: Kind, clients: &mut [Client], words: &mut [u64], settings: Settings, call: Call) -> u64 {
        match kind {
            Kind::Request => rust::request(clients, words, &settings, &call),
            Kind::Step => rust::step(clients, words, &settings, &call),
            Kind::Release => rust::release(clients, words, &settings, &call),
            Kind::Cancel => rust::cancel(clients, words, &settings, &call),
        }
    }
}
