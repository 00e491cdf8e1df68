//! The lock in plain Rust, the competitor of the Rattle code: the calls over the table, each of which tests all that the documents
//! say and changes the client where it stands.

mod calendar;
mod client;
pub mod linked;
mod pages;
mod record;
mod step;
mod tree;
mod unreadable;
mod word;

use crate::nolthewyr::{Call, Client, Settings};

pub use calendar::{calendar_quarter, calendar_window, window_by_quarters};
pub use pages::{planners_page, run_page};
pub use tree::{nodes, Cover};
pub use word::wanted_bits;

const MOST_CLIENTS: usize = 32767;

/// Why a call is refused, by the documents' numbers.
#[derive(Clone, Copy)]
pub enum Cause {
    Settings = 1,
    WordCount = 2,
    ClientCount = 3,
    Client = 4,
    Clock = 5,
    Unreadable = 6,
    Window = 7,
    Phase = 8,
    ClearBit = 9,
    Calendar = 12,
    LastQuarter = 13,
    Closed = 14,
}

fn has_levels(levels: u64) -> bool {
    (2..=12).contains(&levels)
}

/// Cause 1.
fn test_settings(settings: &Settings) -> Result<(), Cause> {
    let Settings { levels, distance, wait, patience } = *settings;
    let ticks = 1..=u32::MAX as u64;
    let inside = has_levels(levels) && (1..=4).contains(&distance) && ticks.contains(&wait) && ticks.contains(&patience);
    if inside {
        Ok(())
    } else {
        Err(Cause::Settings)
    }
}

/// Cause 3.
fn test_clients(clients: &[Client]) -> Result<(), Cause> {
    if (1..=MOST_CLIENTS).contains(&clients.len()) {
        Ok(())
    } else {
        Err(Cause::ClientCount)
    }
}

/// Causes 1 to 3.
fn test_table(clients: &[Client], words: &[u64], settings: &Settings) -> Result<(), Cause> {
    test_settings(settings)?;
    if words.len() as u64 != nodes(settings.levels) {
        return Err(Cause::WordCount);
    }
    test_clients(clients)
}

/// 0, or the number of the cause.
fn number(made: Result<(), Cause>) -> u64 {
    made.map_or_else(|cause| cause as u64, |()| 0)
}

/// Makes a call on its client, after causes 1 to 4.
fn on_client(
    clients: &mut [Client],
    words: &mut [u64],
    settings: &Settings,
    call: &Call,
    make: impl FnOnce(&mut Client, &mut [u64]) -> Result<(), Cause>,
) -> u64 {
    let tested = test_table(clients, words, settings);
    let client = tested.and_then(|()| clients.get_mut(call.client as usize).ok_or(Cause::Client));
    number(client.and_then(|client| make(client, words)))
}

pub fn request(clients: &mut [Client], words: &mut [u64], settings: &Settings, call: &Call) -> u64 {
    on_client(clients, words, settings, call, |client, _| client.request(settings, call.a, call.b))
}

pub fn step(clients: &mut [Client], words: &mut [u64], settings: &Settings, call: &Call) -> u64 {
    on_client(clients, words, settings, call, |client, words| client.step(words, settings, call.a))
}

/// A step that takes the record for readable. No call of the lock may: it is here to measure what the test costs.
pub fn untested_step(clients: &mut [Client], words: &mut [u64], settings: &Settings, call: &Call) -> u64 {
    on_client(clients, words, settings, call, |client, words| client.untested_step(words, settings, call.a))
}

pub fn release(clients: &mut [Client], words: &mut [u64], settings: &Settings, call: &Call) -> u64 {
    on_client(clients, words, settings, call, |client, _| client.release(settings))
}

pub fn cancel(clients: &mut [Client], words: &mut [u64], settings: &Settings, call: &Call) -> u64 {
    on_client(clients, words, settings, call, |client, _| client.cancel(settings))
}

pub fn open(clients: &mut [Client], words: &mut [u64], settings: &Settings) -> u64 {
    if let Err(cause) = test_table(clients, words, settings) {
        return cause as u64;
    }
    clients.fill(Client::default());
    words.fill(0);
    0
}

/// The cover as a call, which tests 1 for H, then 7.
pub fn cover(levels: u64, l: u64, r: u64) -> Result<Cover, Cause> {
    if !has_levels(levels) {
        return Err(Cause::Settings);
    }
    tree::cover(levels, l, r).ok_or(Cause::Window)
}

/// The step count as a call, which tests 1 for H and m, then 7. T and P make no difference.
pub fn step_count(levels: u64, distance: u64, l: u64, r: u64) -> Result<u64, Cause> {
    let settings = Settings { levels, distance, wait: 1, patience: 1 };
    test_settings(&settings)?;
    let Cover { first, second, .. } = tree::cover(levels, l, r).ok_or(Cause::Window)?;
    Ok(settings.steps(first, second))
}
