//! The opening of the largest tree beside zeroing the same bytes.

use crate::nolthewyr::{Client, Settings};
use crate::row;
use crate::rust;
use crate::settings::{MOST_CLIENTS, SETTINGS};
use crate::sides::{Linked, Side, RATTLE, RUST};
use crate::tables::print_table;
use crate::timing::{best, time};
use std::hint::black_box;

const ROUNDS: usize = 200;

/// Zeroes the memory by libc's `memset`, to which the compiler turns `write_bytes`.
fn zero<T>(items: &mut [T]) {
    unsafe { black_box(items.as_mut_ptr()).write_bytes(0, items.len()) };
}

/// Milliseconds of Rattle, Rust and `memset` over the same memory.
fn measured(clients: &mut [Client], words: &mut [u64]) -> Vec<f64> {
    let open = |side: &mut Linked, clients: &mut [Client], words: &mut [u64]| {
        time(1, || assert_eq!(side.open(clients, words, SETTINGS), 0, "the opening is refused")) / 1e6
    };
    let (mut rattle, mut rust) = (black_box(RATTLE), black_box(RUST));
    best(ROUNDS, || {
        let memset = time(1, || {
            zero(clients);
            zero(words);
        });
        vec![open(&mut rattle, clients, words), open(&mut rust, clients, words), memset / 1e6]
    })
}

pub fn measure() {
    let Settings { levels, .. } = SETTINGS;
    let mut words = vec![u64::MAX; rust::nodes(levels) as usize];
    let rows: Vec<_> = [1, MOST_CLIENTS]
        .iter()
        .map(|&clients| {
            let mut lent = vec![Client::default(); clients];
            let times = measured(&mut lent, &mut words);
            let (rattle, rust, memset) = (times[0], times[1], times[2]);
            let (to_rust, to_memset, count) = (rattle / rust, rattle / memset, words.len());
            row!["{levels}", "{count}", "{clients}", "{rattle:.2}", "{rust:.2}", "{memset:.2}", "{to_rust:.2}", "{to_memset:.2}"]
        })
        .collect();
    let head = ["levels H", "words", "clients", "Rattle ms", "Rust ms", "memset ms", "Rattle / Rust", "Rattle / memset"];
    print_table("opening", &head, rows);
}
