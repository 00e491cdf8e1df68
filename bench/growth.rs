//! How the time of a window grows: with the clients in the table, and with the levels of the tree.

use crate::lent::{Lent, Window};
use crate::met::met;
use crate::nolthewyr::Settings;
use crate::row;
use crate::settings::{Named, INNER, LEAF, MOST_CLIENTS, SETTINGS};
use crate::sides::{Linked, SIDES};
use crate::tables::print_table;
use crate::timing::{best, time};

const CLIENTS: [usize; 6] = [1, 10, 100, 1000, 10000, MOST_CLIENTS];
const LEVELS: [u64; 7] = [2, 3, 4, 6, 8, 10, 12];

/// An inner node that every tree has: one level above the leaves, in the lowest tree the root.
const LOW: Named = ("inner node [0, 256)", (0, 256));

const ROUNDS: usize = 500;
const TAKES: usize = 500;

/// The tables of both sides, in which the last client takes windows.
struct Pair([Lent<Linked>; SIDES.len()]);

impl Pair {
    fn new(settings: Settings, clients: usize) -> Pair {
        Pair(SIDES.map(|side| Lent::opened(side, settings, clients)))
    }

    fn round(&mut self, window: Window) -> [f64; SIDES.len()] {
        self.0.each_mut().map(|lent| {
            let client = lent.clients.len() as u64 - 1;
            time(TAKES, || lent.take_and_give_back(client, window))
        })
    }
}

/// The times of both sides for each window in each pair of tables, with the window and the size by which the pairs differ.
fn measured<T: Copy>(windows: [Named; 2], sizes: &[T], pair: impl Fn(T) -> Pair) -> Vec<(Named, T, [f64; 2])> {
    let mut pairs: Vec<Pair> = sizes.iter().map(|size| pair(*size)).collect();
    let times = best(ROUNDS, || {
        let mut times = Vec::new();
        for (_, window) in windows {
            pairs.iter_mut().for_each(|pair| times.extend(pair.round(window)));
        }
        times
    });
    let cases = windows.iter().flat_map(|window| sizes.iter().map(|size| (*window, *size)));
    cases.zip(times.chunks(2)).map(|((window, size), times)| (window, size, [times[0], times[1]])).collect()
}

pub fn measure_clients() {
    let times = measured([LEAF, INNER], &CLIENTS, |clients| Pair::new(SETTINGS, clients));
    let rows = times.into_iter().map(|((name, _), clients, [rattle, rust])| {
        let ratio = rattle / rust;
        row!["{name}", "{clients}", "{rattle:.0}", "{rust:.0}", "{ratio:.2}"]
    });
    print_table("clients", &["window", "clients", "Rattle ns", "Rust ns", "Rattle / Rust"], rows);
}

pub fn measure_levels() {
    let settings = |levels| Settings { levels, ..SETTINGS };
    let times = measured([LEAF, LOW], &LEVELS, |levels| Pair::new(settings(levels), 1));
    let rows = times.into_iter().map(|((name, window), levels, [rattle, rust])| {
        let calls = met(settings(levels), window).len();
        let (ratio, of_rattle, of_rust) = (rattle / rust, rattle / calls as f64, rust / calls as f64);
        row!["{name}", "{levels}", "{calls}", "{rattle:.0}", "{rust:.0}", "{ratio:.2}", "{of_rattle:.1}", "{of_rust:.1}"]
    });
    let head = ["window", "levels H", "calls", "Rattle ns", "Rust ns", "Rattle / Rust", "Rattle ns a call", "Rust ns a call"];
    print_table("levels", &head, rows);
}
