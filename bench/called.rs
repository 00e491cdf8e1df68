//! What a way of calling and the unreadable test cost: a window from its request to idle, alone in the tree.

use crate::lent::{Lent, Window};
use crate::ranges::Ranges;
use crate::settings::{SETTINGS, WINDOWS};
use crate::sides::{Seen, Side, Written, RATTLE, RUST, UNTESTED};
use crate::tables::print_table;
use crate::timing::{best, time};
use std::path::Path;

const ROUNDS: usize = 500;
const TAKES: usize = 500;

type Measured = (&'static str, Box<dyn FnMut(Window) -> f64>);

fn calls(name: &'static str, side: impl Side + 'static) -> Measured {
    let mut lent = Lent::opened(side, SETTINGS, 1);
    (name, Box::new(move |window| time(TAKES, || lent.take_and_give_back(0, window))))
}

fn file(name: &'static str, path: &Path) -> Measured {
    let ranges = Ranges::held(path, &[], 1);
    (name, Box::new(move |window| time(TAKES, || ranges.take_and_give_back(window))))
}

pub fn measure(directory: &Path) {
    let mut measured = [
        calls("Rattle, settings and call copied for a call, as in the other tables", RATTLE),
        calls("Rust, in the same way", RUST),
        calls("Rust, in the same way, without the unreadable test in a step", UNTESTED),
        calls("Rattle, settings and call written where the function reads them", Written(RATTLE)),
        calls("Rust, in the same way", Written(RUST)),
        calls("Rust, in the same way, without the unreadable test in a step", Written(UNTESTED)),
        calls("Rust called from Rust, by reference", Seen),
        file("fcntl, no range held by others", &directory.join("held-0")),
    ];
    let times = best(ROUNDS, || measured.iter_mut().flat_map(|(_, measure)| WINDOWS.map(|(_, window)| measure(window))).collect());
    let rows = measured.iter().zip(times.chunks(WINDOWS.len())).map(|((name, _), times)| {
        let times = times.iter().map(|time| format!("{time:.0}"));
        std::iter::once(name.to_string()).chain(times).collect()
    });
    let head: Vec<String> = WINDOWS.iter().map(|(name, _)| format!("{name} ns")).collect();
    print_table("called", &["who, and how called", &head[0], &head[1], &head[2]], rows);
}
