//! A window from its request to idle through the library, plain Rust and `fcntl`, while others hold from none up to 10,000 windows.

use crate::lent::{agree, Lent, Window};
use crate::ranges::{most_descriptions, Ranges};
use crate::row;
use crate::settings::{MOST_CLIENTS, SETTINGS, WINDOWS};
use crate::sides::{Linked, SIDES};
use crate::tables::print_table;
use crate::timing::{best, time};
use std::path::Path;

const MEASURED: u64 = MOST_CLIENTS as u64 - 1;
const HELD: [usize; 4] = [0, 100, 1000, 10000];

const ROUNDS: usize = 500;
const TAKES: usize = 500;

/// The window that another client holds: in turn a part of a leaf and an inner node one level above the leaves.
fn others(place: usize) -> Window {
    let edge = 16384 + 1024 * place as u64;
    if place % 2 == 0 {
        (edge + 10, edge + 20)
    } else {
        (edge, edge + 256)
    }
}

/// What is measured with one count of windows held by others: the sides' tables, and the file.
struct Trial {
    held: usize,
    tables: [Lent<Linked>; SIDES.len()],
    file: Ranges,
}

fn opened(side: Linked, windows: &[Window]) -> Lent<Linked> {
    let mut lent = Lent::opened(side, SETTINGS, MOST_CLIENTS);
    for (client, &window) in windows.iter().enumerate() {
        lent.take(client as u64, window);
    }
    lent
}

impl Trial {
    fn new(held: usize, directory: &Path) -> Trial {
        let windows: Vec<Window> = (0..held).map(others).collect();
        let tables = SIDES.map(|side| opened(side, &windows));
        let share = most_descriptions() * held / HELD.iter().sum::<usize>();
        let file = Ranges::held(&directory.join(format!("held-{held}")), &windows, share.max(1));
        Trial { held, tables, file }
    }

    fn compare(&self) {
        assert!(agree(&self.tables), "with {} windows held words or clients differ", self.held);
    }

    /// The times of Rattle, Rust and `fcntl`. `fcntl` has fewer takes where more ranges are held, since its time grows with them.
    fn round(&mut self, window: Window) -> [f64; 3] {
        let [rattle, rust] = self.tables.each_mut().map(|lent| time(TAKES, || lent.take_and_give_back(MEASURED, window)));
        let fcntl = time(TAKES / (1 + self.held / 100), || self.file.take_and_give_back(window));
        [rattle, rust, fcntl]
    }
}

/// The highest of Rattle's times over the lowest, for one window with every count of windows held.
fn spread(times: &[f64]) -> f64 {
    let rattle = times.iter().step_by(3);
    rattle.clone().fold(0.0, |high: f64, time| high.max(*time)) / rattle.fold(f64::INFINITY, |low, time| low.min(*time))
}

fn print(times: &[f64]) {
    let cases = WINDOWS.iter().flat_map(|(name, _)| HELD.map(|held| (name, held)));
    let rows = cases.zip(times.chunks(3)).map(|((name, held), times)| {
        let (rattle, rust, fcntl) = (times[0], times[1], times[2]);
        let (to_rust, of_fcntl) = (rattle / rust, fcntl / rattle);
        row!["{name}", "{held}", "{rattle:.0}", "{rust:.0}", "{to_rust:.2}", "{fcntl:.0}", "{of_fcntl:.2}"]
    });
    let head = ["window", "held by others", "Rattle ns", "Rust ns", "Rattle / Rust", "fcntl ns", "fcntl / Rattle"];
    print_table("windows", &head, rows);
    let rows = WINDOWS.iter().zip(times.chunks(3 * HELD.len())).map(|((name, _), times)| {
        let spread = spread(times);
        row!["{name}", "{spread:.2}"]
    });
    print_table("spread", &["window", "Rattle's highest time / its lowest"], rows);
}

/// Gives Rattle's time of each window with none held by others.
pub fn measure(directory: &Path) -> Vec<f64> {
    let mut trials = HELD.map(|held| Trial::new(held, directory));
    let descriptions = trials.each_ref().map(|trial| trial.file.descriptions());
    println!("ranges of the file are held through {descriptions:?} open file descriptions\n");
    trials.iter().for_each(Trial::compare);
    let times = best(ROUNDS, || {
        let windows = WINDOWS.iter().map(|(_, window)| *window);
        windows.flat_map(|window| trials.each_mut().map(|trial| trial.round(window))).flatten().collect()
    });
    trials.iter().for_each(Trial::compare);
    print(&times);
    times.into_iter().step_by(3 * HELD.len()).collect()
}
