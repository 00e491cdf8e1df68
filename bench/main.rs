//! Compares the library's calls with the same calls in plain Rust, and measures both. `main DIRECTORY` prints the tables of times,
//! with its files to lock in the directory. `main` alone makes the calls whose instructions callgrind counts.

mod alone;
mod calendar;
mod called;
mod growth;
mod histories;
mod lent;
mod met;
mod network;
#[path = "../include/nolthewyr.rs"]
mod nolthewyr;
mod opening;
mod pages;
mod phases;
mod random;
mod ranges;
mod rust;
mod settings;
mod sides;
mod tables;
mod timing;
mod windows;

use std::path::Path;

fn main() {
    let Some(directory) = std::env::args().nth(1) else {
        return phases::run();
    };
    let directory = Path::new(&directory);
    histories::compare_sides();
    let alone = windows::measure(directory);
    network::print(&alone);
    called::measure(directory);
    alone::measure();
    growth::measure_clients();
    growth::measure_levels();
    opening::measure();
    pages::measure();
    calendar::measure();
}
