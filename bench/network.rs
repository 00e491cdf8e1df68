//! What the lock's own time is beside a network: each step that touches a word is one operation at the memory server, a round trip.

use crate::met::{met, operations};
use crate::row;
use crate::settings::{SETTINGS, WINDOWS};
use crate::tables::print_table;

/// Microseconds of a round trip: measured, and reserved for each, in section 3.5.5 of the CITRON paper.
const ROUND_TRIP: [f64; 2] = [2.0, 5.0];

/// Takes Rattle's nanoseconds of each window with none held by others.
pub fn print(nanoseconds: &[f64]) {
    let rows = WINDOWS.iter().zip(nanoseconds).map(|((name, window), own)| {
        let met = met(SETTINGS, *window);
        let (calls, operations, own) = (met.len(), operations(&met), own / 1e3);
        let [low, high] = ROUND_TRIP.map(|trip| trip * operations as f64);
        let [of_low, of_high] = [low, high].map(|trips| 100.0 * own / trips);
        row!["{name}", "{calls}", "{operations}", "{own:.2}", "{low:.0}", "{of_low:.1} %", "{high:.0}", "{of_high:.1} %"]
    });
    let trips = ROUND_TRIP.map(|trip| [format!("µs of round trips at {trip} µs"), format!("Rattle / round trips at {trip} µs")]);
    let head = ["window", "calls", "round trips", "Rattle µs", &trips[0][0], &trips[0][1], &trips[1][0], &trips[1][1]];
    print_table("network", &head, rows);
}
