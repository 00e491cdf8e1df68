//! A forecast run knows its window as quarters of a ward. It asks for the units that it has to lock, and which quarter a unit is.
//! ward [LEVELS]: the tree has 4 levels, or as many as are said.

use nolthewyr::{calendar_quarter, calendar_window, Calendar, Cause, Quarter};

const WARDS: u64 = 3;
const WEEKS: u64 = 2;
const DAYS: u64 = 7;
const OPENING: u64 = 6 * 4;
const CLOSING: u64 = 22 * 4;
const MIDNIGHT: u64 = 24 * 4;

/// Ward 0 is open from 06:00 to 22:00, the others day and night: a pair for each ward and day.
fn hours() -> Vec<u64> {
    (0..WARDS * DAYS).flat_map(|pair| if pair < DAYS { [OPENING, CLOSING] } else { [0, MIDNIGHT] }).collect()
}

fn words(Quarter { ward, week, day, quarter }: Quarter) -> String {
    format!("ward {ward} week {week} day {day} quarter {quarter}")
}

fn print_unit(calendar: Calendar, unit: u64) -> Result<(), Cause> {
    println!("  unit {unit} is {}", words(calendar_quarter(calendar, unit)?));
    Ok(())
}

/// The edges are what a request takes: the last quarter is locked too.
fn print_window(calendar: Calendar, first: Quarter, last: Quarter) -> Result<(), Cause> {
    print!("{} to {}: ", words(first), words(last));
    match calendar_window(&hours(), calendar, first, last) {
        Err(cause) => println!("refused by {}, {cause}", cause.0),
        Ok((left, right)) => {
            println!("[{left}, {right})");
            print_unit(calendar, left)?;
            print_unit(calendar, right - 1)?;
        }
    }
    Ok(())
}

fn at(ward: u64, week: u64, day: u64, quarter: u64) -> Quarter {
    Quarter { ward, week, day, quarter }
}

fn main() -> Result<(), Box<dyn std::error::Error>> {
    let levels = std::env::args().nth(1).map_or(Ok(4), |said| said.parse())?;
    let calendar = Calendar { levels, wards: WARDS, weeks: WEEKS };
    print_window(calendar, at(2, 0, 6, 95), at(2, 1, 0, 7))?;
    print_window(calendar, at(0, 0, 0, 24), at(0, 0, 0, 87))?;
    print_window(calendar, at(0, 0, 0, 24), at(0, 0, 1, 40))?;
    print_window(calendar, at(1, 0, 0, 40), at(2, 0, 0, 48))?;
    Ok(())
}
