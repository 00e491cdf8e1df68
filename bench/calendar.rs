//! Ward hours there and back, through the library and in plain Rust, both by C's convention: windows of every length in calendars of
//! one ward and week, of some, and of as many as there may be.

use crate::nolthewyr::{nolthewyr_calendar_quarter, nolthewyr_calendar_window};
use crate::nolthewyr::{Calendar, CalendarQuarterAnswer, CalendarWindowAnswer, Quarter};
use crate::random::Random;
use crate::row;
use crate::rust::linked;
use crate::settings::SETTINGS;
use crate::tables::print_table;
use crate::timing::{best, time_each};
use std::hint::black_box;

type Window = unsafe extern "C" fn(*const u64, usize, Calendar, Quarter, Quarter) -> CalendarWindowAnswer;
type Back = unsafe extern "C" fn(Calendar, u64) -> CalendarQuarterAnswer;

/// The last of them looks at every quarter.
const WINDOW: [Window; 3] = [nolthewyr_calendar_window, linked::calendar_window, linked::window_by_quarters];
const BACK: [Back; 2] = [nolthewyr_calendar_quarter, linked::calendar_quarter];

const FIGURES: [(u64, u64); 3] = [(1, 1), (8, 8), (64, 60)];
const QUARTERS: u64 = 96;
const WEEK: u64 = 7 * QUARTERS;
const ROUNDS: usize = 200;
const CALLS: usize = 2000;
const COMPARED: usize = 200_000;
const UNITS: usize = 1000;

/// The hours, the calendar, and the first and the last quarter.
type Asked = (Vec<u64>, Calendar, Quarter, Quarter);

fn call(window: Window, (hours, calendar, first, last): &Asked) -> CalendarWindowAnswer {
    unsafe { window(hours.as_ptr(), hours.len(), *calendar, *first, *last) }
}

/// Random calendars, of which some do not fit.
fn any_calendar(random: &mut Random) -> Calendar {
    let most = random.one_of(&[2, 8, 66]);
    Calendar { levels: random.below(14), wards: random.below(most), weeks: random.below(most.min(62)) }
}

/// Mostly open all day; else open for some quarters, closed all day, or any two numbers, which may be no hours.
fn any_pair(random: &mut Random) -> [u64; 2] {
    let opening = random.below(QUARTERS + 1);
    let closing = opening + random.below(QUARTERS + 1 - opening);
    let any = [random.below(QUARTERS + 2), random.below(QUARTERS + 2)];
    match random.below(500) {
        0 => any,
        1..20 => [opening, closing],
        20..30 => [opening, opening],
        _ => [0, QUARTERS],
    }
}

fn any_quarter(random: &mut Random, calendar: &Calendar) -> Quarter {
    let mut below = |count: u64| if random.seldom(200) { count } else { random.below(count.max(1)) };
    Quarter { ward: below(calendar.wards), week: below(calendar.weeks), day: below(7), quarter: below(QUARTERS) }
}

fn any_question(random: &mut Random) -> Asked {
    let calendar = any_calendar(random);
    let mut hours: Vec<u64> = (0..7 * calendar.wards).flat_map(|_| any_pair(random)).collect();
    if random.seldom(100) {
        hours.pop();
    }
    let (first, other) = (any_quarter(random, &calendar), any_quarter(random, &calendar));
    let last = if random.seldom(20) { other } else { Quarter { ward: first.ward, ..other } };
    (hours, calendar, first, last)
}

/// All sides give the same answers, and every cause is among them.
fn compare_windows(random: &mut Random) {
    let mut seen = [0; 15];
    for _ in 0..COMPARED {
        let asked = any_question(random);
        let [rattle, rust, by_quarters] = WINDOW.map(|window| call(window, &asked));
        assert_eq!(rattle, rust, "{asked:?}: Rattle on the left, Rust on the right");
        assert_eq!(rust, by_quarters, "{asked:?}: by days on the left, by quarters on the right");
        seen[rust.number as usize] += 1;
    }
    assert!([0, 1, 12, 13, 14].iter().all(|&number| seen[number] > COMPARED / 200), "{seen:?} answers by their numbers");
}

fn compare_quarters(random: &mut Random) {
    for _ in 0..COMPARED {
        let calendar = any_calendar(random);
        let unit = random.below(calendar.wards * calendar.weeks * WEEK + 2);
        let [rattle, rust] = BACK.map(|back| unsafe { back(calendar, unit) });
        assert_eq!(rattle, rust, "{calendar:?}, {unit}: Rattle on the left, Rust on the right");
    }
}

/// Windows of the last ward, which is always open, as all are: what each is called, and its first and last quarter.
fn windows(calendar: &Calendar) -> [(&'static str, Asked); 4] {
    let hours: Vec<u64> = (0..7 * calendar.wards).flat_map(|_| [0, QUARTERS]).collect();
    let at = |week, day, quarter| Quarter { ward: calendar.wards - 1, week, day, quarter };
    let asked = |first, last| (hours.clone(), *calendar, first, last);
    [
        ("a quarter", asked(at(0, 2, 40), at(0, 2, 40))),
        ("a day", asked(at(0, 2, 0), at(0, 2, QUARTERS - 1))),
        ("over midnight, 2 hours", asked(at(0, 2, QUARTERS - 4), at(0, 3, 3))),
        ("all weeks", asked(at(0, 0, 0), at(calendar.weeks - 1, 6, QUARTERS - 1))),
    ]
}

/// Nanoseconds of a window on every side. Where every quarter is looked at, a long window is asked for less often.
fn window_times(asked: &Asked) -> Vec<f64> {
    let answer = call(WINDOW[0], asked);
    assert_eq!(answer.number, 0, "{asked:?} is refused");
    let fewer = (answer.right - answer.left) as usize / 50 + 1;
    let times = black_box(WINDOW).into_iter().zip([CALLS, CALLS, CALLS / fewer + 1]);
    let time_of = |(window, calls)| {
        time_each(calls, &[asked], |asked| {
            black_box(call(window, asked));
        })
    };
    times.map(time_of).collect()
}

fn back_times(calendar: Calendar, units: &[u64]) -> Vec<f64> {
    let time_of = |back: Back| {
        time_each(CALLS, units, |unit| {
            black_box(unsafe { back(calendar, unit) });
        })
    };
    black_box(BACK).map(time_of).to_vec()
}

/// A row of the table: what is asked, how many wards and weeks there are, and the times of the sides.
fn printed(name: &str, calendar: &Calendar, times: &[f64]) -> Vec<String> {
    let Calendar { wards, weeks, .. } = calendar;
    let (rattle, rust) = (times[0], times[1]);
    let ratio = rattle / rust;
    let by_quarters = times.get(2).map_or(String::new(), |time| format!("{time:.1}"));
    row!["{name}", "{wards} × {weeks}", "{rattle:.1}", "{rust:.1}", "{ratio:.2}", "{by_quarters}"]
}

pub fn measure() {
    compare_windows(&mut Random(6));
    compare_quarters(&mut Random(7));
    let calendars = FIGURES.map(|(wards, weeks)| Calendar { levels: SETTINGS.levels, wards, weeks });
    let mut random = Random(8);
    let units = calendars.map(|Calendar { wards, weeks, .. }| [(); UNITS].map(|()| random.below(wards * weeks * WEEK)));
    let asked: Vec<_> = calendars.iter().flat_map(windows).collect();
    let times = best(ROUNDS, || {
        let windows = asked.iter().flat_map(|(_, asked)| window_times(asked));
        windows.chain(calendars.iter().zip(&units).flat_map(|(calendar, units)| back_times(*calendar, units))).collect()
    });
    let (there, back) = times.split_at(WINDOW.len() * asked.len());
    let windows = asked.iter().zip(there.chunks(WINDOW.len())).map(|((name, asked), times)| printed(name, &asked.1, times));
    let units = calendars
        .iter()
        .zip(back.chunks(BACK.len()))
        .map(|(calendar, times)| printed("back, 1,000 units in turn", calendar, times));
    let head = ["window", "wards × weeks", "Rattle ns", "Rust ns", "Rattle / Rust", "Rust by quarters ns"];
    print_table("calendar", &head, windows.chain(units));
}
