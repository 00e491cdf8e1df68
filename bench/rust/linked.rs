//! The calls by C's convention, with the signatures that the libraries `nolthewyr` and `probe` have.

use super::Cover;
use crate::nolthewyr::{Calendar, CalendarQuarterAnswer, CalendarWindowAnswer, Quarter};
use crate::nolthewyr::{Call, Client, CoverAnswer, Record, Row, RunPageAnswer, Settings, StepCountAnswer};
use std::slice::{from_raw_parts, from_raw_parts_mut};

/// The lent clients and words, as slices.
///
/// # Safety
/// As include/nolthewyr.h says: the lengths are true, and nothing overlaps.
unsafe fn lent<'a>(
    clients: *mut Client,
    client_count: usize,
    words: *mut u64,
    word_count: usize,
) -> (&'a mut [Client], &'a mut [u64]) {
    (from_raw_parts_mut(clients, client_count), from_raw_parts_mut(words, word_count))
}

macro_rules! linked {
    ($($name:ident),+) => {
        $(pub unsafe extern "C" fn $name(
            clients: *mut Client,
            client_count: usize,
            words: *mut u64,
            word_count: usize,
            settings: Settings,
            call: Call,
        ) -> u64 {
            let (clients, words) = lent(clients, client_count, words, word_count);
            super::$name(clients, words, &settings, &call)
        })+
    };
}

linked!(request, step, untested_step, release, cancel);

pub unsafe extern "C" fn open(
    clients: *mut Client,
    client_count: usize,
    words: *mut u64,
    word_count: usize,
    settings: Settings,
) -> u64 {
    let (clients, words) = lent(clients, client_count, words, word_count);
    super::open(clients, words, &settings)
}

pub unsafe extern "C" fn planners_page(
    clients: *const Client,
    client_count: usize,
    rows: *mut Row,
    row_count: usize,
    settings: Settings,
) -> u64 {
    super::planners_page(from_raw_parts(clients, client_count), from_raw_parts_mut(rows, row_count), &settings)
}

pub unsafe extern "C" fn run_page(clients: *const Client, client_count: usize, settings: Settings, client: u64) -> RunPageAnswer {
    super::run_page(from_raw_parts(clients, client_count), &settings, client)
}

pub unsafe extern "C" fn cover(levels: u64, l: u64, r: u64) -> CoverAnswer {
    match super::cover(levels, l, r) {
        Ok(Cover { first, second, over }) => CoverAnswer { number: 0, first, second, over },
        Err(cause) => CoverAnswer { number: cause as u64, ..CoverAnswer::default() },
    }
}

pub unsafe extern "C" fn wanted_bits(edge: u64, l: u64, r: u64) -> u64 {
    super::wanted_bits(edge, l, r)
}

pub unsafe extern "C" fn step_count(levels: u64, distance: u64, l: u64, r: u64) -> StepCountAnswer {
    match super::step_count(levels, distance, l, r) {
        Ok(steps) => StepCountAnswer { number: 0, steps },
        Err(cause) => StepCountAnswer { number: cause as u64, steps: 0 },
    }
}

pub unsafe extern "C" fn unreadable(record: Record, settings: Settings, last: u64) -> bool {
    record.unreadable(&settings, last)
}

macro_rules! linked_window {
    ($($name:ident),+) => {
        $(pub unsafe extern "C" fn $name(
            hours: *const u64,
            hour_count: usize,
            calendar: Calendar,
            first: Quarter,
            last: Quarter,
        ) -> CalendarWindowAnswer {
            match super::$name(from_raw_parts(hours, hour_count), &calendar, &first, &last) {
                Ok((left, right)) => CalendarWindowAnswer { number: 0, left, right },
                Err(cause) => CalendarWindowAnswer { number: cause as u64, ..CalendarWindowAnswer::default() },
            }
        })+
    };
}

linked_window!(calendar_window, window_by_quarters);

pub unsafe extern "C" fn calendar_quarter(calendar: Calendar, unit: u64) -> CalendarQuarterAnswer {
    match super::calendar_quarter(&calendar, unit) {
        Ok(at) => CalendarQuarterAnswer { number: 0, at },
        Err(cause) => CalendarQuarterAnswer { number: cause as u64, at: Quarter::default() },
    }
}
