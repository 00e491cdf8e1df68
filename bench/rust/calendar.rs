//! Ward hours in plain Rust, there and back, with all tests that request 2.6 names. Whether a window is open is found day by day, and
//! beside that quarter by quarter, to measure what the former saves.

use super::{has_levels, Cause};
use crate::nolthewyr::{Calendar, Quarter};

const QUARTERS: u64 = 96;
const DAYS: u64 = 7;
const WEEK: u64 = DAYS * QUARTERS;
/// How many hours a ward has: a pair for each day.
const HOURS: usize = 2 * DAYS as usize;

impl Calendar {
    fn units(&self) -> u64 {
        self.wards * self.weeks * WEEK
    }

    /// Cause 1, and of cause 12 what is said of the calendar's figures.
    fn test(&self) -> Result<(), Cause> {
        if !has_levels(self.levels) {
            return Err(Cause::Settings);
        }
        let inside = (1..=64).contains(&self.wards) && (1..=60).contains(&self.weeks);
        if inside && self.units() <= 64 << (2 * (self.levels - 1)) {
            Ok(())
        } else {
            Err(Cause::Calendar)
        }
    }

    fn has(&self, at: &Quarter) -> bool {
        at.ward < self.wards && at.week < self.weeks && at.day < DAYS && at.quarter < QUARTERS
    }

    fn unit(&self, at: &Quarter) -> u64 {
        (at.ward * self.weeks + at.week) * WEEK + at.day * QUARTERS + at.quarter
    }
}

/// Whether there is a pair for each ward and day, and each is right.
fn are_hours(hours: &[u64], wards: u64) -> bool {
    hours.len() as u64 == HOURS as u64 * wards && hours.chunks_exact(2).all(|pair| pair[0] <= pair[1] && pair[1] <= QUARTERS)
}

/// Whether a ward with these hours is open from the first to the last quarter of it.
type IsOpen = fn(&[u64], &Quarter, &Quarter) -> bool;

/// Looks at the first day, the last, and the whole days between, of which seven are enough.
fn open_by_days(hours: &[u64], first: &Quarter, last: &Quarter) -> bool {
    let open = |day: u64, from: u64, to: u64| {
        let pair = 2 * (day % DAYS) as usize;
        hours[pair] <= from && to < hours[pair + 1]
    };
    let days = DAYS * last.week + last.day - (DAYS * first.week + first.day);
    if days == 0 {
        return open(first.day, first.quarter, last.quarter);
    }
    open(first.day, first.quarter, QUARTERS - 1)
        && open(last.day, 0, last.quarter)
        && (1..days.min(DAYS + 1)).all(|after| open(first.day + after, 0, QUARTERS - 1))
}

/// Looks at every quarter of the window.
fn open_by_quarters(hours: &[u64], first: &Quarter, last: &Quarter) -> bool {
    let place = |at: &Quarter| at.week * WEEK + at.day * QUARTERS + at.quarter;
    (place(first)..=place(last)).all(|unit| {
        let pair = 2 * (unit / QUARTERS % DAYS) as usize;
        (hours[pair]..hours[pair + 1]).contains(&(unit % QUARTERS))
    })
}

#[inline(always)]
fn edges(hours: &[u64], calendar: &Calendar, first: &Quarter, last: &Quarter, is_open: IsOpen) -> Result<(u64, u64), Cause> {
    calendar.test()?;
    if !are_hours(hours, calendar.wards) || !calendar.has(first) || !calendar.has(last) {
        return Err(Cause::Calendar);
    }
    let (left, right) = (calendar.unit(first), calendar.unit(last) + 1);
    if last.ward != first.ward || right <= left {
        return Err(Cause::LastQuarter);
    }
    let own = first.ward as usize * HOURS;
    if is_open(&hours[own..own + HOURS], first, last) {
        Ok((left, right))
    } else {
        Err(Cause::Closed)
    }
}

pub fn calendar_window(hours: &[u64], calendar: &Calendar, first: &Quarter, last: &Quarter) -> Result<(u64, u64), Cause> {
    edges(hours, calendar, first, last, open_by_days)
}

pub fn window_by_quarters(hours: &[u64], calendar: &Calendar, first: &Quarter, last: &Quarter) -> Result<(u64, u64), Cause> {
    edges(hours, calendar, first, last, open_by_quarters)
}

pub fn calendar_quarter(calendar: &Calendar, unit: u64) -> Result<Quarter, Cause> {
    calendar.test()?;
    if unit >= calendar.units() {
        return Err(Cause::Calendar);
    }
    let week = unit / WEEK;
    Ok(Quarter {
        ward: week / calendar.weeks,
        week: week % calendar.weeks,
        day: unit % WEEK / QUARTERS,
        quarter: unit % QUARTERS,
    })
}
