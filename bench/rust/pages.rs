//! The two pages in plain Rust, with all tests that request 2.1 names, and the step count of request 2.4 in a row.

use super::{number, test_clients, test_settings, Cause};
use crate::nolthewyr::{Client, Phase, Record, Row, RunPageAnswer, Settings};

impl Record {
    #[inline(always)]
    fn row(&self, settings: &Settings) -> Row {
        let cover = super::tree::cover(settings.levels, self.left, self.right);
        cover.filter(|_| self.phase != Phase::IDLE).map_or(Row::default(), |cover| Row {
            phase: self.phase,
            left: self.left,
            right: self.right,
            first: self.first,
            second: self.second,
            over: cover.over,
            steps: settings.steps(self.first, self.second),
        })
    }
}

fn planners_rows(clients: &[Client], rows: &mut [Row], settings: &Settings) -> Result<(), Cause> {
    test_settings(settings)?;
    if rows.len() != clients.len() {
        return Err(Cause::WordCount);
    }
    test_clients(clients)?;
    if clients.iter().any(|client| client.unreadable(settings)) {
        return Err(Cause::Unreadable);
    }
    for (row, client) in rows.iter_mut().zip(clients) {
        *row = client.record.row(settings);
    }
    Ok(())
}

pub fn planners_page(clients: &[Client], rows: &mut [Row], settings: &Settings) -> u64 {
    number(planners_rows(clients, rows, settings))
}

fn own_record<'a>(clients: &'a [Client], settings: &Settings, client: u64) -> Result<&'a Record, Cause> {
    test_settings(settings)?;
    test_clients(clients)?;
    let own = clients.get(client as usize).ok_or(Cause::Client)?;
    if own.unreadable(settings) {
        Err(Cause::Unreadable)
    } else {
        Ok(&own.record)
    }
}

pub fn run_page(clients: &[Client], settings: &Settings, client: u64) -> RunPageAnswer {
    match own_record(clients, settings, client) {
        Ok(own) => {
            let held = clients.iter().filter(|client| client.record.phase == Phase::HELD).count() as u64;
            RunPageAnswer { number: 0, own: *own, held }
        }
        Err(cause) => RunPageAnswer { number: cause as u64, own: Record::default(), held: 0 },
    }
}
