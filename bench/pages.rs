//! The two pages of tables with more and more clients, of which half hold a leaf, a quarter have asked for a window and the others are idle.

use crate::lent::Lent;
use crate::nolthewyr::{nolthewyr_planners_page, nolthewyr_run_page, Client, Row, RunPageAnswer, Settings};
use crate::row;
use crate::rust::linked;
use crate::settings::{MOST_CLIENTS, SETTINGS};
use crate::sides::RATTLE;
use crate::tables::print_table;
use crate::timing::{best, time};
use std::hint::black_box;

const CLIENTS: [usize; 3] = [40, 1000, MOST_CLIENTS];
const ROUNDS: usize = 200;
const UNITS_OF_A_LEAF: u64 = 64;

type Planners = unsafe extern "C" fn(*const Client, usize, *mut Row, usize, Settings) -> u64;
type Run = unsafe extern "C" fn(*const Client, usize, Settings, u64) -> RunPageAnswer;

const PLANNERS: [Planners; 2] = [nolthewyr_planners_page, linked::planners_page];
const RUN: [Run; 2] = [nolthewyr_run_page, linked::run_page];

/// A table in use, and the rows to fill.
struct Table {
    clients: Vec<Client>,
    rows: Vec<Row>,
}

impl Table {
    fn in_use(clients: usize) -> Table {
        let mut lent = Lent::opened(RATTLE, SETTINGS, clients);
        for client in 0..clients as u64 {
            let left = client * UNITS_OF_A_LEAF;
            match client % 4 {
                0 | 1 => lent.take(client, (left, left + 10)),
                2 => lent.request(client, (left, left + UNITS_OF_A_LEAF + 10)),
                _ => {}
            }
        }
        Table { rows: vec![Row::default(); clients], clients: lent.clients }
    }

    fn planners(&mut self, page: Planners) -> u64 {
        let (clients, rows) = (&self.clients, &mut self.rows);
        unsafe { page(clients.as_ptr(), clients.len(), rows.as_mut_ptr(), rows.len(), SETTINGS) }
    }

    fn run(&self, page: Run) -> RunPageAnswer {
        unsafe { page(self.clients.as_ptr(), self.clients.len(), SETTINGS, 0) }
    }

    /// That both sides give the same pages, before they are measured.
    fn compare_sides(&mut self) {
        let rows = PLANNERS.map(|page| {
            self.rows.fill(Row::default());
            assert_eq!(self.planners(page), 0, "the planners' page is refused");
            self.rows.clone()
        });
        assert!(rows[0] == rows[1], "the sides give other rows");
        assert_eq!(self.run(RUN[0]), self.run(RUN[1]), "the sides give other pages");
        assert_eq!(self.run(RUN[0]).number, 0, "the run's page is refused");
    }

    /// Nanoseconds for a client, of the planners' page on both sides, then of the run's page.
    fn measured(&mut self) -> Vec<f64> {
        self.compare_sides();
        let clients = self.clients.len() as f64;
        let takes = 1 + MOST_CLIENTS / self.clients.len();
        let times = best(ROUNDS, || {
            let planners = black_box(PLANNERS).map(|page| {
                time(takes, || {
                    black_box(self.planners(page));
                })
            });
            let run = black_box(RUN).map(|page| {
                time(takes, || {
                    black_box(self.run(page));
                })
            });
            [planners, run].concat()
        });
        times.iter().map(|time| time / clients).collect()
    }
}

pub fn measure() {
    let rows = CLIENTS.iter().flat_map(|&clients| {
        let times = Table::in_use(clients).measured();
        ["planners'", "a run's"]
            .iter()
            .zip(times.chunks(2))
            .map(|(page, times)| {
                let (rattle, rust) = (times[0], times[1]);
                let ratio = rattle / rust;
                row!["{page}", "{clients}", "{rattle:.1}", "{rust:.1}", "{ratio:.2}"]
            })
            .collect::<Vec<_>>()
    });
    print_table("pages", &["page", "clients", "Rattle ns a client", "Rust ns a client", "Rattle / Rust"], rows);
}
