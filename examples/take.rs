//! Client 0 takes [10, 20) and works. Client 1 wants [15, 30): it gives up, pauses, asks anew, and has it once client 0 has released.
//! take [LEVELS]: the tree has 3 levels, or as many as are said.

use nolthewyr::{step_count, Cause, Phase, Record, Settings, Table};
use std::process::exit;

/// Longer than a claim takes: from its first climb to its last notice at most 23 steps.
const WAIT: u64 = 30;
/// Longer than a second piece takes if nobody is in its way: at most 47 steps after the first. A client that has its first piece keeps
/// others waiting, perhaps those for whom it waits, so that it is to give up sooner than one that has nothing.
const PATIENCE: u64 = 100;
/// No window takes so many if nobody is in its way.
const MOST_STEPS: usize = 300;
const FIRST_LIMIT: u64 = 200;
const LAST_LIMIT: u64 = 1600;
const WORK: u64 = 800;

struct Clients {
    table: Table,
    /// The true time, here a count of steps and pauses.
    now: u64,
    /// Of the random pauses. Each client that runs by itself begins with a state of its own.
    state: u64,
}

impl Clients {
    fn record(&self, client: usize) -> &Record {
        self.table.record(client).expect("there are two clients")
    }

    /// The client's own clock, which began at another number than the others': nobody has to agree on the time. A client that runs by
    /// itself reads a clock of its machine here; docs/LINKING.md says which will do.
    fn own_clock(&self, client: usize) -> u64 {
        self.now + 1_000_000 * client as u64
    }

    fn step(&mut self, client: usize) -> Result<Phase, Cause> {
        self.now += 1;
        self.table.step(client, self.own_clock(client))
    }

    fn step_until_idle(&mut self, client: usize) -> Result<(), Cause> {
        while self.record(client).phase != Phase::IDLE {
            self.step(client)?;
        }
        println!("client {client} is idle at {}: {}", self.now, self.record(client).outcome);
        Ok(())
    }

    /// Whether the client holds the window after a limited number of steps. If not it is idle again: it was late, its patience ran out, or
    /// it gave up. It has then given everything back, and whoever waited for that comes on; so it may well have the window next time.
    fn attempt(&mut self, client: usize, left: u64, right: u64) -> Result<bool, Cause> {
        let mut phase = self.table.request(client, left, right)?;
        for _ in 0..MOST_STEPS {
            if matches!(phase, Phase::HELD | Phase::IDLE) {
                break;
            }
            phase = self.step(client)?;
        }
        if phase == Phase::HELD {
            return Ok(true);
        }
        if !matches!(phase, Phase::IDLE | Phase::RETURNING) {
            self.table.cancel(client)?;
        }
        self.step_until_idle(client)?;
        Ok(false)
    }

    fn release(&mut self, client: usize) -> Result<(), Cause> {
        self.table.release(client)?;
        self.step_until_idle(client)
    }

    /// What planners see of every client that is not idle: its phase and window, and how many units are locked beyond the window.
    fn show_planners(&self) -> Result<(), Cause> {
        for (client, row) in self.table.planners_page()?.iter().enumerate().filter(|(_, row)| row.phase != Phase::IDLE) {
            println!("planners see client {client}: {}, [{}, {}) and {} units beyond", row.phase, row.left, row.right, row.over);
        }
        Ok(())
    }

    /// A client that runs by itself sleeps here. In this program client 0 ends its work meanwhile. How many clients hold their windows is
    /// all that a client may know of the others.
    fn let_pass(&mut self, client: usize, pause: u64) -> Result<(), Cause> {
        self.now += pause;
        println!("client {client} has paused until {}; clients that hold: {}", self.now, self.table.run_page(client)?.held);
        if self.record(0).phase == Phase::HELD && self.now >= WORK {
            self.release(0)?;
        }
        Ok(())
    }

    /// A random number below the limit: clients that gave up together must not ask anew together.
    fn drawn(&mut self, limit: u64) -> u64 {
        self.state ^= self.state << 13;
        self.state ^= self.state >> 7;
        self.state ^= self.state << 17;
        self.state % limit
    }

    /// Asks until the window is held. After each attempt it pauses for a random time, below a limit that doubles up to a last one.
    fn take(&mut self, client: usize, left: u64, right: u64) -> Result<(), Cause> {
        let mut limit = FIRST_LIMIT;
        while !self.attempt(client, left, right)? {
            let pause = self.drawn(limit);
            self.let_pass(client, pause)?;
            limit = LAST_LIMIT.min(2 * limit);
        }
        println!("client {client} holds [{left}, {right}) at {}", self.now);
        Ok(())
    }
}

/// Says before the client asks how many steps the window needs if nobody is in its way. Levels and distance are enough to know. A window
/// with an inner node takes more of them here, since this program goes on stepping while the client waits.
fn say_steps(settings: Settings, client: usize, left: u64, right: u64) -> Result<(), Cause> {
    let steps = step_count(settings.levels, settings.distance, left, right)?;
    println!("client {client} needs {steps} steps for [{left}, {right}) if nobody is in its way");
    Ok(())
}

fn run(levels: u64) -> Result<(), Cause> {
    let settings = Settings { levels, distance: 2, wait: WAIT, patience: PATIENCE };
    let mut clients = Clients { table: Table::open(settings, 2)?, now: 0, state: 88172645463325252 };
    say_steps(settings, 0, 10, 20)?;
    clients.take(0, 10, 20)?;
    say_steps(settings, 1, 15, 30)?;
    clients.take(1, 15, 30)?;
    clients.show_planners()?;
    clients.release(1)
}

fn main() {
    let levels = std::env::args().nth(1).map_or(3, |levels| levels.parse().unwrap_or(0));
    if let Err(cause) = run(levels) {
        eprintln!("refused by {}: {cause}", cause.0);
        exit(1);
    }
}
