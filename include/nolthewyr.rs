//! Locks on windows of one long table of units, for Rust 1.82 and later. `Table` is the way to use them: it owns all that the calls
//! need. The functions over slices are the same calls on memory that the caller keeps. The structs, and the functions as they are linked,
//! are in nolthewyr_linked.rs, which stands beside this file; a program finds them here too.
#![allow(dead_code)]

#[path = "nolthewyr_linked.rs"]
mod linked;

pub use linked::*;

/// More clients than a table has.
const TOO_MANY_CLIENTS: usize = 32_768;

type OnTable = fn(&mut [Client], &mut [u64], Settings, Call) -> u64;

/// An opened table. It owns its words, clients and settings, so that every call is made on what the call before left. Each call gives
/// the client's phase after it.
#[derive(Clone, Debug)]
pub struct Table {
    settings: Settings,
    clients: Vec<Client>,
    words: Vec<u64>,
}

impl Table {
    /// Opens a table for clients 0 up to `clients` less 1. The library refuses what no table has, and it does so on little memory: it is
    /// lent no words for levels outside 2..12, and not more clients than the first count that is too high.
    pub fn open(settings: Settings, clients: usize) -> Result<Table, Cause> {
        let clients = vec![Client::default(); clients.min(TOO_MANY_CLIENTS)];
        let words = vec![0; word_count(settings.levels) as usize];
        let mut table = Table { settings, clients, words };
        accepted(open(&mut table.clients, &mut table.words, settings))?;
        Ok(table)
    }

    /// Asks for [left, right) for an idle client.
    pub fn request(&mut self, client: usize, left: u64, right: u64) -> Result<Phase, Cause> {
        self.make(request, client, left, right)
    }

    /// Does the one thing that the client's phase says, by the client's own clock, which may start at any number. It does not go back: a
    /// step below that client's last clock is refused by 5. And it is true within 1 part in 10,000: between any two steps of a client
    /// 10,000 times the ticks of its clock is 9,999 to 10,001 times the ticks that truly went by from call to call. Rounding counts, and
    /// so does what goes by between the reading of a clock and the call: threads read it under the mutex of the table. No call can test
    /// this. If it is not so, two clients may come to hold overlapping windows; still, with any clocks, the tree is clean when all are
    /// idle. docs/LINKING.md says which clocks will do.
    pub fn step(&mut self, client: usize, clock: u64) -> Result<Phase, Cause> {
        self.make(step, client, clock, 0)
    }

    /// Ends the holding of a client, which then gives its words back by steps until it is idle.
    pub fn release(&mut self, client: usize) -> Result<Phase, Cause> {
        self.make(release, client, 0, 0)
    }

    /// Gives up a window that is not yet held. What the client has of it, it gives back by steps until it is idle.
    pub fn cancel(&mut self, client: usize) -> Result<Phase, Cause> {
        self.make(cancel, client, 0, 0)
    }

    /// The planners' page: a row for each client.
    pub fn planners_page(&self) -> Result<Vec<Row>, Cause> {
        let mut rows = vec![Row::default(); self.clients.len()];
        accepted(planners_page(&self.clients, &mut rows, self.settings))?;
        Ok(rows)
    }

    /// The page of a client that is a forecast run: what it may see of the table.
    pub fn run_page(&self, client: usize) -> Result<RunPageAnswer, Cause> {
        let page = run_page(&self.clients, self.settings, client as u64);
        accepted(page.number).map(|()| page)
    }

    /// The client's record, if there is such a client.
    pub fn record(&self, client: usize) -> Option<&Record> {
        self.clients.get(client).map(|client| &client.record)
    }

    /// The client's last clock, that of its last accepted step, 0 before the first; if there is such a client.
    pub fn clock(&self, client: usize) -> Option<u64> {
        self.clients.get(client).map(|client| client.clock)
    }

    fn make(&mut self, on_table: OnTable, client: usize, a: u64, b: u64) -> Result<Phase, Cause> {
        let call = Call { client: client as u64, a, b, ..Call::default() };
        accepted(on_table(&mut self.clients, &mut self.words, self.settings, call))?;
        Ok(self.clients[client].record.phase)
    }
}

fn accepted(number: u64) -> Result<(), Cause> {
    (number == Cause::ACCEPTED.0).then_some(()).ok_or(Cause(number))
}

/// The nodes that a request for [left, right) would take.
pub fn cover(levels: u64, left: u64, right: u64) -> Result<CoverAnswer, Cause> {
    let answer = nolthewyr_cover(levels, left, right);
    accepted(answer.number).map(|()| answer)
}

/// How many accepted steps [left, right) needs from its request until it is held, with nobody else in the tree: if each wait is over
/// before it is stepped, no claim is late and patience does not run out.
pub fn step_count(levels: u64, distance: u64, left: u64, right: u64) -> Result<u64, Cause> {
    let answer = nolthewyr_step_count(levels, distance, left, right);
    accepted(answer.number).map(|()| answer.steps)
}

/// How many words a tree of so many levels has; 0 for levels that no tree has.
pub use linked::nolthewyr_word_count as word_count;

/// The edges (left, right) of the window from the first quarter of a ward to its last, which is locked too; it may run over midnight
/// and over a week's end. `hours` has two numbers for each ward and day, ward 0's days 0 to 6 first: the quarter at which the ward
/// opens and that at which it closes (0..96; closing is not open any more, and equal means closed all day). docs/WARDS.md has more.
pub fn calendar_window(hours: &[u64], calendar: Calendar, first: Quarter, last: Quarter) -> Result<(u64, u64), Cause> {
    // The slice gives what the proof assumes: a length that is true, and nobody who writes the hours meanwhile.
    let answer = unsafe { nolthewyr_calendar_window(hours.as_ptr(), hours.len(), calendar, first, last) };
    accepted(answer.number).map(|()| (answer.left, answer.right))
}

/// The ward, week, day and quarter that a unit is.
pub fn calendar_quarter(calendar: Calendar, unit: u64) -> Result<Quarter, Cause> {
    let answer = nolthewyr_calendar_quarter(calendar, unit);
    accepted(answer.number).map(|()| answer.at)
}

// A run on another machine than the words: its client goes in and comes back by value, and starts as `Client::default()`. docs/REMOTE.md says
// how an operation is carried out over a network, and when the clock is read.

/// Which operation the client posts now, by its own clock.
pub fn operation(client: Client, settings: Settings, clock: u64) -> Result<OperationAnswer, Cause> {
    let answer = nolthewyr_operation(client, settings, clock);
    accepted(answer.number).map(|()| answer)
}

/// The word that an operation leaves where it finds this one.
pub fn applied(operation: OperationAnswer, found: u64) -> u64 {
    nolthewyr_applied(operation, found)
}

/// The client after its operation, which found this word.
pub fn completed(client: Client, settings: Settings, clock: u64, found: u64) -> Result<Client, Cause> {
    next(nolthewyr_completed(client, settings, clock, found))
}

/// Puts the operations that the client may post together now into the lent list, in their order, at most as many as it holds, and gives
/// how many they are; the longest list has 85. docs/LINKING.md says by which clock they are asked for and completed.
pub fn operations_ahead(client: Client, settings: Settings, clock: u64, operations: &mut [OperationAnswer]) -> Result<usize, Cause> {
    // The slice gives what the proof assumes: a length that is true, and nobody else who reads or writes the list meanwhile.
    let answer = unsafe { nolthewyr_operations_ahead(client, settings, clock, operations.as_mut_ptr(), operations.len()) };
    accepted(answer.number).map(|()| answer.count as usize)
}

/// How many of the operations that were posted together count, by the words that they found, and the client after those. Reads that do not
/// count are dropped. In a list begun in phase 5, 6 or 10 all count; if fewer do, a word was damaged, and they must not be posted again.
pub fn completed_all(client: Client, settings: Settings, clock: u64, found: &[u64]) -> Result<(usize, Client), Cause> {
    // The slice gives what the proof assumes: a length that is true, and nobody who writes the words meanwhile.
    let answer = unsafe { nolthewyr_completed_all(client, settings, clock, found.as_ptr(), found.len()) };
    accepted(answer.number).map(|()| (answer.counted as usize, answer.next))
}

/// The client after it has asked for [left, right).
pub fn own_request(client: Client, settings: Settings, left: u64, right: u64) -> Result<Client, Cause> {
    next(nolthewyr_own_request(client, settings, left, right))
}

/// The client after its holding has ended; it gives its words back by operations until it is idle.
pub fn own_release(client: Client, settings: Settings) -> Result<Client, Cause> {
    next(nolthewyr_own_release(client, settings))
}

/// The client after it has given up a window that is not yet held; what it has of it, it gives back by operations until it is idle.
pub fn own_cancel(client: Client, settings: Settings) -> Result<Client, Cause> {
    next(nolthewyr_own_cancel(client, settings))
}

fn next(answer: ClientAnswer) -> Result<Client, Cause> {
    accepted(answer.number).map(|()| answer.next)
}

/// The version of the library.
pub fn version() -> &'static str {
    library_text(nolthewyr_version())
}

// The slices of these functions give what the proof assumes: lengths that are true, clients that overlap neither words nor rows, and
// nobody else who writes them meanwhile, or reads what is written.

pub fn open(clients: &mut [Client], words: &mut [u64], settings: Settings) -> u64 {
    unsafe { nolthewyr_open(clients.as_mut_ptr(), clients.len(), words.as_mut_ptr(), words.len(), settings) }
}

macro_rules! on_table {
    ($($name:ident by $linked:ident),+) => {$(
        pub fn $name(clients: &mut [Client], words: &mut [u64], settings: Settings, call: Call) -> u64 {
            unsafe { $linked(clients.as_mut_ptr(), clients.len(), words.as_mut_ptr(), words.len(), settings, call) }
        }
    )+};
}
on_table!(request by nolthewyr_request, step by nolthewyr_step, release by nolthewyr_release, cancel by nolthewyr_cancel);

pub fn planners_page(clients: &[Client], rows: &mut [Row], settings: Settings) -> u64 {
    unsafe { nolthewyr_planners_page(clients.as_ptr(), clients.len(), rows.as_mut_ptr(), rows.len(), settings) }
}

pub fn run_page(clients: &[Client], settings: Settings, client: u64) -> RunPageAnswer {
    unsafe { nolthewyr_run_page(clients.as_ptr(), clients.len(), settings, client) }
}
