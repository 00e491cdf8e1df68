//! What the library has, as it is linked: the structs, the numbers with a name for each value, and the functions. A program has
//! nolthewyr.rs, which stands beside this file and has all of it. include/nolthewyr.h says what each struct and function is.

use std::ffi::{c_char, CStr};
use std::fmt;

/// A number that has a name for each of its values. It is written by the library's text, which an unknown number has too.
macro_rules! named_number {
    ($name:ident by $text:ident: $($constant:ident = $number:literal),+) => {
        #[repr(transparent)]
        #[derive(Clone, Copy, Debug, Default, Eq, Hash, Ord, PartialEq, PartialOrd)]
        pub struct $name(pub u64);

        impl $name {
            $(pub const $constant: $name = $name($number);)+
        }

        impl fmt::Display for $name {
            fn fmt(&self, f: &mut fmt::Formatter) -> fmt::Result {
                f.pad(library_text($text(self.0)))
            }
        }
    };
}

named_number!(Phase by nolthewyr_phase_text: IDLE = 0, TICKET = 1, TURN = 2, CLIMB = 3, BLOCKED = 4, CLAIM = 5, NOTIFY = 6, WAIT = 7,
    CHECK = 8, HELD = 9, RETURNING = 10);
// After LATE and OUT_OF_PATIENCE nothing is wrong with the window: the client asks for it again.
named_number!(Outcome by nolthewyr_outcome_text: NONE = 0, RELEASED = 1, LATE = 2, CANCELLED = 3, OUT_OF_PATIENCE = 4);
named_number!(Cause by nolthewyr_cause_text: ACCEPTED = 0, SETTINGS = 1, WORD_COUNT = 2, CLIENT_COUNT = 3, CLIENT = 4, CLOCK = 5,
    UNREADABLE = 6, WINDOW = 7, PHASE = 8, CLEAR_BIT = 9, CALENDAR = 12, LAST_QUARTER = 13, CLOSED = 14);
// What an operation does to its word.
named_number!(Operation by nolthewyr_operation_text: NONE = 0, READ = 1, ADD = 2, SWAP = 3);

impl std::error::Error for Cause {}

#[repr(C)]
#[derive(Clone, Copy, Debug, PartialEq)]
pub struct Settings {
    pub levels: u64,
    pub distance: u64,
    pub wait: u64,
    pub patience: u64,
}

#[repr(C)]
#[derive(Clone, Copy, Debug, Default, PartialEq)]
pub struct Record {
    pub phase: Phase,
    pub outcome: Outcome,
    pub left: u64,
    pub right: u64,
    pub first: u64,
    pub second: u64,
    pub current: u64,
    pub giving: u64,
    pub grip: u64,
    pub ticket: u64,
    pub place: u64,
    pub notices: u64,
    pub t1: u64,
    pub t0: u64,
    pub taken: u64,
}

#[repr(C)]
#[derive(Clone, Copy, Debug, Default, PartialEq)]
pub struct Client {
    pub clock: u64,
    pub record: Record,
}

#[repr(C)]
#[derive(Clone, Copy, Debug, Default, PartialEq)]
pub struct Call {
    pub kind: u64,
    pub client: u64,
    pub a: u64,
    pub b: u64,
}

#[repr(C)]
#[derive(Clone, Copy, Debug, Default, PartialEq)]
pub struct CoverAnswer {
    pub number: u64,
    pub first: u64,
    pub second: u64,
    pub over: u64,
}

#[repr(C)]
#[derive(Clone, Copy, Debug, Default, PartialEq)]
pub struct StepCountAnswer {
    pub number: u64,
    pub steps: u64,
}

#[repr(C)]
#[derive(Clone, Copy, Debug, Default, PartialEq)]
pub struct Row {
    pub phase: Phase,
    pub left: u64,
    pub right: u64,
    pub first: u64,
    pub second: u64,
    pub over: u64,
    pub steps: u64,
}

#[repr(C)]
#[derive(Clone, Copy, Debug, Default, PartialEq)]
pub struct RunPageAnswer {
    pub number: u64,
    pub own: Record,
    pub held: u64,
}

#[repr(C)]
#[derive(Clone, Copy, Debug, Default, PartialEq)]
pub struct Calendar {
    pub levels: u64,
    pub wards: u64,
    pub weeks: u64,
}

#[repr(C)]
#[derive(Clone, Copy, Debug, Default, PartialEq)]
pub struct Quarter {
    pub ward: u64,
    pub week: u64,
    pub day: u64,
    pub quarter: u64,
}

#[repr(C)]
#[derive(Clone, Copy, Debug, Default, PartialEq)]
pub struct CalendarWindowAnswer {
    pub number: u64,
    pub left: u64,
    pub right: u64,
}

#[repr(C)]
#[derive(Clone, Copy, Debug, Default, PartialEq)]
pub struct CalendarQuarterAnswer {
    pub number: u64,
    pub at: Quarter,
}

#[repr(C)]
#[derive(Clone, Copy, Debug, Default, PartialEq)]
pub struct OperationAnswer {
    pub number: u64,
    pub kind: Operation,
    pub node: u64,
    pub compared: u64,
    pub expected: u64,
    pub swapped: u64,
    pub value: u64,
}

#[repr(C)]
#[derive(Clone, Copy, Debug, Default, PartialEq)]
pub struct ClientAnswer {
    pub number: u64,
    pub next: Client,
}

#[repr(C)]
#[derive(Clone, Copy, Debug, Default, PartialEq)]
pub struct AheadAnswer {
    pub number: u64,
    pub count: u64,
}

#[repr(C)]
#[derive(Clone, Copy, Debug, Default, PartialEq)]
pub struct CompletedAllAnswer {
    pub number: u64,
    pub counted: u64,
    pub next: Client,
}

/// A text that the library owns: plain letters, ended by 0, and there as long as the program runs.
pub(super) fn library_text(text: *const c_char) -> &'static str {
    unsafe { CStr::from_ptr(text) }.to_str().unwrap_or_default()
}

// Those that take no lent memory may be called with any numbers.
#[rustfmt::skip]
unsafe extern "C" {
    pub fn nolthewyr_open(clients: *mut Client, client_count: usize, words: *mut u64, word_count: usize, settings: Settings) -> u64;
    pub fn nolthewyr_request(clients: *mut Client, client_count: usize, words: *mut u64, word_count: usize, settings: Settings, call: Call) -> u64;
    pub fn nolthewyr_step(clients: *mut Client, client_count: usize, words: *mut u64, word_count: usize, settings: Settings, call: Call) -> u64;
    pub fn nolthewyr_release(clients: *mut Client, client_count: usize, words: *mut u64, word_count: usize, settings: Settings, call: Call) -> u64;
    pub fn nolthewyr_cancel(clients: *mut Client, client_count: usize, words: *mut u64, word_count: usize, settings: Settings, call: Call) -> u64;
    pub fn nolthewyr_planners_page(clients: *const Client, client_count: usize, rows: *mut Row, row_count: usize, settings: Settings) -> u64;
    pub fn nolthewyr_run_page(clients: *const Client, client_count: usize, settings: Settings, client: u64) -> RunPageAnswer;
    pub safe fn nolthewyr_cover(levels: u64, left: u64, right: u64) -> CoverAnswer;
    pub safe fn nolthewyr_step_count(levels: u64, distance: u64, left: u64, right: u64) -> StepCountAnswer;
    pub safe fn nolthewyr_word_count(levels: u64) -> u64;
    pub fn nolthewyr_calendar_window(hours: *const u64, hour_count: usize, calendar: Calendar, first: Quarter, last: Quarter) -> CalendarWindowAnswer;
    pub safe fn nolthewyr_calendar_quarter(calendar: Calendar, unit: u64) -> CalendarQuarterAnswer;
    pub safe fn nolthewyr_operation(client: Client, settings: Settings, clock: u64) -> OperationAnswer;
    pub safe fn nolthewyr_applied(operation: OperationAnswer, found: u64) -> u64;
    pub safe fn nolthewyr_completed(client: Client, settings: Settings, clock: u64, found: u64) -> ClientAnswer;
    pub fn nolthewyr_operations_ahead(client: Client, settings: Settings, clock: u64, operations: *mut OperationAnswer, room: usize) -> AheadAnswer;
    pub fn nolthewyr_completed_all(client: Client, settings: Settings, clock: u64, found: *const u64, found_count: usize) -> CompletedAllAnswer;
    pub safe fn nolthewyr_own_request(client: Client, settings: Settings, left: u64, right: u64) -> ClientAnswer;
    pub safe fn nolthewyr_own_release(client: Client, settings: Settings) -> ClientAnswer;
    pub safe fn nolthewyr_own_cancel(client: Client, settings: Settings) -> ClientAnswer;
    pub safe fn nolthewyr_phase_text(number: u64) -> *const c_char;
    pub safe fn nolthewyr_outcome_text(number: u64) -> *const c_char;
    pub safe fn nolthewyr_cause_text(number: u64) -> *const c_char;
    pub safe fn nolthewyr_operation_text(number: u64) -> *const c_char;
    pub safe fn nolthewyr_version() -> *const c_char;
}
