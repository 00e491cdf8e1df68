//! Answers the tests from the declarations in Rust. Each line of standard input asks one thing, and has one line of numbers, or of a
//! text, as its answer:
//!
//!     open LEVELS DISTANCE WAIT PATIENCE CLIENTS  the number; from here on the calls are made on this table, if it was accepted
//!     request CLIENT LEFT RIGHT                   the number, the client's last clock and its record; the others likewise
//!     step CLIENT CLOCK
//!     release CLIENT
//!     cancel CLIENT
//!     pages CLIENT                                the numbers of both pages, the count, the client's record, and all rows
//!     cover LEVELS LEFT RIGHT                     the number, the nodes and the over-cover
//!     step_count LEVELS DISTANCE LEFT RIGHT       the number and the steps
//!     word_count LEVELS                           the count
//!     calendar_window CALENDAR FIRST LAST HOURS   the number and the edges; CALENDAR is levels wards weeks, and FIRST and LAST are each
//!                                                 ward week day quarter
//!     calendar_quarter CALENDAR UNIT              the number, and the ward, week, day and quarter
//!     operation SETTINGS CLIENT CLOCK             the number, and the operation; SETTINGS is levels distance wait patience, and CLIENT is the
//!                                                 last clock and the record
//!     applied OPERATION FOUND                     the word; OPERATION is all of its fields, the number first
//!     completed SETTINGS CLIENT CLOCK FOUND       the number, and the client, as it was if it is refused; the others likewise
//!     operations_ahead SETTINGS CLIENT CLOCK ROOM the number, how many, and all fields of a list of ROOM operations, which was filled by ones
//!     completed_all SETTINGS CLIENT CLOCK FOUND   the number, how many count, and the client, as it was if it is refused; FOUND is any count
//!                                                 of words
//!     own_request SETTINGS CLIENT LEFT RIGHT
//!     own_release SETTINGS CLIENT
//!     own_cancel SETTINGS CLIENT
//!     phase NUMBER                                its text; outcome, cause and operation likewise

use nolthewyr::{applied, calendar_quarter, calendar_window, completed, completed_all, cover, operation, operations_ahead, own_cancel};
use nolthewyr::{own_release, own_request, step_count, word_count, Calendar, Cause, Client, CoverAnswer, Operation, OperationAnswer, Outcome};
use nolthewyr::{Phase, Quarter, Record, Row, RunPageAnswer, Settings, Table};
use std::io::stdin;

/// The numbers of a record, in its order.
fn fields(record: &Record) -> String {
    let Record { phase, outcome, left, right, first, second, current, giving, grip, ticket, place, notices, t1, t0, taken } =
        *record;
    let fields = [phase.0, outcome.0, left, right, first, second, current, giving, grip, ticket, place, notices, t1, t0, taken];
    fields.map(|field| field.to_string()).join(" ")
}

/// Also has what a caller finds: the phase that a call gives is that of the record.
fn told(table: &Table, client: usize, made: Result<Phase, Cause>) -> String {
    let number = made.err().unwrap_or(Cause::ACCEPTED).0;
    let (Some(clock), Some(record)) = (table.clock(client), table.record(client)) else {
        return number.to_string();
    };
    assert!(made.is_err() || made == Ok(record.phase));
    format!("{number} {clock} {}", fields(record))
}

fn pages(table: &Table, client: usize) -> String {
    let (planners, run) = (table.planners_page(), table.run_page(client));
    let numbers = [planners.as_ref().err(), run.as_ref().err()].map(|cause| cause.unwrap_or(&Cause::ACCEPTED).0);
    let mut answer = format!("{} {}", numbers[0], numbers[1]);
    assert!(RunPageAnswer::default().own == Record::default());
    if let Ok(page) = run {
        assert!(page.number == 0 && table.record(client) == Some(&page.own));
        answer += &format!(" {} {}", page.held, fields(&page.own));
    }
    for Row { phase, left, right, first, second, over, steps } in planners.unwrap_or_default() {
        answer += &format!(" {} {left} {right} {first} {second} {over} {steps}", phase.0);
    }
    answer
}

fn called(table: &mut Table, name: &str, numbers: &[u64]) -> String {
    let client = numbers[0] as usize;
    let made = match name {
        "request" => table.request(client, numbers[1], numbers[2]),
        "step" => table.step(client, numbers[1]),
        "release" => table.release(client),
        "cancel" => table.cancel(client),
        _ => panic!("unknown call {name}"),
    };
    told(table, client, made)
}

fn covered(levels: u64, left: u64, right: u64) -> String {
    let refused = |cause: Cause| CoverAnswer { number: cause.0, ..CoverAnswer::default() };
    let CoverAnswer { number, first, second, over } = cover(levels, left, right).unwrap_or_else(refused);
    format!("{number} {first} {second} {over}")
}

fn counted(levels: u64, distance: u64, left: u64, right: u64) -> String {
    let (number, steps) = step_count(levels, distance, left, right).map_or_else(|cause| (cause.0, 0), |steps| (0, steps));
    format!("{number} {steps}")
}

fn calendar(numbers: &[u64]) -> Calendar {
    Calendar { levels: numbers[0], wards: numbers[1], weeks: numbers[2] }
}

fn quarter(numbers: &[u64]) -> Quarter {
    Quarter { ward: numbers[0], week: numbers[1], day: numbers[2], quarter: numbers[3] }
}

fn window_of_ward(numbers: &[u64]) -> String {
    let answer = calendar_window(&numbers[11..], calendar(numbers), quarter(&numbers[3..]), quarter(&numbers[7..]));
    let (number, (left, right)) = answer.map_or_else(|cause| (cause.0, (0, 0)), |edges| (0, edges));
    format!("{number} {left} {right}")
}

fn quarter_of_unit(numbers: &[u64]) -> String {
    let answer = calendar_quarter(calendar(numbers), numbers[3]);
    let (number, at) = answer.map_or_else(|cause| (cause.0, Quarter::default()), |at| (0, at));
    let Quarter { ward, week, day, quarter } = at;
    format!("{number} {ward} {week} {day} {quarter}")
}

/// The settings, the client, and what is behind them.
fn asked(numbers: &[u64]) -> (Settings, Client, &[u64]) {
    let [levels, distance, wait, patience, clock, phase, outcome, left, right, first, second, current, giving, grip, ticket, place, notices, t1, t0, taken] =
        numbers[..20].try_into().expect("settings, a clock and a record");
    let (phase, outcome) = (Phase(phase), Outcome(outcome));
    let record = Record { phase, outcome, left, right, first, second, current, giving, grip, ticket, place, notices, t1, t0, taken };
    (Settings { levels, distance, wait, patience }, Client { clock, record }, &numbers[20..])
}

/// The numbers of an operation, in its order.
fn fields_of_operation(operation: OperationAnswer) -> String {
    let OperationAnswer { number, kind, node, compared, expected, swapped, value } = operation;
    format!("{number} {} {node} {compared} {expected} {swapped} {value}", kind.0)
}

fn posted(numbers: &[u64]) -> String {
    let (settings, client, beside) = asked(numbers);
    let refused = |cause: Cause| OperationAnswer { number: cause.0, ..OperationAnswer::default() };
    fields_of_operation(operation(client, settings, beside[0]).unwrap_or_else(refused))
}

fn posted_together(numbers: &[u64]) -> String {
    let (settings, client, beside) = asked(numbers);
    let ones = OperationAnswer { number: 1, kind: Operation(1), node: 1, compared: 1, expected: 1, swapped: 1, value: 1 };
    let mut list = vec![ones; beside[1] as usize];
    let (number, count) = operations_ahead(client, settings, beside[0], &mut list).map_or_else(|cause| (cause.0, 0), |count| (0, count));
    list.into_iter().fold(format!("{number} {count}"), |told, each| format!("{told} {}", fields_of_operation(each)))
}

fn completed_together(numbers: &[u64]) -> String {
    let (settings, client, beside) = asked(numbers);
    let made = completed_all(client, settings, beside[0], &beside[1..]);
    let (number, counted, Client { clock, record }) =
        made.map_or_else(|cause| (cause.0, 0, client), |(counted, next)| (0, counted, next));
    format!("{number} {counted} {clock} {}", fields(&record))
}

fn left_by(numbers: &[u64]) -> String {
    let &[number, kind, node, compared, expected, swapped, value, found] = numbers else { panic!("an operation and a word") };
    applied(OperationAnswer { number, kind: Operation(kind), node, compared, expected, swapped, value }, found).to_string()
}

fn by_value(name: &str, numbers: &[u64]) -> String {
    let (settings, client, beside) = asked(numbers);
    let made = match name {
        "completed" => completed(client, settings, beside[0], beside[1]),
        "own_request" => own_request(client, settings, beside[0], beside[1]),
        "own_release" => own_release(client, settings),
        _ => own_cancel(client, settings),
    };
    let (number, Client { clock, record }) = made.map_or_else(|cause| (cause.0, client), |next| (0, next));
    format!("{number} {clock} {}", fields(&record))
}

fn main() {
    let mut table: Option<Table> = None;
    for line in stdin().lines() {
        let line = line.expect("standard input can be read");
        let (name, numbers) = line.split_once(' ').expect("a name and numbers");
        let numbers: Vec<u64> = numbers.split(' ').map(|number| number.parse().expect("a number")).collect();
        let answer = match (name, &numbers[..]) {
            ("open", &[levels, distance, wait, patience, clients]) => {
                let opened = Table::open(Settings { levels, distance, wait, patience }, clients as usize);
                let number = opened.as_ref().err().unwrap_or(&Cause::ACCEPTED).0;
                table = opened.ok();
                number.to_string()
            }
            ("cover", &[levels, left, right]) => covered(levels, left, right),
            ("step_count", &[levels, distance, left, right]) => counted(levels, distance, left, right),
            ("word_count", &[levels]) => word_count(levels).to_string(),
            ("calendar_window", numbers) => window_of_ward(numbers),
            ("calendar_quarter", numbers) => quarter_of_unit(numbers),
            ("pages", &[client]) => pages(table.as_ref().expect("an open table"), client as usize),
            ("operation", &[number]) => Operation(number).to_string(),
            ("operation", numbers) => posted(numbers),
            ("applied", numbers) => left_by(numbers),
            ("operations_ahead", numbers) => posted_together(numbers),
            ("completed_all", numbers) => completed_together(numbers),
            ("completed" | "own_request" | "own_release" | "own_cancel", numbers) => by_value(name, numbers),
            ("phase", &[number]) => Phase(number).to_string(),
            ("outcome", &[number]) => Outcome(number).to_string(),
            ("cause", &[number]) => Cause(number).to_string(),
            _ => called(table.as_mut().expect("an open table"), name, &numbers),
        };
        println!("{answer}");
    }
}
