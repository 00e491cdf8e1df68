//! The cover, the step count, the wanted bits of a leaf and the unreadable test alone, through the libraries and in plain Rust,
//! both by C's convention.

use crate::lent::Window;
use crate::met::met;
use crate::nolthewyr::{nolthewyr_step_count, Client, CoverAnswer, Phase, Record, Settings, StepCountAnswer};
use crate::random::Random;
use crate::row;
use crate::rust::linked;
use crate::settings::{SETTINGS, WINDOWS};
use crate::tables::print_table;
use crate::timing::{best, time_each};
use std::hint::black_box;

extern "C" {
    fn probe_cover(levels: u64, l: u64, r: u64) -> CoverAnswer;
    fn probe_wanted_bits(edge: u64, l: u64, r: u64) -> u64;
    fn probe_unreadable(record: Record, settings: Settings, last: u64) -> bool;
}

type Cover = unsafe extern "C" fn(u64, u64, u64) -> CoverAnswer;
type StepCount = unsafe extern "C" fn(u64, u64, u64, u64) -> StepCountAnswer;
type WantedBits = unsafe extern "C" fn(u64, u64, u64) -> u64;
type Unreadable = unsafe extern "C" fn(Record, Settings, u64) -> bool;

const COVER: [Cover; 2] = [probe_cover, linked::cover];
const STEP_COUNT: [StepCount; 2] = [nolthewyr_step_count, linked::step_count];
const WANTED_BITS: [WantedBits; 2] = [probe_wanted_bits, linked::wanted_bits];
const UNREADABLE: [Unreadable; 2] = [probe_unreadable, linked::unreadable];

const ROUNDS: usize = 500;
const CALLS: usize = 20000;
const COMPARED: usize = 200_000;

fn compare_covers(random: &mut Random) {
    for _ in 0..COMPARED {
        let levels = random.below(14);
        let (l, r) = random.window(levels.clamp(2, 12));
        let [rattle, rust] = COVER.map(|cover| unsafe { cover(levels, l, r) });
        assert_eq!(rattle, rust, "cover {levels}, [{l}, {r}): Rattle on the left, Rust on the right");
    }
}

fn compare_step_counts(random: &mut Random) {
    for _ in 0..COMPARED {
        let (levels, distance) = (random.below(14), random.below(6));
        let (l, r) = random.window(levels.clamp(2, 12));
        let [rattle, rust] = STEP_COUNT.map(|step_count| unsafe { step_count(levels, distance, l, r) });
        assert_eq!(rattle, rust, "steps {levels} {distance}, [{l}, {r}): Rattle on the left, Rust on the right");
    }
}

fn compare_wanted_bits(random: &mut Random) {
    for _ in 0..COMPARED {
        let (edge, (l, r)) = random.met_leaf();
        let [rattle, rust] = WANTED_BITS.map(|wanted_bits| unsafe { wanted_bits(edge, l, r) });
        assert_eq!(rattle, rust, "leaf from {edge}, [{l}, {r}): Rattle on the left, Rust on the right");
    }
}

fn compare_tests(random: &mut Random, mix: &[Client]) {
    for place in 0..COMPARED {
        let Client { clock, record: whole } = mix[place % mix.len()];
        let record = if random.seldom(4) { whole } else { random.damaged(whole) };
        let [rattle, rust] = UNREADABLE.map(|unreadable| unsafe { unreadable(record, SETTINGS, clock) });
        assert_eq!(rattle, rust, "{record:?}, last clock {clock}: Rattle on the left, Rust on the right");
        assert!(record != whole || !rust, "{whole:?}, last clock {clock}: unreadable");
    }
}

/// The client of a window before each call, and one that waits for an ancestor, since alone in the tree no client does.
fn clients(window: Window) -> Vec<Client> {
    let mut clients = met(SETTINGS, window);
    let climbing = clients.iter().find(|client| client.record.phase == Phase::CLIMB);
    let Client { clock, record } = *climbing.expect("a client that climbs");
    clients.push(Client { clock, record: Record { phase: Phase::BLOCKED, ..record } });
    clients
}

fn cover_times(mix: &[Window]) -> [f64; 2] {
    black_box(COVER).map(|cover| {
        time_each(CALLS, mix, |(l, r)| {
            black_box(unsafe { cover(SETTINGS.levels, l, r) });
        })
    })
}

fn step_count_times(mix: &[Window]) -> [f64; 2] {
    black_box(STEP_COUNT).map(|step_count| {
        time_each(CALLS, mix, |(l, r)| {
            black_box(unsafe { step_count(SETTINGS.levels, SETTINGS.distance, l, r) });
        })
    })
}

fn wanted_bits_times(mix: &[(u64, Window)]) -> [f64; 2] {
    black_box(WANTED_BITS).map(|wanted_bits| {
        time_each(CALLS, mix, |(edge, (l, r))| {
            black_box(unsafe { wanted_bits(edge, l, r) });
        })
    })
}

fn test_times(mix: &[Client]) -> [f64; 2] {
    black_box(UNREADABLE).map(|unreadable| {
        time_each(CALLS, mix, |Client { clock, record }| {
            black_box(unsafe { unreadable(record, SETTINGS, clock) });
        })
    })
}

/// The mixes: each window by itself, and all of them in turn.
fn mixes<T: Clone>(of: impl Fn(Window) -> Vec<T>) -> Vec<(&'static str, Vec<T>)> {
    let mut mixes: Vec<_> = WINDOWS.iter().map(|&(name, window)| (name, of(window))).collect();
    let all = mixes.iter().flat_map(|(_, mix)| mix.clone()).collect();
    mixes.push(("all three in turn", all));
    mixes
}

/// Leaves by their first unit, with windows that meet them: one window inside its leaf, one leaf inside its window, and any.
fn met_leaves(random: &mut Random) -> Vec<(&'static str, Vec<(u64, Window)>)> {
    let any = (0..1000).map(|_| random.met_leaf()).collect();
    vec![
        ("[10, 20) in the leaf [0, 64)", vec![(0, (10, 20))]),
        ("[10, 200) over the leaf [64, 128)", vec![(64, (10, 200))]),
        ("1,000 windows and leaves in turn", any),
    ]
}

pub fn measure() {
    let windows = mixes(|window| vec![window]);
    let leaves = met_leaves(&mut Random(5));
    let tests = mixes(clients);
    compare_covers(&mut Random(1));
    compare_tests(&mut Random(2), &tests[WINDOWS.len()].1);
    compare_step_counts(&mut Random(3));
    compare_wanted_bits(&mut Random(4));
    let times = best(ROUNDS, || {
        let covers = windows.iter().flat_map(|(_, mix)| cover_times(mix));
        let step_counts = windows.iter().flat_map(|(_, mix)| step_count_times(mix));
        let wanted_bits = leaves.iter().flat_map(|(_, mix)| wanted_bits_times(mix));
        let tests = tests.iter().flat_map(|(_, mix)| test_times(mix));
        covers.chain(step_counts).chain(wanted_bits).chain(tests).collect()
    });
    let of_windows = ["cover", "step count"].into_iter().flat_map(|call| windows.iter().map(move |(name, _)| (call, *name)));
    let wanted_bits = leaves.iter().map(|(name, _)| ("wanted bits of a leaf", *name));
    let tests = tests.iter().map(|(name, _)| ("unreadable, each record of the window", *name));
    let rows = of_windows.chain(wanted_bits).chain(tests).zip(times.chunks(2)).map(|((call, name), times)| {
        let (rattle, rust) = (times[0], times[1]);
        let ratio = rattle / rust;
        row!["{call}", "{name}", "{rattle:.1}", "{rust:.1}", "{ratio:.2}"]
    });
    print_table("alone", &["call", "window", "Rattle ns", "Rust ns", "Rattle / Rust"], rows);
}
