//! Sees that both sides are the same protocol: after each call of random histories their numbers, words, clocks and records are
//! equal. The time of a competitor that leaves something out would be worth nothing.

use crate::lent::{agree, Lent};
use crate::nolthewyr::{Client, Outcome, Phase, Record, Settings};
use crate::random::Random;
use crate::sides::{Kind, Linked, KINDS, SIDES};

type Tables = [Lent<Linked>; SIDES.len()];

const CALLS: usize = 20000;
const CLIENTS: u64 = 5;
/// The fewest ticks of which 10,001 times as many do not fit 64 bits.
const WRAPPING: u64 = u64::MAX / 10_001 + 1;

#[derive(Clone, Copy, Debug)]
struct Planned {
    kind: Kind,
    client: u64,
    a: u64,
    b: u64,
}

/// The clock of a client's next step. Each client's starts at a number of its own; mostly it stands still or goes on by 1, seldom to
/// where the claim begins to be late or the wait is over, or one before, or where a product would wrap, and seldom it goes back.
fn next_clock(random: &mut Random, settings: Settings, client: Client) -> u64 {
    let Client { clock, record } = client;
    let late = (9_999 * settings.wait).div_ceil(10_001);
    let ends =
        [(record.t1, late), (record.t0, settings.wait), (record.t1, WRAPPING)].map(|(from, ticks)| from.saturating_add(ticks));
    match random.below(60) {
        _ if clock == 0 => random.one_of(&[1, 1 << 32, u64::MAX - (1 << 40)]),
        0 => clock - 1,
        1..4 => clock.max(random.one_of(&ends) - random.below(2)),
        4..14 => clock.saturating_add(1),
        _ => clock,
    }
}

impl Planned {
    /// Mostly steps that go on, seldom a client or a clock that is refused.
    fn any(random: &mut Random, lent: &Lent<Linked>) -> Planned {
        let client = if random.seldom(50) { random.one_of(&[CLIENTS, 1 << 32, u64::MAX]) } else { random.below(CLIENTS) };
        let kind = if random.below(10) < 7 { Kind::Step } else { random.one_of(&KINDS) };
        let (a, b) = match kind {
            Kind::Request => random.window(lent.settings.levels),
            Kind::Step => (next_clock(random, lent.settings, lent.clients.get(client as usize).copied().unwrap_or_default()), 0),
            Kind::Release | Kind::Cancel => (0, 0),
        };
        Planned { kind, client, a, b }
    }
}

fn put(tables: &mut Tables, client: usize, record: Record) {
    for lent in tables {
        lent.clients[client].record = record;
    }
}

/// In both tables alike a word becomes another, the client's record idle, or a field of it another number, so that the refusals
/// occur that no history from an opened table has.
fn damage(random: &mut Random, tables: &mut Tables, client: usize) {
    if random.seldom(20) {
        let (node, word) = (random.below(tables[0].words.len() as u64) as usize, random.word());
        for lent in &mut *tables {
            lent.words[node] = word;
        }
    }
    if let Some(&Client { record, .. }) = tables[0].clients.get(client) {
        let record = match random.below(100) {
            0 => Record::default(),
            1..30 => random.damaged(record),
            _ => record,
        };
        put(tables, client, record);
    }
}

/// How often each number was answered, how often a record was in each phase and had each outcome after an accepted call, and how often
/// a claim was late though less than the wait had gone by.
#[derive(Default)]
struct Met {
    numbers: [usize; 10],
    phases: [usize; 11],
    outcomes: [usize; 5],
    late_within_the_wait: usize,
}

impl Met {
    fn add(&mut self, settings: Settings, client: Client) {
        let Client { clock, record } = client;
        self.phases[record.phase.0 as usize] += 1;
        self.outcomes[record.outcome.0 as usize] += 1;
        let late = record.phase == Phase::RETURNING && record.outcome == Outcome::LATE;
        self.late_within_the_wait += (late && clock - record.t1 < settings.wait) as usize;
    }
}

/// Openings and calls that are refused for their settings (1), for the count of words (2) or for that of clients (3).
fn compare_refused(met: &mut Met) {
    let of = |levels, distance, wait, patience| Settings { levels, distance, wait, patience };
    let of_tree = [of(0, 1, 1, 1), of(1, 1, 1, 1), of(13, 1, 1, 1), of(2, 0, 1, 1), of(2, 5, 1, 1)];
    let of_times = [of(2, 1, 0, 1), of(2, 1, 1 << 32, 1), of(2, 1, 1, 0), of(2, 1, 1, 1 << 32), of(2, 1, 1, u64::MAX)];
    let by_settings = of_tree.into_iter().chain(of_times).map(|settings| (1, settings, 5, 1));
    let by_counts = [(2, 4, 1), (2, 6, 0), (2, 21, 1), (3, 5, 0), (3, 5, 32768)];
    let by_counts = by_counts.map(|(number, words, clients)| (number, of(2, 1, 1, 1), words, clients));
    for (number, settings, words, clients) in by_settings.chain(by_counts) {
        let mut tables = SIDES.map(|side| Lent::filled(side, settings, words, clients));
        for lent in &mut tables {
            assert_eq!(lent.open(), number, "{settings:?}, {words} words, {clients} clients");
            for kind in KINDS {
                assert_eq!(lent.make(kind, 0, 0, 1), number, "{kind:?}, {settings:?}, {words} words, {clients} clients");
            }
        }
        assert!(agree(&tables), "{settings:?}, {words} words, {clients} clients: words or clients differ");
        met.numbers[number as usize] += KINDS.len();
    }
}

/// Makes the call on both sides and gives the number.
fn compare_call(tables: &mut Tables, planned: Planned, met: &mut Met) -> u64 {
    let [rattle, rust] = tables.each_mut().map(|lent| lent.make(planned.kind, planned.client, planned.a, planned.b));
    assert_eq!(rattle, rust, "{planned:?}: Rattle on the left, Rust on the right");
    assert!(agree(tables), "{planned:?}: words or clients differ");
    met.numbers[rattle as usize] += 1;
    if rattle == 0 {
        met.add(tables[0].settings, tables[0].clients[planned.client as usize]);
    }
    rattle
}

fn compare_history(seed: u64, settings: Settings, damaging: bool, met: &mut Met) {
    let mut random = Random(seed);
    let mut tables = SIDES.map(|side| Lent::opened(side, settings, CLIENTS as usize));
    for _ in 0..CALLS {
        let planned = Planned::any(&mut random, &tables[0]);
        let client = planned.client as usize;
        let whole = tables[0].clients.get(client).map(|client| client.record);
        if damaging {
            damage(&mut random, &mut tables, client);
        }
        let number = compare_call(&mut tables, planned, met);
        // A refused call leaves the record as it was: its damage is undone, so that the client goes on.
        if let (1.., Some(whole)) = (number, whole) {
            put(&mut tables, client, whole);
        }
    }
}

/// Histories on small trees for every m, with and without damage. Every number that a call can answer, every phase and every outcome
/// must have occurred, and a claim that is late by request 2.3's factors alone.
pub fn compare_sides() {
    let mut met = Met::default();
    compare_refused(&mut met);
    for seed in 0..40 {
        let wait = [1, 5, 25, 5_001, 123_456, u32::MAX as u64][seed as usize % 6];
        let patience = [2, 20, 2 * wait][seed as usize / 6 % 3].min(u32::MAX as u64);
        let settings = Settings { levels: 2 + seed % 5, distance: 1 + seed / 5 % 4, wait, patience };
        compare_history(seed, settings, seed >= 20, &mut met);
    }
    assert!(!met.numbers.contains(&0), "a number was never answered: {:?}", met.numbers);
    assert!(!met.phases.contains(&0), "a phase was never reached: {:?}", met.phases);
    assert!(!met.outcomes.contains(&0), "an outcome never occurred: {:?}", met.outcomes);
    assert!(met.late_within_the_wait > 0, "no claim was late before the wait was over");
    println!("{} calls left equal numbers, words, clocks and records", met.numbers.iter().sum::<usize>());
    println!("they were answered 0 to 9 so often: {:?}", met.numbers);
}
