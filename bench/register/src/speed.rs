//! Times: every table on the same keys, in one run, batch by batch in changing order.

use crate::random::Random;
use crate::tables::{all, Settings, Table};
use std::hint::black_box;
use std::time::Instant;

pub const WORKS: [&str; 7] = ["find hit", "find miss", "store", "remove", "change", "check", "census"];

/// One table at one load: nanoseconds of each work (per slot for check and census), where it has that work.
#[derive(Clone, Debug)]
pub struct Line {
    pub table: &'static str,
    pub times: [Option<f64>; 7],
    /// It holds the records in more than M slots.
    pub grown: bool,
}

/// One setting at one load.
#[derive(Clone, Debug)]
pub struct Case {
    pub slots: usize,
    pub rule: u8,
    pub load: f64,
    pub lines: Vec<Line>,
}

/// The keys of one round.
struct Round {
    hits: Vec<u64>,
    misses: Vec<u64>,
    fresh: Vec<u64>,
    turn: u64,
}

/// What a round's batches gave: alike for every table.
fn timed(table: &mut dyn Table, round: &Round, times: &mut [Vec<f64>; 7]) -> [u64; 5] {
    let mut sums = [0; 5];
    let mut work = |i: usize, n: usize, f: &mut dyn FnMut() -> u64| {
        let start = Instant::now();
        let sum = black_box(f());
        times[i].push(start.elapsed().as_nanos() as f64 / n as f64);
        sums[i] = sum;
    };
    work(0, round.hits.len(), &mut || table.find_all(&round.hits));
    work(1, round.misses.len(), &mut || table.find_all(&round.misses));
    work(2, round.fresh.len(), &mut || table.store_all(&round.fresh));
    work(3, round.fresh.len(), &mut || table.remove_all(&round.fresh));
    work(4, round.hits.len(), &mut || table.change_all(&round.hits, round.turn));
    sums
}

/// The lowest tenth's last: what the machine's other work slows down least.
fn tenth(times: &mut [f64]) -> Option<f64> {
    times.sort_by(f64::total_cmp);
    times.get(times.len() / 10).copied()
}

fn whole_table(table: &dyn Table, slots: usize, times: &mut [Vec<f64>; 7]) {
    let start = Instant::now();
    let accepted = black_box(table.check());
    let check = start.elapsed();
    let start = Instant::now();
    let sums = black_box(table.census());
    let census = start.elapsed();
    assert_ne!(accepted, Some(false), "a table is damaged");
    if accepted.is_some() && sums.is_some() {
        times[5].push(check.as_nanos() as f64 / slots as f64);
        times[6].push(census.as_nanos() as f64 / slots as f64);
    }
}

/// Measures every table at one load: half of a batch below it before a batch is stored, half above it after.
pub fn case(slots: usize, rule: u8, load: f64) -> Case {
    let mut random = Random(0x5eed ^ (slots as u64) << 20 ^ u64::from(rule) << 8 ^ (load * 100.0) as u64);
    let (batch, finds, rounds) = (slots / 64, slots / 8 + 256, 3_000_000 / slots + 300);
    let settings = Settings { slots, rule, salt: random.word() };
    let live = random.words((slots as f64 * load) as usize - batch / 2);
    let mut tables = all(settings);
    for (_, table) in &mut tables {
        assert_eq!(table.store_all(&live), live.len() as u64);
    }
    let mut times: Vec<[Vec<f64>; 7]> = vec![Default::default(); tables.len()];
    for turn in 0..rounds {
        let hits = (0..finds).map(|_| live[(random.word() % live.len() as u64) as usize]).collect();
        let round = Round { hits, misses: random.words(finds), fresh: random.words(batch), turn: random.word() };
        let mut sums = None;
        for k in 0..tables.len() {
            let i = (k + turn) % tables.len();
            let table = tables[i].1.as_mut();
            table.find_all(&live[..finds.min(live.len())]);
            let here = timed(table, &round, &mut times[i]);
            assert_eq!(*sums.get_or_insert(here), here, "{} answers otherwise", tables[i].0);
            if turn % 8 == 0 {
                whole_table(table, slots, &mut times[i]);
            }
        }
    }
    let lines = tables.iter().zip(times.iter_mut()).map(|((name, table), times)| Line {
        table: name,
        times: std::array::from_fn(|i| tenth(&mut times[i])),
        grown: table.slots() > slots,
    });
    Case { slots, rule, load, lines: lines.collect() }
}
