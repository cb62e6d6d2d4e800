//! The built register against the model, call by call, from fixed seeds. The last line is 'N passed, M failed'.

mod built;
mod compare;
mod crates;
mod history;
mod junk;
mod random;

use compare::{Pair, Seen, NAMES, NUMBERS};
use history::{Homes, Plan};
use std::process::ExitCode;
use std::sync::atomic::{AtomicUsize, Ordering};
use std::sync::Mutex;
use std::time::Instant;

/// What a job does, and under which heading it is counted.
enum Work {
    History(Plan),
    Junk { seed: u64, tables: usize },
    Every { slots: usize, identifiers: u64, counts: u16 },
    Crate { seed: u64, steps: usize },
    Hash { seed: u64, turns: usize },
}

const GROUPS: [&str; 9] = [
    "histories, M 2 to 9",
    "histories, M 10 to 64",
    "histories, M 65 to 2,048",
    "histories, M 2,049 to 32,768",
    "random and lightly damaged tables",
    "every small table of M = 2",
    "every small table of M = 3",
    "histories through the Rust crate",
    "the hash",
];

fn group(work: &Work) -> usize {
    match work {
        Work::History(plan) => match plan.slots {
            0..=9 => 0,
            10..=64 => 1,
            65..=2_048 => 2,
            _ => 3,
        },
        Work::Junk { .. } => 4,
        Work::Every { slots, .. } => 3 + slots,
        Work::Crate { .. } => 7,
        Work::Hash { .. } => 8,
    }
}

/// What a job compared: calls, and how often each call gave each number.
#[derive(Default)]
struct Sum {
    calls: usize,
    seen: Seen,
}

impl From<Pair> for Sum {
    fn from(pair: Pair) -> Self {
        Sum { calls: pair.calls, seen: pair.seen }
    }
}

fn run(work: &Work) -> Result<Sum, String> {
    match *work {
        Work::History(plan) => history::run(plan).map(Sum::from),
        Work::Junk { seed, tables } => junk::random(seed, tables).map(Sum::from),
        Work::Every { slots, identifiers, counts } => junk::every(slots, identifiers, counts).map(Sum::from),
        Work::Crate { seed, steps } => crates::run(seed, steps).map(|calls| Sum { calls, ..Sum::default() }),
        Work::Hash { seed, turns } => crates::hash(seed, turns).map(|calls| Sum { calls, ..Sum::default() }),
    }
}

/// The jobs, the longest first.
fn jobs() -> Vec<Work> {
    let kinds = [Homes::Any, Homes::InTurn, Homes::Clustered, Homes::One];
    let mut all = Vec::new();
    let mut seed = 0x10_2026;
    let mut add = |slots: usize, rule: u8, homes: Homes, steps: usize| {
        seed += 1;
        all.push(Work::History(Plan { seed, slots, rule, homes, steps }));
    };
    add(32_768, 1, Homes::Any, 42_000);
    add(16_384, 0, Homes::Any, 24_000);
    add(32_767, 0, Homes::Any, 3_000);
    add(32_768, 0, Homes::Clustered, 5_000);
    add(20_000, 1, Homes::Clustered, 5_000);
    add(4_099, 0, Homes::One, 8_000);
    for (i, slots) in [2_048, 1_024, 1_000, 509, 256, 100, 97].into_iter().enumerate() {
        for rule in [0, 1] {
            add(slots, rule, kinds[i % 3], 6 * slots + 2_000);
            add(slots, rule, Homes::Clustered, 4 * slots + 1_000);
        }
    }
    for slots in 10..=64 {
        for rule in [0, 1] {
            for homes in kinds {
                add(slots, rule, homes, 700);
            }
        }
    }
    for slots in 2..=9 {
        for rule in [0, 1] {
            for homes in kinds {
                for _ in 0..4 {
                    add(slots, rule, homes, 2_000);
                }
            }
        }
    }
    all.push(Work::Every { slots: 3, identifiers: 4, counts: 5 });
    all.push(Work::Every { slots: 2, identifiers: 8, counts: 5 });
    all.extend((0..40).map(|seed| Work::Junk { seed, tables: 1_000 }));
    all.extend((0..8).map(|seed| Work::Crate { seed, steps: 5_000 }));
    all.push(Work::Hash { seed: 1, turns: 20_000 });
    all
}

/// Prints how often each call gave each number, and gives back what document 01 allows and no call gave.
fn missing(seen: &Seen) -> Vec<String> {
    let mut missing = Vec::new();
    for (name, (row, allowed)) in NAMES.iter().zip(seen.iter().zip(NUMBERS)) {
        let shown: Vec<String> = allowed.iter().map(|n| format!("{n}: {}", row[*n])).collect();
        println!("differential: {name} gave {}", shown.join(", "));
        missing.extend(allowed.iter().filter(|n| row[**n] == 0).map(|n| format!("{name} never gave {n}")));
        missing.extend((0..8).filter(|n| row[*n] != 0 && !allowed.contains(n)).map(|n| format!("{name} gave {n}")));
    }
    missing
}

fn main() -> ExitCode {
    let start = Instant::now();
    let jobs = jobs();
    let next = AtomicUsize::new(0);
    let done: Mutex<Vec<(usize, Result<Sum, String>)>> = Mutex::new(Vec::new());
    std::thread::scope(|scope| {
        for _ in 0..std::thread::available_parallelism().map_or(1, usize::from).min(8) {
            scope.spawn(|| {
                while let Some(work) = jobs.get(next.fetch_add(1, Ordering::Relaxed)) {
                    let sum = run(work);
                    done.lock().expect("no thread panics with the lock").push((group(work), sum));
                }
            });
        }
    });
    let (mut passed, mut failed, mut calls, mut seen) = (0, 0, 0, Seen::default());
    let done = done.into_inner().expect("no thread panics with the lock");
    for (i, name) in GROUPS.iter().enumerate() {
        let (mut here, mut faults) = (0, 0);
        for (_, sum) in done.iter().filter(|(group, _)| *group == i) {
            match sum {
                Ok(sum) => {
                    here += sum.calls;
                    for (to, from) in seen.iter_mut().flatten().zip(sum.seen.iter().flatten()) {
                        *to += from;
                    }
                }
                Err(fault) => {
                    faults += 1;
                    println!("differential: FAILED: {name}: {fault}");
                }
            }
        }
        println!("differential: {name}: {here} calls alike, {faults} failures");
        calls += here;
        if faults == 0 && here > 0 {
            passed += 1;
        } else {
            failed += 1;
        }
    }
    let mut wrong = missing(&seen);
    if calls < 1_000_000 {
        wrong.push(format!("only {calls} calls"));
    }
    for fault in &wrong {
        println!("differential: FAILED: {fault}");
    }
    if wrong.is_empty() {
        passed += 1;
    } else {
        failed += 1;
    }
    println!("differential: {calls} calls in {} s", start.elapsed().as_secs());
    println!("{passed} passed, {failed} failed");
    ExitCode::from(u8::from(failed != 0))
}
