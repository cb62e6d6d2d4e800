//! Stores five jobs, finds one, changes it, removes another, and prints what comes back: the C example, in Rust.

use register::{Change, Find, Head, Refusal, Register, Remove, Rule, Store};

/// The fields of an answer, as the C example prints them.
fn show(call: &str, identifier: u64, fields: (u8, usize, u64, usize, usize), live: usize) {
    let (number, slot, entry, probes, moved) = fields;
    println!(
        "{call:<6} {identifier:2x}: number {number}, slot {slot}, entry {entry:x}, probes {probes}, moved {moved}, live {live}"
    );
}

fn found(answer: Find) -> (u8, usize, u64, usize, usize) {
    match answer {
        Find::Found { slot, entry, probes } => (0, slot, entry, probes, 0),
        Find::Absent { slot, probes } => (5, slot, 0, probes, 0),
    }
}

fn stored(answer: Store) -> (u8, usize, u64, usize, usize) {
    match answer {
        Store::Stored { slot, entry, probes, moved } => (0, slot, entry, probes, moved),
        Store::AlreadyNamed { slot, entry, probes } => (3, slot, entry, probes, 0),
    }
}

fn changed(answer: Change) -> (u8, usize, u64, usize, usize) {
    match answer {
        Change::Changed { slot, entry, probes } => (0, slot, entry, probes, 0),
        Change::Absent { slot, probes } => (5, slot, 0, probes, 0),
    }
}

fn removed(answer: Remove) -> (u8, usize, u64, usize, usize) {
    match answer {
        Remove::Removed { slot, entry, probes, moved } => (0, slot, entry, probes, moved),
        Remove::Absent { slot, probes } => (5, slot, 0, probes, 0),
    }
}

fn main() -> Result<(), Refusal> {
    let (mut words, mut counts) = ([0; 16], [0; 8]);
    let mut jobs = Register::new(Head::default(), &mut words, &mut counts);

    jobs.clear(8, Rule::Remainder, 0)?;
    show("clear", 0, (0, 0, 0, 0, 0), jobs.head().live);
    for (identifier, entry) in [(0x10, 0xa1), (0x08, 0xa2), (0x0f, 0xa3), (0x07, 0xa4), (0x01, 0xa5)] {
        let answer = jobs.store(identifier, entry)?;
        show("store", identifier, stored(answer), jobs.head().live);
    }

    show("find", 0x08, found(jobs.find(0x08)?), jobs.head().live);
    let answer = jobs.change(0x08, 0xb2)?;
    show("change", 0x08, changed(answer), jobs.head().live);
    let answer = jobs.remove(0x07)?;
    show("remove", 0x07, removed(answer), jobs.head().live);
    show("find", 0x07, found(jobs.find(0x07)?), jobs.head().live);
    jobs.check()?;
    show("check", 0, (0, 0, 0, 0, 0), jobs.head().live);

    let sums = jobs.census()?;
    println!("census: greatest {}, stored {}, absent {}", sums.greatest, sums.stored, sums.absent);
    for (i, (pair, count)) in jobs.words().chunks(2).zip(jobs.counts()).enumerate() {
        println!("slot {i}: count {count}, identifier {:x}, entry {:x}", pair[0], pair[1]);
    }
    Ok(())
}
