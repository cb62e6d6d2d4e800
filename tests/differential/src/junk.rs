//! (b) Junk: any head, slices of any length, tables of any contents. The answer and both slices are the model's.

use crate::compare::{Call, Pair};
use crate::random::Random;
use model::afresh::Live;
use model::Head;

/// Random tables, each given to every call.
pub fn random(seed: u64, tables: usize) -> Result<Pair, String> {
    let mut random = Random::new(seed);
    let mut pair = Pair::new(&[], &[]);
    for turn in 0..tables {
        let m = match random.below(1000) {
            0 => random.pick(&[32_768, 32_767, 32_769]),
            1..=49 => random.within(41, 400),
            50..=299 => random.within(7, 40),
            _ => random.within(2, 6),
        };
        let good = Head { slots: m, salt: random.word(), live: random.below(m), rule: random.below(2) as u8 };
        let (words, counts) = table(&mut random, good);
        let head = head(&mut random, good, &counts);
        let (w, c) = lengths(&mut random, m);
        let (words, counts) = (resized(words, w, &mut random), resized(counts, c, &mut random));
        every_call(&mut random, &mut pair, head, &words, &counts)
            .map_err(|fault| format!("seed {seed}, turn {turn}, words {w}, counts {c}: {fault}"))?;
    }
    Ok(pair)
}

fn head(random: &mut Random, good: Head, counts: &[u16]) -> Head {
    let m = good.slots;
    let occupied = counts.iter().filter(|c| **c != 0).count();
    match random.below(16) {
        0 => Head { slots: random.pick(&[0, 1, 32_769, usize::MAX, m - 1, m + 1]), ..good },
        1 => Head { live: random.pick(&[m, m + 1, usize::MAX, usize::MAX - 1]), ..good },
        2 => Head { rule: random.within(2, 255) as u8, ..good },
        3 => Head { slots: random.word() as usize, salt: random.word(), live: random.word() as usize, rule: random.word() as u8 },
        4 => Head { live: m - 1, ..good },
        5 => Head { live: 0, ..good },
        6..=11 => Head { live: occupied.min(m - 1), ..good },
        _ => good,
    }
}

fn lengths(random: &mut Random, m: usize) -> (usize, usize) {
    match random.below(20) {
        0 => (random.below(2 * m + 4), random.below(m + 4)),
        1 => (2 * m, random.pick(&[0, m - 1, m + 1, 2 * m])),
        2 => (random.pick(&[0, m, 2 * m - 1, 2 * m + 1]), m),
        _ => (2 * m, m),
    }
}

fn resized<T: Copy + Default + TryFrom<u64>>(mut from: Vec<T>, length: usize, random: &mut Random) -> Vec<T> {
    from.resize_with(length, || T::try_from(random.word() % 9).unwrap_or_default());
    from
}

fn table(random: &mut Random, head: Head) -> (Vec<u64>, Vec<u16>) {
    let m = head.slots;
    let small = |random: &mut Random| random.word() % (3 * m as u64);
    match random.below(8) {
        0 => ((0..2 * m).map(|_| random.word()).collect(), (0..m).map(|_| random.word() as u16).collect()),
        1 => {
            let all = random.pick(&[0, 1, 2, m - 1, m, m + 1, 65_535]) as u16;
            ((0..2 * m).map(|_| small(random)).collect(), vec![all; m])
        }
        2 | 3 => {
            let most = random.within(1, m + 2);
            ((0..2 * m).map(|_| small(random)).collect(), (0..m).map(|_| random.below(most + 1) as u16).collect())
        }
        _ => damaged(random, head),
    }
}

/// A proper table with up to three faults.
fn damaged(random: &mut Random, head: Head) -> (Vec<u64>, Vec<u16>) {
    let m = head.slots;
    let mut live = Live::none(head);
    let wanted = random.below(m);
    let stores = if random.once_in(2) { wanted } else { 2 * m };
    for _ in 0..stores.min(600) {
        let x = if random.once_in(8) { random.pick(&[0, u64::MAX]) } else { random.word() % (4 * m as u64) };
        live.store(x, random.word() % 5);
    }
    let (mut words, mut counts) = live.table();
    for _ in 0..random.below(4) {
        let (i, j) = (random.below(m), random.below(m));
        match random.below(8) {
            0 => counts[i] = counts[i].wrapping_add(1),
            1 => counts[i] = counts[i].wrapping_sub(1),
            2 => counts[i] = random.pick(&[0, 1, 2, m - 1, m, m + 1, 65_535]) as u16,
            3 => words[2 * i] = words[2 * j],
            4 => words[2 * i] = words[2 * i].wrapping_add(random.pick(&[1, m as u64, m as u64 - 1])),
            5 => words.swap(2 * i, 2 * j),
            6 => words[2 * i + 1] ^= 1 << random.below(64),
            _ => counts.swap(i, j),
        }
    }
    (words, counts)
}

/// Each call on this table, which is put back after a call that wrote.
fn every_call(random: &mut Random, pair: &mut Pair, head: Head, words: &[u64], counts: &[u16]) -> Result<(), String> {
    let v = random.word();
    let near = if words.is_empty() { 0 } else { words[random.below(words.len()) / 2 * 2] };
    let other = random.pick(&[0, u64::MAX, near.wrapping_add(1), random_identifier(head, v)]);
    let rule = random.pick(&[0, 1, 1, 2, 200]);
    let slots = random.pick(&[head.slots, counts.len(), counts.len(), 0, 1, 32_769]);
    pair.refill(words, counts);
    pair.call(Call::Check, head)?;
    pair.call(Call::Census, head)?;
    for x in [near, other] {
        pair.call(Call::Find(x), head)?;
        for call in [Call::Store(x, v), Call::Remove(x), Call::Change(x, v)] {
            let reply = pair.call(call, head)?;
            if reply.number() == 0 {
                pair.call(Call::Check, reply.head())?;
                pair.refill(words, counts);
            }
        }
    }
    pair.call(Call::Clear { slots, rule, salt: v }, head).map(drop)
}

fn random_identifier(head: Head, v: u64) -> u64 {
    v % (4 * head.slots.clamp(1, 65_536) as u64)
}

/// Every table of `slots` slots over identifiers and counts from 0 on, with every live count, under rule 0.
pub fn every(slots: usize, identifiers: u64, counts: u16) -> Result<Pair, String> {
    let cells: Vec<(u64, u16)> = (0..identifiers).flat_map(|x| (0..counts).map(move |c| (x, c))).collect();
    let mut pair = Pair::new(&[], &[]);
    for code in 0..cells.len().pow(slots as u32) {
        let chosen: Vec<(u64, u16)> = (0..slots).map(|i| cells[code / cells.len().pow(i as u32) % cells.len()]).collect();
        let words: Vec<u64> = chosen.iter().flat_map(|cell| [cell.0, 0]).collect();
        let counts: Vec<u16> = chosen.iter().map(|cell| cell.1).collect();
        pair.refill(&words, &counts);
        for live in 0..slots {
            let head = Head { slots, salt: 0, live, rule: 0 };
            let told = |fault: String| format!("words {words:?}, counts {counts:?}: {fault}");
            pair.call(Call::Check, head).map_err(told)?;
            for x in 0..identifiers + 1 {
                for call in [Call::Find(x), Call::Store(x, 7), Call::Remove(x)] {
                    if pair.call(call, head).map_err(told)?.number() == 0 && !matches!(call, Call::Find(_)) {
                        pair.refill(&words, &counts);
                    }
                }
            }
        }
    }
    Ok(pair)
}
