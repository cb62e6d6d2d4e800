//! Histories through the Rust crate's own type, and both hashes.

use crate::built;
use crate::random::Random;
use model::{calls, hash as plain, Answer};
use register::{Change, Find, Head, Refusal, Register, Remove, Rule, Store};

/// The crate's answer as the document's numbers.
fn shown<T>(result: Result<T, Refusal>, fields: impl Fn(T) -> Answer, head: Head) -> Answer {
    let answer = result.map_or_else(|refusal| Answer { number: refusal.number(), ..Answer::default() }, fields);
    Answer { head: modelled(head), ..answer }
}

fn modelled(h: Head) -> model::Head {
    model::Head { slots: h.slots, salt: h.salt, live: h.live, rule: h.rule }
}

fn done(number: u8, slot: usize, entry: u64, probes: usize, moved: usize) -> Answer {
    Answer { number, slot, entry, probes, moved, head: model::Head::default() }
}

fn call(jobs: &mut Register<'_>, which: usize, x: u64, v: u64) -> Answer {
    match which {
        0 => {
            let result = jobs.find(x);
            shown(
                result,
                |found| match found {
                    Find::Found { slot, entry, probes } => done(0, slot, entry, probes, 0),
                    Find::Absent { slot, probes } => done(5, slot, 0, probes, 0),
                },
                jobs.head(),
            )
        }
        1 => {
            let result = jobs.store(x, v);
            shown(
                result,
                |stored| match stored {
                    Store::Stored { slot, entry, probes, moved } => done(0, slot, entry, probes, moved),
                    Store::AlreadyNamed { slot, entry, probes } => done(3, slot, entry, probes, 0),
                },
                jobs.head(),
            )
        }
        2 => {
            let result = jobs.remove(x);
            shown(
                result,
                |removed| match removed {
                    Remove::Removed { slot, entry, probes, moved } => done(0, slot, entry, probes, moved),
                    Remove::Absent { slot, probes } => done(5, slot, 0, probes, 0),
                },
                jobs.head(),
            )
        }
        3 => {
            let result = jobs.change(x, v);
            shown(
                result,
                |changed| match changed {
                    Change::Changed { slot, entry, probes } => done(0, slot, entry, probes, 0),
                    Change::Absent { slot, probes } => done(5, slot, 0, probes, 0),
                },
                jobs.head(),
            )
        }
        _ => shown(jobs.check(), |()| done(0, 0, 0, 0, 0), jobs.head()),
    }
}

fn expected(head: model::Head, words: &mut [u64], counts: &mut [u16], which: usize, x: u64, v: u64) -> Answer {
    match which {
        0 => calls::find(head, words, counts, x),
        1 => calls::store(head, words, counts, x, v),
        2 => calls::remove(head, words, counts, x),
        3 => calls::change(head, words, counts, x, v),
        _ => calls::check(head, words, counts),
    }
}

/// Histories over the crate's type: its enums, its head and its slices are the model's.
pub fn run(seed: u64, steps: usize) -> Result<usize, String> {
    let mut random = Random::new(seed ^ 0xc4a7e);
    let m = random.within(2, 24);
    let rule = random.pick(&[Rule::Remainder, Rule::Hashed]);
    let (mut words, mut counts) = (vec![3; 2 * m], vec![5; m]);
    let (mut model_words, mut model_counts) = (words.clone(), counts.clone());
    let mut jobs = Register::new(Head::default(), &mut words, &mut counts);
    jobs.clear(m, rule, seed).map_err(|refusal| refusal.to_string())?;
    let mut head = calls::clear(model::Head::default(), m, rule as u8, seed, &mut model_words, &mut model_counts).head;
    for step in 0..steps {
        let which = random.pick(&[0, 1, 1, 1, 2, 2, 3, 4]);
        let (x, v) = (random.word() % (2 * m as u64), random.word());
        let given = call(&mut jobs, which, x, v);
        let wanted = expected(head, &mut model_words, &mut model_counts, which, x, v);
        head = wanted.head;
        if given != wanted || (jobs.words(), jobs.counts()) != (&model_words[..], &model_counts[..]) {
            return Err(format!(
                "seed {seed}, step {step}, call {which} of {x}: the crate gives {given:?}, the model {wanted:?}"
            ));
        }
        let sums = calls::census(head, &model_words, &model_counts);
        let census = jobs.census().map_err(|refusal| refusal.to_string())?;
        if (census.greatest, census.stored, census.absent) != (sums.greatest, sums.stored, sums.absent) {
            return Err(format!("seed {seed}, step {step}: the census is {census:?}"));
        }
    }
    Ok(2 * steps)
}

/// The hash of byte slices and of keys, by the library, by the crate and by the model.
pub fn hash(seed: u64, turns: usize) -> Result<usize, String> {
    let mut random = Random::new(seed);
    for _ in 0..turns {
        let length = random.below(70);
        let bytes: Vec<u8> = (0..length).map(|_| random.word() as u8).collect();
        let (salt, x) = (random.word() >> random.below(64), random.word() >> random.below(64));
        let expected = (plain::bytes(&bytes), plain::key(salt, x));
        if (built::hash_bytes(&bytes), built::hash_key(salt, x)) != expected {
            return Err(format!("the library's hash of {bytes:?}, or of {salt:x} and {x:x}"));
        }
        if (register::hash_bytes(&bytes), register::hash_key(salt, x)) != expected {
            return Err(format!("the crate's hash of {bytes:?}, or of {salt:x} and {x:x}"));
        }
    }
    Ok(4 * turns)
}
