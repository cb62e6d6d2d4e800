//! Each call by the document's words, on any head and any slices.

use crate::{home, Answer, Head, Totals};
use std::collections::HashSet;

/// How the walk ends.
#[derive(Clone, Copy, Debug, PartialEq, Eq)]
pub enum End {
    Found { slot: usize, p: usize },
    Absent { slot: usize, p: usize },
    Never,
}

fn refusal(number: u8, head: Head) -> Answer {
    Answer { number, head, ..Answer::default() }
}

/// Absent: the slot and the p at which the walk ended.
fn absent(slot: usize, p: usize, head: Head) -> Answer {
    Answer { slot, probes: p, ..refusal(5, head) }
}

/// 1, then 2, else 0.
fn opening(head: Head, words: usize, counts: usize) -> u8 {
    let good_slots = head.slots >= 2 && head.slots <= 32_768;
    if !good_slots || head.rule > 1 || head.live > head.slots - 1 {
        return 1;
    }
    if words != 2 * head.slots || counts != head.slots {
        return 2;
    }
    0
}

/// The walk as written: p = 1, 2, .. M; the slot at p is home + p - 1 modulo M.
pub fn walk(head: Head, words: &[u64], counts: &[u16], x: u64) -> End {
    let m = head.slots;
    let home = home(head, x);
    for p in 1..=m {
        let slot = (home + p - 1) % m;
        let count = usize::from(counts[slot]);
        let identifier = words[2 * slot];
        if count == p && identifier == x {
            return End::Found { slot, p };
        }
        if count < p || (count == p && identifier > x) {
            return End::Absent { slot, p };
        }
    }
    End::Never
}

pub fn clear(old: Head, slots: usize, rule: u8, salt: u64, words: &mut [u64], counts: &mut [u16]) -> Answer {
    let head = Head { slots, salt, live: 0, rule };
    let number = opening(head, words.len(), counts.len());
    if number != 0 {
        return refusal(number, old);
    }
    words.fill(0);
    counts.fill(0);
    refusal(0, head)
}

pub fn find(head: Head, words: &[u64], counts: &[u16], x: u64) -> Answer {
    let number = opening(head, words.len(), counts.len());
    if number != 0 {
        return refusal(number, head);
    }
    match walk(head, words, counts, x) {
        End::Found { slot, p } => Answer { slot, entry: words[2 * slot + 1], probes: p, ..refusal(0, head) },
        End::Absent { slot, p } => absent(slot, p, head),
        End::Never => refusal(6, head),
    }
}

pub fn store(head: Head, words: &mut [u64], counts: &mut [u16], x: u64, entry: u64) -> Answer {
    let number = opening(head, words.len(), counts.len());
    if number != 0 {
        return refusal(number, head);
    }
    let m = head.slots;
    let (s, p) = match walk(head, words, counts, x) {
        End::Found { slot, p } => return Answer { slot, entry: words[2 * slot + 1], probes: p, ..refusal(3, head) },
        End::Never => return refusal(6, head),
        End::Absent { slot, p } => (slot, p),
    };
    if head.live == m - 1 {
        return refusal(4, head);
    }
    let run: Vec<usize> = (0..m).map(|k| (s + k) % m).take_while(|slot| counts[*slot] != 0).collect();
    let far = run.iter().any(|slot| usize::from(counts[*slot]) >= m - 1);
    if p == m || run.len() == m || far {
        return refusal(6, head);
    }
    for slot in run.iter().rev() {
        let next = (slot + 1) % m;
        words[2 * next] = words[2 * slot];
        words[2 * next + 1] = words[2 * slot + 1];
        counts[next] = counts[*slot] + 1;
    }
    words[2 * s] = x;
    words[2 * s + 1] = entry;
    counts[s] = p as u16;
    let head = Head { live: head.live + 1, ..head };
    Answer { slot: s, entry, probes: p, moved: run.len(), ..refusal(0, head) }
}

pub fn remove(head: Head, words: &mut [u64], counts: &mut [u16], x: u64) -> Answer {
    let number = opening(head, words.len(), counts.len());
    if number != 0 {
        return refusal(number, head);
    }
    let m = head.slots;
    let (s, p) = match walk(head, words, counts, x) {
        End::Found { slot, p } => (slot, p),
        End::Absent { slot, p } => return absent(slot, p, head),
        End::Never => return refusal(6, head),
    };
    let run: Vec<usize> = (1..m).map(|k| (s + k) % m).take_while(|slot| counts[*slot] >= 2).collect();
    if head.live == 0 || run.len() == m - 1 {
        return refusal(6, head);
    }
    let entry = words[2 * s + 1];
    let mut vacated = s;
    for slot in &run {
        words[2 * vacated] = words[2 * slot];
        words[2 * vacated + 1] = words[2 * slot + 1];
        counts[vacated] = counts[*slot] - 1;
        vacated = *slot;
    }
    words[2 * vacated] = 0;
    words[2 * vacated + 1] = 0;
    counts[vacated] = 0;
    let head = Head { live: head.live - 1, ..head };
    Answer { slot: s, entry, probes: p, moved: run.len(), ..refusal(0, head) }
}

pub fn change(head: Head, words: &mut [u64], counts: &[u16], x: u64, entry: u64) -> Answer {
    let mut answer = find(head, words, counts, x);
    if answer.number == 0 {
        words[2 * answer.slot + 1] = entry;
        answer.entry = entry;
    }
    answer
}

pub fn check(head: Head, words: &[u64], counts: &[u16]) -> Answer {
    let number = opening(head, words.len(), counts.len());
    if number != 0 {
        return refusal(number, head);
    }
    refusal(if accepted(head, words, counts) { 0 } else { 6 }, head)
}

/// The table is proper, empty slots are zero, and the number of occupied slots equals the live count.
fn accepted(head: Head, words: &[u64], counts: &[u16]) -> bool {
    let occupied: Vec<usize> = (0..head.slots).filter(|slot| counts[*slot] != 0).collect();
    let zero = (0..head.slots).all(|slot| counts[slot] != 0 || (words[2 * slot] == 0 && words[2 * slot + 1] == 0));
    zero && occupied.len() == head.live && proper(head, words, counts, &occupied)
}

/// The definition: each record stands in one slot, its count says how far from home, it passed no empty slot, and at each slot that
/// it passed the occupant's count exceeds the one that the record had there, or equals it with a smaller identifier.
fn proper(head: Head, words: &[u64], counts: &[u16], occupied: &[usize]) -> bool {
    let m = head.slots;
    let once: HashSet<u64> = occupied.iter().map(|slot| words[2 * slot]).collect();
    let passes = |x: u64, home: usize, count: usize| {
        (1..count).all(|p| {
            let slot = (home + p - 1) % m;
            let other = usize::from(counts[slot]);
            other != 0 && (other > p || (other == p && words[2 * slot] < x))
        })
    };
    once.len() == occupied.len()
        && occupied.iter().all(|slot| {
            let (x, count) = (words[2 * slot], usize::from(counts[*slot]));
            let home = home(head, x);
            (home + count - 1) % m == *slot && passes(x, home, count)
        })
}

pub fn census(head: Head, words: &[u64], counts: &[u16]) -> Totals {
    let number = opening(head, words.len(), counts.len());
    if number != 0 {
        return Totals { number, head, ..Totals::default() };
    }
    let stored = counts.iter().map(|count| usize::from(*count)).sum();
    let greatest = counts.iter().map(|count| usize::from(*count)).max().unwrap_or(0);
    Totals { number: 0, greatest, stored, absent: stored + head.slots, head }
}
