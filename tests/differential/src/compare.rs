//! One call on the built library and on the model, and everything that must be alike afterwards.

use crate::built;
use model::{calls, Answer, Head, Totals};

/// A call with its numbers.
#[derive(Clone, Copy, Debug)]
pub enum Call {
    Clear { slots: usize, rule: u8, salt: u64 },
    Find(u64),
    Store(u64, u64),
    Remove(u64),
    Change(u64, u64),
    Check,
    Census,
}

pub const NAMES: [&str; 7] = ["clear", "find", "store", "remove", "change", "check", "census"];

/// The numbers that document 01 allows each call, in the order of `NAMES`.
pub const NUMBERS: [&[usize]; 7] =
    [&[0, 1, 2], &[0, 1, 2, 5, 6], &[0, 1, 2, 3, 4, 6], &[0, 1, 2, 5, 6], &[0, 1, 2, 5, 6], &[0, 1, 2, 6], &[0, 1, 2]];

impl Call {
    fn place(self) -> usize {
        match self {
            Call::Clear { .. } => 0,
            Call::Find(_) => 1,
            Call::Store(..) => 2,
            Call::Remove(_) => 3,
            Call::Change(..) => 4,
            Call::Check => 5,
            Call::Census => 6,
        }
    }
}

/// What came back.
#[derive(Clone, Copy, Debug, PartialEq, Eq)]
pub enum Reply {
    Answer(Answer),
    Totals(Totals),
}

impl Reply {
    pub fn number(self) -> u8 {
        match self {
            Reply::Answer(a) => a.number,
            Reply::Totals(t) => t.number,
        }
    }

    pub fn head(self) -> Head {
        match self {
            Reply::Answer(a) => a.head,
            Reply::Totals(t) => t.head,
        }
    }

    pub fn entry(self) -> u64 {
        match self {
            Reply::Answer(a) => a.entry,
            Reply::Totals(_) => 0,
        }
    }
}

fn by_library(call: Call, head: Head, words: &mut [u64], counts: &mut [u16]) -> Reply {
    match call {
        Call::Clear { slots, rule, salt } => Reply::Answer(built::clear(head, slots, rule, salt, words, counts)),
        Call::Find(x) => Reply::Answer(built::find(head, words, counts, x)),
        Call::Store(x, v) => Reply::Answer(built::store(head, words, counts, x, v)),
        Call::Remove(x) => Reply::Answer(built::remove(head, words, counts, x)),
        Call::Change(x, v) => Reply::Answer(built::change(head, words, counts, x, v)),
        Call::Check => Reply::Answer(built::check(head, words, counts)),
        Call::Census => Reply::Totals(built::census(head, words, counts)),
    }
}

fn by_model(call: Call, head: Head, words: &mut [u64], counts: &mut [u16]) -> Reply {
    match call {
        Call::Clear { slots, rule, salt } => Reply::Answer(calls::clear(head, slots, rule, salt, words, counts)),
        Call::Find(x) => Reply::Answer(calls::find(head, words, counts, x)),
        Call::Store(x, v) => Reply::Answer(calls::store(head, words, counts, x, v)),
        Call::Remove(x) => Reply::Answer(calls::remove(head, words, counts, x)),
        Call::Change(x, v) => Reply::Answer(calls::change(head, words, counts, x, v)),
        Call::Check => Reply::Answer(calls::check(head, words, counts)),
        Call::Census => Reply::Totals(calls::census(head, words, counts)),
    }
}

/// How many guard values stand before and after each slice.
pub const GUARD: usize = 8;
const GUARD_WORD: u64 = 0xa5c3_0ff0_96e1_7b2d;
const GUARD_COUNT: u16 = 0xb6d9;

/// Two slices between guard values.
#[derive(Clone, Debug, PartialEq, Eq)]
struct Buffers {
    words: Vec<u64>,
    counts: Vec<u16>,
}

impl Buffers {
    fn lent(&mut self, words: usize, counts: usize) -> (&mut [u64], &mut [u16]) {
        (&mut self.words[GUARD..GUARD + words], &mut self.counts[GUARD..GUARD + counts])
    }
}

fn guarded<T: Copy>(slice: &[T], guard: T) -> Vec<T> {
    let mut all = vec![guard; slice.len() + 2 * GUARD];
    all[GUARD..GUARD + slice.len()].copy_from_slice(slice);
    all
}

/// How often each call gave each number.
pub type Seen = [[usize; 8]; 7];

/// The library's buffers and the model's, alike before and after every call.
pub struct Pair {
    library: Buffers,
    model: Buffers,
    pub calls: usize,
    pub seen: Seen,
}

impl Pair {
    pub fn new(words: &[u64], counts: &[u16]) -> Self {
        let library = Buffers { words: guarded(words, GUARD_WORD), counts: guarded(counts, GUARD_COUNT) };
        Pair { model: library.clone(), library, calls: 0, seen: Seen::default() }
    }

    /// Other contents, of other lengths.
    pub fn refill(&mut self, words: &[u64], counts: &[u16]) {
        self.library = Buffers { words: guarded(words, GUARD_WORD), counts: guarded(counts, GUARD_COUNT) };
        self.model.clone_from(&self.library);
    }

    /// The words and counts between the guards.
    pub fn table(&self) -> (&[u64], &[u16]) {
        let (w, c) = (self.library.words.len() - GUARD, self.library.counts.len() - GUARD);
        (&self.library.words[GUARD..w], &self.library.counts[GUARD..c])
    }

    /// The call on the whole slices.
    pub fn call(&mut self, call: Call, head: Head) -> Result<Reply, String> {
        let (words, counts) = self.table();
        self.call_on(call, head, words.len(), counts.len())
    }

    /// The call on the first `words` words and `counts` counts: the answers, both buffers whole, and what a refusal may not do.
    pub fn call_on(&mut self, call: Call, head: Head, words: usize, counts: usize) -> Result<Reply, String> {
        let (w, c) = self.model.lent(words, counts);
        let expected = by_model(call, head, w, c);
        if expected.number() != 0 && (self.model != self.library || expected.head() != head) {
            return Err(format!("the model's refusal writes: {call:?} {head:?} gives {expected:?}"));
        }
        let (w, c) = self.library.lent(words, counts);
        let given = by_library(call, head, w, c);
        self.calls += 1;
        self.seen[call.place()][usize::from(expected.number()).min(7)] += 1;
        if given != expected {
            return Err(format!("{call:?} {head:?}: the library gives {given:?}, the model {expected:?}"));
        }
        if self.library != self.model {
            return Err(format!("{call:?} {head:?} gives {given:?}: the slices or their guards differ from the model's"));
        }
        Ok(given)
    }
}
