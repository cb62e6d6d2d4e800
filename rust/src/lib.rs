//! A proved job register for Rust: a Robin Hood hash table with true deletion, in memory that the caller lends.
//!
//! A [`Register`] is a [`Head`] and two borrowed slices: 2M words (slot i has its identifier at 2i and its entry at 2i+1) and
//! M counts (0 marks an empty slot; any other count is the record's probe count, 1 at its home). M lies from 2 to 32,768 and at most
//! M-1 records are live. A removed record leaves no mark.
//!
//! Each method is the proved call of its name. It answers whatever the head and the slices hold: nothing here panics, allocates or
//! keeps state elsewhere, and a refused call writes nothing.
//!
//! ```
//! use register::{Find, Head, Register, Remove, Rule, Store};
//!
//! let mut words = [0; 16];
//! let mut counts = [0; 8];
//! let mut jobs = Register::new(Head::default(), &mut words, &mut counts);
//! jobs.clear(8, Rule::Remainder, 0)?;
//!
//! jobs.store(0x10, 0xa1)?;
//! assert_eq!(jobs.store(0x08, 0xa2)?, Store::Stored { slot: 0, entry: 0xa2, probes: 1, moved: 1 });
//! assert_eq!(jobs.store(0x08, 0xa3)?, Store::AlreadyNamed { slot: 0, entry: 0xa2, probes: 1 });
//! assert_eq!(jobs.find(0x10)?, Find::Found { slot: 1, entry: 0xa1, probes: 2 });
//! assert_eq!(jobs.remove(0x08)?, Remove::Removed { slot: 0, entry: 0xa2, probes: 1, moved: 1 });
//! assert_eq!(jobs.find(0x08)?, Find::Absent { slot: 0, probes: 1 });
//! assert_eq!(jobs.head().live, 1);
//! jobs.check()?;
//! # Ok::<(), register::Refusal>(())
//! ```

#![no_std]
#![deny(missing_docs, unsafe_op_in_unsafe_fn)]
#![warn(clippy::all)]

mod answers;
mod calls;

pub use answers::{Census, Change, Find, Refusal, Remove, Store};
use calls::Answer;

/// How an identifier's home is found.
#[derive(Clone, Copy, Debug, PartialEq, Eq, Hash)]
#[repr(u8)]
pub enum Rule {
    /// Rule 0: the identifier's remainder by M. The salt is kept and not used.
    Remainder = 0,
    /// Rule 1: 64-bit FNV-1a of the salt and the identifier, its remainder by M.
    Hashed = 1,
}

/// Slot count M, salt, live count and home rule of a register.
///
/// Any values may stand in it: a call answers [`Refusal::BadHead`] to those that no register has. The default, all zeros, is the head
/// of a register that was never cleared.
#[derive(Clone, Copy, Debug, Default, PartialEq, Eq, Hash)]
#[repr(C)]
pub struct Head {
    /// M: from 2 to 32,768.
    pub slots: usize,
    /// What rule 1 hashes before the identifier.
    pub salt: u64,
    /// The number of live records: at most M-1.
    pub live: usize,
    /// 0 or 1, as in [`Rule`].
    pub rule: u8,
}

impl Head {
    /// The least M.
    pub const LEAST: usize = 2;
    /// The greatest M.
    pub const MOST: usize = 32_768;
}

/// A head and the two slices that it speaks of.
#[derive(Debug, PartialEq, Eq)]
pub struct Register<'a> {
    head: Head,
    words: &'a mut [u64],
    counts: &'a mut [u16],
}

impl<'a> Register<'a> {
    /// A register over lent slices, with the head that they were left with; nothing is read or written. A new register takes
    /// `Head::default()` here and is then cleared.
    #[inline]
    pub fn new(head: Head, words: &'a mut [u64], counts: &'a mut [u16]) -> Self {
        Register { head, words, counts }
    }

    /// The head as it stands. With it and the slices a register can be taken up again.
    #[inline]
    pub fn head(&self) -> Head {
        self.head
    }

    /// The words: identifier and entry of each slot.
    #[inline]
    pub fn words(&self) -> &[u64] {
        self.words
    }

    /// The counts: 0 for an empty slot, else the record's probe count.
    #[inline]
    pub fn counts(&self) -> &[u16] {
        self.counts
    }

    /// Zeroes both slices and takes new settings. A refusal keeps the old register. Refuses with 1 and 2.
    #[inline]
    pub fn clear(&mut self, slots: usize, rule: Rule, salt: u64) -> Result<(), Refusal> {
        let answer = calls::clear(self.head, slots, rule as u8, salt, self.words, self.counts);
        self.head = answer.head;
        answers::nothing(&answer)
    }

    /// Looks an identifier up. Refuses with 1, 2 and 6.
    #[inline]
    pub fn find(&self, identifier: u64) -> Result<Find, Refusal> {
        let Answer { number, slot, entry, probes, .. } = calls::find(self.head, self.words, self.counts, identifier);
        match number {
            0 => Ok(Find::Found { slot, entry, probes }),
            5 => Ok(Find::Absent { slot, probes }),
            _ => Err(answers::refusal(number)),
        }
    }

    /// Adds a record, unless its identifier is live. Refuses with 1, 2, 4 and 6.
    #[inline]
    pub fn store(&mut self, identifier: u64, entry: u64) -> Result<Store, Refusal> {
        let Answer { number, slot, entry, probes, moved, head } =
            calls::store(self.head, self.words, self.counts, identifier, entry);
        self.head = head;
        match number {
            0 => Ok(Store::Stored { slot, entry, probes, moved }),
            3 => Ok(Store::AlreadyNamed { slot, entry, probes }),
            _ => Err(answers::refusal(number)),
        }
    }

    /// Takes a record out; those behind it move back. Refuses with 1, 2 and 6.
    #[inline]
    pub fn remove(&mut self, identifier: u64) -> Result<Remove, Refusal> {
        let Answer { number, slot, entry, probes, moved, head } = calls::remove(self.head, self.words, self.counts, identifier);
        self.head = head;
        match number {
            0 => Ok(Remove::Removed { slot, entry, probes, moved }),
            5 => Ok(Remove::Absent { slot, probes }),
            _ => Err(answers::refusal(number)),
        }
    }

    /// Gives a live identifier a new entry. Refuses with 1, 2 and 6.
    #[inline]
    pub fn change(&mut self, identifier: u64, entry: u64) -> Result<Change, Refusal> {
        let Answer { number, slot, entry, probes, .. } = calls::change(self.head, self.words, self.counts, identifier, entry);
        match number {
            0 => Ok(Change::Changed { slot, entry, probes }),
            5 => Ok(Change::Absent { slot, probes }),
            _ => Err(answers::refusal(number)),
        }
    }

    /// Accepts exactly when the table is the proper arrangement of its records, its empty slots are zero, and as many slots are
    /// occupied as the live count says. Refuses with 1, 2 and 6.
    #[inline]
    pub fn check(&self) -> Result<(), Refusal> {
        answers::nothing(&calls::check(self.head, self.words, self.counts))
    }

    /// The greatest count, the stored total and the absent total, of any table. Refuses with 1 and 2.
    #[inline]
    pub fn census(&self) -> Result<Census, Refusal> {
        let sums = calls::census(self.head, self.words, self.counts);
        match sums.number {
            0 => Ok(Census { greatest: sums.greatest, stored: sums.stored, absent: sums.absent }),
            number => Err(answers::refusal(number)),
        }
    }
}

/// 64-bit FNV-1a of a byte slice.
#[inline]
pub fn hash_bytes(bytes: &[u8]) -> u64 {
    calls::hash_bytes(bytes)
}

/// 64-bit FNV-1a of sixteen bytes: the salt and then the identifier, each least significant byte first.
#[inline]
pub fn hash_key(salt: u64, identifier: u64) -> u64 {
    calls::hash_key(salt, identifier)
}
