//! What comes back: an enum for each call, and one error type for the refusals that carry nothing.

use crate::calls::Answer;
use core::fmt;

/// What find answers.
#[derive(Clone, Copy, Debug, PartialEq, Eq, Hash)]
pub enum Find {
    /// Number 0: the record stands at `slot`.
    Found {
        /// Where the record stands.
        slot: usize,
        /// Its entry.
        entry: u64,
        /// The slots that the walk looked at.
        probes: usize,
    },
    /// Number 5: the identifier is not live.
    Absent {
        /// Where the walk ended. In a table that check accepts, a store of the identifier puts it there, unless M-1 are live.
        slot: usize,
        /// The slots that the walk looked at.
        probes: usize,
    },
}

/// What store answers.
#[derive(Clone, Copy, Debug, PartialEq, Eq, Hash)]
pub enum Store {
    /// Number 0: the record is live now.
    Stored {
        /// Where the record stands.
        slot: usize,
        /// Its entry.
        entry: u64,
        /// The slots that the walk looked at.
        probes: usize,
        /// The records that moved one slot on.
        moved: usize,
    },
    /// Number 3: the identifier was live already, and nothing was written.
    AlreadyNamed {
        /// Where the live record stands.
        slot: usize,
        /// The live record's entry.
        entry: u64,
        /// The slots that the walk looked at.
        probes: usize,
    },
}

/// What remove answers.
#[derive(Clone, Copy, Debug, PartialEq, Eq, Hash)]
pub enum Remove {
    /// Number 0: the record is gone.
    Removed {
        /// Where the record stood.
        slot: usize,
        /// The entry that it had.
        entry: u64,
        /// The slots that the walk looked at.
        probes: usize,
        /// The records that moved one slot back.
        moved: usize,
    },
    /// Number 5: the identifier is not live.
    Absent {
        /// Where the walk ended, as in [`Find::Absent`].
        slot: usize,
        /// The slots that the walk looked at.
        probes: usize,
    },
}

/// What change answers.
#[derive(Clone, Copy, Debug, PartialEq, Eq, Hash)]
pub enum Change {
    /// Number 0: the record has its new entry.
    Changed {
        /// Where the record stands.
        slot: usize,
        /// The entry newly set.
        entry: u64,
        /// The slots that the walk looked at.
        probes: usize,
    },
    /// Number 5: the identifier is not live.
    Absent {
        /// Where the walk ended, as in [`Find::Absent`].
        slot: usize,
        /// The slots that the walk looked at.
        probes: usize,
    },
}

/// What census answers.
#[derive(Clone, Copy, Debug, PartialEq, Eq, Hash)]
pub struct Census {
    /// The greatest count.
    pub greatest: usize,
    /// The sum of all counts: the probes of finding each record once.
    pub stored: usize,
    /// The stored total plus M: the probes of one absent search from each home.
    pub absent: usize,
}

/// Why a call did nothing. The discriminants are the document's numbers.
#[derive(Clone, Copy, Debug, PartialEq, Eq, Hash)]
#[repr(u8)]
pub enum Refusal {
    /// M outside 2 to 32,768, rule above 1, or live above M-1.
    BadHead = 1,
    /// Words not 2M or counts not M.
    BadLength = 2,
    /// A store while M-1 records are live.
    Full = 4,
    /// The table is not one that the calls could have made.
    Damaged = 6,
}

impl Refusal {
    /// The document's number.
    #[inline]
    pub const fn number(self) -> u8 {
        self as u8
    }
}

impl fmt::Display for Refusal {
    fn fmt(&self, f: &mut fmt::Formatter<'_>) -> fmt::Result {
        f.write_str(match self {
            Refusal::BadHead => "1: bad head: the slot count, the home rule or the live count is out of range",
            Refusal::BadLength => "2: bad length: a register of M slots has 2M words and M counts",
            Refusal::Full => "4: full: one slot always stays empty",
            Refusal::Damaged => "6: damaged: the table is not one that the calls could have made",
        })
    }
}

impl core::error::Error for Refusal {}

/// The refusal of a number. Only 1, 2, 4 and 6 reach this.
#[inline]
pub(crate) fn refusal(number: u8) -> Refusal {
    match number {
        1 => Refusal::BadHead,
        2 => Refusal::BadLength,
        4 => Refusal::Full,
        _ => Refusal::Damaged,
    }
}

/// The answer of a call that gives back its number alone.
#[inline]
pub(crate) fn nothing(answer: &Answer) -> Result<(), Refusal> {
    match answer.number {
        0 => Ok(()),
        number => Err(refusal(number)),
    }
}
