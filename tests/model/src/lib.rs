//! The register's rules a second time, from document 01 alone: slow, plain, and sharing no code with the library.
//! `calls` follows the document's words on any table; `afresh` works a table out from its live records by sorting.

pub mod afresh;
pub mod calls;
pub mod hash;

/// Slot count M, salt, live count, home rule: any values.
#[derive(Clone, Copy, Debug, Default, PartialEq, Eq)]
pub struct Head {
    pub slots: usize,
    pub salt: u64,
    pub live: usize,
    pub rule: u8,
}

/// What every call but census gives back. Unnamed fields are 0.
#[derive(Clone, Copy, Debug, Default, PartialEq, Eq)]
pub struct Answer {
    pub number: u8,
    pub slot: usize,
    pub entry: u64,
    pub probes: usize,
    pub moved: usize,
    pub head: Head,
}

/// What census gives back.
#[derive(Clone, Copy, Debug, Default, PartialEq, Eq)]
pub struct Totals {
    pub number: u8,
    pub greatest: usize,
    pub stored: usize,
    pub absent: usize,
    pub head: Head,
}

/// The home of an identifier in a table of `head.slots` slots.
pub fn home(head: Head, identifier: u64) -> usize {
    let number = if head.rule == 0 { identifier } else { hash::key(head.salt, identifier) };
    (number % head.slots as u64) as usize
}
