//! The live records by the map's rule, and their table worked out afresh by sorting.

use crate::{home, Head};

/// A live record with its home.
#[derive(Clone, Copy, Debug, PartialEq, Eq, PartialOrd, Ord)]
pub struct Record {
    pub home: usize,
    pub identifier: u64,
    pub entry: u64,
}

/// The live records, counted from the calls alone and never from the answers.
#[derive(Clone, Debug, Default)]
pub struct Live {
    head: Head,
    records: Vec<Record>,
}

impl Live {
    /// No record, under these settings.
    pub fn none(head: Head) -> Self {
        Live { head, records: Vec::new() }
    }

    /// How many are live.
    pub fn count(&self) -> usize {
        self.records.len()
    }

    /// The live records, in order of home and then identifier.
    pub fn records(&self) -> &[Record] {
        &self.records
    }

    fn place(&self, identifier: u64) -> Option<usize> {
        let home = home(self.head, identifier);
        self.records.iter().position(|r| r.home == home && r.identifier == identifier)
    }

    /// The entry of a live identifier.
    pub fn entry(&self, identifier: u64) -> Option<u64> {
        self.place(identifier).map(|i| self.records[i].entry)
    }

    /// The number that a store gives by the map's rule: 3 where the identifier is live, 4 where M-1 are, else 0.
    pub fn store(&mut self, identifier: u64, entry: u64) -> u8 {
        if self.place(identifier).is_some() {
            return 3;
        }
        if self.records.len() + 1 == self.head.slots {
            return 4;
        }
        self.records.push(Record { home: home(self.head, identifier), identifier, entry });
        self.records.sort();
        0
    }

    /// 5 where the identifier is not live, else 0.
    pub fn remove(&mut self, identifier: u64) -> u8 {
        match self.place(identifier) {
            Some(i) => {
                self.records.remove(i);
                0
            }
            None => 5,
        }
    }

    /// 5 where the identifier is not live, else 0.
    pub fn change(&mut self, identifier: u64, entry: u64) -> u8 {
        match self.place(identifier) {
            Some(i) => {
                self.records[i].entry = entry;
                0
            }
            None => 5,
        }
    }

    /// The slot and count that an identifier would have if it were stored now; none where it is live or M-1 are.
    pub fn would_stand(&self, identifier: u64) -> Option<(usize, usize)> {
        let mut with = self.clone();
        if with.store(identifier, 0) != 0 {
            return None;
        }
        let (words, counts) = with.table();
        let slot = (0..counts.len()).find(|i| counts[*i] != 0 && words[2 * i] == identifier)?;
        Some((slot, usize::from(counts[slot])))
    }

    /// The words and counts of these records' one proper arrangement.
    pub fn table(&self) -> (Vec<u64>, Vec<u16>) {
        table(self.head.slots, &self.records)
    }
}

/// Records in order of home and identifier take, one after the other, the first place at or after their home that is left.
/// Those whose place lies past slot M-1 go around the end, where they come before all others.
pub fn table(slots: usize, sorted: &[Record]) -> (Vec<u64>, Vec<u16>) {
    let mut words = vec![0; 2 * slots];
    let mut counts = vec![0; slots];
    for (record, place) in sorted.iter().zip(places(slots, sorted)) {
        let slot = place % slots;
        words[2 * slot] = record.identifier;
        words[2 * slot + 1] = record.entry;
        counts[slot] = (place - record.home + 1) as u16;
    }
    (words, counts)
}

/// The places, once as many slots at the front are kept free as records go around the end.
fn places(slots: usize, sorted: &[Record]) -> Vec<usize> {
    let mut kept = 0;
    loop {
        let mut free = kept;
        let mut places = Vec::with_capacity(sorted.len());
        for record in sorted {
            let place = free.max(record.home);
            places.push(place);
            free = place + 1;
        }
        let around = places.iter().filter(|place| **place >= slots).count();
        if around == kept {
            return places;
        }
        kept = around;
    }
}
