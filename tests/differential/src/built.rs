//! The built library's C functions, as include/register.h declares them.

use model::{Answer, Head, Totals};

// Links the archive.
use register as _;

#[repr(C)]
#[derive(Clone, Copy)]
pub struct CHead {
    slots: usize,
    salt: u64,
    live: usize,
    rule: u8,
}

#[repr(C)]
pub struct CAnswer {
    number: u8,
    slot: usize,
    entry: u64,
    probes: usize,
    moved: usize,
    head: CHead,
}

#[repr(C)]
pub struct CTotals {
    number: u8,
    greatest: usize,
    stored: usize,
    absent: usize,
    head: CHead,
}

impl From<Head> for CHead {
    fn from(h: Head) -> Self {
        CHead { slots: h.slots, salt: h.salt, live: h.live, rule: h.rule }
    }
}

impl From<CHead> for Head {
    fn from(h: CHead) -> Self {
        Head { slots: h.slots, salt: h.salt, live: h.live, rule: h.rule }
    }
}

impl From<CAnswer> for Answer {
    fn from(a: CAnswer) -> Self {
        Answer { number: a.number, slot: a.slot, entry: a.entry, probes: a.probes, moved: a.moved, head: a.head.into() }
    }
}

impl From<CTotals> for Totals {
    fn from(t: CTotals) -> Self {
        Totals { number: t.number, greatest: t.greatest, stored: t.stored, absent: t.absent, head: t.head.into() }
    }
}

extern "C" {
    fn register_clear(old: CHead, m: usize, rule: u8, salt: u64, w: *mut u64, wn: usize, c: *mut u16, cn: usize) -> CAnswer;
    fn register_find(head: CHead, w: *const u64, wn: usize, c: *const u16, cn: usize, x: u64) -> CAnswer;
    fn register_store(head: CHead, w: *mut u64, wn: usize, c: *mut u16, cn: usize, x: u64, v: u64) -> CAnswer;
    fn register_remove(head: CHead, w: *mut u64, wn: usize, c: *mut u16, cn: usize, x: u64) -> CAnswer;
    fn register_change(head: CHead, w: *mut u64, wn: usize, c: *const u16, cn: usize, x: u64, v: u64) -> CAnswer;
    fn register_check(head: CHead, w: *const u64, wn: usize, c: *const u16, cn: usize) -> CAnswer;
    fn register_census(head: CHead, w: *const u64, wn: usize, c: *const u16, cn: usize) -> CTotals;
    fn register_hash_bytes(s: *const u8, n: usize) -> u64;
    fn register_hash_key(salt: u64, x: u64) -> u64;
}

pub fn clear(old: Head, slots: usize, rule: u8, salt: u64, words: &mut [u64], counts: &mut [u16]) -> Answer {
    let (w, c) = (words.len(), counts.len());
    unsafe { register_clear(old.into(), slots, rule, salt, words.as_mut_ptr(), w, counts.as_mut_ptr(), c) }.into()
}

pub fn find(head: Head, words: &[u64], counts: &[u16], x: u64) -> Answer {
    unsafe { register_find(head.into(), words.as_ptr(), words.len(), counts.as_ptr(), counts.len(), x) }.into()
}

pub fn store(head: Head, words: &mut [u64], counts: &mut [u16], x: u64, entry: u64) -> Answer {
    let (w, c) = (words.len(), counts.len());
    unsafe { register_store(head.into(), words.as_mut_ptr(), w, counts.as_mut_ptr(), c, x, entry) }.into()
}

pub fn remove(head: Head, words: &mut [u64], counts: &mut [u16], x: u64) -> Answer {
    let (w, c) = (words.len(), counts.len());
    unsafe { register_remove(head.into(), words.as_mut_ptr(), w, counts.as_mut_ptr(), c, x) }.into()
}

pub fn change(head: Head, words: &mut [u64], counts: &[u16], x: u64, entry: u64) -> Answer {
    let w = words.len();
    unsafe { register_change(head.into(), words.as_mut_ptr(), w, counts.as_ptr(), counts.len(), x, entry) }.into()
}

pub fn check(head: Head, words: &[u64], counts: &[u16]) -> Answer {
    unsafe { register_check(head.into(), words.as_ptr(), words.len(), counts.as_ptr(), counts.len()) }.into()
}

pub fn census(head: Head, words: &[u64], counts: &[u16]) -> Totals {
    unsafe { register_census(head.into(), words.as_ptr(), words.len(), counts.as_ptr(), counts.len()) }.into()
}

pub fn hash_bytes(s: &[u8]) -> u64 {
    unsafe { register_hash_bytes(s.as_ptr(), s.len()) }
}

pub fn hash_key(salt: u64, x: u64) -> u64 {
    unsafe { register_hash_key(salt, x) }
}
