//! The C functions of the archive. Each answers on every head, every pair of slices and every number.

use crate::Head;

#[repr(C)]
pub(crate) struct Answer {
    pub(crate) number: u8,
    pub(crate) slot: usize,
    pub(crate) entry: u64,
    pub(crate) probes: usize,
    pub(crate) moved: usize,
    pub(crate) head: Head,
}

#[repr(C)]
pub(crate) struct Totals {
    pub(crate) number: u8,
    pub(crate) greatest: usize,
    pub(crate) stored: usize,
    pub(crate) absent: usize,
    pub(crate) head: Head,
}

mod raw {
    use super::{Answer, Head, Totals};

    extern "C" {
        pub(super) fn register_clear(
            old: Head,
            slots: usize,
            rule: u8,
            salt: u64,
            words: *mut u64,
            words_length: usize,
            counts: *mut u16,
            counts_length: usize,
        ) -> Answer;
        pub(super) fn register_find(
            head: Head,
            words: *const u64,
            words_length: usize,
            counts: *const u16,
            counts_length: usize,
            identifier: u64,
        ) -> Answer;
        pub(super) fn register_store(
            head: Head,
            words: *mut u64,
            words_length: usize,
            counts: *mut u16,
            counts_length: usize,
            identifier: u64,
            entry: u64,
        ) -> Answer;
        pub(super) fn register_remove(
            head: Head,
            words: *mut u64,
            words_length: usize,
            counts: *mut u16,
            counts_length: usize,
            identifier: u64,
        ) -> Answer;
        pub(super) fn register_change(
            head: Head,
            words: *mut u64,
            words_length: usize,
            counts: *const u16,
            counts_length: usize,
            identifier: u64,
            entry: u64,
        ) -> Answer;
        pub(super) fn register_check(
            head: Head,
            words: *const u64,
            words_length: usize,
            counts: *const u16,
            counts_length: usize,
        ) -> Answer;
        pub(super) fn register_census(
            head: Head,
            words: *const u64,
            words_length: usize,
            counts: *const u16,
            counts_length: usize,
        ) -> Totals;
        pub(super) fn register_hash_bytes(bytes: *const u8, length: usize) -> u64;
        pub(super) fn register_hash_key(salt: u64, identifier: u64) -> u64;
    }
}

// SAFETY, of every call below: a slice's pointer and length are its own, and Rust's borrows keep the slices alive and apart for the call.

#[inline]
pub(crate) fn clear(old: Head, slots: usize, rule: u8, salt: u64, words: &mut [u64], counts: &mut [u16]) -> Answer {
    let (w, c) = (words.len(), counts.len());
    unsafe { raw::register_clear(old, slots, rule, salt, words.as_mut_ptr(), w, counts.as_mut_ptr(), c) }
}

#[inline]
pub(crate) fn find(head: Head, words: &[u64], counts: &[u16], identifier: u64) -> Answer {
    unsafe { raw::register_find(head, words.as_ptr(), words.len(), counts.as_ptr(), counts.len(), identifier) }
}

#[inline]
pub(crate) fn store(head: Head, words: &mut [u64], counts: &mut [u16], identifier: u64, entry: u64) -> Answer {
    let (w, c) = (words.len(), counts.len());
    unsafe { raw::register_store(head, words.as_mut_ptr(), w, counts.as_mut_ptr(), c, identifier, entry) }
}

#[inline]
pub(crate) fn remove(head: Head, words: &mut [u64], counts: &mut [u16], identifier: u64) -> Answer {
    let (w, c) = (words.len(), counts.len());
    unsafe { raw::register_remove(head, words.as_mut_ptr(), w, counts.as_mut_ptr(), c, identifier) }
}

#[inline]
pub(crate) fn change(head: Head, words: &mut [u64], counts: &[u16], identifier: u64, entry: u64) -> Answer {
    let w = words.len();
    unsafe { raw::register_change(head, words.as_mut_ptr(), w, counts.as_ptr(), counts.len(), identifier, entry) }
}

#[inline]
pub(crate) fn check(head: Head, words: &[u64], counts: &[u16]) -> Answer {
    unsafe { raw::register_check(head, words.as_ptr(), words.len(), counts.as_ptr(), counts.len()) }
}

#[inline]
pub(crate) fn census(head: Head, words: &[u64], counts: &[u16]) -> Totals {
    unsafe { raw::register_census(head, words.as_ptr(), words.len(), counts.as_ptr(), counts.len()) }
}

#[inline]
pub(crate) fn hash_bytes(bytes: &[u8]) -> u64 {
    unsafe { raw::register_hash_bytes(bytes.as_ptr(), bytes.len()) }
}

#[inline]
pub(crate) fn hash_key(salt: u64, identifier: u64) -> u64 {
    unsafe { raw::register_hash_key(salt, identifier) }
}
