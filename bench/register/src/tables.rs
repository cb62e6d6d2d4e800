//! The tables measured, each behind the same batches of calls.

use register::{Change, Find, Head, Register, Remove, Rule, Store};
use std::collections::HashMap;
use std::hash::{BuildHasher, Hasher};

/// What a table is made for.
#[derive(Clone, Copy, Debug)]
pub struct Settings {
    pub slots: usize,
    pub rule: u8,
    pub salt: u64,
}

/// Batches of calls. `find_all` adds the entry of each found identifier and 1 for each absent one; the others count what they did.
pub trait Table {
    fn find_all(&self, keys: &[u64]) -> u64;
    fn store_all(&mut self, keys: &[u64]) -> u64;
    fn remove_all(&mut self, keys: &[u64]) -> u64;
    fn change_all(&mut self, keys: &[u64], turn: u64) -> u64;
    /// Slots or buckets now.
    fn slots(&self) -> usize;
    /// True where the table has a check and accepts; None where it has none.
    fn check(&self) -> Option<bool> {
        None
    }
    /// The stored total, where there is a census.
    fn census(&self) -> Option<usize> {
        None
    }
}

/// Memory for a register, kept for the program's life.
fn lent(slots: usize) -> (&'static mut [u64], &'static mut [u16]) {
    (Box::leak(vec![0; 2 * slots].into_boxed_slice()), Box::leak(vec![0; slots].into_boxed_slice()))
}

/// The built register, through the Rust crate.
pub struct Built(pub Register<'static>);

impl Built {
    pub fn new(s: Settings) -> Self {
        let (words, counts) = lent(s.slots);
        let mut register = Register::new(Head::default(), words, counts);
        let rule = if s.rule == 0 { Rule::Remainder } else { Rule::Hashed };
        register.clear(s.slots, rule, s.salt).expect("good settings");
        Built(register)
    }
}

impl Table for Built {
    fn find_all(&self, keys: &[u64]) -> u64 {
        keys.iter().fold(0_u64, |sum, x| {
            sum.wrapping_add(match self.0.find(*x) {
                Ok(Find::Found { entry, .. }) => entry,
                Ok(Find::Absent { .. }) => 1,
                Err(_) => 0,
            })
        })
    }

    fn store_all(&mut self, keys: &[u64]) -> u64 {
        keys.iter().filter(|x| matches!(self.0.store(**x, !**x), Ok(Store::Stored { .. }))).count() as u64
    }

    fn remove_all(&mut self, keys: &[u64]) -> u64 {
        keys.iter().filter(|x| matches!(self.0.remove(**x), Ok(Remove::Removed { .. }))).count() as u64
    }

    fn change_all(&mut self, keys: &[u64], turn: u64) -> u64 {
        keys.iter().filter(|x| matches!(self.0.change(**x, !**x ^ turn), Ok(Change::Changed { .. }))).count() as u64
    }

    fn slots(&self) -> usize {
        self.0.head().slots
    }

    fn check(&self) -> Option<bool> {
        Some(self.0.check().is_ok())
    }

    fn census(&self) -> Option<usize> {
        self.0.census().ok().map(|sums| sums.stored)
    }
}

/// The same rules in plain Rust.
pub struct Plain<const MASKED: bool>(plain::Register<'static, MASKED>);

impl<const MASKED: bool> Plain<MASKED> {
    pub fn new(s: Settings) -> Self {
        let (words, counts) = lent(s.slots);
        Plain(plain::Register::clear(s.slots, s.rule, s.salt, words, counts).expect("good settings"))
    }
}

impl<const MASKED: bool> Table for Plain<MASKED> {
    fn find_all(&self, keys: &[u64]) -> u64 {
        keys.iter().fold(0_u64, |sum, x| {
            sum.wrapping_add(match self.0.find(*x) {
                Ok(done) => done.entry,
                Err(plain::Refusal::Absent { .. }) => 1,
                Err(_) => 0,
            })
        })
    }

    fn store_all(&mut self, keys: &[u64]) -> u64 {
        keys.iter().filter(|x| self.0.store(**x, !**x).is_ok()).count() as u64
    }

    fn remove_all(&mut self, keys: &[u64]) -> u64 {
        keys.iter().filter(|x| self.0.remove(**x).is_ok()).count() as u64
    }

    fn change_all(&mut self, keys: &[u64], turn: u64) -> u64 {
        keys.iter().filter(|x| self.0.change(**x, !**x ^ turn).is_ok()).count() as u64
    }

    fn slots(&self) -> usize {
        self.0.head().slots
    }

    fn check(&self) -> Option<bool> {
        Some(self.0.check().is_ok())
    }

    fn census(&self) -> Option<usize> {
        self.0.census().ok().map(|sums| sums.stored)
    }
}

/// The register's home number as std's hasher.
#[derive(Clone, Copy)]
pub struct Same(Settings);

/// Takes one identifier.
pub struct SameHasher(Settings, u64);

impl BuildHasher for Same {
    type Hasher = SameHasher;

    fn build_hasher(&self) -> SameHasher {
        SameHasher(self.0, 0)
    }
}

impl Hasher for SameHasher {
    fn write(&mut self, _: &[u8]) {}

    fn write_u64(&mut self, x: u64) {
        self.1 = if self.0.rule == 0 { x } else { plain::hash_key(self.0.salt, x) };
    }

    fn finish(&self) -> u64 {
        self.1
    }
}

/// std's HashMap with the same hash.
pub struct Std(HashMap<u64, u64, Same>);

impl Std {
    /// As many buckets as slots: it fills seven eighths of them.
    pub fn new(s: Settings) -> Self {
        Std(HashMap::with_capacity_and_hasher(s.slots / 8 * 7, Same(s)))
    }
}

impl Table for Std {
    fn find_all(&self, keys: &[u64]) -> u64 {
        keys.iter().fold(0_u64, |sum, x| sum.wrapping_add(self.0.get(x).copied().unwrap_or(1)))
    }

    fn store_all(&mut self, keys: &[u64]) -> u64 {
        keys.iter().filter(|x| self.0.insert(**x, !**x).is_none()).count() as u64
    }

    fn remove_all(&mut self, keys: &[u64]) -> u64 {
        keys.iter().filter(|x| self.0.remove(*x).is_some()).count() as u64
    }

    fn change_all(&mut self, keys: &[u64], turn: u64) -> u64 {
        keys.iter()
            .filter(|x| match self.0.get_mut(*x) {
                Some(entry) => {
                    *entry = !**x ^ turn;
                    true
                }
                None => false,
            })
            .count() as u64
    }

    fn slots(&self) -> usize {
        (self.0.capacity() * 8).div_ceil(7).next_power_of_two()
    }
}

/// A C++ table behind the functions that one of cpp/*.cpp exports.
#[allow(unused_macros)]
macro_rules! cpp_table {
    ($name:ident, $new:ident, $free:ident, $buckets:ident, $find:ident, $store:ident, $remove:ident, $change:ident) => {
        extern "C" {
            fn $new(slots: usize, salt: u64, hashed: bool) -> *mut core::ffi::c_void;
            fn $free(map: *mut core::ffi::c_void);
            fn $buckets(map: *const core::ffi::c_void) -> usize;
            fn $find(map: *const core::ffi::c_void, keys: *const u64, n: usize) -> u64;
            fn $store(map: *mut core::ffi::c_void, keys: *const u64, n: usize) -> u64;
            fn $remove(map: *mut core::ffi::c_void, keys: *const u64, n: usize) -> u64;
            fn $change(map: *mut core::ffi::c_void, keys: *const u64, n: usize, turn: u64) -> u64;
        }

        pub struct $name(*mut core::ffi::c_void);

        impl $name {
            pub fn new(s: Settings) -> Self {
                $name(unsafe { $new(s.slots, s.salt, s.rule == 1) })
            }
        }

        impl Drop for $name {
            fn drop(&mut self) {
                unsafe { $free(self.0) }
            }
        }

        impl Table for $name {
            fn find_all(&self, keys: &[u64]) -> u64 {
                unsafe { $find(self.0, keys.as_ptr(), keys.len()) }
            }

            fn store_all(&mut self, keys: &[u64]) -> u64 {
                unsafe { $store(self.0, keys.as_ptr(), keys.len()) }
            }

            fn remove_all(&mut self, keys: &[u64]) -> u64 {
                unsafe { $remove(self.0, keys.as_ptr(), keys.len()) }
            }

            fn change_all(&mut self, keys: &[u64], turn: u64) -> u64 {
                unsafe { $change(self.0, keys.as_ptr(), keys.len(), turn) }
            }

            fn slots(&self) -> usize {
                unsafe { $buckets(self.0) }
            }
        }
    };
}

#[cfg(robin)]
cpp_table!(Robin, robin_new, robin_free, robin_buckets, robin_find_all, robin_store_all, robin_remove_all, robin_change_all);
#[cfg(flat)]
cpp_table!(Flat, flat_new, flat_free, flat_buckets, flat_find_all, flat_store_all, flat_remove_all, flat_change_all);

/// The tables at hand, the built register and plain Rust first.
pub fn all(s: Settings) -> Vec<(&'static str, Box<dyn Table>)> {
    #[allow(unused_mut)]
    let mut tables: Vec<(&'static str, Box<dyn Table>)> = vec![
        ("register", Box::new(Built::new(s))),
        ("plain Rust", Box::new(Plain::<false>::new(s))),
        ("plain, masked", Box::new(Plain::<true>::new(s))),
    ];
    #[cfg(robin)]
    tables.push(("tsl::robin_map", Box::new(Robin::new(s))));
    #[cfg(flat)]
    tables.push(("boost flat map", Box::new(Flat::new(s))));
    tables.push(("std HashMap", Box::new(Std::new(s))));
    tables
}
