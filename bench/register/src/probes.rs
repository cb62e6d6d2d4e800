//! Average probes against the expected costs of linear probing with Robin Hood, a check of the arrangement by a third party.
//!
//! With n records in M slots and f(k) = (n-1)(n-2)..(n-k) / M^k, Jiménez and Martínez (On Deletions in Open Addressing Hashing, sections 2.1
//! and 2.2) give: found S = (1 + sum f(k)) / 2; absent, stopping at the first smaller count, 1 + (n/M) S; a remove to the end of its
//! cluster D = (1 + sum (k+3) f(k)) / 2, which is S + (M/n)(U - 1), with U the slots from a home to the first empty one.

use crate::random::Random;
use crate::tables::{Built, Settings, Table};
use register::{Find, Store};

/// Averages at one load, each beside what is expected.
#[derive(Clone, Copy, Debug)]
pub struct Probes {
    pub slots: usize,
    pub rule: u8,
    pub load: f64,
    pub found: (f64, f64),
    pub absent: (f64, f64),
    /// The walk's own: it also ends at an equal count with an identifier above, so at most the one before.
    pub walked: f64,
    pub to_empty: (f64, f64),
}

/// Found, absent, and the slots up to the first empty one.
fn expected(n: f64, m: f64) -> (f64, f64, f64) {
    let (mut f, mut found, mut removed, mut k) = (1.0, 1.0, 1.0, 0.0);
    while f > 1e-15 {
        found += f;
        removed += (k + 3.0) * f;
        k += 1.0;
        f *= (n - k) / m;
    }
    let (s, d) = (found / 2.0, removed / 2.0);
    (s, 1.0 + n / m * s, 1.0 + n / m * (d - s))
}

/// Many tables of n records each, at one load.
pub fn case(slots: usize, rule: u8, load: f64) -> Probes {
    let mut random = Random(0x9106e5 ^ (slots as u64) << 20 ^ u64::from(rule) << 8 ^ (load * 100.0) as u64);
    let n = (slots as f64 * load).round() as usize;
    let tables = 8_000_000 / slots / 10 + 10;
    let (mut found, mut absent, mut walked, mut to_empty, mut stores) = (0.0, 0.0, 0.0, 0.0, 0.0);
    for _ in 0..tables {
        let mut built = Built::new(Settings { slots, rule, salt: random.word() });
        built.store_all(&random.words(n));
        let sums = built.0.census().expect("a good register");
        found += sums.stored as f64 / n as f64;
        absent += sums.absent as f64 / slots as f64;
        for x in random.words(slots) {
            if let Ok(Find::Absent { probes, .. }) = built.0.find(x) {
                walked += probes as f64 / slots as f64;
            }
        }
        for x in random.words(slots / 16) {
            if let Ok(Store::Stored { probes, moved, .. }) = built.0.store(x, 0) {
                to_empty += (probes + moved) as f64;
                stores += 1.0;
            }
            built.remove_all(&[x]);
        }
    }
    let t = tables as f64;
    let (s, u, e) = expected(n as f64, slots as f64);
    Probes {
        slots,
        rule,
        load,
        found: (found / t, s),
        absent: (absent / t, u),
        walked: walked / t,
        to_empty: (to_empty / stores, e),
    }
}
