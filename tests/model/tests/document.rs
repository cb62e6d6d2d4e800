//! The model against document 01's own cases, and its two ways to a table against each other.

use model::afresh::{table, Live, Record};
use model::{calls, hash, home, Answer, Head};

fn head(slots: usize, live: usize) -> Head {
    Head { slots, salt: 0, live, rule: 0 }
}

/// A register of these records, stored in this order with entry 0.
fn stored(slots: usize, identifiers: &[u64]) -> (Head, Vec<u64>, Vec<u16>) {
    let (mut now, mut words, mut counts) = (head(slots, 0), vec![0; 2 * slots], vec![0; slots]);
    for x in identifiers {
        let answer = calls::store(now, &mut words, &mut counts, *x, 0);
        assert_eq!(answer.number, 0);
        now = answer.head;
    }
    (now, words, counts)
}

/// Slots, identifiers and counts of the occupied slots.
fn shown(words: &[u64], counts: &[u16]) -> Vec<(usize, u64, u16)> {
    (0..counts.len()).filter(|i| counts[*i] != 0).map(|i| (i, words[2 * i], counts[i])).collect()
}

#[test]
fn p1_to_p4_arrangements() {
    for order in [[0x08, 0x10], [0x10, 0x08]] {
        let (_, w, c) = stored(8, &order);
        assert_eq!(shown(&w, &c), [(0, 0x08, 1), (1, 0x10, 2)]);
    }
    let (_, w, c) = stored(8, &[0x10, 0x0f, 0x08, 0x07]);
    assert_eq!(shown(&w, &c), [(0, 0x0f, 2), (1, 0x08, 2), (2, 0x10, 3), (7, 0x07, 1)]);
    let (h, mut w, mut c) = stored(8, &[0x07, 0x0f, 0x08, 0x10, 0x01]);
    assert_eq!(shown(&w, &c)[3], (3, 0x01, 3));
    calls::remove(h, &mut w, &mut c, 0x07);
    assert_eq!(shown(&w, &c), [(0, 0x08, 1), (1, 0x10, 2), (2, 0x01, 2), (7, 0x0f, 1)]);
}

#[test]
fn p5_p6_p12_on_p4() {
    let (h, w, c) = stored(8, &[0x0f, 0x08, 0x10, 0x01]);
    let found = calls::find(h, &w, &c, 0x09);
    assert_eq!((found.number, found.slot, found.probes), (5, 3, 3));
    let found = calls::find(h, &w, &c, 0x00);
    assert_eq!((found.number, found.slot, found.probes), (5, 0, 1));
    let sums = calls::census(h, &w, &c);
    assert_eq!((sums.greatest, sums.stored, sums.absent), (2, 6, 14));
}

#[test]
fn p7_to_p9_with_two_slots() {
    let (h, mut w, mut c) = stored(2, &[0x05]);
    assert_eq!(shown(&w, &c), [(1, 0x05, 1)]);
    assert_eq!(calls::store(h, &mut w, &mut c, 0x05, 0).number, 3);
    assert_eq!(calls::store(h, &mut w, &mut c, 0x04, 0).number, 4);
    let (w, c) = ([0; 4], [2; 2]);
    assert_eq!(calls::find(head(2, 0), &w, &c, 0x01).number, 6);
    let found = calls::find(head(2, 0), &w, &c, 0x00);
    assert_eq!((found.number, found.slot, found.probes), (0, 1, 2));
}

#[test]
fn p10_p11_and_the_limits() {
    assert_eq!(home(head(8, 0), u64::MAX), 7);
    let removed = calls::remove(head(8, 0), &mut [0; 16], &mut [0; 8], 0x0d);
    assert_eq!((removed.number, removed.slot, removed.probes), (5, 5, 1));
    for (slots, number) in [(1, 1), (2, 0), (32_768, 0), (32_769, 1)] {
        let (mut w, mut c) = (vec![1; 2 * slots], vec![1; slots]);
        assert_eq!(calls::clear(Head::default(), slots, 1, 0, &mut w, &mut c).number, number);
    }
}

#[test]
fn the_worked_session() {
    let expected = [
        (0, 0, 0xa1, 1, 0, 1),
        (0, 0, 0xa2, 1, 1, 2),
        (0, 7, 0xa3, 1, 0, 3),
        (0, 7, 0xa4, 1, 3, 4),
        (0, 3, 0xa5, 3, 0, 5),
        (3, 1, 0xa2, 2, 0, 5),
        (0, 7, 0xa4, 1, 4, 4),
        (5, 3, 0, 3, 0, 4),
        (0, 0, 0, 0, 0, 4),
    ];
    let (mut w, mut c) = ([7; 16], [7; 8]);
    let mut now = calls::clear(Head::default(), 8, 0, 0, &mut w, &mut c).head;
    let mut seen = Vec::new();
    let mut keep = |a: Answer| {
        seen.push((a.number, a.slot, a.entry, a.probes, a.moved, a.head.live));
        a.head
    };
    for (x, v) in [(0x10, 0xa1), (0x08, 0xa2), (0x0f, 0xa3), (0x07, 0xa4), (0x01, 0xa5), (0x08, 0xa6)] {
        now = keep(calls::store(now, &mut w, &mut c, x, v));
    }
    now = keep(calls::remove(now, &mut w, &mut c, 0x07));
    now = keep(calls::find(now, &w, &c, 0x09));
    keep(calls::check(now, &w, &c));
    assert_eq!(seen, expected);
}

#[test]
fn order_of_refusals_at_a_store() {
    let words = [1, 0, 0, 0];
    for (live, number) in [(1, 4), (0, 6)] {
        let (mut w, mut c) = (words, [2, 0]);
        assert_eq!(calls::store(head(2, live), &mut w, &mut c, 0, 0).number, number);
        assert_eq!((w, c), (words, [2, 0]));
    }
    let (mut w, mut c) = ([0, 0, 0, 0, 4, 0, 0, 0], [0, 0, 3, 0]);
    assert_eq!(calls::store(head(4, 1), &mut w, &mut c, 0, 0).number, 0);
}

#[test]
fn the_hash_of_published_vectors() {
    assert_eq!(hash::bytes(b""), 0xcbf2_9ce4_8422_2325);
    assert_eq!(hash::bytes(b"a"), 0xaf63_dc4c_8601_ec8c);
    assert_eq!(hash::bytes(b"foobar"), 0x8594_4171_f739_67e8);
    assert_eq!(hash::key(0x6162_6364, 7), hash::bytes(b"dcba\0\0\0\0\x07\0\0\0\0\0\0\0"));
}

/// Every table of M = 2 and 3 over a few identifiers and counts: the definition of proper accepts exactly what is worked out afresh.
#[test]
fn proper_is_what_is_worked_out_afresh() {
    let mut accepted = 0;
    for slots in [2_usize, 3] {
        let cells: Vec<(u64, u16)> = (0..7).flat_map(|x| (0..=slots as u16 + 1).map(move |c| (x, c))).collect();
        for code in 0..cells.len().pow(slots as u32) {
            let table_cells: Vec<_> = (0..slots).map(|i| cells[code / cells.len().pow(i as u32) % cells.len()]).collect();
            let words: Vec<u64> = table_cells.iter().flat_map(|cell| [cell.0, 0]).collect();
            let counts: Vec<u16> = table_cells.iter().map(|cell| cell.1).collect();
            let live = counts.iter().filter(|c| **c != 0).count();
            let h = head(slots, live);
            let mut sorted: Vec<Record> = shown(&words, &counts)
                .iter()
                .map(|cell| Record { home: home(h, cell.1), identifier: cell.1, entry: 0 })
                .collect();
            sorted.sort();
            let distinct = sorted.windows(2).all(|two| two[0].identifier != two[1].identifier);
            let same = live < slots && distinct && table(slots, &sorted) == (words.clone(), counts.clone());
            assert_eq!(calls::check(h, &words, &counts).number == 0, same, "{words:?} {counts:?}");
            accepted += usize::from(same);
        }
    }
    assert_eq!(accepted, 1 + 7 + 1 + 7 + 21);
}

/// Orders of stores and removes do not show.
#[test]
fn the_map_and_the_calls_agree() {
    let settings = head(5, 0);
    let (mut now, mut w, mut c) = (settings, vec![0; 10], vec![0; 5]);
    let mut live = Live::none(settings);
    let mut seed: u64 = 1;
    for _ in 0..20_000 {
        seed = seed.wrapping_mul(6_364_136_223_846_793_005).wrapping_add(1_442_695_040_888_963_407);
        let x = (seed >> 33) % 12;
        let (answer, number) = if seed >> 63 == 0 {
            (calls::store(now, &mut w, &mut c, x, seed), live.store(x, seed))
        } else {
            (calls::remove(now, &mut w, &mut c, x), live.remove(x))
        };
        now = answer.head;
        assert_eq!((answer.number, now.live), (number, live.count()));
        assert_eq!((w.clone(), c.clone()), live.table());
        assert_eq!(calls::check(now, &w, &c).number, 0);
    }
}
