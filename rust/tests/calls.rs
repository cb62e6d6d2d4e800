//! The crate's methods on document 01's own cases, and on heads and slices that no register has.

use register::{hash_bytes, hash_key, Census, Change, Find, Head, Refusal, Register, Remove, Rule, Store};

fn head(slots: usize, live: usize, rule: u8) -> Head {
    Head { slots, salt: 0, live, rule }
}

#[test]
fn the_worked_session() -> Result<(), Refusal> {
    let (mut words, mut counts) = ([9; 16], [9; 8]);
    let mut jobs = Register::new(Head::default(), &mut words, &mut counts);
    jobs.clear(8, Rule::Remainder, 0)?;
    assert_eq!(jobs.store(0x10, 0xa1)?, Store::Stored { slot: 0, entry: 0xa1, probes: 1, moved: 0 });
    assert_eq!(jobs.store(0x08, 0xa2)?, Store::Stored { slot: 0, entry: 0xa2, probes: 1, moved: 1 });
    assert_eq!(jobs.store(0x0f, 0xa3)?, Store::Stored { slot: 7, entry: 0xa3, probes: 1, moved: 0 });
    assert_eq!(jobs.store(0x07, 0xa4)?, Store::Stored { slot: 7, entry: 0xa4, probes: 1, moved: 3 });
    assert_eq!(jobs.store(0x01, 0xa5)?, Store::Stored { slot: 3, entry: 0xa5, probes: 3, moved: 0 });
    assert_eq!(jobs.store(0x08, 0xa6)?, Store::AlreadyNamed { slot: 1, entry: 0xa2, probes: 2 });
    assert_eq!(jobs.remove(0x07)?, Remove::Removed { slot: 7, entry: 0xa4, probes: 1, moved: 4 });
    assert_eq!(jobs.find(0x09)?, Find::Absent { slot: 3, probes: 3 });
    assert_eq!(jobs.find(0x00)?, Find::Absent { slot: 0, probes: 1 });
    jobs.check()?;
    assert_eq!(jobs.census()?, Census { greatest: 2, stored: 6, absent: 14 });
    assert_eq!(jobs.change(0x01, 0xb5)?, Change::Changed { slot: 2, entry: 0xb5, probes: 2 });
    assert_eq!(jobs.change(0x09, 0xb6)?, Change::Absent { slot: 3, probes: 3 });
    assert_eq!(jobs.remove(0x09)?, Remove::Absent { slot: 3, probes: 3 });
    assert_eq!(jobs.head(), head(8, 4, 0));
    assert_eq!(jobs.words(), [8, 0xa2, 0x10, 0xa1, 1, 0xb5, 0, 0, 0, 0, 0, 0, 0, 0, 0x0f, 0xa3]);
    assert_eq!(jobs.counts(), [1, 2, 2, 0, 0, 0, 0, 1]);
    Ok(())
}

/// Request One: what find, remove and change say of an absent identifier is what a store then does, until M-1 are live.
#[test]
fn a_store_goes_where_absent_said() -> Result<(), Refusal> {
    let (mut words, mut counts) = ([0; 122], [0; 61]);
    for rule in [Rule::Remainder, Rule::Hashed] {
        let mut jobs = Register::new(Head::default(), &mut words, &mut counts);
        jobs.clear(61, rule, 7)?;
        let mut away = 0;
        for x in (1..61).map(|i: u64| i * i * i) {
            let Find::Absent { slot, probes } = jobs.find(x)? else { panic!("{x} is live") };
            assert_eq!(jobs.remove(x)?, Remove::Absent { slot, probes });
            assert_eq!(jobs.change(x, 5)?, Change::Absent { slot, probes });
            let Store::Stored { slot: at, probes: taken, .. } = jobs.store(x, 5)? else { panic!("{x} is live") };
            assert_eq!((at, taken), (slot, probes));
            away += usize::from(probes > 1);
        }
        assert!(away > 0);
        assert!(matches!(jobs.find(0)?, Find::Absent { .. }));
        assert_eq!(jobs.store(0, 5), Err(Refusal::Full));
    }
    Ok(())
}

#[test]
fn two_slots_full_and_damaged() -> Result<(), Refusal> {
    let (mut words, mut counts) = ([0; 4], [0; 2]);
    let mut jobs = Register::new(Head::default(), &mut words, &mut counts);
    jobs.clear(2, Rule::Remainder, 0)?;
    assert_eq!(jobs.store(5, 0)?, Store::Stored { slot: 1, entry: 0, probes: 1, moved: 0 });
    assert_eq!(jobs.store(5, 1)?, Store::AlreadyNamed { slot: 1, entry: 0, probes: 1 });
    assert_eq!(jobs.store(4, 0), Err(Refusal::Full));
    let (mut words, mut counts) = ([0; 4], [2; 2]);
    let jobs = Register::new(head(2, 0, 0), &mut words, &mut counts);
    assert_eq!(jobs.find(1), Err(Refusal::Damaged));
    assert_eq!(jobs.find(0), Ok(Find::Found { slot: 1, entry: 0, probes: 2 }));
    assert_eq!(jobs.check(), Err(Refusal::Damaged));
    assert_eq!(jobs.census(), Ok(Census { greatest: 2, stored: 4, absent: 6 }));
    Ok(())
}

#[test]
fn heads_and_lengths_that_no_register_has() {
    let heads = [
        (head(0, 0, 0), Refusal::BadHead),
        (head(1, 0, 0), Refusal::BadHead),
        (head(32_769, 0, 0), Refusal::BadHead),
        (head(usize::MAX, usize::MAX, 255), Refusal::BadHead),
        (head(4, 4, 0), Refusal::BadHead),
        (head(4, 0, 2), Refusal::BadHead),
        (head(5, 0, 0), Refusal::BadLength),
        (head(32_768, 0, 1), Refusal::BadLength),
    ];
    for (bad, refusal) in heads {
        let (mut words, mut counts) = ([1, 2, 3, 4, 5, 6, 7, 8], [1, 2, 3, 4]);
        let mut jobs = Register::new(bad, &mut words, &mut counts);
        assert_eq!(jobs.find(1), Err(refusal));
        assert_eq!(jobs.store(1, 2), Err(refusal));
        assert_eq!(jobs.remove(1), Err(refusal));
        assert_eq!(jobs.change(1, 2), Err(refusal));
        assert_eq!(jobs.check(), Err(refusal));
        assert_eq!(jobs.census(), Err(refusal));
        assert_eq!(jobs.clear(1, Rule::Hashed, 3), Err(Refusal::BadHead));
        assert_eq!(jobs.clear(5, Rule::Hashed, 3), Err(Refusal::BadLength));
        assert_eq!(jobs.head(), bad);
        assert_eq!(jobs.words(), [1, 2, 3, 4, 5, 6, 7, 8]);
        assert_eq!(jobs.counts(), [1, 2, 3, 4]);
    }
}

#[test]
fn empty_slices() {
    let mut jobs = Register::new(Head::default(), &mut [], &mut []);
    assert_eq!(jobs.find(0), Err(Refusal::BadHead));
    assert_eq!(jobs.clear(0, Rule::Remainder, 0), Err(Refusal::BadHead));
    assert_eq!(jobs.clear(2, Rule::Remainder, 0), Err(Refusal::BadLength));
}

#[test]
fn a_register_taken_up_again() -> Result<(), Refusal> {
    let (mut words, mut counts) = (vec![0; 2 * Head::MOST], vec![0; Head::MOST]);
    let mut jobs = Register::new(Head::default(), &mut words, &mut counts);
    jobs.clear(Head::MOST, Rule::Hashed, 0xfeed)?;
    for x in [0, u64::MAX] {
        jobs.store(x, !x)?;
    }
    let kept = jobs.head();
    let again = Register::new(kept, &mut words, &mut counts);
    again.check()?;
    let slot = (hash_key(0xfeed, u64::MAX) % Head::MOST as u64) as usize;
    assert_eq!(again.find(u64::MAX)?, Find::Found { slot, entry: 0, probes: 1 });
    Ok(())
}

#[test]
fn refusals_have_the_numbers_and_say_what_they_are() {
    for (refusal, number) in [(Refusal::BadHead, 1), (Refusal::BadLength, 2), (Refusal::Full, 4), (Refusal::Damaged, 6)] {
        assert_eq!(refusal.number(), number);
        assert!(refusal.to_string().starts_with(&format!("{number}: ")));
    }
}

#[test]
fn the_hash() {
    assert_eq!(hash_bytes(b""), 0xcbf2_9ce4_8422_2325);
    assert_eq!(hash_bytes(b"foobar"), 0x8594_4171_f739_67e8);
    assert_eq!(
        hash_key(0x0807_0605_0403_0201, 0x100f_0e0d_0c0b_0a09),
        hash_bytes(&[1, 2, 3, 4, 5, 6, 7, 8, 9, 10, 11, 12, 13, 14, 15, 16])
    );
}
