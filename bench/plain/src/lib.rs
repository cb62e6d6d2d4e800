//! The register's rules in plain Rust, unproved: what the proved register's speed is measured against.
//! Written as an engineer would: safe Rust, bounds checks left to the compiler, the contiguous parts of a run moved with `copy_within`.
//! The calls are not inlined into their callers, as those of a built library are not.

/// Slot count, salt, live count, home rule.
#[derive(Clone, Copy, Debug, PartialEq, Eq)]
pub struct Head {
    pub slots: usize,
    pub salt: u64,
    pub live: usize,
    pub rule: u8,
}

/// What a call found or did.
#[derive(Clone, Copy, Debug, PartialEq, Eq)]
pub struct Done {
    pub slot: usize,
    pub entry: u64,
    pub probes: usize,
    pub moved: usize,
}

/// Why a call did nothing.
#[derive(Clone, Copy, Debug, PartialEq, Eq)]
pub enum Refusal {
    BadHead,
    BadLength,
    AlreadyNamed(Done),
    Full,
    Absent { slot: usize, probes: usize },
    Damaged,
}

/// The three numbers of a census.
#[derive(Clone, Copy, Debug, PartialEq, Eq)]
pub struct Census {
    pub greatest: usize,
    pub stored: usize,
    pub absent: usize,
}

enum End {
    Found(usize, usize),
    Absent(usize, usize),
    Endless,
}

/// FNV-1a over the salt and then the identifier.
pub fn hash_key(salt: u64, id: u64) -> u64 {
    let mut h: u64 = 0xcbf2_9ce4_8422_2325;
    for word in [salt, id] {
        for byte in word.to_le_bytes() {
            h = (h ^ u64::from(byte)).wrapping_mul(0x100_0000_01b3);
        }
    }
    h
}

/// A head and two borrowed slices. With `MASKED`, a home under a power of two is found by a mask and not by a division.
#[derive(Debug)]
pub struct Register<'a, const MASKED: bool> {
    head: Head,
    words: &'a mut [u64],
    counts: &'a mut [u16],
}

impl<'a, const MASKED: bool> Register<'a, MASKED> {
    #[inline(never)]
    pub fn clear(slots: usize, rule: u8, salt: u64, words: &'a mut [u64], counts: &'a mut [u16]) -> Result<Self, Refusal> {
        let head = Head { slots, salt, live: 0, rule };
        let register = Register { head, words, counts };
        register.open()?;
        register.words.fill(0);
        register.counts.fill(0);
        Ok(register)
    }

    pub fn head(&self) -> Head {
        self.head
    }

    #[inline(never)]
    pub fn find(&self, x: u64) -> Result<Done, Refusal> {
        self.open()?;
        match self.walk(x) {
            End::Found(slot, probes) => Ok(self.done(slot, probes, 0)),
            End::Absent(slot, probes) => Err(Refusal::Absent { slot, probes }),
            End::Endless => Err(Refusal::Damaged),
        }
    }

    #[inline(never)]
    pub fn store(&mut self, x: u64, entry: u64) -> Result<Done, Refusal> {
        self.open()?;
        let (s, p) = match self.walk(x) {
            End::Found(slot, probes) => return Err(Refusal::AlreadyNamed(self.done(slot, probes, 0))),
            End::Endless => return Err(Refusal::Damaged),
            End::Absent(s, p) => (s, p),
        };
        let m = self.head.slots;
        if self.head.live == m - 1 {
            return Err(Refusal::Full);
        }
        if p == m {
            return Err(Refusal::Damaged);
        }
        let moved = self.run_to_empty(s).ok_or(Refusal::Damaged)?;
        self.move_on(s, moved);
        self.words[2 * s] = x;
        self.words[2 * s + 1] = entry;
        self.counts[s] = p as u16;
        self.head.live += 1;
        Ok(Done { slot: s, entry, probes: p, moved })
    }

    #[inline(never)]
    pub fn remove(&mut self, x: u64) -> Result<Done, Refusal> {
        self.open()?;
        let (s, p) = match self.walk(x) {
            End::Found(s, p) => (s, p),
            End::Absent(slot, probes) => return Err(Refusal::Absent { slot, probes }),
            End::Endless => return Err(Refusal::Damaged),
        };
        if self.head.live == 0 {
            return Err(Refusal::Damaged);
        }
        let moved = self.run_to_settled(s).ok_or(Refusal::Damaged)?;
        let done = self.done(s, p, moved);
        self.move_back(s, moved);
        self.head.live -= 1;
        Ok(done)
    }

    #[inline(never)]
    pub fn change(&mut self, x: u64, entry: u64) -> Result<Done, Refusal> {
        self.open()?;
        match self.walk(x) {
            End::Found(slot, probes) => {
                self.words[2 * slot + 1] = entry;
                Ok(Done { slot, entry, probes, moved: 0 })
            }
            End::Absent(slot, probes) => Err(Refusal::Absent { slot, probes }),
            End::Endless => Err(Refusal::Damaged),
        }
    }

    #[inline(never)]
    pub fn check(&self) -> Result<(), Refusal> {
        self.open()?;
        let m = self.head.slots;
        let mut occupied = 0;
        let mut before = m - 1;
        for i in 0..m {
            let c = usize::from(self.counts[i]);
            let x = self.words[2 * i];
            if c == 0 {
                if x != 0 || self.words[2 * i + 1] != 0 {
                    return Err(Refusal::Damaged);
                }
            } else {
                occupied += 1;
                let at = self.home(x) + c - 1;
                let d = usize::from(self.counts[before]);
                let passed = c == 1 || c <= d || (c == d + 1 && self.words[2 * before] < x);
                if c >= m || (at != i && at != i + m) || !passed {
                    return Err(Refusal::Damaged);
                }
            }
            before = i;
        }
        if occupied == self.head.live {
            Ok(())
        } else {
            Err(Refusal::Damaged)
        }
    }

    #[inline(never)]
    pub fn census(&self) -> Result<Census, Refusal> {
        self.open()?;
        let greatest = self.counts.iter().copied().max().unwrap_or(0);
        let stored = self.counts.iter().map(|&c| usize::from(c)).sum();
        Ok(Census { greatest: usize::from(greatest), stored, absent: stored + self.head.slots })
    }

    fn open(&self) -> Result<(), Refusal> {
        let Head { slots, live, rule, .. } = self.head;
        if !(2..=32_768).contains(&slots) || rule > 1 || live > slots - 1 {
            return Err(Refusal::BadHead);
        }
        if self.words.len() != 2 * slots || self.counts.len() != slots {
            return Err(Refusal::BadLength);
        }
        Ok(())
    }

    fn home(&self, x: u64) -> usize {
        let number = if self.head.rule == 0 { x } else { hash_key(self.head.salt, x) };
        let m = self.head.slots as u64;
        if MASKED && m.is_power_of_two() {
            (number & (m - 1)) as usize
        } else {
            (number % m) as usize
        }
    }

    fn next(&self, i: usize) -> usize {
        if i + 1 == self.head.slots {
            0
        } else {
            i + 1
        }
    }

    fn done(&self, slot: usize, probes: usize, moved: usize) -> Done {
        Done { slot, entry: self.words[2 * slot + 1], probes, moved }
    }

    fn walk(&self, x: u64) -> End {
        let mut i = self.home(x);
        for p in 1..=self.head.slots {
            let c = usize::from(self.counts[i]);
            if c < p {
                return End::Absent(i, p);
            }
            if c == p {
                let y = self.words[2 * i];
                if y == x {
                    return End::Found(i, p);
                }
                if y > x {
                    return End::Absent(i, p);
                }
            }
            i = self.next(i);
        }
        End::Endless
    }

    fn run_to_empty(&self, s: usize) -> Option<usize> {
        let m = self.head.slots;
        let mut i = s;
        for k in 0..m {
            let c = usize::from(self.counts[i]);
            if c == 0 {
                return Some(k);
            }
            if c >= m - 1 {
                return None;
            }
            i = self.next(i);
        }
        None
    }

    fn run_to_settled(&self, s: usize) -> Option<usize> {
        let mut i = self.next(s);
        for k in 0..self.head.slots - 1 {
            if self.counts[i] <= 1 {
                return Some(k);
            }
            i = self.next(i);
        }
        None
    }

    /// The `k` records from slot `s` on move one slot on: the part after slot M-1 first, then the one that crosses, then the rest.
    fn move_on(&mut self, s: usize, k: usize) {
        let m = self.head.slots;
        if s + k < m {
            self.lift(s, s + k);
            return;
        }
        self.lift(0, s + k - m);
        self.words.copy_within(2 * (m - 1)..2 * m, 0);
        self.counts[0] = self.counts[m - 1] + 1;
        self.lift(s, m - 1);
    }

    /// Slots `from` to before `to` move one slot on.
    fn lift(&mut self, from: usize, to: usize) {
        self.words.copy_within(2 * from..2 * to, 2 * from + 2);
        self.counts.copy_within(from..to, from + 1);
        for c in &mut self.counts[from + 1..=to] {
            *c += 1;
        }
    }

    /// The `k` records after slot `s` move one slot back, and the slot last vacated is zeroed.
    fn move_back(&mut self, s: usize, k: usize) {
        let m = self.head.slots;
        let mut last = s + k;
        if last < m {
            self.lower(s, last);
        } else {
            last -= m;
            self.lower(s, m - 1);
            self.words.copy_within(0..2, 2 * (m - 1));
            self.counts[m - 1] = self.counts[0] - 1;
            self.lower(0, last);
        }
        self.words[2 * last..2 * last + 2].fill(0);
        self.counts[last] = 0;
    }

    /// Slots after `from` up to `to` move one slot back.
    fn lower(&mut self, from: usize, to: usize) {
        self.words.copy_within(2 * from + 2..2 * to + 2, 2 * from);
        self.counts.copy_within(from + 1..to + 1, from);
        for c in &mut self.counts[from..to] {
            *c -= 1;
        }
    }
}
