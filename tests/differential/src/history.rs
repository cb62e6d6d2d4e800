//! (a) Histories from a clear: after every call the answer, the head and the slices are the model's, and the table is the one worked
//! out afresh from the records that are live by the map's rule.

use crate::compare::{Call, Pair, Reply};
use crate::random::Random;
use model::afresh::Live;
use model::{home, Head};

/// How identifiers are chosen.
#[derive(Clone, Copy, Debug, PartialEq, Eq)]
pub enum Homes {
    Any,
    InTurn,
    Clustered,
    One,
}

/// What a history is made from.
#[derive(Clone, Copy, Debug)]
pub struct Plan {
    pub seed: u64,
    pub slots: usize,
    pub rule: u8,
    pub homes: Homes,
    pub steps: usize,
}

/// Identifiers to draw from, about half as many again as slots; 0 and all ones are always among them.
fn pool(random: &mut Random, head: Head, homes: Homes) -> Vec<u64> {
    let m = head.slots;
    let start = random.word();
    let first = random.below(m);
    let width = if homes == Homes::One { 1 } else { m / 16 + 1 };
    let mut all = vec![0, u64::MAX, 1, m as u64, u64::MAX - m as u64];
    while all.len() < m + m / 2 + 6 {
        let x = match homes {
            Homes::InTurn => start.wrapping_add(all.len() as u64),
            Homes::Any if random.once_in(4) => random.word() % (4 * m as u64),
            _ => random.word(),
        };
        let narrow = homes == Homes::Clustered || homes == Homes::One;
        if !narrow || (home(head, x) + m - first) % m < width {
            all.push(x);
        }
    }
    all
}

struct History {
    plan: Plan,
    random: Random,
    pair: Pair,
    head: Head,
    live: Live,
    afresh: (Vec<u64>, Vec<u16>),
    pool: Vec<u64>,
    target: usize,
}

/// Runs one history and gives its calls back.
pub fn run(plan: Plan) -> Result<Pair, String> {
    let mut random = Random::new(plan.seed);
    let junk_words: Vec<u64> = (0..2 * plan.slots).map(|_| random.word()).collect();
    let junk_counts: Vec<u16> = (0..plan.slots).map(|_| random.word() as u16).collect();
    let old = Head { slots: random.below(9), salt: random.word(), live: random.below(9), rule: random.word() as u8 };
    let mut pair = Pair::new(&junk_words, &junk_counts);
    let told = |fault: String| format!("{plan:?}: {fault}");
    let salt = random.word();
    let head = pair.call(Call::Clear { slots: plan.slots, rule: plan.rule, salt }, old).map_err(told)?.head();
    let pool = pool(&mut random, head, plan.homes);
    let live = Live::none(head);
    let afresh = live.table();
    let mut history = History { plan, random, pair, head, live, afresh, pool, target: 0 };
    for step in 0..plan.steps {
        history.step(step).map_err(|fault| told(format!("step {step}: {fault}")))?;
    }
    Ok(history.pair)
}

impl History {
    fn step(&mut self, step: usize) -> Result<(), String> {
        let m = self.plan.slots;
        if step.is_multiple_of(2 * m + 16) {
            self.target = self.random.pick(&[m - 1, m - 1, m, m * 19 / 20, m * 9 / 10, m / 2, 0]);
        }
        let rare = 64 + m / 4;
        if self.random.once_in(rare) {
            return self.odd();
        }
        let filling = step < self.pool.len() && !self.random.once_in(8);
        let call = if filling { Call::Store(self.pool[step], self.random.word()) } else { self.usual() };
        let reply = self.pair.call(call, self.head)?;
        self.follow(call, reply)
    }

    /// Once the pool has been stored in turn: mostly stores below the target and removes above it.
    fn usual(&mut self) -> Call {
        let x = if self.live.count() > 0 && self.random.once_in(3) {
            let i = self.random.below(self.live.count());
            self.live.records()[i].identifier
        } else {
            self.random.pick(&self.pool)
        };
        let v = self.random.word() >> self.random.below(64);
        let grows = self.live.count() < self.target;
        match self.random.below(20) {
            0..=8 if grows => Call::Store(x, v),
            0..=8 => Call::Remove(x),
            9..=11 if grows => Call::Remove(x),
            9..=11 => Call::Store(x, v),
            12..=15 => Call::Find(x),
            16..=17 => Call::Change(x, v),
            18 => Call::Census,
            _ => Call::Check,
        }
    }

    /// A clear, a wrong length, or a head that is not the register's.
    fn odd(&mut self) -> Result<(), String> {
        let m = self.plan.slots;
        let call = self.usual();
        let rule = self.random.pick(&[self.plan.rule, 0, 1, 2, 255]);
        match self.random.below(4) {
            0 => {
                let slots = self.random.pick(&[m, m, 0, 1, 32_769, m + 1, m - 1]);
                let call = Call::Clear { slots, rule, salt: self.random.word() };
                let reply = self.pair.call(call, self.head)?;
                self.follow(call, reply)
            }
            1 => {
                let words = self.random.pick(&[2 * m - 1, 2 * m - 2, 0, m]);
                let counts = self.random.pick(&[m, m - 1, 0]);
                self.pair.call_on(call, self.head, words, counts).map(drop)
            }
            2 => self.pair.call_on(call, self.head, 2 * m, m - 1).map(drop),
            _ => {
                let live = self.random.pick(&[m, usize::MAX, m - 1]);
                let slots = self.random.pick(&[m, m, 0, 1, m + 1, 32_769]);
                let bad = Head { slots, live, rule: self.random.pick(&[2, 3, 255]), ..self.head };
                self.pair.call(Call::Find(0), bad)?;
                self.pair.call(Call::Store(0, 0), bad)?;
                self.pair.call(Call::Remove(0), bad).map(drop)
            }
        }
    }

    /// The live records follow the map's rule; the number, the entry, the live count and the table must be theirs.
    fn follow(&mut self, call: Call, reply: Reply) -> Result<(), String> {
        let number = match call {
            Call::Store(x, v) => self.live.store(x, v),
            Call::Remove(x) => self.live.remove(x),
            Call::Change(x, v) => self.live.change(x, v),
            Call::Find(x) => self.live.entry(x).map_or(5, |_| 0),
            Call::Clear { .. } => reply.number(),
            Call::Check | Call::Census => 0,
        };
        if matches!(call, Call::Clear { .. }) && number == 0 {
            self.live = Live::none(reply.head());
        }
        if matches!(call, Call::Store(..) | Call::Remove(_) | Call::Change(..) | Call::Clear { .. }) && number == 0 {
            self.afresh = self.live.table();
        }
        self.head = reply.head();
        let entry = match call {
            Call::Find(x) if number == 0 => self.live.entry(x).unwrap_or(0),
            _ => reply.entry(),
        };
        if (number, entry, self.live.count()) != (reply.number(), reply.entry(), self.head.live) {
            return Err(format!("{call:?} gives {reply:?}: the live records say number {number}, entry {entry}"));
        }
        let (words, counts) = self.pair.table();
        if (words, counts) != (&self.afresh.0[..], &self.afresh.1[..]) {
            return Err(format!("{call:?} gives {reply:?}: the table is not the one worked out afresh"));
        }
        self.says_where(call, reply)
    }

    /// The slot and probes of an absent answer, or of a record removed, are those of its identifier in the table worked out afresh with it.
    fn says_where(&self, call: Call, reply: Reply) -> Result<(), String> {
        let (Call::Find(x) | Call::Remove(x) | Call::Change(x, _), Reply::Answer(a)) = (call, reply) else {
            return Ok(());
        };
        match self.live.would_stand(x) {
            Some(place) if place != (a.slot, a.probes) => Err(format!("{call:?} gives {a:?}: it would stand at {place:?}")),
            _ => Ok(()),
        }
    }
}
