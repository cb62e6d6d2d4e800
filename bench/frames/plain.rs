// The same rules in plain Rust: the program that ./run is measured against.
use std::io::{Read, Write};

const ROOM: usize = 2048;

#[derive(Clone, Copy, Default)]
struct Head {
    slots: usize,
    rule: u8,
    salt: u64,
    live: usize,
}

#[derive(Default)]
struct Answer {
    number: u8,
    slot: usize,
    entry: u64,
    probes: usize,
    moved: usize,
}

enum End {
    Found(usize, usize),
    Absent(usize, usize),
    Endless,
}

struct Register {
    head: Head,
    words: Vec<u64>,
    counts: Vec<u16>,
}

fn refused(number: u8) -> Answer {
    Answer { number, ..Answer::default() }
}

impl Register {
    fn is_bad(&self) -> bool {
        let h = &self.head;
        h.slots < 2 || h.slots > 32768 || h.rule > 1 || h.live > h.slots - 1
    }

    fn home(&self, x: u64) -> usize {
        let h = if self.head.rule == 0 {
            x
        } else {
            let mut h: u64 = 0xcbf29ce484222325;
            for b in self.head.salt.to_le_bytes().into_iter().chain(x.to_le_bytes()) {
                h = (h ^ b as u64).wrapping_mul(0x100000001b3);
            }
            h
        };
        (h % self.head.slots as u64) as usize
    }

    fn next(&self, i: usize) -> usize {
        if i + 1 == self.head.slots { 0 } else { i + 1 }
    }

    fn walk(&self, x: u64) -> End {
        let mut i = self.home(x);
        for p in 1..=self.head.slots {
            let c = self.counts[i] as usize;
            if c < p {
                return End::Absent(i, p);
            }
            if c == p {
                let y = self.words[2 * i];
                if y == x {
                    return End::Found(i, p);
                }
                if y > x {
                    return End::Absent(i, p);
                }
            }
            i = self.next(i);
        }
        End::Endless
    }

    fn clear(&mut self, slots: usize, rule: u8, salt: u64) -> Answer {
        if !(2..=32768).contains(&slots) || rule > 1 {
            return refused(1);
        }
        if slots > ROOM {
            return refused(2);
        }
        self.head = Head { slots, rule, salt, live: 0 };
        self.words[..2 * slots].fill(0);
        self.counts[..slots].fill(0);
        refused(0)
    }

    fn find(&self, x: u64) -> Answer {
        if self.is_bad() {
            return refused(1);
        }
        match self.walk(x) {
            End::Found(slot, probes) => Answer { slot, entry: self.words[2 * slot + 1], probes, ..Answer::default() },
            End::Absent(slot, probes) => Answer { number: 5, slot, probes, ..Answer::default() },
            End::Endless => refused(6),
        }
    }

    fn store(&mut self, x: u64, v: u64) -> Answer {
        if self.is_bad() {
            return refused(1);
        }
        let m = self.head.slots;
        match self.walk(x) {
            End::Found(slot, probes) => Answer { number: 3, slot, entry: self.words[2 * slot + 1], probes, moved: 0 },
            End::Endless => refused(6),
            End::Absent(slot, probes) => {
                if self.head.live == m - 1 {
                    return refused(4);
                }
                if probes == m {
                    return refused(6);
                }
                let (mut e, mut moved) = (slot, 0);
                loop {
                    let c = self.counts[e] as usize;
                    if c == 0 {
                        break;
                    }
                    if c >= m - 1 || moved == m {
                        return refused(6);
                    }
                    e = self.next(e);
                    moved += 1;
                }
                while e != slot {
                    let before = if e == 0 { m - 1 } else { e - 1 };
                    self.words[2 * e] = self.words[2 * before];
                    self.words[2 * e + 1] = self.words[2 * before + 1];
                    self.counts[e] = self.counts[before] + 1;
                    e = before;
                }
                self.words[2 * slot] = x;
                self.words[2 * slot + 1] = v;
                self.counts[slot] = probes as u16;
                self.head.live += 1;
                Answer { number: 0, slot, entry: v, probes, moved }
            }
        }
    }

    fn remove(&mut self, x: u64) -> Answer {
        if self.is_bad() {
            return refused(1);
        }
        match self.walk(x) {
            End::Absent(slot, probes) => Answer { number: 5, slot, probes, ..Answer::default() },
            End::Endless => refused(6),
            End::Found(slot, probes) => {
                let entry = self.words[2 * slot + 1];
                let m = self.head.slots;
                let (mut e, mut run) = (self.next(slot), 1);
                while run < m && self.counts[e] > 1 {
                    e = self.next(e);
                    run += 1;
                }
                if self.head.live == 0 || run == m {
                    return refused(6);
                }
                let mut hole = slot;
                for _ in 1..run {
                    let i = self.next(hole);
                    self.words[2 * hole] = self.words[2 * i];
                    self.words[2 * hole + 1] = self.words[2 * i + 1];
                    self.counts[hole] = self.counts[i] - 1;
                    hole = i;
                }
                self.words[2 * hole] = 0;
                self.words[2 * hole + 1] = 0;
                self.counts[hole] = 0;
                self.head.live -= 1;
                Answer { number: 0, slot, entry, probes, moved: run - 1 }
            }
        }
    }

    fn change(&mut self, x: u64, v: u64) -> Answer {
        if self.is_bad() {
            return refused(1);
        }
        match self.walk(x) {
            End::Found(slot, probes) => {
                self.words[2 * slot + 1] = v;
                Answer { number: 0, slot, entry: v, probes, moved: 0 }
            }
            End::Absent(slot, probes) => Answer { number: 5, slot, probes, ..Answer::default() },
            End::Endless => refused(6),
        }
    }

    fn is_good(&self, i: usize) -> bool {
        let (c, x, v) = (self.counts[i] as usize, self.words[2 * i], self.words[2 * i + 1]);
        if c == 0 {
            return x == 0 && v == 0;
        }
        let m = self.head.slots;
        if c > m - 1 || (self.home(x) + c - 1) % m != i {
            return false;
        }
        let j = if i == 0 { m - 1 } else { i - 1 };
        let d = self.counts[j] as usize;
        c == 1 || c <= d || c == d + 1 && self.words[2 * j] < x
    }

    fn check(&self) -> Answer {
        if self.is_bad() {
            return refused(1);
        }
        let m = self.head.slots;
        let occupied = self.counts[..m].iter().filter(|c| **c > 0).count();
        refused(if (0..m).all(|i| self.is_good(i)) && occupied == self.head.live { 0 } else { 6 })
    }
}

fn number(field: &[u8]) -> Option<u64> {
    let mut n = 0;
    for b in field {
        let v = match b {
            b'0'..=b'9' => b - b'0',
            b'a'..=b'f' => b - b'a' + 10,
            _ => return None,
        };
        n = n << 4 | v as u64;
    }
    Some(n)
}

fn single(line: &[u8]) -> Option<u64> {
    if line.len() == 19 && line[2] == b' ' { number(&line[3..]) } else { None }
}

fn pair(line: &[u8]) -> Option<(u64, u64)> {
    if line.len() == 36 && line[2] == b' ' && line[19] == b' ' {
        Some((number(&line[3..19])?, number(&line[20..])?))
    } else {
        None
    }
}

fn answered(register: &mut Register, line: &[u8]) -> Option<Answer> {
    match line.get(..2)? {
        b"00" if line.len() == 27 && line[2] == b' ' && line[7] == b' ' && line[10] == b' ' => {
            let (m, rule, salt) = (number(&line[3..7])?, number(&line[8..10])?, number(&line[11..])?);
            Some(register.clear(m as usize, rule as u8, salt))
        }
        b"01" => pair(line).map(|(x, v)| register.store(x, v)),
        b"02" => single(line).map(|x| register.find(x)),
        b"03" => single(line).map(|x| register.remove(x)),
        b"04" => pair(line).map(|(x, v)| register.change(x, v)),
        b"05" if line.len() == 2 => Some(register.check()),
        _ => None,
    }
}

fn put(out: &mut Vec<u8>, width: usize, n: u64, end: u8) {
    for k in (0..width).rev() {
        out.push(b"0123456789abcdef"[(n >> (4 * k) & 15) as usize]);
    }
    out.push(end);
}

fn serve(register: &mut Register, line: &[u8], out: &mut Vec<u8>) {
    let a = answered(register, line).unwrap_or_else(|| refused(7));
    put(out, 2, a.number as u64, b' ');
    put(out, 4, a.slot as u64, b' ');
    put(out, 16, a.entry, b' ');
    put(out, 4, a.probes as u64, b' ');
    put(out, 4, a.moved as u64, b' ');
    put(out, 4, register.head.live as u64, b'\n');
}

fn main() {
    let mut register = Register { head: Head::default(), words: vec![0; 2 * ROOM], counts: vec![0; ROOM] };
    let (mut input, mut output) = (std::io::stdin().lock(), std::io::stdout().lock());
    let mut chunk = vec![0; 65536];
    let mut line: Vec<u8> = Vec::new();
    let mut out: Vec<u8> = Vec::with_capacity(1 << 17);
    while let Ok(n) = input.read(&mut chunk) {
        if n == 0 {
            break;
        }
        let mut rest = &chunk[..n];
        while let Some(end) = rest.iter().position(|b| *b == b'\n') {
            if line.is_empty() {
                serve(&mut register, &rest[..end], &mut out);
            } else {
                line.extend_from_slice(&rest[..end]);
                serve(&mut register, &line, &mut out);
                line.clear();
            }
            rest = &rest[end + 1..];
        }
        let room = 37_usize.saturating_sub(line.len()).min(rest.len());
        line.extend_from_slice(&rest[..room]);
        if output.write_all(&out).is_err() {
            return;
        }
        out.clear();
    }
    if !line.is_empty() {
        serve(&mut register, &line, &mut out);
        let _ = output.write_all(&out);
    }
    let _ = output.flush();
}
