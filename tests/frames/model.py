"""The program by document 01, plain and slow: a list of slots, each a count, an identifier and an entry.

Written from the document alone, as the tests' second opinion; no code is shared with the library.
"""

ROOM = 2048
MASK = (1 << 64) - 1


def fnv1a(data):
    h = 0xCBF29CE484222325
    for byte in data:
        h = ((h ^ byte) * 0x100000001B3) & MASK
    return h


def absent(i, p):
    """Number 5: the slot and the p at which the walk ended."""
    return (5, i, 0, p, 0)


class Register:
    """Head and slots; before the first accepted clear all is zero."""

    def __init__(self):
        self.m, self.rule, self.salt, self.live = 0, 0, 0, 0
        self.slots = []

    def home(self, x):
        if self.rule == 0:
            return x % self.m
        return fnv1a(self.salt.to_bytes(8, "little") + x.to_bytes(8, "little")) % self.m

    def bad(self):
        return not 2 <= self.m <= 32768 or self.rule > 1 or self.live > self.m - 1

    # Each call answers number, slot, entry, probes, moved.

    def clear(self, m, rule, salt):
        if not 2 <= m <= 32768 or rule > 1:
            return (1, 0, 0, 0, 0)
        if m > ROOM:
            return (2, 0, 0, 0, 0)
        self.m, self.rule, self.salt, self.live = m, rule, salt, 0
        self.slots = [(0, 0, 0)] * m
        return (0, 0, 0, 0, 0)

    def walk(self, x):
        h = self.home(x)
        for p in range(1, self.m + 1):
            i = (h + p - 1) % self.m
            count, y, _ = self.slots[i]
            if count == p and y == x:
                return ("found", i, p)
            if count < p or (count == p and y > x):
                return ("absent", i, p)
        return ("damaged", 0, 0)

    def find(self, x):
        if self.bad():
            return (1, 0, 0, 0, 0)
        end, i, p = self.walk(x)
        if end == "damaged":
            return (6, 0, 0, 0, 0)
        if end == "absent":
            return absent(i, p)
        return (0, i, self.slots[i][2], p, 0)

    def store(self, x, v):
        if self.bad():
            return (1, 0, 0, 0, 0)
        m = self.m
        end, s, p = self.walk(x)
        if end == "damaged":
            return (6, 0, 0, 0, 0)
        if end == "found":
            return (3, s, self.slots[s][2], p, 0)
        if self.live == m - 1:
            return (4, 0, 0, 0, 0)
        if p == m:
            return (6, 0, 0, 0, 0)
        run = []
        for k in range(m):
            i = (s + k) % m
            if self.slots[i][0] == 0:
                break
            run.append(i)
        else:
            return (6, 0, 0, 0, 0)
        if any(self.slots[i][0] >= m - 1 for i in run):
            return (6, 0, 0, 0, 0)
        moving = [self.slots[i] for i in run]
        for i, (count, y, w) in zip(run, moving):
            self.slots[(i + 1) % m] = (count + 1, y, w)
        self.slots[s] = (p, x, v)
        self.live += 1
        return (0, s, v, p, len(run))

    def remove(self, x):
        if self.bad():
            return (1, 0, 0, 0, 0)
        m = self.m
        end, s, p = self.walk(x)
        if end == "damaged":
            return (6, 0, 0, 0, 0)
        if end == "absent":
            return absent(s, p)
        others = [(s + k) % m for k in range(1, m)]
        if self.live == 0 or all(self.slots[i][0] >= 2 for i in others):
            return (6, 0, 0, 0, 0)
        entry = self.slots[s][2]
        hole, moved = s, 0
        for i in others:
            count, y, w = self.slots[i]
            if count <= 1:
                break
            self.slots[hole] = (count - 1, y, w)
            hole, moved = i, moved + 1
        self.slots[hole] = (0, 0, 0)
        self.live -= 1
        return (0, s, entry, p, moved)

    def change(self, x, v):
        if self.bad():
            return (1, 0, 0, 0, 0)
        end, i, p = self.walk(x)
        if end == "damaged":
            return (6, 0, 0, 0, 0)
        if end == "absent":
            return absent(i, p)
        count, y, _ = self.slots[i]
        self.slots[i] = (count, y, v)
        return (0, i, v, p, 0)

    def check(self):
        if self.bad():
            return (1, 0, 0, 0, 0)
        return (0 if self.proper() else 6, 0, 0, 0, 0)

    def proper(self):
        """The arrangement's own definition: every slot that a record passed, one by one."""
        m = self.m
        if sum(1 for count, _, _ in self.slots if count) != self.live:
            return False
        for i, (count, x, v) in enumerate(self.slots):
            if count == 0:
                if (x, v) != (0, 0):
                    return False
                continue
            h = self.home(x)
            if count > m or (h + count - 1) % m != i:
                return False
            for p in range(1, count):
                d, y, _ = self.slots[(h + p - 1) % m]
                if d == 0 or d < p or (d == p and not y < x):
                    return False
        return len({x for count, x, _ in self.slots if count}) == self.live


CALLS = {
    b"00": ((4, 2, 16), Register.clear),
    b"01": ((16, 16), Register.store),
    b"02": ((16,), Register.find),
    b"03": ((16,), Register.remove),
    b"04": ((16, 16), Register.change),
    b"05": ((), Register.check),
}


def frame(line):
    """The call and its numbers, or None where the line yields no frame."""
    fields = line.split(b" ")
    if fields[0] not in CALLS:
        return None
    widths, call = CALLS[fields[0]]
    if len(fields) != 1 + len(widths):
        return None
    numbers = []
    for field, width in zip(fields[1:], widths):
        if len(field) != width or any(byte not in b"0123456789abcdef" for byte in field):
            return None
        numbers.append(int(field, 16))
    return call, numbers


def answer(register, line):
    """The answer line to one line, without its newline."""
    known = frame(line)
    if known is None:
        fields = (7, 0, 0, 0, 0)
    else:
        call, numbers = known
        fields = call(register, *numbers)
    return b"%02x %04x %016x %04x %04x %04x\n" % (*fields, register.live)


def answers(data):
    """What the program writes for a whole input."""
    lines = data.split(b"\n")
    if lines[-1] == b"":
        lines.pop()
    register = Register()
    return b"".join(answer(register, line) for line in lines)
