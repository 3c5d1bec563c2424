#!/usr/bin/env python3
"""A model of the rules: ring, ledger, sources' lists and script. Run it: it checks every figure, example and picture of
docs/RULES.md and docs/DECISIONS.md, compares ring and ledger on random lists of calls, and prints what it checked."""
import random
import struct

READERS = 64
MOST_SLOTS = 1_048_576
GENERATIONS = 2 ** 64


class Ring:
    """Circular places, slots and registry, by the arithmetic of the rules. `wrong` names a faulty variant."""

    def __init__(self, size, slots, wrong=None, generation=0):
        self.size, self.slots, self.last, self.generation = size, [None] * slots, size - 1, generation
        self.readers, self.freed, self.used, self.wrong = [None] * READERS, [], 0, wrong

    def opened(self):
        return [n for n, r in enumerate(self.readers) if r]

    def distance(self, n):
        place, generation = self.readers[n]
        d = (self.size - self.last + place) % self.size
        if d == 0:
            return self.size if generation == self.generation or self.wrong == 'lap is no news' else 0
        return d

    def nearest(self):
        return min(self.opened(), key=self.distance, default=None)

    def register(self):
        if len(self.opened()) == READERS:
            return 4
        n = self.freed.pop() if self.freed else self.used
        self.used = max(self.used, n + 1)
        self.readers[n] = (self.last, self.generation)
        return ('reader', n)

    def close(self, n):
        if n >= READERS or not self.readers[n]:
            return 7
        self.readers[n] = None
        self.freed.append(n)
        return ('reader', n)

    def would_write(self):
        return bool(self.opened())

    def grow(self, size):
        by, p = size - self.size, self.last + 1 if self.last + 1 < self.size else 0
        for i in reversed(range(p, self.size)):
            self.slots[i + by] = self.slots[i]
        for n in self.opened():
            place, generation = self.readers[n]
            shifts = place > self.last or (place == self.last and generation != self.generation)
            if self.wrong == 'copies are live' and p == 0:
                shifts = False
            if shifts and self.wrong != 'wrapped readers unshifted':
                self.readers[n] = (place + by, generation)
        self.size = size

    def write(self, events, slot_count=None):
        if slot_count not in (None, len(self.slots)):
            return 5
        if not events:
            return ('wrote', 0, self.size)
        n = self.nearest()
        if n is None:
            if len(events) > self.size:
                return 8
        else:
            need = self.size - self.distance(n) + len(events)
            size = self.size
            while size < need:
                size *= 2
            if size > len(self.slots):
                return 9
            if size > self.size:
                self.grow(size)
        for e in events:
            self.last = (self.last + 1) % self.size
            self.slots[self.last] = e
        self.generation = (self.generation + 1) % GENERATIONS
        return ('wrote', len(events), self.size)

    def runs(self, n):
        unread = self.size - self.distance(n)
        q = (self.readers[n][0] + 1) % self.size
        first = min(unread, self.size - q)
        return q, self.slots[q:q + first], self.slots[:unread - first]

    def read(self, n, slot_count=None):
        if slot_count not in (None, len(self.slots)):
            return 5
        if n >= READERS or not self.readers[n]:
            return 7
        _, first, second = self.runs(n)
        self.readers[n] = (self.last, self.generation)
        return ('read', first + second)


class Ledger:
    """What a channel means to its users."""

    def __init__(self, size, slots):
        self.size, self.slots, self.unread, self.freed, self.used = size, slots, [None] * READERS, [], 0

    def opened(self):
        return [n for n, l in enumerate(self.unread) if l is not None]

    def register(self):
        if len(self.opened()) == READERS:
            return 4
        n = self.freed.pop() if self.freed else self.used
        self.used = max(self.used, n + 1)
        self.unread[n] = []
        return ('reader', n)

    def close(self, n):
        if n >= READERS or self.unread[n] is None:
            return 7
        self.unread[n] = None
        self.freed.append(n)
        return ('reader', n)

    def would_write(self):
        return bool(self.opened())

    def write(self, events, slot_count=None):
        if slot_count not in (None, self.slots):
            return 5
        if not events:
            return ('wrote', 0, self.size)
        if not self.opened():
            return 8 if len(events) > self.size else ('wrote', len(events), self.size)
        need = max(len(self.unread[n]) for n in self.opened()) + len(events)
        size = self.size
        while size < need:
            size *= 2
        if size > self.slots:
            return 9
        self.size = size
        for n in self.opened():
            self.unread[n] = self.unread[n] + events
        return ('wrote', len(events), size)

    def read(self, n, slot_count=None):
        if slot_count not in (None, self.slots):
            return 5
        if n >= READERS or self.unread[n] is None:
            return 7
        out, self.unread[n] = self.unread[n], []
        return ('read', out)


def opening(size, slots, following=0):
    for number, holds in ((1, size < 2), (2, slots > MOST_SLOTS), (3, size > slots), (12, following > 4_294_967_295)):
        if holds:
            return number
    return ('grant', following)


def records(script):
    """The script's records with their places, or (fault, place)."""
    found, at = [], 0
    if not script:
        return (13, 0)
    while at < len(script):
        rest = script[at:]
        mark = rest[:2]
        if (mark == b'CH') != (at == 0):
            return (13, at)
        if len(rest) < 2:
            return (15, at)
        if mark not in (b'CH', b'RG', b'WW', b'WR', b'RD', b'CL'):
            return (14, at)
        body = {b'CH': 2, b'RG': 0, b'WW': 0, b'RD': 1, b'CL': 1}.get(mark)
        if body is None:
            body = 1 + 4 * rest[2] if len(rest) > 2 else 1
        if len(rest) < 2 + body:
            return (15, at)
        found.append((at, mark.decode(), rest[2:2 + body]))
        at += 2 + body
    return found


def run_script(script, room, store=Ring):
    """(output, fault or None, place or None)"""
    found = records(script)
    if isinstance(found, tuple):
        return (b'', *found)
    out, ring = b'', None
    for at, mark, body in found:
        if mark == 'CH':
            size = struct.unpack('>H', body)[0]
            answer = opening(size, 1024)
            if not isinstance(answer, int):
                ring, answer = store(size, 1024), str(size)
        elif mark == 'RG':
            answer = ring.register()
        elif mark == 'WW':
            answer = str(int(ring.would_write()))
        elif mark == 'WR':
            answer = ring.write(list(struct.unpack('>%dI' % body[0], body[1:])))
        elif mark == 'RD':
            answer = ring.read(body[0])
        else:
            answer = ring.close(body[0])
        if isinstance(answer, int):
            text = 'no %d' % answer
        elif isinstance(answer, str):
            text = answer
        elif answer[0] == 'reader':
            text = str(answer[1])
        elif answer[0] == 'wrote':
            text = '%d %d' % answer[1:]
        else:
            text = '%d:' % body[0] + ''.join(' %d' % e for e in answer[1])
        line = ('%s %s\n' % (mark, text)).encode()
        if len(out) + len(line) > room:
            return (out, 16, at)
        out += line
        if mark == 'CH' and isinstance(answer, int):
            break
    return (out, None, None)


def ch(n): return b'CH' + struct.pack('>H', n)
def wr(*e): return b'WR' + bytes([len(e)]) + b''.join(struct.pack('>I', x) for x in e)
def rd(n): return b'RD' + bytes([n])
def cl(n): return b'CL' + bytes([n])
RG, WW = b'RG', b'WW'


def known(wrong=None):
    """The known answers that concern a ring, in the order of docs/RULES.md."""
    got = {1: opening(1, 8), 2: opening(2, 1)}
    r = Ring(2, 2, wrong); r.register(); r.write([7, 8]); got[3] = (r.read(0)[1], r.size)
    r = Ring(2, 3, wrong); r.register(); r.write([7, 8]); got[4] = (r.write([9]), r.read(0)[1])
    r = Ring(2, 4, wrong); r.register(); r.write([7, 8]); r.write([9]); got[5] = (r.read(0)[1], r.size)
    r = Ring(4, 8, wrong); r.write([1, 2, 3]); r.register(); r.write([4, 5]); r.write([6, 7, 8]); got[6] = (r.read(0)[1], r.size)
    r = Ring(4, 4, wrong); r.register(); r.register(); r.close(1); r.close(0); got[7] = (r.register()[1], r.register()[1])
    r = Ring(4, 4, wrong); r.register(); r.write([7]); r.read(0); r.write([]); got[8] = r.read(0)[1]
    return got


def ticket(number, today, legs):
    if len(legs) > 256:
        return 11
    live = [l for l in legs if not l < today]
    return [('Header', number, len(live))] + [('Leg', l) for l in live] + [('Done', number)]


def drain(buffer, count):
    return 10 if count > len(buffer) else buffer[:count]


# known answers
k = known()
assert k == {1: 1, 2: 3, 3: ([7, 8], 2), 4: (9, [7, 8]), 5: ([7, 8, 9], 4), 6: ([4, 5, 6, 7, 8], 8), 7: (0, 1), 8: []}, k
t = ticket(1, 100, [100, 101, 99, 101]); assert t[0] == ('Header', 1, 3) and len(t) == 5
t = ticket(1, 100, [99]); assert t == [('Header', 1, 0), ('Done', 1)]
assert len(ticket(1, 0, [0] * 256)) == 258 and ticket(1, 0, [0] * 257) == 11
assert drain([1, 2, 3], 3) == [1, 2, 3] and drain([1, 2, 3], 4) == 10

# rings that go wrong late
wrongs = {w: known(w) for w in ('wrapped readers unshifted', 'lap is no news', 'copies are live')}
assert wrongs['wrapped readers unshifted'][6] == ([8], 8)
assert wrongs['lap is no news'][3] == ([], 2)
assert wrongs['copies are live'][5] == ([9], 4)
for w, got in wrongs.items():
    print(w + ':', {c: got[c] for c in got if got[c] != k[c]})

# pictures: a read that wraps, then growth
r = Ring(4, 8); r.write([1, 2, 3]); r.register(); r.write([4, 5])
print('size 4:', r.slots, 'last', r.last, 'reader', r.readers[0], 'distance', r.distance(0), 'runs', r.runs(0))
assert (r.slots[:4], r.last, r.readers[0][0], r.distance(0), r.runs(0)) == ([5, 2, 3, 4], 0, 2, 2, (3, [4], [5]))
before = list(r.slots); r.grow(8)
assert r.slots == [5, 2, 3, 4, None, 2, 3, 4] and r.readers[0][0] == 6 and r.distance(0) == 6
print('grown:', r.slots, 'last', r.last, 'reader', r.readers[0], 'distance', r.distance(0), 'runs', r.runs(0))
assert r.runs(0) == (7, [4], [5])
r.write([6, 7, 8])
print('stored:', r.slots, 'last', r.last, 'reader', r.readers[0], 'distance', r.distance(0), 'runs', r.runs(0))
assert (r.slots, r.last, r.distance(0), r.runs(0)) == ([5, 6, 7, 8, None, 2, 3, 4], 3, 3, (7, [4], [5, 6, 7, 8]))
r = Ring(8, 8); r.write([1, 2, 3, 4, 5, 6]); r.register(); r.write([7, 8, 9, 10, 11])
print('size 8:', r.slots, 'last', r.last, 'reader', r.readers[0], 'distance', r.distance(0), 'runs', r.runs(0))
assert (r.slots, r.last, r.readers[0][0], r.distance(0), r.runs(0)) == ([9, 10, 11, 4, 5, 6, 7, 8], 2, 5, 3, (6, [7, 8], [9, 10, 11]))
r = Ring(2, 4); r.register(); r.write([7, 8])
assert (r.slots, r.last, r.readers[0][0], r.distance(0)) == ([7, 8, None, None], 1, 1, 0)
r.grow(4); assert (r.slots, r.last, r.readers[0][0], r.distance(0), r.runs(0)) == ([7, 8, 7, 8], 1, 3, 2, (0, [7, 8], []))
r.write([9]); assert (r.slots, r.last, r.runs(0)) == ([7, 8, 9, 8], 2, (0, [7, 8, 9], []))
print('growth from place 0:', r.slots, 'last', r.last, 'reader', r.readers[0], 'runs', r.runs(0))

# the example script
script = ch(2) + RG + wr(7, 8) + wr(9) + rd(0) + rd(0) + cl(0) + WW + wr(1, 2, 3, 4, 5) + RG
want = b'CH 2\nRG 0\nWR 2 2\nWR 1 4\nRD 0: 7 8 9\nRD 0:\nCL 0\nWW 0\nWR no 8\nRG 0\n'
assert run_script(script, 65536) == (want, None, None) == run_script(script, 65536, Ledger)
print('example script:', len(script), 'bytes,', len(want), 'bytes of lines')

# faults and their order, and refusals as lines
B = 65536
for given, expected in [
    (b'', (b'', 13, 0)), (b'Z', (b'', 13, 0)), (b'C', (b'', 13, 0)), (b'XX', (b'', 13, 0)), (b'RG', (b'', 13, 0)),
    (b'CH', (b'', 15, 0)), (b'CH\0', (b'', 15, 0)),
    (ch(2) + b'CH', (b'', 13, 4)), (ch(2) + ch(2), (b'', 13, 4)), (ch(2) + b'XX', (b'', 14, 4)), (ch(2) + b'XXRG', (b'', 14, 4)),
    (ch(2) + b'Z', (b'', 15, 4)), (ch(2) + b'C', (b'', 15, 4)), (ch(2) + RG + b'WR', (b'', 15, 6)), (ch(2) + b'WR\1\0\0\0', (b'', 15, 4)),
    (ch(2) + b'RD', (b'', 15, 4)), (ch(2) + b'XX' + ch(2), (b'', 14, 4)), (ch(2) + b'WR\2' + b'XX' + ch(2), (b'', 15, 4)),
    (ch(1) + b'XX', (b'', 14, 4)), (ch(1), (b'CH no 1\n', None, None)), (ch(1) + RG, (b'CH no 1\n', None, None)),
    (ch(1025), (b'CH no 3\n', None, None)), (ch(1024), (b'CH 1024\n', None, None)),
    (ch(2) + wr(1, 2, 3), (b'CH 2\nWR no 8\n', None, None)), (ch(2) + rd(0), (b'CH 2\nRD no 7\n', None, None)),
    (ch(2) + rd(255), (b'CH 2\nRD no 7\n', None, None)), (ch(2) + RG + cl(0) + cl(0), (b'CH 2\nRG 0\nCL 0\nCL no 7\n', None, None)),
    (ch(2) + wr(), (b'CH 2\nWR 0 2\n', None, None)),
]:
    assert run_script(given, B) == expected, (given, run_script(given, B))
assert run_script(ch(2), 5) == (b'CH 2\n', None, None) and run_script(ch(2), 4) == (b'', 16, 0)
long = ch(2) + RG + wr(7, 88888) + rd(0) + WW
whole = run_script(long, B)[0]
assert whole == b'CH 2\nRG 0\nWR 2 2\nRD 0: 7 88888\nWW 1\n'
assert run_script(long, len(whole) - 6) == (b'CH 2\nRG 0\nWR 2 2\n', 16, 17) and len(whole) - 6 == 30
print('line cut:', run_script(long, len(whole) - 6), 'room', len(whole) - 6)
s = ch(2) + RG * 65
assert run_script(s, B)[0].endswith(b'RG 63\nRG no 4\n')
s = ch(1024) + RG * 64 + wr(*[4294967295] * 255) * 4 + wr(*[4294967295] * 4) + rd(63)
line = run_script(s, B)[0].splitlines(keepends=True)[-1]
print('longest RD line:', len(line)); assert len(line) == 11271
s9 = ch(1024) + RG + wr(*[1] * 255) * 4 + wr(*[1] * 5)
assert run_script(s9, B)[0].endswith(b'WR no 9\n')
s9 = ch(513) + RG + wr(*[1] * 255) * 2 + wr(1, 2, 3) + wr(1)
assert run_script(s9, B)[0].endswith(b'WR 3 513\nWR no 9\n')

# the cut at 65,536 bytes
s = ch(2) + RG * 32766; assert len(s) == 65536 and run_script((s + b'XX')[:B], 10 ** 6)[1] is None
s = ch(2) + rd(0) + RG * 32764 + RG; assert run_script(s[:B], 10 ** 6) == (b'', 15, 65535)

# an output of more than 31 bits: one round is run, and its length counted up
head = ch(1024) + RG * 64
round_ = wr(*[4294967295] * 255) * 4 + b''.join(rd(n) for n in range(64))
opened, once, twice = (len(run_script(head + round_ * n, 10 ** 7)[0]) for n in range(3))
assert once - opened == twice - once == 718_566 and opened + 2988 * 718_566 < 2 ** 31 <= opened + 2989 * 718_566

# openings
assert opening(2, 2, 4_294_967_295) == ('grant', 4_294_967_295) and opening(2, 2, 4_294_967_296) == 12
assert opening(1, 0, 4_294_967_296) == 1 and opening(2, MOST_SLOTS + 1, 2 ** 32) == 2 and opening(3, 2, 2 ** 32) == 3
assert opening(MOST_SLOTS + 2, MOST_SLOTS + 1) == 2 and opening(64, 63) == 3

# an empty write, a wrong count of slots, a full lap, and the last generation
r = Ring(2, 2); r.register(); assert r.write([], 3) == 5 and r.write([1], 3) == 5 and r.read(9, 3) == 5 and r.read(9) == 7
r = Ring(2, 2); r.register(); r.write([7, 8]); r.read(0); g = r.generation; r.write([]); assert r.generation == g and r.read(0)[1] == []
r = Ring(2, 2, generation=GENERATIONS - 1); r.register(); r.write([7, 8]); assert r.generation == 0 and r.read(0)[1] == [7, 8] and r.read(0)[1] == []

# given-up reader, refused read, swapped slots, equal channels at different last places
r = Ring(2, 2); r.register(); r.write([7, 8]); assert r.write([9]) == 9
r = Ring(2, 2); r.register(); r.write([7]); assert r.read(0, 3) == 5 and r.read(0) == ('read', [7])
a, b = Ring(2, 2), Ring(2, 2); a.register(); b.register(); a.write([7, 8]); b.write([1, 2])
a.slots, b.slots = b.slots, a.slots; assert a.read(0)[1] == [1, 2]
a, b = Ring(4, 4), Ring(4, 4); a.write([1]); assert a.last != b.last and a.write([]) == b.write([])

# circular places
assert ((3 + 2) % 4, (4 - 2 + 3) % 4, (4 - 3 + 1) % 4) == (1, 1, 2)

# sums of writes end at one size
r, s = Ring(3, 96), Ring(3, 96); r.register(); s.register(); r.write([1] * 4); r.write([1] * 3); s.write([1] * 7)
assert r.size == s.size == 12

# ring against ledger
rnd, calls = random.Random(1), 0
for turn in range(30_000):
    size = rnd.randint(2, 6); slots = rnd.randint(size, 40)
    ring, ledger = Ring(size, slots, generation=rnd.choice([0, GENERATIONS - 2])), Ledger(size, slots)
    for _ in range(rnd.randint(0, 30)):
        calls += 1
        kind = rnd.randrange(10)
        if kind < 2:
            a, b = ring.register(), ledger.register()
        elif kind < 6:
            e = [rnd.randrange(100) for _ in range(rnd.randrange(8))]; c = rnd.choice([None] * 9 + [slots + 1])
            a, b = ring.write(e, c), ledger.write(e, c)
        elif kind < 9:
            n = rnd.randrange(4); a, b = ring.read(n), ledger.read(n)
        else:
            n = rnd.randrange(4); a, b = ring.close(n), ledger.close(n)
        assert a == b, (a, b)
        assert ring.size == ledger.size and ring.freed == ledger.freed and ring.used == ledger.used
        for n in range(READERS):
            assert (ring.readers[n] is None) == (ledger.unread[n] is None)
            if ring.readers[n]:
                q, x, y = ring.runs(n)
                assert x + y == ledger.unread[n] and len(x) + len(y) == ring.size - ring.distance(n)
print('ring against ledger:', calls, 'calls, no difference')
