#!/usr/bin/env python3
"""Writes the section `builder` of the list that the program `replay` is run on, and what it has to answer (see sections.py).

The answers, and what each of the seven runs holds after a call, come from a reading of the rules in Python, rules.py, that shares
nothing with the code or its definitions. Run it by hand when the list changes; the tests only replay what it wrote.
"""
import random, struct
import sections
from rules import *

# how long the program's arrays are: each run of bytes, each run of numbers
MOST_BYTES, MOST_NUMBERS = 140000, 35000
lines, answers = [], []

# ---- the commands

def case(command, *fields, say=''):
    lines.append(' '.join([command] + [f if isinstance(f, str) else str(f) for f in fields]))
    answers.append((lines[-1][:1] + ' ' + say).strip())

def long(n):
    """A number of up to 8 bytes, least first."""
    return field(n.to_bytes(8, 'little').rstrip(b'\0'))

def filter_code(bits):
    return 0 if bits is None else bits + 1

def lengths_of(room, **more):
    """Runs that just suffice for a room, but those named."""
    l = [room, room, room] + [room // 4] * 4
    for name, n in more.items():
        l[RUNS.index(name)] = n
    return l

RUNS = ['out', 'index', 'filters', 'restarts', 'index_restarts', 'offsets', 'hashes']
PAIRS = [(0, 1), (0, 2), (1, 2), (3, 4), (3, 5), (3, 6), (4, 5), (4, 6), (5, 6)]
LIMITS = {0: (1, 1024), 1: (8, 65536), 2: (0, 65)}
INTERVAL, BLOCK_SIZE, FILTER, LENGTHS, WRITTEN, FILTERED, MADE, WAITING, FINISHED = 0, 1, 2, 10, 20, 21, 22, 23, 24
OPEN, INDEX = 30, 40
BYTES, RESTARTS, SINCE, LEN, FIRST = 1, 2, 3, 4, 5

def patterns(nb, nw):
    return [bytes(p ^ i % 251 for i in range(nb)) for p in (0x11, 0x53, 0x95)] + \
           [[p ^ i % 65536 for i in range(nw)] for p in (0xa0000000, 0xb0000000, 0xc0000000, 0xd0000000)]

def options_fit(interval, block_size, bits):
    return 1 <= interval <= 1024 and 8 <= block_size <= 65536 and (bits is None or 1 <= bits <= 64)

def addition_fits(word, edition, kind, value):
    return 1 <= len(word) <= 1024 and len(value) <= 32768 and edition < 2 ** 56 and kind <= 1

def block_numbers(b, pairs):
    entry_bytes, restarts = b.packed(pairs)
    since = (len(pairs) - 1) % b.interval + 1 if pairs else b.interval
    return [b.interval, len(entry_bytes), len(restarts), since, pairs[-1][0] if pairs else b'']

class Rig:
    """Seven runs, of which the first parts are lent, and a builder's state."""
    def __init__(self, nb, nw=None):
        nw = nb // 4 if nw is None else nw
        assert nb <= MOST_BYTES and nw <= MOST_NUMBERS
        self.nb, self.nw = nb, nw
        case('W', nb, nw)
        self.runs = patterns(nb, nw)
        self.b, self.state, self.true = None, None, False

    # -- the state

    def numbers(self, finished=False):
        """The fields of the state that stands for the additions accepted."""
        b, s = self.b, dict(enumerate(self.options))
        s.update(zip(range(10, 17), self.given))
        s.update({WRITTEN: len(b.out.out), FILTERED: sum(map(len, b.filters)), MADE: len(b.filters), WAITING: len(b.waiting), FINISHED: int(finished)})
        for at, pairs in ((OPEN, b.open), (INDEX, b.index)):
            ns = block_numbers(b, pairs)
            s.update(zip(range(at, at + 4), ns))
            s[at + LEN] = len(ns[4])
            s[at + FIRST] = ns[4]
        return s

    def tell(self):
        """Shows the state."""
        s = self.state
        def block(at):
            return '%d %d %d %d %s' % tuple([s[at + i] for i in range(4)] + [shown(s[at + FIRST])])
        case('B', say=' '.join(str(s[i]) for i in (0, 1, 2) + tuple(range(10, 17)) + (WRITTEN,)) + ' %s %s ' % (block(OPEN), block(INDEX))
             + ' '.join(str(s[i]) for i in (FILTERED, MADE, WAITING, FINISHED)))
        return self

    def set(self, at, n):
        case('P', at, long(n))
        self.state[at] = n
        self.true = False
        return self

    def keep(self):
        case('K')
        self.kept = dict(self.state), self.b, self.true
        return self

    def back(self):
        """To the state kept; where an addition was accepted since, or a finish, it is not the latest one."""
        case('k')
        self.lost = self.lost or self.b is not self.kept[1] or self.done
        self.state, self.b, self.true = dict(self.kept[0]), self.kept[1], self.kept[2] and not self.lost
        return self

    # -- the runs

    def length(self, run, n):
        assert n <= (self.nb if run < 3 else self.nw)
        case('N', run, n)
        self.lent[run] = n
        return self

    def swap(self, i, j):
        """Two runs change places, with their lengths."""
        case('X', PAIRS.index((i, j)))
        self.runs[i], self.runs[j] = self.runs[j], self.runs[i]
        a, b = self.lent[i], self.lent[j]
        if a != b:
            self.length(i, b).length(j, a)
        self.moved = None if self.moved == (i, j) else (i, j)
        return self

    def sums(self):
        assert not self.lost
        case('R', say=' '.join('%08x' % crc(r if isinstance(r, bytes) else struct.pack('<%dI' % len(r), *r)) for r in self.runs))
        return self

    def hold(self, parts):
        for i, part in enumerate(parts):
            self.runs[i] = part + self.runs[i][len(part):]

    # -- the calls

    def start(self, interval, block_size, bits, lengths):
        """In runs of such lengths; a number stands for those that just suffice for a room."""
        lengths = lengths_of(lengths) if isinstance(lengths, int) else list(lengths)
        assert all(n <= (self.nb if i < 3 else self.nw) for i, n in enumerate(lengths))
        room = min(lengths[0], 16777216)
        no = None
        if not options_fit(interval, block_size, bits):
            no = 1
        elif room < (97 if bits is None else 123) or min(lengths[1:3]) < room or min(lengths[3:]) < room // 4:
            no = 2
        case('S', interval, block_size, filter_code(bits), *lengths, say='refused %d' % no if no else 'ok')
        self.lent, self.room, self.lost, self.done, self.moved, self.accepted = list(lengths), room, False, False, None, []
        if no:
            # what comes with the refusal is no builder: neither addition nor finish is taken
            self.options, self.given, self.b, self.true = (0, 0, 0), [0] * 7, Building(0, 0, 0), False
        else:
            self.options, self.given, self.true = (interval, block_size, filter_code(bits)), list(lengths), True
            self.b = Building(interval, block_size, bits or 0)
        self.state = self.numbers()
        return self

    def early(self, fits):
        """6, 2 and 3, which are exact for every state."""
        s, l = self.state, self.lent
        if s[FINISHED]:
            return 6
        sizes = ((s[WRITTEN] + s[OPEN + BYTES], l[0]), (s[INDEX + BYTES], l[1]), (s[FILTERED], l[2]), (s[OPEN + RESTARTS], l[3]), (s[INDEX + RESTARTS], l[4]),
                 (s[MADE], l[5]), (s[WAITING], l[6]), (s[OPEN + LEN], 1032), (s[INDEX + LEN], 1032))
        code = s[FILTER]
        if l != [s[LENGTHS + i] for i in range(7)] or not options_fit(s[INTERVAL], s[BLOCK_SIZE], None if code == 0 else code - 1) or any(n > most for n, most in sizes):
            return 2
        return None if fits else 3

    def add(self, word, edition, kind=1, value=b'', want='any'):
        line = field(word), long(edition), kind, field(value)
        key = internal(word, edition, kind)
        no, next = self.early(addition_fits(word, edition, kind, value)), None
        if no is None and not (self.true and self.moved is None and not self.lost):
            case('a', *line, say='allowed')
            self.lost, self.true = True, False
            return self
        if no is None:
            if self.accepted and not below(self.accepted[-1][0], key):
                no = 4
            else:
                next = self.b.add(key, value)
                if len(next.table()) > self.room:
                    no = 5
        assert want == 'any' or want == no, (want, no)
        case('A', *line, say='refused %d' % no if no else 'ok')
        if no is None:
            self.b = next
            self.accepted.append((key, value))
            self.state = self.numbers()
            self.hold(next.runs())
        return self

    def finish(self, want='any'):
        no = self.early(True)
        if no is None and not (self.true and self.moved is None and not self.lost):
            case('f', say='allowed')
            self.lost, self.true = True, False
            return self
        if no is not None:
            assert want == 'any' or want == no, (want, no)
            case('F', say='refused %d' % no)
            return self
        t = self.b.table()
        assert want == 'any' or want == len(t), (want, len(t))
        assert len(t) <= self.room
        assert len(t) > 20000 or full_check(t) is None and [(e[2], e[4]) for e in plain_reading(t)] == self.accepted
        met = b''.join(struct.pack('<Q', len(s)) + s for pair in self.accepted for s in pair)
        case('F', say='size %d %s pass of %d %08x' % (len(t), t.hex() if len(t) <= 300 else '%08x' % crc(t), len(self.accepted), crc(met)))
        self.hold(self.b.runs_finished())
        self.state, self.done = self.numbers(True), True
        return self

    def all(self, additions, each=True):
        for a in additions:
            n = len(self.accepted)
            self.add(*a)
            if each and len(self.accepted) > n:
                self.sums()
        return self

def rig(interval, block_size, bits, lengths, slack=13):
    l = lengths_of(lengths) if isinstance(lengths, int) else lengths
    return Rig(max(l[:3]) + slack, max(l[3:]) + slack // 3).start(interval, block_size, bits, l)

def size_of(interval, block_size, bits, additions):
    return len(write_table(interval, block_size, bits or 0, [(internal(w, e, k), v) for w, e, k, v in additions]))

def taken(additions):
    """Those within the limits and above the last one."""
    keys, out = [], []
    for x in additions:
        key = internal(*x[:3]) if addition_fits(*x) else None
        if key and (not keys or below(keys[-1], key)):
            keys.append(key)
            out.append(x)
    return out

def whole(interval, block_size, bits, lengths, additions, each=True, want='any'):
    """A table from start to end; without lengths, in a room with some bytes left."""
    lengths = size_of(interval, block_size, bits, taken(additions)) + 50 if lengths is None else lengths
    return rig(interval, block_size, bits, lengths).all(additions, each).finish(want).sums()

def exact(interval, block_size, bits, additions):
    """In an output that just suffices, and in one of a byte less."""
    n = size_of(interval, block_size, bits, additions)
    whole(interval, block_size, bits, n, additions, want=n).tell().finish(6).add(b'\xff\xff', 1, want=6)
    r = rig(interval, block_size, bits, n - 1).all(additions[:-1], False).add(*additions[-1], want=5).sums().tell()
    return r.add(*additions[-1], want=5).finish().sums()

last = last_edition

# ---- the worked cases

a, ab = (b'a', 1, 1, b'x'), (b'ab', 1, 1, b'y')
for bits in (None, 10):
    empty = 97 if bits is None else 123
    whole(16, 4096, bits, empty, [], want=empty).tell().finish(6).add(*a, want=6).sums()
    for n in (0, 1, empty - 1):
        rig(16, 4096, bits, n).sums().tell().add(*a, want=2).finish(2).sums()
    for more in (1, 2, 3, 4):
        whole(16, 4096, bits, empty + more, [a], want=empty).sums()
    for size in (20, 21):
        r = rig(16, size, bits, 400).tell()
        r.add(*a).sums().tell()
        assert len(r.b.block(r.b.open)) == 21
        r.add(*ab).sums().tell()
        assert len(r.b.block(r.b.open)) == (34 if size == 21 else 22)
        r.finish().sums().tell()
        exact(16, size, bits, [a, ab])
    for n, filters in ((4091, 2), (4090, 1)):
        one = (b'a', 1, 1, b'v' * (n - 21))
        r = rig(16, 8, bits, 5000).add(*one).sums()
        assert len(r.b.block(r.b.open)) == n and len(r.b.closed().filters) == filters
        r.finish().sums()
        r = rig(16, 8, bits, 5000).add(*one).add(*ab).sums()
        assert len(r.b.filters) == filters
        r.finish().sums()
    for after, index in ((b'tin', b'tf\x01' + b'\xff' * 7), (b'teb', internal(b'tea', 9, 1)), (b'tea\0', internal(b'tea', 9, 1))):
        r = rig(16, 8, bits, 400).add(b'tea', 9).add(after, 2).sums().tell()
        assert r.b.index[0][0] == index
        r.finish().sums()

# refusal 5 is of the table finished right after the entry, and a longer table can be smaller
for bits in (None, 10):
    first = (b'a' * 1024, 5, 1, b'')
    room = size_of(16, 8, bits, [first])
    assert size_of(16, 8, bits, [first, (b'b', 5, 1, b'')]) > room >= size_of(16, 8, bits, [first, (b'c', 5, 1, b'')])
    r = rig(16, 8, bits, room).add(*first).sums().add(b'b', 5, want=5).tell().sums().add(b'c', 5, want=None).sums().add(b'b', 5, want=4)
    r.finish(size_of(16, 8, bits, [first, (b'c', 5, 1, b'')])).sums()

# ---- rooms that are just full

few = [(b'a', 5, 1, b'1'), (b'a', 3, 0, b''), (b'ab', 9, 1, b'2' * 20), (b'b', 1, 1, b'3'), (b'bcd', 7, 1, b'4' * 9), (b'bce', 7, 0, b''), (b'd', 2, 1, b'5' * 30)]
for bits in (None, 1, 10, 64):
    for interval, size in ((1, 8), (2, 8), (2, 40), (3, 60), (16, 30), (16, 65536), (1, 65536)):
        for n in (1, 2, len(few)) if bits in (None, 10) else (len(few),):
            exact(interval, size, bits, few[:n])
for bits in (None, 10):
    for i in range(1, 9):
        # each value a byte longer, so that varints and cuts fall on both sides
        exact(16, 64, bits, [(b'k%d' % j, 5, 1, b'v' * (i + 7 * j)) for j in range(6)])
    for n in (126, 127, 128, 129):
        exact(16, 8, bits, [(b'k', 5, 1, b'v' * n), (b'l', 5, 1, b'')])
        exact(16, 8, bits, [(b'k' * n, 5, 1, b''), (b'l', 5, 1, b'')])

# ---- refusals of start: 1 before 2, each limit on both sides

room = 130
for interval in (0, 1, 2, 1024, 1025, 2 ** 40):
    whole(interval, 64, None, room, [a]) if 1 <= interval <= 1024 else rig(interval, 64, None, room).sums().tell().add(*a, want=2).finish(2)
for size in (0, 7, 8, 9, 65535, 65536, 65537, 2 ** 40):
    whole(16, size, None, room, [a]) if 8 <= size <= 65536 else rig(16, size, None, room).sums().tell().add(*a, want=2).finish(2)
for bits in (None, 0, 1, 2, 63, 64, 65, 256, 2 ** 32 - 1):
    whole(16, 64, bits, 200, [a]) if bits is None or 1 <= bits <= 64 else rig(16, 64, bits, 200).sums().tell().add(*a, want=2).finish(2)
r = Rig(140, 40)
for out in (97, 98, 99, 100, 123, 124, 125, 126, 127):
    for run in RUNS[1:]:
        least = lengths_of(out)[RUNS.index(run)]
        for n in (least - 1, least, least + 1, 0):
            for bits in (None, 10):
                r.start(16, 64, bits, lengths_of(out, **{run: n}))
r.sums()
for out in (0, 96, 97, 122, 123):
    for bits in (None, 10):
        r.start(16, 64, bits, [out] + [140] * 2 + [40] * 4).finish()
short = [lengths_of(room)] + [[n - (i == j) for j, n in enumerate(lengths_of(room))] for i in range(1, 7)] + [lengths_of(96), [0] * 7]
for l in short:
    for o in ((0, 64, 10), (1025, 64, 10), (16, 7, 10), (16, 65537, 10), (16, 64, 0), (16, 64, 65), (0, 7, 0), (16, 64, 10)):
        r.start(*o, l)
r.sums().tell().add(*a).finish()

# ---- refusals of add and finish, alone and two at once: 6, 2, 3, 4, 5

def near_full(extra=0, **more):
    """A few additions in a room with so many bytes left."""
    n = size_of(2, 40, 10, few[:4]) + extra
    return rig(2, 40, 10, lengths_of(n, **more)).all(few[:4], False).sums()

above = (b'c', 5)
wrong3 = [(b'', 5, 1, b''), (b'w' * 1025, 5, 1, b''), (b'c', 2 ** 56, 1, b''), (b'c', 2 ** 64 - 1, 1, b''), (b'c', 5, 2, b''), (b'c', 5, 255, b''), (b'c', 5, 1, b'v' * 32769)]
wrong4 = [(b'b', 1, 1, b''), (b'b', 1, 0, b''), (b'b', 2, 1, b''), (b'a', 9, 1, b''), (b'a', 0, 1, b''), (b'ab', 0, 0, b'')]
wrong34 = [(b'', 5, 2, b''), (b'a', 2 ** 56, 1, b''), (b'b', 1, 2, b''), (b'a' * 1025, 1, 1, b''), (b'a', 5, 1, b'v' * 32769)]
wrong5 = [(b'c', 5, 1, b'v' * 60), (b'c' * 1024, 5, 1, b'v' * 32768), (b'c', last, 0, b'v' * 20)]
wrong45 = [(b'a', 1, 1, b'v' * 60), (b'b', 1, 1, b'v' * 32768)]
wrong35 = [(b'c', 5, 1, b'v' * 32769), (b'c', 2 ** 56, 1, b'v' * 60), (b'c' * 1025, 5, 1, b'v' * 60)]
r = near_full(12)
for n, wrong in ((3, wrong3), (4, wrong4), (3, wrong34), (5, wrong5), (4, wrong45), (3, wrong35)):
    for x in wrong:
        r.add(*x, want=n)
r.sums().tell()
for run in range(7):
    n = r.lent[run]
    for other in (n - 1, n + 1, 0):
        r.length(run, other).add(*above, want=2).finish(2)
        for wrong in (wrong3, wrong4, wrong34, wrong5, wrong45, wrong35):
            r.add(*wrong[run % len(wrong)], want=2)
    r.length(run, n)
r.sums().add(b'b', 0, 0, want=None).sums().finish().sums()
for wrong in (wrong3, wrong4, wrong34, wrong5, wrong45, wrong35):
    for x in wrong:
        r.add(*x, want=6)
for run in range(7):
    n = r.lent[run]
    r.length(run, n - 1).add(*above, want=6).add(*wrong3[run], want=6).add(*wrong5[run % 3], want=6).finish(6).length(run, n)
r.set(WRITTEN, 2 ** 64 - 1).set(INTERVAL, 0).add(*above, want=6).finish(6)
near_full().keep().set(FINISHED, 1).add(*above, want=6).finish(6).add(*wrong3[0], want=6).back().add(*above, want=5).finish().sums()

# each limit of an addition on both sides
wide = [(b'\0', 0, 0, b''), (b'a', last, 1, b'v'), (b'a', 2 ** 56, 1, b'v'), (b'a', last - 1, 1, b''), (b'b' * 1024, 5, 1, b''), (b'b' * 1025, 5, 1, b''), (b'c', 5, 1, b'v' * 32768), (b'd', 5, 1, b'v' * 32769), (b'd', 5, 2, b''), (b'd', 5, 255, b''),
        (b'', 5, 1, b''), (b'd', 5, 0, b'w'), (b'\xff' * 1024, last, 1, b''), (b'\xff' * 1024, last, 0, b''), (b'\xff' * 1024, 0, 0, b''), (b'\xff' * 1024, 0, 1, b'')]
for bits in (None, 10):
    for size in (8, 65536):
        whole(16, size, bits, None, wide, False)

# the same word and edition with another kind; the first key after a cut
for size in (8, 65536):
    for bits in (None, 10):
        r = rig(16, size, bits, 500).add(b'm', 5, 1, b'1').sums()
        for kind in (0, 1):
            r.add(b'm', 5, kind, want=4)
        r.add(b'm', 6, want=4).add(b'l', 9, want=4).add(b'lz', 1, want=4).add(b'm', last, 0, want=4).sums()
        r.add(b'm', 4, 0, b'', want=None).sums().add(b'm', 4, 1, want=4).add(b'm', 5, want=4).add(b'm', 0, 1, b'2', want=None).add(b'm', 0, 0, want=4).add(b'm\0', last, 1, b'3', want=None).sums()
        r.add(b'm', 0, want=4).finish().sums().finish(6).add(b'z', 1, want=6)

# ---- another table in the same runs, and runs put aside and taken back

r = whole(2, 40, 10, 400, few)
r.start(16, 8, None, lengths_of(300)).sums().all(few[:3]).finish().sums()
r.start(16, 8, 64, lengths_of(399, hashes=103)).sums().all(few).finish().sums()
r.start(1, 65536, 5, lengths_of(98)).sums().start(1, 65536, 5, lengths_of(413, index=412)).sums().start(1, 65536, None, lengths_of(97)).finish(97).sums()

r = rig(2, 40, 10, [400, 401, 402, 100, 101, 102, 103])
for i, x in enumerate(few):
    r.add(*x).sums()
    for run in range(7):
        n = r.lent[run]
        r.length(run, (n - 1, n + 1, n // 2, 0)[(i + run) % 4]).add(*few[i], want=2).finish(2).length(run, n)
    for i, j in PAIRS:
        r.swap(i, j).add(b'zz', 1, want=2).finish(2).swap(i, j)
r.sums().tell().finish().sums()
for i, j in PAIRS:
    # runs of one length that changed places: 3 is still exact, and the others end
    r = rig(2, 40, 10, 400).all(few[:6], False).swap(i, j).add(b'', 1, want=3).add(b'z', 1, 2, want=3).swap(i, j).add(*few[6], want=None).sums().swap(i, j).add(b'zz', 1, 1, b'zz')
    r = rig(2, 40, 10, 400).all(few[:6], False).swap(i, j).finish()
    r = rig(2, 8, 64, 400).all(few[:5], False).swap(i, j).add(b'd', 1)

# ---- states that are made up

def grown():
    return rig(2, 40, 10, 700).all(few, False)

def sizes(r):
    """Each size of the state, and the most that it may be."""
    l, s = r.lent, r.state
    return [(WRITTEN, l[0] - s[OPEN + BYTES]), (OPEN + BYTES, l[0] - s[WRITTEN]), (INDEX + BYTES, l[1]), (FILTERED, l[2]), (OPEN + RESTARTS, l[3]), (INDEX + RESTARTS, l[4]), (MADE, l[5]), (WAITING, l[6]),
            (OPEN + LEN, 1032), (INDEX + LEN, 1032)]

r = grown().keep()
for at, most in sizes(r):
    for n in (most + 1, 2 ** 32, 2 ** 63, 2 ** 64 - 1):
        r.set(at, n).add(b'e', 1, want=2).add(b'', 1, want=2).add(b'a', 1, want=2).finish(2).back()
for at, values in ((INTERVAL, (0, 1025, 2 ** 64 - 1)), (BLOCK_SIZE, (0, 7, 65537, 2 ** 64 - 1)), (FILTER, (1, 66, 2 ** 32))):
    for n in values:
        r.set(at, n).add(b'e', 1, want=2).add(b'', 1, want=2).finish(2).back()
for i in range(7):
    for n in (r.lent[i] - 1, r.lent[i] + 1, 0, 2 ** 64 - 1):
        r.set(LENGTHS + i, n).add(b'e', 1, want=2).finish(2).back()
    # the state and the runs agree again, on another length
    r.set(LENGTHS + i, r.lent[i] + 1).length(i, r.lent[i] + 1).add(b'', 1, want=3).length(i, r.lent[i] - 1).back()
for i, (at, most) in enumerate(sizes(r)):
    for other, top in sizes(r)[i + 1:]:
        r.set(at, most + 1).set(other, top + 1).add(b'e', 1, want=2).finish(2).back()
r.sums().tell().add(b'e', 1, want=None).sums().finish().sums()

# within their limits, but not those of any building: each call ends, and a refusal changes nothing
r = grown().keep()
for at, most in sizes(r):
    for n in (most, most - 1, 0, 1):
        r.set(at, n).add(b'', 1, want=3).add(b'e', 1).back().set(at, n).finish().back()
for block in (OPEN, INDEX):
    for at, values in ((0, (0, 1, 3, 1024, 1025, 2 ** 64 - 1)), (SINCE, (0, 1, 2, 3, 2 ** 64 - 1)), (FIRST, (0, 0x61, 0x7a, 0xff))):
        for n in values:
            r.set(block + at, n).add(b'e', 1).back().set(block + at, n).add(b'a', 1, 0, b'x' * 40).back().set(block + at, n).finish().back()
for at, values in ((INTERVAL, (1, 2, 3, 1024)), (BLOCK_SIZE, (8, 9, 41, 65536)), (FILTER, (0, 2, 65))):
    for n in values:
        r.set(at, n).add(b'e', 1).back().set(at, n).finish().back()
r.finish().back().add(b'e', 1)

random.seed(20)
for turn in range(40):
    r = rig(random.choice((1, 2, 16)), random.choice((8, 40, 65536)), random.choice((None, 1, 10, 64)), random.choice((123, 200, 400))).all(few[:random.randrange(8)], False).keep()
    for _ in range(8):
        for at, most in random.sample(sizes(r), random.randrange(1, 6)):
            r.set(at, random.choice((0, 1, 2, most // 2, most - 1 if most else 0, most, random.randrange(most + 1))))
        if random.random() < 0.5:
            r.set(random.choice((OPEN, INDEX)) + random.choice((0, SINCE)), random.choice((0, 1, 2, 16, 17, 1024)))
        if random.random() < 0.3:
            r.set(random.choice((INTERVAL, BLOCK_SIZE, FILTER)), random.choice((2, 8, 9, 20)))
        for _ in range(2):
            if random.random() < 0.7:
                r.add(bytes(random.choice(b'abz') for _ in range(random.choice((0, 1, 2, 30)))), random.choice((0, 5, last, 2 ** 56)), random.choice((0, 1, 1, 2)), b'v' * random.choice((0, 1, 50, 300)))
            else:
                r.finish()
            r.back()

# ---- filters of every size, intervals and sizes of blocks

words = [(b'w%02d' % i, 9 - i % 3, i % 2, b'v' * (5 * i % 31)) for i in range(9)]
for bits in range(1, 65):
    whole((1, 2, 16, 1024)[bits % 4], (8, 60, 65536)[bits % 3], bits, 1200, words[:3 + bits % 7], bits % 8 == 0)
for interval in (1, 2, 16, 1024):
    for size in (8, 20, 21, 64, 1024, 4096, 65536):
        value = {1024: 190, 4096: 900, 65536: 9300}.get(size, 3)
        additions = [(b'key%02d' % i, 5, 1, bytes([i]) * (value + i)) for i in range(9)]
        for bits in (None, 10):
            whole(interval, size, bits, None, additions, size <= 64)
# as many entries as the largest interval, and one more
many = [(struct.pack('>H', i), 1, 1, b'') for i in range(1025)]
r = rig(1024, 65536, 10, size_of(1024, 65536, 10, many)).all(many[:1024], False).sums().tell()
assert len(r.b.packed(r.b.open)[1]) == 1
r.add(*many[1024], want=None).sums().tell().finish(r.room).sums()

# versions of a word across a cut, deletions, words of ff
versions = [(b'v', 9 - i, i % 2, b'%d' % i * (i % 3)) for i in range(9)]
for interval, size in ((1, 8), (2, 40), (16, 20), (16, 60)):
    for bits in (None, 10):
        exact(interval, size, bits, versions)
high = [(b'\xfe', 1, 1, b''), (b'\xff', 5, 1, b'1'), (b'\xff', 2, 0, b''), (b'\xff\0', 7, 1, b'2'), (b'\xff\xff', last, 1, b'3'), (b'\xff\xff', 0, 0, b''), (b'\xff' * 9, 4, 1, b'4'), (b'\xff' * 1024, 4, 1, b'5')]
lows = [(b'\0', last, 1, b''), (b'\0', 0, 0, b''), (b'\0\0', 5, 1, b'1'), (b'\0\0\0', 5, 0, b''), (b'\0\1', 5, 1, b'2'), (b'\1', 5, 1, b'3'), (b'abc', 5, 1, b''), (b'abc\0', 5, 1, b''), (b'abcd', 5, 1, b''), (b'abd', 5, 1, b''), (b'ac', 5, 1, b'')]
for additions in (high, lows):
    for size in (8, 30, 65536):
        for bits in (None, 10):
            exact(2, size, bits, additions)

# blocks that skip a filter's range: empty filters stand between, at the end too
for bits in (None, 1, 10):
    for sizes_in in ((32768, 0, 32768), (0, 5000, 0, 5000, 10), (2000, 2000, 2000), (2027, 0, 0), (2026, 0, 0), (4075, 0, 4000), (6000,), (10, 32768)):
        additions = [(b'f%d' % i, 5, 1, bytes([i + 1]) * n) for i, n in enumerate(sizes_in)]
        for size in (8, 65536):
            whole(16, size, bits, None, additions, False)
        whole(2, 1024, bits, None, additions, False)
# a block of more than 65,536 bytes, then another
big = [(b'b%d' % i, 5, 1, bytes([i + 65]) * 32768) for i in range(4)]
for bits in (None, 10):
    exact(16, 65536, bits, big[:3])
    whole(2, 65536, bits, 139000, big, False)

# ---- tables at random

def some_word():
    return bytes(random.choice((b'a', b'b', b'z', b'\0', b'\xff')[:random.choice((2, 3, 5))])[0] for _ in range(random.choice((1, 1, 2, 2, 3, 4, 9))))

def some_value():
    n = random.choice((0, 0, 1, 2, 3, 10, 30, 100, 300, 900, 2100))
    return bytes([random.randrange(256)]) * n

random.seed(7)
for turn in range(110):
    interval = random.choice((1, 2, 3, 4, 16, 1024, random.randrange(1, 1025)))
    size = random.choice((8, 12, 20, 40, 64, 100, 300, 1024, 4096, 65536))
    bits = random.choice((None, None, 10, random.randrange(1, 65)))
    points = sorted({(some_word(), random.choice((0, 1, 5, 6, 7, 300, last))) for _ in range(random.choice((2, 5, 9, 14)))}, key=lambda p: (p[0], -p[1]))
    additions = [(w, e, random.choice((0, 1, 1)), some_value()) for w, e in points]
    n = size_of(interval, size, bits, additions)
    r = rig(interval, size, bits, [random.choice((n, n - 1, n + 40, max(150, n // 2)))] + [n + 60 + i for i in range(2)] + [n // 4 + 15 + i for i in range(4)])
    for i, x in enumerate(additions):
        if random.random() < 0.2:
            r.add(*random.choice(additions[:i + 1]))
        if random.random() < 0.05:
            r.add(x[0], x[1], 2, x[3]).add(b'', x[1])
        if random.random() < 0.05:
            run = random.randrange(7)
            k = r.lent[run]
            r.length(run, k - 1).add(*x, want=2).length(run, k)
        got = len(r.accepted)
        r.add(*x)
        if len(r.accepted) > got and random.random() < 0.6:
            r.sums()
        if random.random() < 0.05:
            r.tell()
    r.finish().sums().tell()
    if random.random() < 0.2:
        r.finish(6).add(*additions[-1], want=6)

sections.replace('builder', lines, answers)
print(len(lines), 'lines,', sum(len(l) + 1 for l in lines), 'bytes;', sum(len(a) + 1 for a in answers), 'bytes of answers;', ', '.join('%s %d' % (c, sum(l[0] == c for l in lines)) for c in sorted({l[0] for l in lines})))
for c in 'SAF':
    print(c, {s: sum(1 for x in answers if x[0] == c and x[2:].startswith(s)) for s in ('ok', 'size', 'refused 1', 'refused 2', 'refused 3', 'refused 4', 'refused 5', 'refused 6')})
