#!/usr/bin/env python3
"""Writes the section `cases` of the list that the program `replay` is run on, and what it has to answer (see sections.py).

The answers come from a reading of the rules in Python, rules.py, that shares nothing with the code or its definitions; the hash
vectors are LevelDB's own. Run it by hand when the list changes; the tests only replay what it wrote.
"""
import struct
import sections
from rules import *

lines, answers = [], []

# ---- the list

def case(command, *fields, say):
    lines.append(' '.join([command] + [f if isinstance(f, str) else str(f) for f in fields]))
    answers.append(lines[-1][:1] + ' ' + say)

def compared(c):
    return ('less', 'equal', 'greater')[c + 1]

def compare(a, b):
    n = 0
    while n < min(len(a), len(b)) and a[n] == b[n]:
        n += 1
    case('c', field(a), field(b), say='%s %d' % (compared(order(a, b)), n))

def compare_keys(a, b):
    case('i', field(a), field(b), say=compared(order_points(point(a), point(b))))

def target(key, word, seq):
    case('t', field(key), field(word), seq, say=compared(order_points(point(key), (word, seq))))

def parse(key):
    if len(key) < 8:
        case('p', field(key), say='too short')
    else:
        w, seq = point(key)
        case('p', field(key), say='%d %d %s' % (len(w), seq, 'deletion' if key[-8] == 0 else 'value'))

def keyed(word, seq, kind):
    case('k', field(word), seq, kind, say=shown(internal(word, seq, kind)))

def separate(a, b):
    case('u', field(a), field(b), say=shown(user_sep(a, b)))

def separate_keys(a, b):
    case('s', field(a), field(b), say=shown(separator(a, b)))

def succeed(a):
    case('n', field(a), say=shown(successor(a)))

def hashed(s, want=None):
    h = bloom_hash(s)
    assert want is None or h == want, (s, hex(h))
    case('h', field(s), say='%08x' % h)

def probed(bits):
    case('b', bits, say=str(probes(bits)))

def filtered(bits, words):
    f = make_filter(bits, [bloom_hash(w) for w in words])
    case('f', bits, *[field(w) for w in words], say=shown(f))
    return f

def may(f, s):
    case('m', field(f), field(s), say='may' if filter_may(f, bloom_hash(s)) else 'no')

def formed_filter(s):
    case('w', field(s), say='formed' if filter_formed(s) else 'not')

def asked(s, offset, w):
    case('q', field(s), offset, field(w), say='may' if block_may(s, offset, bloom_hash(w)) else 'no')

def made(bits, upto, filters_room, offsets_room, words):
    """Filters of some words made until there are so many, in runs of such lengths, and the filter block of them."""
    f = make_filter(bits, [bloom_hash(w) for w in words]) if upto > 0 else b''
    if len(f) > filters_room or upto > offsets_room:
        case('M', bits, upto, filters_room, offsets_room, *[field(w) for w in words], say='no room')
        return
    offsets = [0] + [len(f)] * (upto - 1) if upto else []
    case('M', bits, upto, filters_room, offsets_room, *[field(w) for w in words], say='%d %d %s' % (len(f), upto, shown(filter_block(f, offsets))))

class Loaded:
    """The block that the following commands read."""
    def __init__(self, s):
        self.whole = self.s = bytes(s)
        self.read = entries(self.s)

    def change(self, s):
        self.s = s
        self.read = entries(s)
        return self

    def entry(self, e):
        a, _, k, v, n = e
        return '%d %s at %d %s' % (a, shown(k), v, shown(self.s[v:v + n]))

    def readable(self):
        return self.read is not None and all(len(e[2]) <= 1032 for e in self.read)

    def walk(self):
        assert self.readable()
        case('W', say=' '.join([self.entry(e) for e in self.read[:6]] + ['of %d' % len(self.read)]))
        return self

    def kinds(self):
        case('F', say=' '.join(str(int(formed(k, self.s))) for k in ('data', 'index', 'metaindex')))
        return self

    def seek(self, word, seq):
        assert self.readable() and all(order_points(point(a[2]), point(b[2])) < 0 for a, b in zip(self.read, self.read[1:]))
        hits = [e for e in self.read if order_points(point(e[2]), (word, seq)) >= 0]
        case('S', field(word), seq, say=self.entry(hits[0]) if hits else 'none')
        return self

    def next(self, at):
        assert self.readable()
        starts = [e[0] for e in self.read]
        if at not in starts:
            say = 'no place'
        elif at == starts[-1]:
            say = 'none'
        else:
            say = self.entry(self.read[starts.index(at) + 1])
        case('N', at, say=say)
        return self

    def any(self, word=b'a'):
        """Reads of any bytes end, and give nothing that lies outside them."""
        case('A', field(word), say='inside')
        return self

    def flip(self, at, bits):
        s = bytearray(self.s)
        s[at] ^= bits
        case('D', at, bits, say='')
        return self.change(bytes(s))

    def cut(self, n):
        case('T', n, say='')
        return self.change(self.whole[:n])

    def damaged(self, places, all_bits=(0x01, 0x80, 0xff), small=False):
        """Each of these bytes changed, and each of these lengths."""
        for i in places:
            for bits in all_bits:
                self.flip(i, bits).kinds()
                if small:
                    self.any()
                self.flip(i, bits)
        for n in places:
            self.cut(n).kinds()
            if small:
                self.any()
        return self.cut(len(self.whole)).kinds()

    def bounds(self):
        """The bytes next to each bound in the block: of numbers, keys, values, entries, restarts and their count."""
        near = {0, len(self.s) - 1}
        last = self.read[-1:]
        for a, shared, k, v, n in self.read[:2] + last:
            key = v - len(k) + shared
            for p in list(range(a, key)) + [key, v, v + n]:
                near |= {p - 1, p, p + 1}
        end = last[0][3] + last[0][4] if last else 0
        near |= set(range(end, min(end + 9, len(self.s)))) | set(range(max(end, len(self.s) - 9), len(self.s)))
        return sorted(p for p in near if 0 <= p < len(self.s))

def built(interval, pairs, room=65536, marks=2048):
    s, refused = build(interval, pairs, room, marks)
    case('B', interval, room, marks, *[f for k, v in pairs for f in (field(k), field(v))], say=' '.join(['refused'] * len(refused) + ['no room' if s is None else shown(s)]))
    return Loaded(s or b'')

def load(s):
    case('L', field(s), say=str(len(s)))
    return Loaded(s)

def entry_read(rest, key, n=None):
    n = len(key) if n is None else n
    run = key + b'\xee' * (1032 - len(key))
    e = read_entry(rest, 0, run[:n])
    if e is None or len(e[2]) > 1032:
        case('E', field(rest), field(key), n, say='bad ' + shown(run))
    else:
        _, shared, k, v, size = e
        case('E', field(rest), field(key), n, say='%d %d at %d %s %s' % (shared, len(k), v, shown(rest[v:v + size]), shown(k + run[len(k):])))

def tried(t, word, edition):
    """The verdict on a table, and what a lookup answers if it passes."""
    no = full_check(t)
    return str(no) if no else 'pass ' + newest_of(plain_reading(t), word, edition)

class Whole:
    """The table that the following commands read."""
    loaded = None

    def __init__(self, t, want='any'):
        self.t, self.no, self.foot = t, full_check(t), None
        assert want == 'any' or want == self.no, (want, self.no, t.hex())
        try:
            footer_handles(t)
        except Refusal as r:
            self.foot = r.args[0]
        self.all = plain_reading(t) if self.no is None else []
        self.load()
        case('V', say=str(self.no or 'pass'))

    def load(self):
        """Loads the table, or changes the bytes that differ from what is loaded, whichever is shorter."""
        old, new = Whole.loaded, self.t
        Whole.loaded = new
        whole = 'L ' + field(new)
        if old is not None and len(old) == len(new):
            runs, i = [], 0
            while i < len(new):
                if old[i] != new[i]:
                    end = i + 1
                    while old[end:end + 6] != new[end:end + 6]:
                        end += 1
                    runs.append((i, new[i:end]))
                    i = end
                i += 1
            if sum(len(field(s)) + 8 for _, s in runs) < len(whole):
                for at, s in runs:
                    case('Z', at, field(s), say='')
                return
        case('L', field(new), say=str(len(new)))

    def first_refusal(self, target, room):
        """What a read answers before the table's entries are asked."""
        if target and not (1 <= len(target[0]) <= 1024 and target[1] < 2 ** 56):
            return '3'
        if room < 1032:
            return '2'
        assert self.foot or self.no is None
        return self.foot and str(self.foot)

    def seek(self, word, edition, room=1032):
        say = self.first_refusal((word, edition), room)
        if not say:
            rest = [e for e in self.all if order_points(point(e[2]), (word, edition)) >= 0]
            say = shown_entry(rest[0]) if rest else 'none'
        case('J', field(word), edition, room, say=say)
        return self

    def lookup(self, word, edition, room=1032):
        say = self.first_refusal((word, edition), room)
        if not say:
            say = newest_of(self.all, word, edition)
        case('Q', field(word), edition, room, say=say)
        return self

    def step(self, index, start, room=1032):
        say = self.first_refusal(None, room)
        if not say:
            places = [e[:2] for e in self.all]
            if (index, start) not in places:
                say = '14'
            else:
                rest = self.all[places.index((index, start)) + 1:]
                say = shown_entry(rest[0]) if rest else 'none'
        case('P', index, start, room, say=say)
        return self

    def walk(self):
        assert self.no is None
        case('U', say=' '.join([shown_entry(e) for e in self.all[:6]] + ['of %d' % len(self.all)]))
        return self

    def any(self, word=b'b', edition=5, index=0, start=0):
        """Reads: on a refused table with a footer they end, and answer something that is allowed."""
        if self.no is None or self.foot:
            return self.seek(word, edition).lookup(word, edition).step(index, start)
        case('I', field(word), edition, index, start, say='allowed')
        return self

    def ask(self, words, editions=(0, 5, 2 ** 56 - 1)):
        for w in words:
            for s in editions:
                if self.no is None or self.foot:
                    self.seek(w, s).lookup(w, s)
                else:
                    self.any(w, s)
        return self

    def steps(self):
        """From each entry, and from places next to them."""
        near = {(0, 0), (0, 1), (1, 0), (2 ** 56, 0), (0, 2 ** 56), (len(self.t), len(self.t))}
        for ix, at, _, _, _ in self.all:
            near |= {(ix, at), (ix, at + 1), (ix + 1, at), (0, at), (at, ix)}
        for ix, at in sorted(near):
            self.step(ix, at)
        return self

    def each_byte(self, bits, word, edition):
        """With every byte changed in turn; what is read there is allowed."""
        copies = [self.t[:i] + bytes([x ^ bits]) + self.t[i + 1:] for i, x in enumerate(self.t)]
        case('X', bits, field(word), edition, say=' '.join(tried(s, word, edition) for s in copies))
        return self

    def each_sealed(self, h, bits, word, edition):
        """With every byte of a block changed in turn and the block sealed anew."""
        at, size = h[:2]
        block = contents(self.t, h)
        copies = [sealed(block[:i] + bytes([x ^ bits]) + block[i + 1:]) for i, x in enumerate(block)]
        case('R', at, size, bits, field(word), edition, say=' '.join(tried(self.t[:at] + s + self.t[at + size + 5:], word, edition) for s in copies))
        return self

    def each_length(self, word, edition):
        case('Y', field(word), edition, say=' '.join(tried(self.t[:n], word, edition) for n in range(len(self.t))))
        return self

    def spoiled(self, word, edition, all_bits):
        """Every byte changed, in each block with its seal made anew, and every shorter length."""
        for bits in all_bits:
            self.each_byte(bits, word, edition)
        meta, index = footer_handles(self.t)
        named = [read_handle(contents(self.t, (index[0] + e[3], e[4]))) for e in entries(contents(self.t, index))]
        named += [read_handle(contents(self.t, (meta[0] + e[3], e[4]))) for e in entries(contents(self.t, meta)) if e[4]]
        for h in named + [meta, index]:
            for bits in all_bits:
                self.each_sealed(h, bits, word, edition)
        return self.each_length(word, edition)

# ---- keys
words = [b'', b'\0', b'\0\0', b'a', b'ab', b'abc', b'abc\0', b'abcdefg', b'abcdefgh', b'abcdefgi', b'abcdefghi', b'abcdefgh\xff', b'abcdefghijklmnop', b'abcdefghijklmnoq',
         b'abcdefghijkllnop', b'b', b'\xff', b'\xff\xff', b'\xff' * 8, b'\xff' * 9, b'\x80' + b'z' * 15, b'\x7f' + b'z' * 15]
for a in words:
    for b in words:
        compare(a, b)
long = b'q' * 1024
for b in (long, long[:-1], long + b'\0', b'q' * 1023 + b'r', b'q' * 1023 + b'p', b'q' * 500 + b'r' + b'q' * 523):
    compare(long, b)
keys = [internal(w, s, k) for w in (b'a', b'ab', b'b') for s in (0, 1, 255, 256, 2 ** 56 - 1) for k in (0, 1)]
for a in keys[::3]:
    for b in keys[::2]:
        compare_keys(a, b)
short = [b'', b'\x05', b'\0\x01', b'\0\0\0\0\0\0\x01', b'\xff' * 7]
for a in short:
    compare_keys(a, internal(b'', 5, 1))
    compare_keys(a, keys[0])
    parse(a)
for w in (b'a', b'ab', b'c'):
    for s in (0, 1, 2, 2 ** 56 - 1):
        target(internal(b'ab', 1, 1), w, s)
for k in (0, 1, 2, 255):
    parse(internal(b'word', 7, k))
parse(internal(b'', 2 ** 56 - 1, 1))
for w, s, k in ((b'a', 1, 1), (b'', 0, 0), (b'tea', 9, 1), (b'z' * 1024, 2 ** 56 - 1, 1), (b'x', 2 ** 56, 1), (b'x', 2 ** 56 + 3, 255)):
    keyed(w, s, k)
pairs = [(b'abc', b'abc\0'), (b'abcd', b'abd'), (b'abc', b'abd'), (b'tea', b'tin'), (b'tea', b'teb'), (b'', b'a'), (b'', b''), (b'b', b'a'), (b'a', b'a'), (b'a', b'c'), (b'a', b'b'),
         (b'\xff', b'\xff\xff'), (b'\xfe', b'\xff'), (b'\xfe\xff', b'\xff'), (b'a\xff\xff', b'b'), (b'a\xff\xff', b'c'), (b'abc\xff', b'abd'), (b'abc\xff', b'abd\0'), (b'abc\xff', b'abd\xff\0'),
         (b'abcdefghij', b'abcxy'), (b'a\0', b'a\0\0'), (b'a', b'a\0'), (b'a', b'a\0\0'), (b'a', b'a\x01'), (b'\0', b'\x02'), (b'k' * 1024, b'k' * 1023 + b'z'), (b'k' * 1024, b'm')]
for a, b in pairs:
    separate(a, b)
    separate_keys(internal(a, 9, 1), internal(b, 3, 1))
separate_keys(internal(b'tea', 9, 1), internal(b'tea', 3, 1))
separate_keys(b'', b'')
separate_keys(b'1234567', b'12345678')
for a in (b'abc', b'\xff\xff', b'', b'\xfe', b'\xff\xfe\xff', b'\0', b'\xff' * 1024, b'a' * 1024):
    succeed(a)

# ---- filters: LevelDB's published vectors first
hashed(b'', 0xbc9f1d34)
hashed(b'\x62', 0xef1345c4)
hashed(b'\xc3\x97', 0x5b663814)
hashed(b'\xe2\x99\xa5', 0x323c078f)
hashed(b'\xe1\x80\xb9\x32', 0xed21633a)
for n in (3, 4, 5, 7, 8, 9, 1023, 1024):
    hashed(bytes((i * 7 + 3) % 256 for i in range(n)))
for bits in (0, 1, 2, 3, 10, 43, 44, 63, 64, 65, 1000, 4294967295):
    probed(bits)
some = [b'tea', b'tin', b'ten', b'', b'x' * 1024, b'\0', b'\xff' * 3]
for bits in (0, 1, 2, 6, 9, 10, 11, 43, 44, 64):
    for n in (0, 1, 2, 6, 7):
        f = filtered(bits, some[:n])
        if n == 7:
            for w in some + [b'tan', b'toe', b'y', b'zz', b'two']:
                may(f, w)
many = [b'%d' % i for i in range(300)]
for bits in (1, 10, 64):
    f = filtered(bits, many)
    asked_words = many[::60] + [b'no', b'none', b'nothing', b'300', b'301']
    for w in asked_words[::3] if bits == 64 else asked_words:
        may(f, w)
ten = make_filter(10, [bloom_hash(w) for w in some])
for k in (0, 1, 29, 30, 31, 255):
    for w in (b'tea', b'absent', b'words'):
        may(ten[:-1] + bytes([k]), w)
for f in (b'', b'\0', b'\x06', b'\xff', b'\0\x06', b'\xff\x06', b'\0' * 8 + b'\x1e'):
    may(f, b'tea')
two = make_filter(10, [bloom_hash(b'tea')])
three = make_filter(10, [bloom_hash(b'tin'), bloom_hash(b'ten')])
whole = filter_block(two + three, [0, len(two), len(two)])
blocks = [whole, filter_block(b'', []), filter_block(b'', [0, 0]), filter_block(two, [0]), filter_block(two, [len(two)]), filter_block(two, [len(two) + 1]), filter_block(two + three, [5, 3]),
          b'', b'\x0b', b'\0\0\0\x0b', b'\0\0\0\0\x0b', b'\0\0\0\0\0', b'\x01\0\0\0\x0b', b'\0\0\0\0\x20', b'\0\0\0\0\x1f', b'\xff\xff\xff\xff\x0b', whole + b'\0', whole[1:], whole[:-1] + b'\x1f', whole[:-1] + b'\x20',
          whole[:-1] + b'\0', whole[:-5] + b'\xff' + whole[-5:]]
for s in blocks:
    formed_filter(s)
    for offset in (0, 1, 2047, 2048, 4095, 4096, 6143, 6144, 2 ** 31, 2 ** 56):
        asked(s, offset, b'tea')
    asked(s, 0, b'tin')
    asked(s, 4096, b'tin')
    asked(s, 4096, b'ten')
    asked(s, 4096, b'toe')
for i in range(len(whole)):
    s = bytearray(whole)
    s[i] ^= 0x81
    formed_filter(bytes(s))
    asked(bytes(s), 2048, b'tea')
    asked(bytes(s), 4096, b'ten')
for bits in (0, 1, 10, 64):
    for upto in (0, 1, 2, 5):
        for n in (0, 1, 6):
            made(bits, upto, 100, 5, some[:n])
made(10, 3, 9, 3, some[:1])
made(10, 3, 8, 3, some[:1])
made(10, 3, 9, 2, some[:1])
made(0, 6, 0, 6, some[:1])
made(0, 6, 0, 5, some[:1])

# ---- blocks
def padded(x, n):
    """A varint written with n bytes."""
    s = b''
    for i in range(n):
        s += bytes([(x >> (7 * i)) % 128 + (128 if i + 1 < n else 0)])
    return s

def body(*es):
    """Entries by hand: how much is shared, the key's tail, the value."""
    return b''.join(varint(a) + varint(len(t)) + varint(len(v)) + t + v for a, t, v in es)

def spoiled(b):
    """Copies of a block, each wrong in one way or just not: in its end, its restarts, and the numbers of its first and its last entry."""
    s, es = b.whole, b.read
    n = int.from_bytes(s[-4:], 'little')
    end = len(s) - 4 * n - 4
    rs = [int.from_bytes(s[end + 4 * i:end + 4 * i + 4], 'little') for i in range(n)]
    whole, tail = s[:end], s[end:]
    copies = [whole[:-1] + tail, whole + b'\0' + tail, whole + b'\0\0\0' + tail, s[1:], s + b'\0', s + s[-4:], s[:end] + s[end + 4:]]
    copies += [s[:-4] + struct.pack('<I', c) for c in (0, n - 1, n + 1, n + 2, n + 256, 2 ** 30 + n, 2 ** 32 - 1)]
    lists = [rs[:-1] + [rs[-1] + 1], rs + [rs[-1]], rs + [end], rs + [end + 1], [1] + rs[1:], rs[1:], rs[::-1], [0] + rs, rs + [2 ** 32 - 1], rs[:1]]
    for a, shared, k, v, size in es[:2] + es[-1:]:
        if a not in rs:
            lists += [rs + [a], sorted(rs + [a])]
        lists += [sorted(rs + [p]) for p in (a + 1, v, max(v + size - 1, a + 1))]
    copies += [whole + array(*l) for l in lists]
    for i in sorted({0, len(es) - 1}) if es else ():
        a, shared, k, v, size = es[i]
        before, key, value, after = len(es[i - 1][2]) if i else 0, k[shared:], whole[v:v + size], whole[v + size:]
        heads = [[shared, len(key), size]]
        for x in (before, before + 1, 2 ** 32 + shared, 2 ** 64 - 1):
            heads.append([x, len(key), size])
        for x in (len(key) - 1, len(key) + 1, 2 ** 32 + len(key), 2 ** 64 - 1):
            heads.append([shared, x, size])
        left = len(whole) - v
        for x in (size - 1, size + 1, left, left + 1, left + len(tail), left + len(tail) + 1, 2 ** 32 + size, 2 ** 63, 2 ** 64 - 1):
            heads.append([shared, len(key), x])
        for h in heads:
            if min(h) >= 0:
                copies.append(whole[:a] + b''.join(varint(x) for x in h) + key + value + after + tail)
        for j in range(3):
            for length in (len(varint(heads[0][j])) + 1, 10, 11):
                numbers = [padded(x, length) if m == j else varint(x) for m, x in enumerate(heads[0])]
                copies.append(whole[:a] + b''.join(numbers) + key + value + after + array(0))
        copies.append(whole[:a] + b''.join(padded(x, 10) for x in heads[0]) + key + value + after + array(0))
        for room in (1032 - shared, 1033 - shared):
            long = key + b'\xff' * (room - len(key))
            copies.append(whole[:a] + varint(shared) + varint(room) + varint(size) + long + value + array(*[r for r in rs if r <= a]))
    for c in copies:
        load(c).kinds().any()

def sample(n):
    """Three versions of each word."""
    return [entry(b'word%03d' % (i // 3), 9 - i % 3, b'v%d' % i, i % 2) for i in range(n)]

# one entry, two, none
one = built(16, [entry(b'a', 1, b'x')]).walk().kinds().any()
assert len(one.s) == 21
for w, s in ((b'', 0), (b'a', 2), (b'a', 1), (b'a', 0), (b'b', 0), (b'a\0', 9)):
    one.seek(w, s)
for at in range(24):
    one.next(at)
one.damaged(range(len(one.s)), small=True)
spoiled(one)
two = built(16, [entry(b'a', 1, b'x'), entry(b'ab', 1, b'y')]).walk().kinds().next(0)
assert len(two.s) == 34
for interval in (1, 16, 1024):
    none = built(interval, []).kinds().walk().any().next(0).next(1).seek(b'', 0).seek(b'a', 2 ** 56 - 1)
none.damaged(range(8), small=True)
spoiled(none)

# every interval, with several versions of each word: walked, each place, targets below, on, between and above the keys
for interval in (1, 2, 3, 16, 1024):
    b = built(interval, sample(24)).walk().kinds().any(b'word003')
    for w in (b'', b'word', b'word000', b'word001', b'word0015', b'word003', b'word007', b'word008', b'x'):
        for s in (0, 6, 7, 8, 9, 10, 2 ** 56 - 1):
            b.seek(w, s)
    for e in b.read:
        b.next(e[0]).next(e[0] + 1)
    b.next(len(b.s)).next(2 ** 56)
    b.damaged(b.bounds(), (0x01, 0xff))

# every byte of small blocks of each kind damaged, and every shorter start of them
small = built(2, sample(5)).walk().kinds()
small.damaged(range(len(small.s)), small=True)
index = built(2, [(internal(b'k%d' % i, 2 ** 56 - 1, 1), handle(i * 4096, 4000 + i)) for i in range(4)]).walk().kinds()
index.seek(b'k1', 2 ** 56 - 1).seek(b'k1', 5).seek(b'k3', 0).seek(b'', 0)
index.damaged(range(len(index.s)), small=True)
meta = built(1, [(b'filter._', handle(0, 9)), (BLOOM, handle(300, 20)), (b'other', b'')]).walk().kinds()
meta.damaged(range(len(meta.s)), small=True)
for b in (small, index, meta):
    load(b.whole).kinds()
    for at in range(len(b.whole) + 2):
        b.next(at)
    spoiled(b)

# more entries than the largest interval
many = [entry(b'%04d' % i, 9, b'') for i in range(1027)]
for interval in (1, 1024):
    b = built(interval, many).walk().kinds()
    for i in (0, 1, 1021, 1022, 1023, 1024, 1025, 1026):
        b.next(b.read[i][0]).seek(b'%04d' % i, 9).seek(b'%04d' % i, 8)
    b.seek(b'', 0).seek(b'1026', 8).next(b.read[1024][0] - 1).next(b.read[1024][0] + 1)
    b.damaged(b.bounds(), (0x01, 0x10, 0xff))

# the longest keys and values, and one byte more
longest = b'k' * 1024
big = built(2, [entry(longest, 2 ** 56 - 1, b'', 0), entry(longest, 5, b'v' * 32768), entry(b'l', 0, b'')]).walk().kinds()
big.seek(longest, 2 ** 56 - 1).seek(longest, 6).seek(longest, 5).seek(longest, 4).seek(longest[1:], 0).seek(longest + b'k', 0).seek(b'l', 0).seek(b'm', 0)
for e in big.read:
    big.next(e[0]).next(e[0] + 1)
big.damaged(big.bounds(), (0x01, 0x80))
spoiled(big)
for value in (handle(0, 0), handle(2 ** 64 - 1, 2 ** 64 - 1)):
    wide = built(2, [(b'k' * 1032, value), (b'k' * 1031 + b'l', value), (b'l' * 1032, value)]).walk().kinds()
    wide.damaged(wide.bounds(), (0x01, 0x80))
spoiled(wide)
for n in (0, 1, 127, 128, 16383, 16384, 32767, 32768, 32769):
    built(1, [entry(b'a', 1, b'v' * n)]).walk().kinds()
for n in (0, 1, 7, 8, 9, 10, 127, 128, 1031, 1032):
    for value in (b'', handle(0, 0)):
        built(16, [(b'k' * n, value)]).walk().kinds()
built(16, [(b'k' * 1033, b''), entry(b'l', 1, b'')]).walk().kinds()
load(body((0, b'k' * 1033, b'')) + array(0)).kinds()
load(body((0, b'k' * 1033, handle(0, 0))) + array(0)).kinds()
for shared, tail in ((1032, b''), (1032, b'k'), (1000, b'k' * 32), (1000, b'k' * 33), (0, b'k' * 1033), (1, b'l' * 1031), (1, b'l' * 1032)):
    for value in (b'', handle(1, 2)):
        load(body((0, b'k' * 1032, value), (shared, tail, value)) + array(0)).kinds().any(longest)
load(body((0, b'k' * 9, handle(0, 0)), (9, b'l' * 1023, handle(0, 0))) + array(0)).kinds().walk()
load(body((0, b'k' * 9, handle(0, 0)), (9, b'l' * 1024, handle(0, 0))) + array(0)).kinds()

# keys that are the whole start of the key before or behind, the same key again, and keys that do not rise
starts = [b'abcdefghi', b'abcdefghij', b'abcdefghij', b'abcdefghijk', b'abcdefghi', b'abcdefgh', b'', b'a', b'ab', b'b', b'abc', b'k' * 1031, b'k' * 1032, b'k' * 1032]
for interval in (1, 2, 16):
    b = built(interval, [(k, handle(i, 1)) for i, k in enumerate(starts)]).walk().kinds()
    for e in b.read:
        b.next(e[0])
    built(interval, [(k, handle(i, 1)) for i, k in enumerate(starts) if len(k) > 8]).walk().kinds()

# runs that just suffice, and one byte or one restart fewer
for interval, pairs in ((1, sample(3)), (2, sample(5)), (16, sample(5)), (16, []), (16, [entry(b'a', 1, b'x')])):
    s = build(interval, pairs)[0]
    n = int.from_bytes(s[-4:], 'little')
    end = len(s) - 4 * n - 4
    for room in (len(s), len(s) - 1, len(s) - 4, end + 4, end, end - 1, end // 2, 4, 0):
        if room >= 0:
            b = built(interval, pairs, room)
            if b.s:
                b.walk()
    for marks in (n, n - 1, 1, 0):
        built(interval, pairs, marks=marks).walk()
built(1, [entry(b'a', 1, b'v' * 32768), entry(b'b', 1, b'v' * 32768), entry(b'c', 1, b'w')]).walk().kinds()

# values of the index and of the metaindex: one handle and nothing more
top = 2 ** 64 - 1
for value in (b'', b'\x05', handle(1, 2), handle(1, 2) + b'\0', handle(2 ** 63, top), handle(top, 0) + b'\x80', varint(7) + b'\x80', padded(1, 10) + padded(2, 10), padded(1, 11) + b'\x02',
              b'\x01' + padded(2, 11), padded(2 ** 64, 10) + b'\0', b'\0' + padded(2 ** 64, 10), padded(1, 2) + padded(0, 2), padded(top, 10) * 2, handle(0, 0) * 2):
    for name in (b'k' * 9, BLOOM, BLOOM[:-1], BLOOM + b'\0', BLOOM[:-1] + b'3'):
        load(body((0, name, value)) + array(0)).kinds()
    load(body((0, BLOOM[:20], value), (20, BLOOM[20:], value)) + array(0)).kinds()

# restarts and their count
for s in (b'', b'\0', b'\0\0\0', b'\0\0\0\0', b'\x01\0\0\0', b'\0\0\0\0\x01\0\0\0', b'\x01\0\0\0\x01\0\0\0', b'\0\0\0\x01\x01\0\0\0', b'\0\0\0\0\0\0\0\0\x02\0\0\0', b'\0\0\0\0\x02\0\0\0',
          b'\xff\xff\xff\xff', b'\0\0\0\0\xff\xff\xff\x3f', b'\0\0\0\0\0\0\0\x40', b'\0\0\0\0\x01\0\0\x40', b'\0' * 12):
    load(s).kinds().any()
for value in (b'x', handle(3, 4)):
    k, n = internal(b'a', 2, 1), 12 + len(value)
    pair = body((0, k, value), (0, internal(b'b', 2, 1), value))
    for rs in ((0,), (0, n), (n,), (0, 0), (n, 0), (0, n, n), (0, n, 0), (0, n - 1), (0, n + 1), (0, 1), (0, 2 * n), (0, n, 2 * n), (0, n + 2 ** 31), (2 ** 32 - 1,), ()):
        s = pair + array(*rs)
        load(s).kinds().any()
        for count in (0, len(rs) - 1, len(rs) + 1, len(rs) + 2, 2 ** 30 + len(rs), 2 ** 32 - 1):
            if count >= 0:
                load(s[:-4] + struct.pack('<I', count)).kinds()
    # shared: none, some, all of the key before, one more; at a restart
    for shared, tail in ((0, b'z' * 9), (3, b'zzzzzz'), (8, b'z'), (9, b'z'), (9, b''), (10, b'z'), (2 ** 32, b'z'), (top, b'z')):
        load(body((0, k, value), (shared, tail, value)) + array(0)).kinds().any()
        load(body((0, k, value), (shared, tail, value)) + array(0, n)).kinds()
    load(body((1, k, value)) + array(0)).kinds()
    # numbers padded, of ten bytes and of eleven, and too large
    for size in range(1, 12):
        a, b, c = padded(0, size), padded(9, size), padded(len(value), size)
        short = b'\0', b'\x09', varint(len(value))
        for head in ((a, short[1], short[2]), (short[0], b, short[2]), (short[0], short[1], c), (a, b, c)):
            got = load(b''.join(head) + k + value + array(0)).kinds()
            if got.read:
                got.walk().seek(b'a', 2).next(0)
    for number in (b'\xff' * 9 + b'\x01', b'\xff' * 9 + b'\x02', padded(2 ** 64 + 9, 10), padded(2 ** 63, 10), padded(2 ** 32, 5), b'\xff' * 10):
        for head in ((number, b'\x09', varint(len(value))), (b'\0', number, varint(len(value))), (b'\0', b'\x09', number)):
            load(b''.join(head) + k + value + array(0)).kinds().any()
    # a value that ends a byte before the restarts, at them, in them, at the end of the block and past it
    for size in (0, len(value) - 1, len(value), len(value) + 1, len(value) + 4, len(value) + 8, len(value) + 9, 127, 128, 2 ** 63, top, top - 8, top - 11):
        load(b'\0\x09' + varint(size) + k + value + array(0)).kinds().any()
    for size in (0, 8, 9, 10, 9 + len(value), 10 + len(value), top):
        load(b'\0' + varint(size) + varint(len(value)) + k + value + array(0)).kinds().any()
    # the entries cut or with bytes more, their restarts kept
    for i in range(len(pair)):
        load(pair[:i] + array(0)).kinds()
        load(pair[:i] + array(0, n)).kinds()
    for more in (b'\0', b'\0\0', b'\0\0\0', b'\x01\0\0', b'\x80'):
        load(pair + more + array(0)).kinds()

# one entry, read from the rest of a block after a key
k = internal(b'tea', 9, 1)
for shared in (0, 1, 3, 10, 11, 12, top):
    for tail in (b'', b'z', b'zz' * 10):
        entry_read(body((shared, tail, b'value')) + b'more', k)
rest = body((3, b'zz', b'value'))
for i in range(len(rest) + 1):
    entry_read(rest[:i], k)
for n in (0, 2, 3, 11, 1032, 1033, 2 ** 40):
    entry_read(rest, k, n)
for size in range(1, 12):
    entry_read(padded(3, size) + padded(2, size) + padded(5, size) + b'zzvalue', k)
for shared, tail in ((1032, b''), (1032, b'z'), (1031, b'z'), (1031, b'zz'), (0, b'z' * 1032), (0, b'z' * 1033)):
    entry_read(body((shared, tail, b'v')), b'k' * 1032)
for i in range(len(rest)):
    for bits in (0x01, 0x80, 0xff):
        entry_read(rest[:i] + bytes([rest[i] ^ bits]) + rest[i + 1:], k)

# ---- tables
def by_hand(blocks, bloom=None, names=(), interval=16):
    """A table of blocks, each with its index key."""
    out, index, names = Layout(), [], list(names)
    for bound, pairs in blocks:
        index.append((bound, handle(*out.put(build(interval, pairs)[0]))))
    if bloom is not None:
        names.append((BLOOM, handle(*out.put(bloom))))
    meta = out.put(build(interval, sorted(names))[0])
    return out.table(meta, out.put(build(interval, index)[0]))

# as built: every interval, sizes of blocks and filters; walked, each place, targets below, on, between and above the keys
for interval, size, bits, n in ((1, 8, 0, 7), (2, 40, 10, 12), (3, 64, 1, 15), (16, 8, 64, 6), (16, 70, 10, 15), (1024, 65536, 10, 12), (2, 65536, 0, 12), (1, 33, 5, 9)):
    w = Whole(write_table(interval, size, bits, sample(n)), None).walk().steps()
    w.ask((b'\0', b'word', b'word000', b'word001', b'word0015', b'word002', b'word9', b'\xff'), (0, 7, 8, 9, 10, last_edition) if n == 15 else (0, 8, last_edition))
assert len(build(16, [entry(b'a', 1, b'x')])[0]) == 21
for size in (20, 21):
    Whole(write_table(16, size, 0, [entry(b'a', 1, b'x'), entry(b'ab', 1, b'y')]), None).walk().steps().ask((b'a', b'ab', b'aa', b'b'), (0, 1, 2))
for after in (b'tin', b'teb', b'tea\0'):
    Whole(write_table(16, 8, 10, [entry(b'tea', 9, b'1'), entry(after, 2, b'2')]), None).walk().ask((b'te', b'tea', b'tea\0', b'teb', b'tf', b'tg', b'tin', b'to'), (0, 9, last_edition))

# the empty table
for bits, foot in ((0, '0a152408'), (10, '0a2f3e08')):
    t = write_table(16, 4096, bits, [])
    assert t[-48:-44].hex() == foot
    w = Whole(t, None).walk().steps().ask((b'\0', b'a', b'\xff' * 1024)).seek(b'a', 5, 1031).lookup(b'a', 5, 1031).step(0, 0, 1031)
    w.spoiled(b'a', 5, (0x01, 0x80, 0xff))

# 3 and 2, and key buffers of other lengths
three = [entry(b'a', 5, b'x'), entry(b'b', 9, b'', 0), entry(b'b', 4, b'yy')]
w = Whole(by_hand([(internal(b'c', 9, 1), three)]), None)
for room in (0, 1, 1031, 1032, 1033, 1100):
    for word in (b'', b'b', b'k', b'k' * 1024, b'k' * 1025):
        for edition in (0, 4, last_edition, 2 ** 56):
            if room in (1031, 1032) or edition in (4, 2 ** 56):
                w.seek(word, edition, room).lookup(word, edition, room)
    w.step(0, 0, room).step(0, 1, room)

# kind bytes: 0 is a deletion, any other a value; the same in index keys
for kind in (0, 1, 2, 127, 255):
    w = Whole(by_hand([(internal(b'b', 4, 1 - kind % 2), [entry(b'a', 5, b'x', kind), entry(b'b', 4, b'', kind)]), (internal(b'c', 2, kind), [entry(b'c', 2, b'z', kind)])]), None)
    w.walk().steps().ask((b'a', b'b', b'c'), (2, 4, 5))
for kinds in ((0, 1), (1, 0), (1, 1), (1, 255)):
    Whole(by_hand([(internal(b'b', 4, 1), [entry(b'a', 5, b'x', kinds[0]), entry(b'a', 5, b'y', kinds[1])])]), 11).any(b'a', 5)
    Whole(by_hand([(internal(b'a', 5, 1), [entry(b'a', 5, b'x', kinds[0])]), (internal(b'b', 4, 1), [entry(b'a', 5, b'y', kinds[1])])]), 11).any(b'a', 5)

# index keys between two blocks, at and next to their bounds
first, second = [entry(b'a', 5, b'x'), entry(b'b', 4, b'y')], [entry(b'd', 7, b'z'), entry(b'e', 1, b'w')]
for word, edition, want in ((b'b', 4, None), (b'b', 3, None), (b'b', 0, None), (b'b', 5, 11), (b'b', last_edition, 11), (b'a', 5, 11), (b'bb', last_edition, None), (b'c', 0, None), (b'c' * 1024, 9, None),
                            (b'd', last_edition, 11), (b'd', 8, 11), (b'd', 7, 11), (b'd', 6, 11), (b'e', 1, 11), (b'f', 0, 11)):
    w = Whole(by_hand([(internal(word, edition, 1), first), (internal(b'e', 1, 1), second)]), want)
    w.ask((b'b', b'bb', b'c', b'd'), (0, 4, last_edition))
    if want is None:
        w.walk().steps()

# versions of a word across a bound: the index key is the last key, or it lies between two versions and that is 11
olds = [entry(b'b', 3, b'old'), entry(b'b', 1, b'older', 0), entry(b'c', 2, b'w')]
for edition, want in ((9, 11), (7, None), (6, 11), (4, 11), (3, 11), (2, 11), (0, 11)):
    for kind in (0, 1):
        w = Whole(by_hand([(internal(b'b', edition, kind), [entry(b'a', 5, b'x'), entry(b'b', 7, b'new')]), (internal(b'c', 2, 1), olds)]), want)
        w.ask((b'b',), (0, 1, 2, 3, 4, 6, 7, 8, last_edition) if kind else (3, 5, 7))
        if want is None:
            w.walk().steps()
w = Whole(by_hand([(internal(b'b', 9 - i, 1), [entry(b'b', 9 - i, b'%d' % i, i % 2)]) for i in range(6)]), None).walk().steps().ask((b'a', b'b', b'c'), range(3, 11))

# a block whose first key stands below the block before it, or is its last key again
for key in ((b'a', 9), (b'a', 5), (b'b', 9), (b'b', 4)):
    for bound in (internal(b'b', 4, 1), internal(b'c', 9, 1)):
        Whole(by_hand([(bound, first), (internal(b'e', 1, 1), [entry(*key, b'z'), entry(b'e', 1, b'w')])]), 11).any(b'a', 9).any(b'b', 4)
Whole(by_hand([(internal(b'e', 1, 1), second), (internal(b'f', 1, 1), first)]), 11).any(b'd', 7)
# the same block twice, and blocks that stand in another order than their index entries
out = Layout()
hs = [out.put(build(2, es)[0]) for es in (second, first)]
for names in ([(hs[1], b'b', 4), (hs[0], b'e', 1)], [(hs[1], b'c', 4), (hs[0], b'f', 1)], [(hs[0], b'e', 1), (hs[0], b'f', 1)], [(hs[1], b'b', 4), (hs[1], b'c', 1)]):
    more = Layout()
    more.out = out.out + b'between'
    meta = more.put(array(0))
    t = more.table(meta, more.put(build(1, [(internal(w, s, 1), handle(*h)) for h, w, s in names])[0]))
    Whole(t, None if names[0][0] != hs[0] and names[1][0] != hs[1] else 11).ask((b'a', b'b', b'c', b'd', b'e', b'f'), (0, 4, last_edition))
# metaindex and index the same empty block
out = Layout()
h = out.put(array(0))
Whole(out.table(h, h), None).walk().ask((b'a',))

# two faults: the first of the list decides
FAULTS = [('magic', 7), ('meta decodes', 8), ('index decodes', 8), ('meta placed', 8), ('index placed', 8), ('meta sealed', 9), ('meta formed', 10), ('meta order', 11),
          ('index sealed', 9), ('index formed', 10), ('index order', 11), ('filter placed', 8), ('filter sealed', 9), ('filter formed', 12),
          ('placed 0', 8), ('sealed 0', 9), ('formed 0', 10), ('order 0', 11), ('bound 0', 11), ('denied 0', 12),
          ('placed 1', 8), ('sealed 1', 9), ('formed 1', 10), ('order 1', 11), ('bound 1', 11), ('next', 11), ('versions', 11), ('below', 11), ('denied 1', 12)]

def wide(h, wrong=False):
    """A handle of four bytes; a wrong one goes past every small table."""
    return padded(h[0], 2) + padded(9999 if wrong else h[1], 2)

def faulty(*faults):
    out, handles = Layout(), []
    groups = [entry(b'a', 5, b'x'), entry(b'b', 9, b''), entry(b'b', 4, b'yy', 0)], [entry(b'd', 7, b'z'), entry(b'e', 1, b'w'), entry(b'f', 3, b'v')]
    bounds = [(b'c', last_edition), (b'g', last_edition)]
    for name, key in (('next', (b'd', 7)), ('versions', (b'b', 3)), ('bound 0', (b'b', 6))):
        if name in faults:
            bounds[0] = key
    if 'bound 1' in faults:
        bounds[1] = (b'f', 5)
    for name, key in (('versions', (b'b', 2)), ('below', (b'a', 9))):
        if name in faults:
            groups[1][0] = entry(*key, b'z')
    for i, es in enumerate(groups):
        if 'order %d' % i in faults:
            es[0], es[1] = es[1], es[0]
        s = bytearray(build(16, es)[0])
        if 'formed %d' % i in faults:
            s[entries(s)[-1][0] + 2] += 1
        h = out.put(bytes(s), 'sealed %d' % i not in faults)
        handles.append(wide(h, 'placed %d' % i in faults))
    words = b'q' if 'denied 0' in faults else b'a', b'b', b'd', b'q' if 'denied 1' in faults else b'e', b'f'
    s = filter_block(make_filter(16, [bloom_hash(w) for w in words]), [0])
    h = out.put(s[:-1] + b'\x20' if 'filter formed' in faults else s, 'filter sealed' not in faults)
    names = [b'z' if 'meta order' in faults else b'a', BLOOM, b'y']
    s = bytearray(build(16, [(n, wide(h, 'filter placed' in faults) if n == BLOOM else b'') for n in names])[0])
    if 'meta formed' in faults:
        s[entries(s)[1][3] + 3] |= 0x80
    meta = out.put(bytes(s), 'meta sealed' not in faults)
    if 'index order' in faults:
        bounds.reverse()
    s = bytearray(build(16, [(internal(*b, 1), h) for b, h in zip(bounds, handles)])[0])
    if 'index formed' in faults:
        s[entries(s)[1][3] + 3] |= 0x80
    index = out.put(bytes(s), 'index sealed' not in faults)
    far = b'\xff' * 12
    foot = far if 'meta decodes' in faults else wide(meta, 'meta placed' in faults)
    foot += far if 'index decodes' in faults else wide(index, 'index placed' in faults)
    t = out.table(meta, index, foot)
    return t[:-1] + b'\0' if 'magic' in faults else t

targets = (b'a', b'b', b'c', b'd', b'e', b'f', b'g', b'h')
w = Whole(faulty(), None).walk().steps().ask(targets)
w.spoiled(b'b', 5, (0x01, 0x02, 0x10, 0x80, 0xff))
for name, number in FAULTS:
    Whole(faulty(name), number).ask(targets[::2], (0, 7)).seek(b'', 0).lookup(b'b', 2 ** 56).seek(b'b', 5, 1031).lookup(b'', 5, 1031).step(0, 0, 1031)
for i, (one, number) in enumerate(FAULTS):
    for other, _ in FAULTS[i + 1:]:
        Whole(faulty(one, other), number).any()

# the footer: its length, its magic, handles at the end of what may be named, padded, too long and too large
t = by_hand([(internal(b'c', 9, 1), three)])
for n in (0, 1, 8, 47, 48):
    Whole(t[-n:] if n else b'').seek(b'a', 5).lookup(b'a', 5).step(0, 0).seek(b'', 5).step(0, 0, 0)
for i in range(8):
    Whole(t[:-8] + MAGIC[:i] + bytes([MAGIC[i] ^ 0x20]) + MAGIC[i + 1:], 7).seek(b'a', 5)
meta, index = footer_handles(t)
end = len(t) - 48
def footed(foot, want='any'):
    Whole(t[:-48] + foot + b'\0' * (40 - len(foot)) + MAGIC, want).any()
for size in (1, 2, 9, 10):
    footed(padded(meta[0], size) + padded(meta[1], size) + padded(index[0], size) + padded(index[1], size), None)
for size in (10, 11):
    footed(padded(meta[0], size) + padded(meta[1], size) + handle(*index), None if size == 10 else 8)
    footed(handle(*meta) + padded(index[0], size) + padded(index[1], size), None if size == 10 else 8)
for more in (0, 1, 2 ** 32, 2 ** 63, 2 ** 64 - 1):
    for h in ((end - 5 - meta[1] + more, meta[1]), (meta[0], end - 5 - meta[0] + more), (more, more), (end - 5 + more, 0), (0, end - 5 + more)):
        if max(h) < 2 ** 64:
            footed(handle(*h) + handle(*index))
            footed(handle(*meta) + handle(*h))
footed(padded(2 ** 64, 10) + b'\0' + handle(*index), 8)
footed(padded(2 ** 64 - 1, 10) * 2 + handle(*index), 8)
footed(b'\x80' * 40, 8)
footed(handle(*meta) + b'\x80' * 36, 8)
footed(handle(*meta) + handle(*index) + b'\xff' * 36, None)
footed(handle(*index) + handle(*meta))
footed(handle(*index) + handle(*index))
footed(handle(*meta) + handle(*meta))

# what follows a block: its type, and each byte of its checksum
for h in (read_handle(contents(t, (index[0] + entries(contents(t, index))[0][3], 2))), meta, index):
    for at in range(5):
        s = bytearray(t)
        s[h[0] + h[1] + at] ^= 0x01
        Whole(bytes(s), 9).any(b'b', 5)
    # another type, with the checksum of it
    s[h[0]:h[0] + h[1] + 5] = sealed(contents(t, h), b'\x01')
    Whole(bytes(s), 9).any(b'b', 5)
Whole(t, None)

# index entries whose handle goes to the end of what may be named, and past it; an index value that is no handle or more
out = Layout()
h = out.put(build(16, three)[0])
meta = out.put(array(0))
key = internal(b'c', 9, 1)
for value in (handle(*h), padded(h[0], 10) + padded(h[1], 10), handle(h[0], h[1] - 1), handle(h[0] + 1, h[1]), handle(0, 0), handle(2 ** 64 - 1, 1), handle(2 ** 64 - 1, 2 ** 64 - 1), handle(1, 2 ** 64 - 1), handle(h[0], 2 ** 32 + h[1]),
              handle(*h) + b'\0', b'', b'\0', padded(h[0], 11) + b'\0', handle(*meta)):
    more = Layout()
    more.out = out.out
    Whole(more.table(meta, more.put(build(16, [(key, value)])[0]))).any(b'b', 5).any(b'a', 9, 0, 12)
for past in (0, 1):
    more = Layout()
    more.out = out.out
    s = build(16, [(key, handle(*h)), (internal(b'd', 9, 1), padded(0, 2) + padded(0, 2))])[0]
    size = len(out.out) + len(s) + past
    s = build(16, [(key, handle(*h)), (internal(b'd', 9, 1), padded(0, 2) + padded(size, 2))])[0]
    Whole(more.table(meta, more.put(s)), 8 if past else 9).any(b'b', 5).any(b'd', 5)
# keys of the index and of data blocks that are too short, and none in a block
for n in (0, 7, 8, 9):
    Whole(by_hand([(b'z' * n, three)]), None if n == 9 else 10).any(b'b', 5)
    Whole(by_hand([(internal(b'zz', 9, 1), [(b'z' * n, b'')])]), None if n == 9 else 10).any(b'b', 5)
Whole(by_hand([(internal(b'c', 9, 1), three), (internal(b'd', 9, 1), [])]), 10).any(b'b', 5).any(b'd', 5)

# other names in the metaindex, and names that do not rise
for names in ([], [(b'a', b'')], [(b'filter._', handle(9999, 9999))], [(b'a', b'x'), (BLOOM[:-1], b''), (BLOOM + b'\0', b'y')], [(b'k' * 1032, b'')]):
    Whole(by_hand([(internal(b'c', 9, 1), three)], None, names), None).walk().ask((b'b',))
for names in ([b'a', b'a'], [b'b', b'a'], [b'ab', b'a'], [BLOOM, BLOOM], [b'z', BLOOM]):
    out = Layout()
    h = out.put(build(16, three)[0])
    meta = out.put(build(16, [(n, handle(0, 0)) for n in names])[0])
    Whole(out.table(meta, out.put(build(16, [(key, handle(*h))])[0])), 11).any(b'b', 5)

# filters: several blocks to one, several to a table, none for a block, those that let all pass, and those that deny an entry
spread = [entry(b'w%d' % i, 5, b'v' * 700, i % 3) for i in range(9)]
for interval, size, bits in ((16, 8, 10), (1, 1500, 10), (2, 3000, 1), (16, 8, 0)):
    w = Whole(write_table(interval, size, bits, spread), None).walk().steps().ask([b'w%d' % i for i in range(9)] + [b'w', b'w10', b'x', b'w44'], (4, 5))
hashes = [bloom_hash(w) for w in (b'a', b'b')]
good, poor = make_filter(10, hashes), make_filter(10, hashes[:1])
assert not filter_may(poor, hashes[1])
for bloom, want in ((filter_block(good, [0]), None), (filter_block(poor, [0]), 12), (filter_block(b'', []), None), (filter_block(b'', [0]), None), (filter_block(b'', [0, 0, 0]), None), (filter_block(poor, []), None),
                    (filter_block(poor[:-1] + b'\x1f', [0]), None), (filter_block(poor[:-1] + b'\xff', [0]), None), (filter_block(poor[:-1] + b'\x1e', [0]), 12), (filter_block(b'\0\x06', [0]), 12), (filter_block(b'\x06', [0]), None), (filter_block(b'\xff\x06', [0]), None),
                    (filter_block(good, [0])[:-1] + b'\x1f', None), (filter_block(poor, [0])[:-1] + b'\0', 12), (filter_block(poor, [0])[:-1] + b'\x20', 12), (filter_block(good, [len(good)]), None), (filter_block(good, [len(good) + 1]), 12),
                    (filter_block(good + poor, [0, len(good)]), None), (filter_block(poor + good, [0, len(poor)]), 12), (filter_block(good, [1, 0]), 12), (filter_block(good, [0])[1:], 12), (b'', 12), (b'\0\0\0\x0b', 12), (b'\0\0\0\0\x0b', None)):
    w = Whole(by_hand([(internal(b'c', 9, 1), three)], bloom), want).ask((b'a', b'b', b'c', b'no', b'toe'), (4, 9))
    if want is None:
        w.walk()
# each block asks the filter of its own offset
for base in (2, 4, 5):
    out = Layout()
    hs = [out.put(build(16, es)[0]) for es in (first, second)]
    for wrong in (None, 0, 1):
        fs = [b''] * (hs[1][0] // 2 ** base + 1)
        for i, words in enumerate(((b'a', b'b'), (b'd', b'e'))):
            fs[hs[i][0] // 2 ** base] = make_filter(10, [bloom_hash(w) for w in words[wrong == i:]])
        starts = [sum(map(len, fs[:i])) for i in range(len(fs))]
        more = Layout()
        more.out = out.out
        h = more.put(filter_block(b''.join(fs), starts)[:-1] + bytes([base]))
        meta = more.put(build(16, [(BLOOM, handle(*h))])[0])
        s = build(16, [(internal(b'c', 9, 1), handle(*hs[0])), (internal(b'f', 9, 1), handle(*hs[1]))])[0]
        Whole(more.table(meta, more.put(s)), 12 if wrong is not None else None).ask((b'a', b'b', b'bb', b'd', b'e', b'f'), (4, 9))

# the longest keys and values, and a byte more
big = [entry(longest, last_edition, b'', 0), entry(longest, 5, b'v' * 32768), entry(longest[:-1] + b'l', 0, b'w')]
for size in (8, 65536):
    w = Whole(write_table(2, size, 10, big), None).walk().steps().ask((longest, longest[:-1], longest[:-1] + b'l', longest[:-1] + b'm', b'k', b'l'), (0, 4, 5, last_edition))
    w.seek(longest, 5, 1031).lookup(longest, 5, 1031).lookup(longest + b'k', 5).seek(longest, 5, 1100).lookup(longest, 5, 1100)
Whole(by_hand([(internal(b'c', 9, 1), [entry(b'a', 5, b'v' * 32769)])]), 10).any(b'a', 5)
Whole(by_hand([(internal(b'c', 9, 1), [(b'k' * 1033, b'')])]), 10).any(b'a', 5)
out = Layout()
h = out.put(build(16, three)[0])
meta = out.put(array(0))
s = body((0, b'k' * 1033, handle(*h))) + array(0)
Whole(out.table(meta, out.put(s)), 10).any(b'a', 5)

# every byte of small tables changed, and every shorter length of them
for interval, size, bits, n in ((2, 30, 10, 5), (1, 8, 0, 3), (16, 60, 10, 9)):
    Whole(write_table(interval, size, bits, sample(n)), None).walk().spoiled(b'word000', 8, (0x01, 0x04, 0x40, 0x80, 0xff))

sections.replace('cases', lines, [a.strip() for a in answers])
print(len(lines), 'cases,', sum(len(l) + 1 for l in lines), 'bytes;', ', '.join('%s %d' % (c, sum(l[0] == c for l in lines)) for c in sorted({l[0] for l in lines})))
