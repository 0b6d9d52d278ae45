"""The rules of the tables, read plainly: blocks, filters, whole tables, what the full check and the reads answer, and how a table is
built. It shares nothing with the code or its definitions. The list makers beside it take their answers from here.
"""
import struct

def crc_byte(c):
    for _ in range(8):
        c = (c >> 1) ^ (0x82f63b78 if c & 1 else 0)
    return c

CRC_BYTES = [crc_byte(i) for i in range(256)]

def crc(s):
    c = 0xffffffff
    for b in s:
        c = CRC_BYTES[(c ^ b) & 255] ^ (c >> 8)
    return c ^ 0xffffffff

def point(key):
    n = max(len(key) - 8, 0)
    return key[:n], int.from_bytes(key[n:], 'little') // 256

def order(a, b):
    return (a > b) - (a < b)

def order_points(a, b):
    return order(a[0], b[0]) or order(b[1], a[1])

def internal(word, seq, kind):
    return word + ((seq * 256 + kind) % 2 ** 64).to_bytes(8, 'little')

def shortest_sep(a, b):
    for i in range(min(len(a), len(b))):
        if a[i] + 1 < b[i]:
            return a[:i] + bytes([a[i] + 1])
    for i in reversed(range(len(a))):
        if a[i] < 255:
            r = a[:i] + bytes([a[i] + 1]) + a[i + 1:]
            if r < b:
                return r
            break
    return a + b'\0'

def user_sep(a, b):
    if not a or not a < b:
        return a
    s = shortest_sep(a, b)
    return s if s < b else a

def separator(a, b):
    ua, ub = point(a)[0], point(b)[0]
    s = user_sep(ua, ub)
    return s + b'\x01' + b'\xff' * 7 if len(s) < len(ua) and ua < s else a

def successor(a):
    for i, b in enumerate(a):
        if b != 255:
            return a[:i] + bytes([b + 1])
    return a + b'\xff'

def bloom_hash(s):
    m = 0xc6a4a793
    h = 0xbc9f1d34 ^ (len(s) * m & 0xffffffff)
    i = 0
    while i + 4 <= len(s):
        h = (h + int.from_bytes(s[i:i + 4], 'little')) * m & 0xffffffff
        h ^= h >> 16
        i += 4
    if i < len(s):
        h = (h + int.from_bytes(s[i:], 'little')) * m & 0xffffffff
        h ^= h >> 24
    return h

def probes(bits):
    return max(1, min(30, 69 * bits // 100))

def places(h, k, n):
    d = (h >> 17) | (h << 15 & 0xffffffff)
    for _ in range(k):
        yield h % n
        h = (h + d) & 0xffffffff

def make_filter(bits, hashes):
    if bits == 0 or not hashes:
        return b''
    total = len(hashes) * bits
    f = bytearray(8 if total < 64 else (total + 7) // 8)
    for h in hashes:
        for p in places(h, probes(bits), 8 * len(f)):
            f[p // 8] |= 1 << p % 8
    return bytes(f) + bytes([probes(bits)])

def filter_may(f, h):
    if len(f) <= 1 or f[-1] > 30:
        return True
    return all(f[p // 8] >> p % 8 & 1 for p in places(h, f[-1], 8 * (len(f) - 1)))

def filter_parts(s):
    array = int.from_bytes(s[-5:-1], 'little')
    return s[-1], array, (len(s) - 5 - array) // 4 if array <= len(s) - 5 else 0

def start_at(s, array, i):
    return int.from_bytes(s[array + 4 * i:array + 4 * i + 4], 'little')

def block_may(s, offset, h):
    if len(s) < 5:
        return True
    base, array, count = filter_parts(s)
    if base > 31 or array > len(s) - 5:
        return True
    i = offset >> base
    if i >= count:
        return True
    a, e = start_at(s, array, i), start_at(s, array, i + 1)
    if e < a or array < e:
        return True
    return filter_may(s[a:e], h)

def filter_formed(s):
    if len(s) < 5:
        return False
    base, array, count = filter_parts(s)
    if base > 31 or array > len(s) - 5 or (len(s) - 5 - array) % 4:
        return False
    low = 0
    for i in range(count):
        x = start_at(s, array, i)
        if x < low:
            return False
        low = x
    return low <= array

def filter_block(filters, offsets):
    return filters + b''.join(struct.pack('<I', o) for o in offsets) + struct.pack('<I', len(filters)) + b'\x0b'

def varint(x):
    out = b''
    while x >= 128:
        out += bytes([x % 128 + 128])
        x //= 128
    return out + bytes([x])

def read_varint(s):
    value = 0
    for i, b in enumerate(s[:10]):
        value += (b & 127) << (7 * i)
        if b < 128:
            return (value, i + 1) if value < 2 ** 64 else None
    return None

def read_handle(s):
    """Offset, size, and how many bytes the two have."""
    a = read_varint(s)
    b = a and read_varint(s[a[1]:])
    return (a[0], b[0], a[1] + b[1]) if b else None

def one_handle(s):
    h = read_handle(s)
    return h is not None and h[2] == len(s)

def build(interval, pairs, room=65536, marks=2048):
    """The block of the pairs that fit runs of such lengths, or None where its end does not fit, and which pairs did not."""
    out, restarts, since, last, refused = b'', [], interval, b'', []
    for key, value in pairs:
        restart, shared = since == interval, 0
        if not restart:
            while shared < min(len(last), len(key)) and last[shared] == key[shared]:
                shared += 1
        e = varint(shared) + varint(len(key) - shared) + varint(len(value)) + key[shared:] + value
        if len(key) > 1032 or len(out + e) > room or len(restarts) + restart > marks:
            refused.append(key)
            continue
        if restart:
            restarts.append(len(out))
            since = 0
        since += 1
        out += e
        last = key
    s = out + array(*(restarts or [0]))
    return (s if len(s) <= room else None), refused

def array(*restarts):
    """Restarts and their count."""
    return b''.join(struct.pack('<I', r) for r in restarts) + struct.pack('<I', len(restarts))

def read_entry(s, at, before):
    """The entry that starts s, which stands at a place: the place, how much it shares, its key, where its value starts and how long that is."""
    p, numbers = 0, []
    for _ in range(3):
        r = read_varint(s[p:])
        if r is None:
            return None
        numbers.append(r[0])
        p += r[1]
    shared, fresh, size = numbers
    if shared > len(before) or p + fresh + size > len(s):
        return None
    return at, shared, before[:shared] + s[p:p + fresh], at + p + fresh, size

def entries(s):
    """The entries of a well-formed block, or None."""
    if len(s) < 4:
        return None
    n = int.from_bytes(s[-4:], 'little')
    if 4 * n + 4 > len(s):
        return None
    end = len(s) - 4 * n - 4
    restarts = [int.from_bytes(s[end + 4 * i:end + 4 * i + 4], 'little') for i in range(n)]
    es, at, key = [], 0, b''
    while at != end:
        e = read_entry(s[at:end], at, key)
        if e is None:
            return None
        es.append(e)
        key = e[2]
        at = e[3] + e[4]
    if not restarts or restarts[0] != 0 or (not es and n != 1):
        return None
    if any(b <= a for a, b in zip(restarts, restarts[1:])):
        return None
    if es and not set(restarts) <= {e[0] for e in es if e[1] == 0}:
        return None
    return es

BLOOM = b'filter.leveldb.BuiltinBloomFilter2'

def formed(kind, s):
    es = entries(s)
    if es is None or (kind == 'data' and not es):
        return False
    for _, _, key, at, size in es:
        value = s[at:at + size]
        if not (1 if kind == 'metaindex' else 9) <= len(key) <= 1032:
            return False
        if kind == 'data' and size > 32768:
            return False
        if kind == 'index' and not one_handle(value):
            return False
        if kind == 'metaindex' and key == BLOOM and not one_handle(value):
            return False
    return True

MAGIC = bytes.fromhex('57fb808b247547db')

def sealed(s, kind=b'\0'):
    """A block and what follows it."""
    c = crc(s + kind)
    return s + kind + struct.pack('<I', ((c >> 15 | c << 17 & 0xffffffff) + 0xa282ead8) & 0xffffffff)

class Refusal(Exception):
    pass

def demand(number, holds):
    if not holds:
        raise Refusal(number)

def placed(t, h):
    return h[0] + h[1] + 5 <= len(t) - 48

def contents(t, h):
    return t[h[0]:h[0] + h[1]]

def stands(t, h):
    return t[h[0]:h[0] + h[1] + 5] == sealed(contents(t, h))

def footer_handles(t):
    """Of the metaindex and of the index."""
    demand(7, 48 <= len(t) <= 16777216 and t[-8:] == MAGIC)
    s, hs = t[-48:-8], []
    for _ in range(2):
        h = read_handle(s)
        demand(8, h is not None)
        hs.append(h[:2])
        s = s[h[2]:]
    demand(8, all(placed(t, h) for h in hs))
    return hs

def block_of(t, h, kind):
    s = contents(t, h)
    demand(9, stands(t, h))
    demand(10, formed(kind, s))
    return entries(s)

def below(a, b):
    return order_points(point(a), point(b)) < 0

def rising(keys, less):
    return all(less(a, b) for a, b in zip(keys, keys[1:]))

def full_check(t):
    """The number of the refusal, or None."""
    try:
        meta, index = footer_handles(t)
        names = {}
        es = block_of(t, meta, 'metaindex')
        demand(11, rising([e[2] for e in es], lambda a, b: a < b))
        for e in es:
            names[e[2]] = contents(t, (meta[0] + e[3], e[4]))
        ixs = block_of(t, index, 'index')
        demand(11, rising([e[2] for e in ixs], below))
        bloom = None
        if BLOOM in names:
            h = read_handle(names[BLOOM])
            demand(8, placed(t, h))
            bloom = contents(t, h)
            demand(9, stands(t, h))
            demand(12, filter_formed(bloom))
        before = None
        for ix in ixs:
            h = read_handle(contents(t, (index[0] + ix[3], ix[4])))
            demand(8, placed(t, h))
            keys = [e[2] for e in block_of(t, h, 'data')]
            demand(11, rising(keys, below))
            demand(11, not below(ix[2], keys[-1]))
            if before:
                bound, last = before
                demand(11, below(last, keys[0]) and below(bound, keys[0]))
                demand(11, point(bound) == point(last) or point(bound)[0] < point(keys[0])[0])
            demand(12, bloom is None or all(block_may(bloom, h[0], bloom_hash(point(k)[0])) for k in keys))
            before = ix[2], keys[-1]
    except Refusal as r:
        return r.args[0]
    return None

def plain_reading(t):
    """All entries of a table: both numbers of the place, the key, where the value starts, the value."""
    index, found = footer_handles(t)[1], []
    for ix in entries(contents(t, index)):
        h = read_handle(contents(t, (index[0] + ix[3], ix[4])))
        for e in entries(contents(t, h)):
            found.append((ix[0], e[0], e[2], h[0] + e[3], contents(t, (h[0] + e[3], e[4]))))
    return found

# ---- building

def entry(w, s, v, kind=1):
    return internal(w, s, kind), v

def handle(a, b):
    return varint(a) + varint(b)

last_edition = 2 ** 56 - 1

class Layout:
    """A table put together block by block."""
    def __init__(self):
        self.out = b''

    def put(self, s, stands=True):
        """Where the block then stands."""
        at = len(self.out)
        self.out += sealed(s)
        if not stands:
            self.out = self.out[:-1] + bytes([self.out[-1] ^ 1])
        return at, len(s)

    def table(self, meta, index, foot=None):
        foot = handle(*meta) + handle(*index) if foot is None else foot
        return self.out + foot + b'\0' * (40 - len(foot)) + MAGIC

class Building:
    """A table being built of some options, bits 0 for no filter: the additions accepted so far, as the entries that they become."""
    def __init__(self, interval, block_size, bits, copied=None):
        self.interval, self.block_size, self.bits = interval, block_size, bits
        self.out, self.index, self.open, self.filters, self.waiting = Layout(), [], [], [], []
        if copied:
            self.out.out = copied.out.out
            self.index, self.open, self.filters, self.waiting = list(copied.index), list(copied.open), list(copied.filters), list(copied.waiting)

    def copy(self):
        return Building(self.interval, self.block_size, self.bits, self)

    def packed(self, pairs):
        """The entry bytes of a block, and its restarts."""
        s = build(self.interval, pairs, 2 ** 24, 2 ** 24)[0]
        n = int.from_bytes(s[-4:], 'little')
        end = len(s) - 4 - 4 * n
        return s[:end], [int.from_bytes(s[i:i + 4], 'little') for i in range(end, len(s) - 4, 4)] if pairs else []

    def block(self, pairs):
        return build(self.interval, pairs, 2 ** 24, 2 ** 24)[0]

    def make(self):
        self.filters.append(make_filter(self.bits, self.waiting))
        self.waiting = []

    def close(self, key):
        """The open block is written, and indexed under a key; then there are filters up to the new offset's number."""
        self.index.append((key, handle(*self.out.put(self.block(self.open)))))
        self.open = []
        while len(self.filters) < len(self.out.out) // 2048:
            self.make()

    def add(self, key, value):
        """The table with an entry more."""
        b = self.copy()
        if b.open and len(b.block(b.open)) > b.block_size:
            b.close(separator(b.open[-1][0], key))
        b.open.append((key, value))
        b.waiting.append(bloom_hash(point(key)[0]))
        return b

    def closed(self):
        """The last block and the last filter closed."""
        b = self.copy()
        if b.open:
            b.close(b.open[-1][0])
        if b.waiting:
            b.make()
        return b

    def starts(self):
        return [sum(map(len, self.filters[:i])) for i in range(len(self.filters))]

    def table(self):
        """The table finished now."""
        b = self.closed()
        f = b.out.put(filter_block(b''.join(b.filters), b.starts()))
        meta = b.out.put(b.block([(BLOOM if b.bits else b'filter._', handle(*f))]))
        return b.out.table(meta, b.out.put(b.block(b.index)))

    def runs(self):
        """What each of the seven runs holds between calls: the output, the bytes of index and filters, and the restarts of the open block and
        of the index, the filters' offsets, the hashes that wait."""
        entry_bytes, restarts = self.packed(self.open)
        index_bytes, index_restarts = self.packed(self.index)
        return self.out.out + entry_bytes, index_bytes, b''.join(self.filters), restarts, index_restarts, self.starts(), self.waiting

    def runs_finished(self):
        """And after finish."""
        return (self.table(),) + self.closed().runs()[1:]

def write_table(interval, block_size, bits, pairs):
    """The table as it is built."""
    b = Building(interval, block_size, bits)
    for key, value in pairs:
        b = b.add(key, value)
    return b.table()

# ---- how a list writes bytes

def field(s):
    """Bytes in hex; a byte that stands often is written once, with * and how often."""
    if not s:
        return '-'
    out, i = '', 0
    while i < len(s):
        n = 1
        while i + n < len(s) and s[i + n] == s[i]:
            n += 1
        if n > 4:
            out += '%02x*%d.' % (s[i], n)
        else:
            out += ('%02x' % s[i]) * n
        i += n
    return out

def shown(s):
    """Short bytes in hex, long ones by their length and checksum."""
    return s.hex() if 0 < len(s) <= 40 else '%d:%08x' % (len(s), crc(s))

def shown_entry(e):
    return '%d %d %s at %d %s' % (e[0], e[1], shown(e[2]), e[3], shown(e[4]))

def newest_of(found, word, edition):
    """What a lookup answers."""
    versions = [e for e in found if point(e[2])[0] == word and point(e[2])[1] <= edition]
    if not versions:
        return 'absent'
    newest = max(versions, key=lambda e: point(e[2])[1])
    return ('deleted ' if newest[2][-8] == 0 else '') + shown_entry(newest)
