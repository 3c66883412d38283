#!/usr/bin/env python3
"""Scenes for the program crates/test_refusals, and what document 01 says of each.

    python3 compare/refusals.py

writes crates/test_refusals/data/scenes and crates/test_refusals/stdout again, the same bytes each time. It was
written from document 01, sections 1 and 2, alone: the Rust has no scene bytes and no refusals. `judge`
below reads a scene by those sections, with Python's own numbers. A case that was made for one row says
which answer it expects, and the script stops where `judge` says another.

The file holds, for each scene, the length of its label, its number of pieces, the label, and the pieces;
a number is four bytes, the lowest first. A piece is four numbers, its kind and three more:
  0 n 0 0       n bytes, which follow
  1 n back 0    n bytes, each the one that stands `back` places before it
  2 n first by  n numbers: `first`, and each next one larger by `by`

The longest scene has 720,911 bytes: one of more than 16,777,216, which row 1 refuses, would not fit the
program's stack.
"""
import math, random, struct
from pathlib import Path

HERE = Path(__file__).resolve().parent.parent / 'crates' / 'test_refusals'
LENGTH, OBJECTS, HOLES, CORNERS, SECTIONS = 16777216, 65536, 32, 512, 4096


# ---- document 01, sections 1 and 2

class Refused(Exception):
    pass


def u16(s, i):
    return struct.unpack_from('<H', s, i)[0]


def u32(s, i):
    return struct.unpack_from('<I', s, i)[0]


def need(end, i, n):
    """The bytes next needed: they may not pass the trailer's start."""
    if i + n > end:
        raise Refused(4)
    return i + n


def numbers(s, i, n, form, size, largest):
    for x in struct.unpack_from('<%d%s' % (n, form), s, i):
        if not math.isfinite(x) or abs(x) > largest:
            raise Refused(7)
    return i + n * size


def f32s(s, i, n):
    return numbers(s, i, n, 'f', 4, 16777216)


def record(s, end, i):
    """Where the record at i ends."""
    body = need(end, i, 5)
    kind = s[i]
    if kind > 6:
        raise Refused(5)
    if kind < 3:
        sizes = (0, 3, 2)[kind]
        need(end, body, 60 + 4 * sizes)
        at = f32s(s, body, 3)
        at = numbers(s, at, 6, 'd', 8, 1)
        return f32s(s, at, sizes)
    if kind < 5:
        at = need(end, body, 4)
        outer, holes = u16(s, body), u16(s, body + 2)
        if holes > HOLES:
            raise Refused(6)
        corners = need(end, at, 2 * holes)
        total = outer + sum(u16(s, at + 2 * h) for h in range(holes))
        if total > CORNERS:
            raise Refused(6)
        need(end, corners, 24 * total)
        return f32s(s, corners, 6 * total)
    at = need(end, body, 2)
    count = u16(s, body)
    if count > SECTIONS:
        raise Refused(6)
    need(end, at, 48 * count)
    return f32s(s, at, 12 * count)


def judge(s):
    if len(s) < 4 or len(s) > LENGTH:
        return 'refused 1 object 0'
    n = u32(s, len(s) - 4)
    if n > OBJECTS or 4 * n + 4 > len(s):
        return 'refused 2 object 0'
    end = len(s) - 4 * n - 4
    at = 0
    for k in range(n):
        if u32(s, end + 4 * k) != at:
            return 'refused 3 object %d' % k
        try:
            at = record(s, end, at)
        except Refused as r:
            return 'refused %d object %d' % (r.args[0], k)
    if at != end:
        return 'refused 3 object %d' % n
    return 'accepted %d' % n


# ---- pieces

def expand(pieces):
    s = bytearray()
    for p in pieces:
        if p[0] == 0:
            s += p[1]
        elif p[0] == 1:
            unit = s[len(s) - p[2]:]
            s += (unit * (p[1] // p[2] + 1))[:p[1]]
        else:
            for j in range(p[1]):
                s += struct.pack('<I', (p[2] + p[3] * j) % 2 ** 32)
    return bytes(s)


def store(pieces):
    out = b''
    for p in pieces:
        if p[0] == 0:
            out += struct.pack('<4I', 0, len(p[1]), 0, 0) + p[1]
        else:
            out += struct.pack('<4I', *(p + (0,) * (4 - len(p))))
    return out


cases, labels = [], set()


def add(label, scene, expected=None):
    """A scene, as bytes or as pieces. Without an expected answer it is `judge` that says it."""
    pieces = [(0, scene)] if isinstance(scene, (bytes, bytearray)) else scene
    said = judge(expand(pieces))
    if expected is not None and said != expected:
        raise SystemExit('%s: expected %s, but %s' % (label, expected, said))
    assert label not in labels and len(label) <= 64, label
    labels.add(label)
    cases.append((label, pieces, said))


# ---- records

def f32(*xs):
    return struct.pack('<%df' % len(xs), *xs)


def head(kind, ident=7):
    return struct.pack('<BI', kind, ident)


def solid(kind, ident=7, position=(1.0, -2.5, 0.25), pairs=(0.0, 1.0, 0.5, -0.5, -1.0, 0.0), sizes=None):
    if sizes is None:
        sizes = ((), (4.0, 2.0, 1.5), (1.0, 2.0))[kind]
    return head(kind, ident) + f32(*position) + struct.pack('<6d', *pairs) + f32(*sizes)


def corner(j):
    return f32(j * 1.5, 4.0 - j, 0.0, j * 1.5, 4.0 - j, 3.0)


def corners(n):
    return b''.join(corner(j % 9) for j in range(n))


def outline(kind, outer, holes, body=None, ident=8):
    counts = struct.pack('<HH', outer, len(holes)) + b''.join(struct.pack('<H', h) for h in holes)
    return head(kind, ident) + counts + (corners(outer + sum(holes)) if body is None else body)


def sweep(kind, n, body=None, ident=9):
    return head(kind, ident) + struct.pack('<H', n) + (corners(2 * n) if body is None else body)


def scene(records, offsets=None, n=None, gap=b''):
    body = b''.join(records)
    if offsets is None:
        offsets, at = [], 0
        for r in records:
            offsets.append(at)
            at += len(r)
    return body + gap + struct.pack('<%dI' % len(offsets), *offsets) + struct.pack('<I', len(offsets) if n is None else n)


RECORDS = [solid(0), solid(1), solid(2), outline(3, 4, []), outline(4, 4, [3]), sweep(5, 2), sweep(6, 1)]
NAMES = ['unsized', 'box', 'cylinder', 'open outline', 'closed outline', 'sweep', 'round sweep']


# ---- scene length and trailer

for n in range(4):
    add('%d bytes' % n, bytes(n), 'refused 1 object 0')
    if n:
        add('%d bytes, not zero' % n, b'\xff' * n, 'refused 1 object 0')
add('4 zero bytes', bytes(4), 'accepted 0')
for n in (1, 2, 255, 256, 65535, 65536, 65537, 65792, 16777216, 4294967295):
    add('trailer alone, n = %d' % n, struct.pack('<I', n), 'refused 2 object 0')
for n in (1, 2, 5):
    add('n = %d, trailer a byte short' % n, bytes(4 * n - 1) + struct.pack('<I', n), 'refused 2 object 0')
    add('n = %d, no room for a record' % n, bytes(4 * n) + struct.pack('<I', n), 'refused 4 object 0')
add('n one more than the entries', scene(RECORDS, n=8), 'refused 3 object 0')
add('n one less than the entries', scene(RECORDS, n=6), 'refused 3 object 0')


def empty_sweeps(n, count=None, first=0, by=7):
    """n records of 7 bytes."""
    one = sweep(5, 0)
    again = [(1, 7 * (n - 1), 7)] if n > 1 else []
    return [(0, one)] + again + [(2, n, first, by), (0, struct.pack('<I', n if count is None else count))]


add('65535 objects', empty_sweeps(65535), 'accepted 65535')
add('65536 objects', empty_sweeps(65536), 'accepted 65536')
add('65537 objects', empty_sweeps(65537), 'refused 2 object 0')
add('65536 objects, entries by 8', empty_sweeps(65536, by=8), 'refused 3 object 1')
add('65536 objects, entries from 1', empty_sweeps(65536, first=1), 'refused 3 object 0')
p = empty_sweeps(65536)
add('65536 objects, a byte behind the last', p[:2] + [(0, b'\0')] + p[2:], 'refused 3 object 65536')
add('65536 objects, the last of kind 7', [p[0], (1, 7 * 65534, 7), (0, b'\7' + p[0][1][1:])] + p[2:], 'refused 5 object 65535')
add('65536 objects, the last with a section', [p[0], (1, 7 * 65534, 7), (0, sweep(5, 1, b''))] + p[2:], 'refused 4 object 65535')

# ---- good scenes

for name, r in zip(NAMES, RECORDS):
    add(name, scene([r]), 'accepted 1')
    add('two of them: ' + name, scene([r, r]), 'accepted 2')
add('one of each kind', scene(RECORDS), 'accepted 7')
add('one of each kind, backwards', scene(RECORDS[::-1]), 'accepted 7')
for kind in (3, 4):
    add('%s without corners' % NAMES[kind], scene([outline(kind, 0, [])]), 'accepted 1')
    add('%s, empty holes' % NAMES[kind], scene([outline(kind, 3, [0, 0, 0])]), 'accepted 1')
for kind in (5, 6):
    add('%s without sections' % NAMES[kind], scene([sweep(kind, 0)]), 'accepted 1')

# ---- trailer start, and gaps

for gap in (1, 2, 3, 4, 5, 77, 100):
    add('no records, %d bytes before the trailer' % gap, scene([], gap=bytes(gap)), 'refused 3 object 0')
    add('a gap of %d behind one record' % gap, scene([RECORDS[1]], gap=bytes(gap)), 'refused 3 object 1')
    add('a gap of %d behind seven' % gap, scene(RECORDS, gap=bytes(gap)), 'refused 3 object 7')
add('a gap that is a record', scene([RECORDS[0]], gap=RECORDS[1]), 'refused 3 object 1')

# ---- record start

STARTS = [0]
for r in RECORDS:
    STARTS.append(STARTS[-1] + len(r))
for k in range(7):
    for name, bad in (('one more', STARTS[k] + 1), ('one less', STARTS[k] - 1), ('the next', STARTS[k + 1]), ('the first', 0),
                      ('high bit', STARTS[k] + 2 ** 31), ('a byte higher', STARTS[k] + 65536), ('largest', 2 ** 32 - 1)):
        bad %= 2 ** 32
        if bad != STARTS[k]:
            add('entry %d: %s' % (k, name), scene(RECORDS, STARTS[:k] + [bad] + STARTS[k + 1:7]), 'refused 3 object %d' % k)
add('two entries alike', scene([RECORDS[1]] * 2, [0, 0]), 'refused 3 object 1')
add('entries overlap by one byte', scene([RECORDS[1]] * 2, [0, 76]), 'refused 3 object 1')
add('entries swapped', scene([RECORDS[1]] * 2, [77, 0]), 'refused 3 object 0')
add('a gap between two records', scene([RECORDS[1], b'\0', RECORDS[1]], [0, 78]), 'refused 3 object 1')

# ---- record extent: a record cut short, by where

for kind in range(7):
    whole = RECORDS[kind]
    cuts = set(range(12)) | {len(whole) - 1, len(whole) - 4, len(whole) // 2}
    for cut in sorted(c for c in cuts if c < len(whole)):
        add('%s cut to %d bytes' % (NAMES[kind], cut), scene([whole[:cut]]), 'refused 4 object 0')
        if cut in (0, 4, 5, 8, len(whole) - 1):
            add('%s cut to %d bytes, the third' % (NAMES[kind], cut), scene(RECORDS[:2] + [whole[:cut]]), 'refused 4 object 2')
add('closed outline cut among its corners', scene([outline(4, 4, [3])[:-24 * 3]]), 'refused 4 object 0')

# ---- kind

for kind in (7, 8, 9, 64, 127, 128, 255):
    add('kind %d' % kind, scene([head(kind) + bytes(72)]), 'refused 5 object 0')
    add('kind %d, nothing behind the id' % kind, scene([head(kind)]), 'refused 5 object 0')
    add('kind %d, cut in the id' % kind, scene([head(kind)[:4]]), 'refused 4 object 0')
for k in range(1, 7):
    add('kind 7 in record %d' % k, scene(RECORDS[:k] + [head(7)] + RECORDS[k + 1:]), 'refused 5 object %d' % k)

# ---- counts: the limit, one over it, and with too few bytes behind


def many(kind, outer, holes, drop=0):
    """An outline of many corners: the body is one corner, again and again."""
    total = outer + sum(holes)
    first = outline(kind, outer, holes, b'')
    pieces = [(0, first + corner(1))] + ([(1, 24 * total - 24 - drop, 24)] if 24 * total - 24 - drop else [])
    return pieces + [(0, struct.pack('<II', 0, 1))]


def long_sweep(kind, n, drop=0):
    return [(0, sweep(kind, n, b'') + corner(1)), (1, 48 * n - 24 - drop, 24), (0, struct.pack('<II', 0, 1))]


for kind in (3, 4):
    name = NAMES[kind]
    add('%s, 32 holes' % name, many(kind, 4, [3] * 32), 'accepted 1')
    add('%s, 33 holes' % name, many(kind, 4, [3] * 33), 'refused 6 object 0')
    for holes in (33, 256, 32768, 65535):
        add('%s, %d holes, no counts' % (name, holes), scene([head(kind) + struct.pack('<HH', 4, holes)]), 'refused 6 object 0')
    add('%s, 32 holes, no counts' % name, scene([head(kind) + struct.pack('<HH', 4, 32)]), 'refused 4 object 0')
    add('%s, 32 holes, a byte short' % name, scene([head(kind) + struct.pack('<HH', 4, 32) + bytes(63)]), 'refused 4 object 0')
    for outer, holes in ((512, []), (0, [512]), (511, [1]), (1, [511]), (0, [16] * 32), (256, [8] * 32), (509, [3])):
        total = '%s, %d and %s' % (name, outer, '%d of %d' % (len(holes), holes[0]) if holes else 'no holes')
        add(total, many(kind, outer, holes), 'accepted 1')
        add(total + ', a number short', many(kind, outer, holes, 4), 'refused 4 object 0')
        add(total + ', a byte short', many(kind, outer, holes, 1), 'refused 4 object 0')
        add(total + ', no corners', scene([outline(kind, outer, holes, b'')]), 'refused 4 object 0')
        add(total + ', one outer more', many(kind, outer + 1, holes), 'refused 6 object 0')
        add(total + ', one outer more, no corners', scene([outline(kind, outer + 1, holes, b'')]), 'refused 6 object 0')
        if holes:
            add(total + ', one more in the last', many(kind, outer, holes[:-1] + [holes[-1] + 1]), 'refused 6 object 0')
    for outer, holes in ((65535, []), (65535, [1]), (65535, [2]), (0, [32768, 32768]), (512, [65024, 512]), (65535, [65535] * 32)):
        add('%s, counts %d and %s' % (name, outer, holes[:2]), scene([outline(kind, outer, holes, b'')]), 'refused 6 object 0')
    for outer in (513, 65535):
        add('%s, %d outer, hole counts missing' % (name, outer), scene([head(kind) + struct.pack('<HH', outer, 2) + bytes(3)]), 'refused 4 object 0')
        add('%s, %d outer, 33 holes' % (name, outer), scene([head(kind) + struct.pack('<HH', outer, 33) + bytes(66)]), 'refused 6 object 0')
        add('%s, cut behind %d outer' % (name, outer), scene([head(kind) + struct.pack('<H', outer)]), 'refused 4 object 0')
for kind in (5, 6):
    name = NAMES[kind]
    add('%s, 4096 sections' % name, long_sweep(kind, 4096), 'accepted 1')
    add('%s, 4096 sections, a byte short' % name, long_sweep(kind, 4096, 1), 'refused 4 object 0')
    add('%s, 4096 sections, none there' % name, scene([sweep(kind, 4096, b'')]), 'refused 4 object 0')
    add('%s, 4097 sections' % name, long_sweep(kind, 4097), 'refused 6 object 0')
    for n in (4097, 4352, 32768, 65535):
        add('%s, %d sections, none there' % (name, n), scene([sweep(kind, n, b'')]), 'refused 6 object 0')
    add('%s, cut in its count' % name, scene([sweep(kind, 0)[:-1]]), 'refused 4 object 0')

# ---- numbers: each place of each kind

BAD32 = [('nan', 0x7FC00000), ('minus nan', 0xFFC00001), ('signalling nan', 0x7F800001), ('infinity', 0x7F800000), ('minus infinity', 0xFF800000),
         ('16777218', 0x4B800001), ('-16777218', 0xCB800001), ('largest f32', 0x7F7FFFFF)]
GOOD32 = [('16777216', 0x4B800000), ('-16777216', 0xCB800000), ('-0', 0x80000000), ('smallest', 0x00000001), ('all but one', 0x4B7FFFFF), ('-smallest', 0x80000001)]
BAD64 = [('nan', 0x7FF8000000000000), ('minus nan', 0xFFF0000000000001), ('infinity', 0x7FF0000000000000), ('minus infinity', 0xFFF0000000000000),
         ('just above 1', 0x3FF0000000000001), ('just below -1', 0xBFF0000000000001), ('2', 0x4000000000000000)]
GOOD64 = [('1', 0x3FF0000000000000), ('-1', 0xBFF0000000000000), ('-0', 0x8000000000000000), ('smallest', 1), ('just below 1', 0x3FEFFFFFFFFFFFFF)]


def put(r, at, bits, form):
    return r[:at] + struct.pack(form, bits) + r[at + struct.calcsize(form):]


for kind in range(7):
    r = RECORDS[kind]
    if kind < 3:
        places = [(5 + 4 * j, '<I') for j in range(3)] + [(17 + 8 * j, '<Q') for j in range(6)] + [(65 + 4 * j, '<I') for j in range((0, 3, 2)[kind])]
    else:
        first = (0, 0, 0, 9, 11, 7, 7)[kind]
        places = [(at, '<I') for at in (first, first + 4, first + 20, first + 24, len(r) - 28, len(r) - 4)]
    for j, (at, form) in enumerate(sorted(set(places))):
        bad, good = (BAD32, GOOD32) if form == '<I' else (BAD64, GOOD64)
        all_of = kind == 1 or j == len(places) - 1
        for name, bits in bad if all_of else [bad[j % len(bad)], bad[(j + 4) % len(bad)]]:
            add('%s, %s at %d' % (NAMES[kind], name, at), scene([put(r, at, bits, form)]), 'refused 7 object 0')
        for name, bits in good if all_of else [good[j % len(good)]]:
            add('%s, %s at %d' % (NAMES[kind], name, at), scene([put(r, at, bits, form)]), 'accepted 1')
for kind, r in enumerate(RECORDS):
    changed = RECORDS[:kind] + [put(r, len(r) - 4, 0x7F800000, '<I') if kind else put(r, 5, 0x7F800000, '<I')] + RECORDS[kind + 1:]
    add('one of each kind, infinity in record %d' % kind, scene(changed), 'refused 7 object %d' % kind)
p = many(4, 500, [12])
add('closed outline, 512 corners, nan in the last', p[:1] + [(1, 24 * 511 - 4, 24), (0, struct.pack('<I', 0x7FC00000))] + p[2:], 'refused 7 object 0')
p = long_sweep(6, 4096)
add('round sweep, 4096 sections, nan in the last', p[:1] + [(1, 48 * 4096 - 28, 24), (0, struct.pack('<I', 0x7FC00000))] + p[2:], 'refused 7 object 0')

# ---- two faults in one record: which comes first

BOX_NAN = put(RECORDS[1], 5, 0x7FC00000, '<I')
FAULTS = [
    ('start, extent', scene([RECORDS[1][:40]], [1]), 3), ('start, kind', scene([head(9) + bytes(20)], [1]), 3),
    ('start, counts', scene([sweep(5, 5000, b'')], [1]), 3), ('start, numbers', scene([BOX_NAN], [1]), 3),
    ('extent of the id, kind', scene([b'\x09\0\0\0']), 4), ('kind, extent of the rest', scene([head(9) + bytes(3)]), 5),
    ('kind, numbers', scene([b'\x07' + BOX_NAN[1:]]), 5), ('extent of the rest, numbers', scene([BOX_NAN[:-1]]), 4),
    ('extent of the rest, numbers in the pairs', scene([put(RECORDS[2], 17, 0x7FF0000000000000, '<Q')[:-1]]), 4),
    ('hole number, extent of hole counts', scene([head(3) + struct.pack('<HH', 3, 40)]), 6),
    ('extent of hole counts, corner total', scene([head(3) + struct.pack('<HHH', 3, 2, 600)]), 4),
    ('corner total, extent of the corners', scene([outline(4, 600, [], b'')]), 6),
    ('corner total, numbers', scene([outline(4, 513, [], f32(math.inf) * 6 * 513)]), 6),
    ('extent of the corners, numbers', scene([outline(4, 3, [], f32(math.nan) * 17)]), 4),
    ('hole number, corner total', scene([outline(4, 600, [0] * 33, b'')]), 6),
    ('sections, extent of the sections', scene([sweep(6, 4097, b'')]), 6),
    ('sections, numbers', scene([sweep(6, 4097, f32(math.inf) * 12)]), 6),
    ('extent of the sections, numbers', scene([sweep(6, 2, f32(math.inf) * 12)]), 4),
    ('numbers, trailer start', scene([BOX_NAN], gap=bytes(9)), 7), ('kind, trailer start', scene([head(9)], gap=bytes(9)), 5),
    ('counts, trailer start', scene([sweep(5, 4097, b'')], gap=bytes(9)), 6), ('start, trailer start', scene([RECORDS[1]], [1], gap=bytes(9)), 3),
    ('trailer, start', scene([RECORDS[1]], [1], n=70000), 2), ('trailer, kind', scene([head(9)], n=65537), 2),
]
for name, s, number in FAULTS:
    add('two faults: ' + name, s, 'refused %d object 0' % number)
    if number != 2:
        n = u32(s, len(s) - 4)
        end = len(s) - 4 * n - 4
        before = RECORDS[0] + RECORDS[5]
        at = [0, 65] + [len(before) + u32(s, end + 4 * k) for k in range(n)]
        add('third record: ' + name, before + s[:end] + struct.pack('<%dI' % (n + 3), *at, n + 2), 'refused %d object 2' % number)
PARTS = [('numbers', BOX_NAN, 7), ('kind', head(9), 5), ('counts', sweep(5, 4097, b''), 6)]
for a, first, number in PARTS:
    for b, second, other in PARTS:
        add('%s in record 1, %s in record 2' % (a, b), scene([RECORDS[0], first, second]), 'refused %d object 1' % number)
    add('%s in record 1, entry 2 wrong' % a, scene([RECORDS[0], first, RECORDS[0]], [0, 65, 3]), 'refused %d object 1' % number)
    add('entry 1 wrong, %s in record 2' % a, scene([RECORDS[0], RECORDS[0], first], [0, 66, 130]), 'refused 3 object 1')

# ---- one byte of a good scene changed, and bytes by chance

chance = random.Random(20240501)
GOOD = [scene(RECORDS), scene(RECORDS[::-1]), scene([RECORDS[4], RECORDS[1]]), scene([RECORDS[5], RECORDS[3], RECORDS[2]]), scene([sweep(6, 0)] * 9)]
for g, s in enumerate(GOOD):
    for j in range(40):
        at = chance.randrange(len(s)) if j % 4 else chance.randrange(len(s) - 4 * u32(s, len(s) - 4) - 4, len(s))
        to = chance.randrange(256)
        if j % 3 == 0:
            to = s[at] ^ (1 << chance.randrange(8))
        label = 'good scene %d, byte %d is %d' % (g, at, to)
        if to != s[at] and label not in labels:
            add(label, s[:at] + bytes([to]) + s[at + 1:])
for j in range(90):
    body = bytes(chance.choice((0, 0, 0, 1, 2, 3, 255, chance.randrange(256))) for _ in range(chance.randrange(90)))
    kind = bytes([chance.randrange(8)])
    add('bytes by chance %d' % j, kind + body + struct.pack('<2I', 0, 1))



with open(HERE / 'data' / 'scenes', 'wb') as data:
    for label, pieces, _ in cases:
        data.write(struct.pack('<2I', len(label), len(pieces)) + label.encode() + store(pieces))
with open(HERE / 'stdout', 'w') as out:
    for label, _, said in cases:
        out.write('%s: %s\n' % (label, said))
print(len(cases), 'scenes')
