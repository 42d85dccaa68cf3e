#!/usr/bin/env python3
"""seeds.py SAMPLES OUT: inputs for the fuzzer to begin with (their form: fuzz.c).
The bench entries, the sample files, their images, images with blocks in another order, cut in two or joined, and each of them for each
call; names in headers and string tables, these cut, and patterns for them; images in each byte order, and orders that are none."""
import os, pathlib, random, struct, sys

sys.dont_write_bytecode = True
sys.path.insert(0, str(pathlib.Path(__file__).resolve().parent.parent / 'tests'))
from coff import coff, image

samples, out = sys.argv[1:]
rng = random.Random(1)
os.makedirs(out, exist_ok=True)


def blocks_of(file):
    """([(load, run, bytes)], entry) of a file that is sound, else None."""
    try:
        version, count, optional, flags, target = struct.unpack_from('<HH12xHHH', file)
        if (version, target) != (0xC2, 0x99) or optional not in (0, 28) or not flags & 2:
            return None
        entry = struct.unpack_from('<I', file, 38)[0] if optional else 0
        blocks = []
        for i in range(count):
            run, load, size, raw, kind = struct.unpack_from('<8xIIII16xI', file, 22 + optional + 48 * i)
            if size and not kind & 0x13 and kind & 0x8060 or size and raw and not kind & 0x80FF:
                blocks.append((load, run, file[raw:raw + size]))
        return blocks, entry
    except struct.error:
        return None


def halves(blocks):
    for load, run, raw in blocks:
        k = rng.randrange(len(raw)) if len(raw) > 1 else 0
        if k:
            yield load, run, raw[:k]
        yield (load + k) % 2**32, (run + k) % 2**32, raw[k:]


def fours(part):
    return b''.join(part[k:k + 4][::-1] for k in range(0, len(part), 4))


def in_order(one, order):
    """A whole image of order 0 in another."""
    numbers, data = (fours if order & bit else bytes for bit in (1, 2))
    at, made = 4, numbers(one[:4])
    while size := struct.unpack_from('<I', one, at)[0]:
        raw, end = at + 12, at + 12 + (size + 3) // 4 * 4
        made += numbers(one[at:raw]) + data(one[raw:end])
        at = end
    return made + one[at:]


def joined(blocks):
    """Each block that goes on where the one before ends becomes a part of it."""
    out = []
    for load, run, raw in blocks:
        if out and (out[-1][0] + len(out[-1][2]), out[-1][1] + len(out[-1][2])) == (load, run):
            raw = out[-1][2] + raw
            load, run, _ = out.pop()
        out.append((load, run, raw))
    return out


count = 0
# the calls whose number has one of these bits beside it
LATER = 128
MEASURE, BLOCK_AT, WALK, MEASURE_WITH, CONVERT_WITH, LOAD_COFF_WITH, CHECK_WITH, TAKES = range(8)
IN_ORDER = 64
READ_IN, BLOCK_IN, LOAD_IMAGE_IN, BLOCK_AT_IN, WALK_IN, CHECK_IN, LOAD_OWN, WALK_OWN = range(8)
# as the sixth byte has them: an order beside another in which an own image was made, and orders that are none
OTHER, FROM_FOUR, LAST = 4, 0xC0, 0xF0


def seed(which, body, room=0, cut=0, n=0, value=0xAA, ways=0x80, order=0, calls=0):
    global count
    head = struct.pack('<BBHHBBQ', which | ways, value, room, cut, order, calls, n & 0xFFFFFFFFFFFFFFFF)
    with open(os.path.join(out, f'{count:04d}'), 'wb') as f:
        f.write(head + body)
    count += 1


raw = bytes([0x11, 0x22, 0x33, 0x44, 0x55])
a = lambda load=0x400, flags=0x20, size=5, at=0: coff([(0x80000000, load, size, at, flags)], raw)
two = lambda load: coff([(0x80000000, 0x400, 5, 0), (0, load, 1, 5)], raw + b'!')
files = [a(), a()[:-1], a(flags=0x80), a(load=0xFFFFFFFB), a(load=0xFFFFFFFC), a(at=-1), two(0x405), two(0x404),
         a(flags=0), a(flags=0, at=None), a(flags=0x4100), a(flags=4), coff([(4, 8, 3, 0, 0), (0, 0, 2, 3, 0x40), (0, 9, 9, None, 0)], raw),
         coff([(4, 8, 3, 0, 0x40), (0, 0, 2, 3, 0x8000)], raw, entry=0x12345678), coff([], entry=1)]
# sections that go on where the one before ends: an image may have them as one block, inside whose fours they end
long_raw = bytes(range(1, 42))
files.append(coff([(0x80000000, 0x400, 5, 0), (0x80000005, 0x405, 14, 5), (0x80000013, 0x413, 22, 19)], long_raw, entry=0x01020304))
for name in sorted(os.listdir(samples)):
    if name.endswith('.out'):
        files.append(open(os.path.join(samples, name), 'rb').read())
for file in files:
    side = rng.randrange(8) << 3
    made = blocks_of(file)
    length = len(image(*made)) if made else 100
    for room in (length, length - 1, 60000):
        seed(0, file, room=max(room, 0) & 0xFFFF, ways=side)
    # the listing of the bench's file A has 83 bytes
    for room in (16384, 83, 82, 0):
        seed(1, file, room=room, ways=side | 0x40)
    seed(6, file + file, cut=len(file))
    seed(7, file, value=0)
    seed(7, file, value=1, cut=rng.randrange(length))
    seed(MEASURE, file, calls=LATER, ways=side)
    base = min((b[0] for b in made[0]), default=0) if made else 0
    for room in (65535, 5, 4):
        seed(5, file, room=room, n=base)
    if not made:
        continue
    blocks, entry = made
    turned, cut = blocks[::-1], list(halves(blocks))
    rng.shuffle(cut)
    for placed in (blocks, turned, cut, blocks[1:], blocks + blocks[:1]):
        one = image(placed, entry)
        seed(2, one, ways=side)
        seed(2, one[:-1], ways=side)
        seed(2, one + b'\0', ways=side)
        for n in (0, len(placed) - 1, len(placed)):
            seed(3, one, n=n)
        for end in (len(one), len(one) - 1, len(one) - 5):
            seed(WALK, one[:end], calls=LATER, room=16 * len(placed), ways=side)
        for place in (4, 5, len(one) - 4, len(one) - 3, 2**32 + 4, 2**64 - 1):
            seed(BLOCK_AT, one, calls=LATER, n=place, ways=side)
        for room in (65535, 4):
            seed(4, one, room=room, n=base)
        seed(6, file + one, cut=len(file))
        seed(6, file + image(placed, entry + 1), cut=len(file))
        seed(6, file + image([(l, r ^ 1, x) for l, r, x in placed], entry), cut=len(file))

def with_row(which, body, row, **more):
    seed(which, body + row, calls=LATER, cut=len(row), **more)


def table_moved(file, **fields):
    """The same file with another place of its symbol table, number of symbols or size of its string table."""
    place, symbols = struct.unpack_from('<II', file, 8)
    size = struct.unpack_from('<I', file, place)[0]
    body = bytearray(file)
    struct.pack_into('<I', body, place, fields.get('size', size))
    struct.pack_into('<II', body, 8, fields.get('place', place), fields.get('symbols', symbols))
    return bytes(body)


# a name of each kind: short, of eight bytes, empty, in the table, with an offset that is none, of a section that is not kept, and of plain ones
names = [b'.text', b'.hwi_vec', b'', b'.text:_filter', struct.pack('<II', 0, 3), struct.pack('<II', 0, 2**32 - 1)]
listed = [coff([(16 * i, 16 * i, 1, i, 0x20, name) for i, name in enumerate(names[:kinds])], b'abcdef') for kinds in range(1, 7)]
listed += [coff([(0, 0, 1, at, flags, names[4]), (0, 0, 1, 0, 0x20, names[3])], b'a') for at, flags in ((0, 0x80), (None, 0), (0, 0))]
full = listed[3]
end = struct.unpack_from('<I', full, 8)[0]
size = len(full) - end
listed += [full[:cut] for cut in (end, end + 3, end + 4, end + 5, len(full) - 1)] + [full + b'\0', full + b'more']
listed += [table_moved(full, size=n) for n in (0, 4, 5, size - 1, size + 1, 2**32 - 1)]
listed += [table_moved(full, place=0), table_moved(full, place=len(full)), table_moved(full, symbols=2**31),
           table_moved(full, place=end - 18, symbols=1)]
long = b'a' * 300
listed.append(coff([(0, 0, 1, 0, 0x20, long), (8, 8, 1, 0, 0x20, b'b' + long)], b'a'))
rows = [b'', b'*', b'.text', b'.t?xt\0', b'.text*\0.hwi????', b'*_f*r\0*:*', b'*a*a*a*a*b', b'*a' * 32, b'*' + b'a' * 62 + b'*', b'?' * 8,
        b'\0', b'*\0\0', b'a' * 65, b'a' * 64 + b'\0' + b'b' * 64, b'*\0' * 16, b'?\0' * 15 + b'?', b'*\0' * 17]
for file in listed + [f for f in files if len(f) < 6000]:
    for row in rng.sample(rows, 6):
        side = rng.randrange(16) << 3
        with_row(MEASURE_WITH, file, row, ways=side)
        with_row(CONVERT_WITH, file, row, room=4000, ways=side)
        with_row(LOAD_COFF_WITH, file, row, room=4000, ways=side)
        for value in (0, 1):
            with_row(CHECK_WITH, file, row, value=value, n=rng.randrange(64), ways=side)
for file in files:
    made = blocks_of(file)
    if not made or len(file) > 6000:
        continue
    blocks, entry = made
    base = min((b[0] for b in blocks), default=0)
    for order in (0, 1, 2, 3, rng.choice((FROM_FOUR, FROM_FOUR | 3, LAST | 3))):
        side = rng.randrange(16) << 3
        with_row(CONVERT_WITH, file, rng.choice(rows), room=4000, order=order, ways=side)
        for value in (0, 1):
            with_row(CHECK_WITH, file, b'', value=value, n=rng.randrange(64), order=order, ways=side)
            seed(LOAD_OWN, file, calls=IN_ORDER, room=4000, n=base, value=value, cut=rng.randrange(64), order=order, ways=side)
        seed(LOAD_OWN, file, calls=IN_ORDER, room=4000, n=base, value=0, order=order ^ OTHER << rng.randrange(2), ways=side)
        seed(WALK_OWN, file, calls=IN_ORDER, room=64, value=rng.randrange(2), cut=rng.randrange(16), order=order, ways=side)
    cut = list(halves(blocks))
    rng.shuffle(cut)
    for order, placed in ((order, placed) for order in range(4) for placed in (joined(blocks), cut)):
        one = in_order(image(placed, entry), order)
        ways = {'calls': IN_ORDER, 'ways': rng.randrange(16) << 3}
        other = order ^ 1 + rng.randrange(3)
        seed(READ_IN, one, order=order, **ways)
        seed(READ_IN, one, order=rng.choice((other, order | FROM_FOUR)), **ways)
        seed(READ_IN, in_order(image(placed + placed[:1], entry), order)[:-rng.randrange(1, 6)], order=order, **ways)
        seed(BLOCK_IN, one, n=rng.choice((0, len(placed) - 1, len(placed))), order=order, **ways)
        seed(BLOCK_AT_IN, one, n=rng.choice((4, 5, len(one) - 4, len(one) - 3)), order=order, **ways)
        seed(WALK_IN, one, room=16 * len(placed), order=order, **ways)
        for room in (4000, 4):
            seed(LOAD_IMAGE_IN, one, room=room, n=base, order=order, **ways)
        seed(LOAD_IMAGE_IN, one, room=4, n=2**32, order=order | LAST, **ways)
        for told in (order, other):
            seed(CHECK_IN, file + one, cut=len(file), order=told, **ways)
for row in rows:
    for name in (b'', b'.text', b'.text:_filter', b'a' * 64, long, b'.hwi_vec'):
        with_row(TAKES, name, row.split(b'\0')[0], ways=rng.randrange(16) << 3)
print(f'{count} seeds')
