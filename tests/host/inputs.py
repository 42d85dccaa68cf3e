# inputs.py NAME..: makes these input files of the subjects beside it in the working directory. 'rules' makes, for each rule, a file
# that breaks it, and a list of them; the name of an image with .1, .2 or .3 behind it makes that image in this byte order.
import pathlib
import random
import sys
from struct import pack

sys.dont_write_bytecode = True
sys.path.insert(0, str(pathlib.Path(__file__).resolve().parent.parent))
from coff import BSS, DATA, HEADER, MOST, OPTIONAL, SECTION, TEXT, coff, image, write
from orders import in_order

# Entry A of the bench: one section of five bytes.
FIVE = bytes([0x11, 0x22, 0x33, 0x44, 0x55])
A = coff([(0x80000000, 0x400, 5, 0)], FIVE)
assert len(A) == 75
LONG = bytes(range(256)) * 400
TURNING = '\u061c\u200e\u200f\u2028\u2029\u202a\u202b\u202c\u202d\u202e\u2066\u2067\u2068\u2069\x85'


def beside(*blocks, entry=0):
    """an image beside A; of each block how far it is from A's, in load and run addresses, and its bytes"""
    return image([(0x400 + load, 0x80000000 + run, raw) for load, run, raw in blocks], entry)


def kinds():
    """code, initialised data, uninitialised data and others, with an entry point"""
    flags = [0x20, 0x8000, 0x60, 0x40, 0x40, 0x80, 0x280, 0x82, 0x90, 0, 0x21]
    sizes = [5, 8, 3, 16, 1, 100, 4096, 7, 9, 11, 13]
    return coff([(0x1000 * i, 0x1000 * i, n, 0, f) for i, (n, f) in enumerate(zip(sizes, flags))], bytes(16), entry=0x1002)


def plain():
    """code, three plain sections with raw data, one without, an empty one, one each of GROUP and PAD, and uninitialised data"""
    sections = [(b'.text', 4, 0, TEXT), (b'.coeffs', 7, 4, 0), (b'.tables', 5, 11, 0x4100), (b'.padded', 1, 16, 0x10000), (b'.later', 16, None, 0),
                (b'.empty', 0, 4, 0), (b'.group', 3, 4, 0x4), (b'.pad', 3, 4, 0x8), (b'.bss', 9, None, BSS)]
    return coff([(0x1000 * i, 0x1000 * i, size, at, f, n) for i, (n, size, at, f) in enumerate(sections)], bytes(range(1, 18)), entry=0)


def odd_names():
    """sections whose names stand in headers and in the string table, or cannot be read, and an entry point that is only loaded"""
    names = [b'.text', b'eight_by', b'.a_name_longer_than_eight', b'', b'a\x1b[2J\xff', b'.far away', b'.cut', b'n' * 300]
    made = coff([(0x1000 + 16 * i, 0x100 * i, 4, 4 * i, TEXT, name) for i, name in enumerate(names)], bytes(32), entry=0x202, flags=0x203)
    far = HEADER + OPTIONAL + SECTION * 5
    outside = pack('<II', 0, 0x7FFFFFFF)
    return made[:far] + outside + made[far + 8:far + SECTION] + pack('<II', 0, 3) + made[far + SECTION + 8:]


def overlays(count):
    return coff([(0x8000, 0x80000000 + 0x1000 * i, 0x800, 0) for i in range(count)], bytes(0x800), entry=0x8000)


def many():
    """4096 blocks, each before the one that was written before it by far"""
    order = [i * 1597 % 4096 for i in range(4096)]
    return image([(16 * i, 16 * i, pack('<H', i)) for i in order], entry=0x40)


def each(load, run=None, size=lambda i: 4, entry=0):
    """4096 blocks by their numbers"""
    return image([(load(i), (run or load)(i), bytes(size(i))) for i in range(4096)], entry)


def unlike():
    """4096 blocks of very different sizes, some with gaps of very different sizes behind them"""
    drawn, at, blocks = random.Random(1), 0, []
    for _ in range(4096):
        size, gap = int(2 ** drawn.uniform(0, 13)), int(2 ** drawn.uniform(0, 19)) * drawn.randrange(2)
        blocks.append((at, at, bytes(size)))
        at += size + gap
    return image(blocks, entry=blocks[300][0])


def named(names, entry=0x1000):
    """sections of these names, of which the third, the sixth and so on run elsewhere, all at one address"""
    sections = [(0x80000000 if i % 3 == 2 else 0x1000 * i, 0x1000 * i, 64, 0, 0x20, name) for i, name in enumerate(names)]
    return coff(sections, bytes(64), entry=entry)


def tests_and_stack():
    """what a bench leaves out: names in the header and in the string table, one of no bytes, and sections that their flags leave out anyway"""
    names = [b'.text', b'.stack', b'.test_a', b'.test_of_the_long_name', b'.testing', b'', b'.bss', b'.test_c']
    flags = [TEXT, DATA, TEXT, TEXT, DATA, DATA, BSS, TEXT | 1]
    return coff([(0x1000 * i, 0x1000 * i, 4 + i, 4 * i, f, n) for i, (n, f) in enumerate(zip(names, flags))], bytes(range(64)), entry=0x2)


def tabled(offset, table, symbols=0):
    """A, with a name that begins at this byte of a string table of these bytes, which ends the file or begins so far behind its end"""
    made = coff([(0x80000000, 0x400, 5, 0, TEXT, pack('<II', 0, offset))], FIVE)
    return made[:8] + pack('<I', len(made) + symbols) + made[12:] + table


def named_by(*names):
    return coff([(0, 0x100 * i, 1, 0, TEXT, name) for i, name in enumerate(names)], b'!', entry=0)


def raw():
    """three million bytes in no order"""
    data = random.Random(1).randbytes(3000000)
    return coff([(0, 0, len(data), 0)], data)


FILES = {
    'empty': lambda: b'',
    'one': lambda: b'!',
    'a.out': lambda: A,
    'a.img': lambda: beside((0, 0, FIVE)),
    'cut.out': lambda: A[:-1],
    'dated.out': lambda: A[:4] + pack('<I', 1000000000) + A[8:],
    'most.out': lambda: A + bytes(MOST - len(A)),
    'over.out': lambda: A + bytes(MOST + 1 - len(A)),
    'meet.out': lambda: coff([(0x80000000, 0x400, 5, 0), (0, 0x404, 1, 5)], FIVE + b'!'),
    'long.out': lambda: coff([(0, 0x1000, len(LONG), 0)], LONG),
    'long.img': lambda: image([(0x1000, 0, LONG)]),
    'bare.out': lambda: coff([]),
    'bare.img': lambda: bytes(8),
    'wide.img': lambda: image([(0, 0, bytes(MOST - 20))]),
    'many.img': many,
    'kinds.out': kinds,
    # plain sections; one alone whose raw data is cut, begins inside the headers, or is none; and two, the first without raw data, whose names
    # cannot be read
    'plain.out': plain,
    'plain.cut': lambda: coff([(0x80000000, 0x400, 5, 0, 0)], FIVE[:-1]),
    'plain.low': lambda: coff([(0x80000000, 0x400, 5, 1 - HEADER - SECTION, 0)], FIVE),
    'plain.none': lambda: coff([(0x80000000, 0xFFFFFFFF, 5, None, 0)], FIVE),
    'plain.name': lambda: coff([(0, 0x400 * i, 5, at, 0, pack('<II', 0, 3)) for i, at in enumerate([None, 0])], FIVE),
    'raw.out': raw,
    # for the map: a section that runs in place in a gap of those that run elsewhere, a gap only where they run, overlays, and overlaps
    'between.out': lambda: coff([(0x1000, 0x80000000, 64, 0), (0x2000, 0x2000, 64, 0), (0x3000, 0x80000040, 64, 0)], bytes(64)),
    'apart.out': lambda: coff([(0x1000, 0, 64, 0), (0x80000000, 64, 64, 0)], bytes(64)),
    'overlays3.out': lambda: overlays(3),
    'overlays10.out': lambda: overlays(10),
    'overlays16.out': lambda: overlays(16),
    'stairs.out': lambda: coff([(0x8000 + 0x100 * i, 0x80000000 + 0x1000 * i, 0x800, 0) for i in range(8)], bytes(0x800)),
    'names.out': lambda: named([b'.text', b'<&>"%s\'', b'\xff\xc3\xa9\1', b'a' * 16, b'a' * 17, b'\xe6\x97\xa5' * 99, b'', b'x' * 9000]),
    '64.out': lambda: named([b'.section%d' % i for i in range(64)]),
    '65.out': lambda: named([b'.section%d' % i for i in range(65)]),
    'lost.out': lambda: named([b'.text', b'.data', b'.overlay'], entry=0x1800),
    'far.out': lambda: named([b'.text', b'.data', b'.overlay'], entry=0xF000),
    # an entry point where a section only runs, where one is only loaded, where one is loaded that runs a little further on, and where one is
    # loaded and another runs
    'moved.out': lambda: coff([(0x8000, 0x80000000, 64, 0, TEXT, b'.text')], bytes(64), entry=0x8010),
    'loaded.out': lambda: named([b'.text', b'.data', b'.overlay'], entry=0x2004),
    'shifted.out': lambda: coff([(0x1010, 0x1000, 0x100, 0)], bytes(0x100), entry=0x1020),
    'crossed.out': lambda: coff([(0x1000, 0x2000, 64, 0), (0x80000000, 0x1000, 64, 0)], bytes(64), entry=0x1004),
    # 4096 blocks: far apart, adjoining, of one byte, of all sizes; of which some run elsewhere, all at one distance, all at one address, and
    # every other one
    'apart.img': lambda: each(lambda i: i << 20, entry=2000 << 20),
    'adjoining.img': lambda: each(lambda i: 4 * i, entry=4000),
    'bytes.img': lambda: each(lambda i: i, size=lambda i: 1, entry=77),
    'unlike.img': unlike,
    'some.img': lambda: each(lambda i: 4 * i, lambda i: (i % 400 == 7) << 31 | 4 * i),
    'copied.img': lambda: each(lambda i: 8 * i, lambda i: 1 << 31 | 8 * i, entry=1 << 31),
    'overlays.img': lambda: each(lambda i: 8 * i, lambda i: 1 << 31, entry=1 << 31),
    'others.img': lambda: each(lambda i: 8 * i, lambda i: i % 2 << 31 | 8 * i),
    # images beside A: the same in two blocks, and each kind of difference
    'split.img': lambda: beside((4, 4, FIVE[4:]), (0, 0, FIVE[:4])),
    'entry.img': lambda: beside((0, 0, FIVE), entry=0x10),
    'byte.img': lambda: beside((0, 0, FIVE[:2] + b'\xff' + FIVE[3:])),
    'run.img': lambda: beside((4, 0, FIVE[4:]), (0, 0, FIVE[:4])),
    'less.img': lambda: beside((0, 0, FIVE[:3])),
    'hole.img': lambda: beside((0, 0, FIVE[:1]), (2, 2, FIVE[2:])),
    'more.img': lambda: beside((0, 0, FIVE + b'!')),
    'before.img': lambda: beside((-1, -1, b'!' + FIVE)),
    'nothing.img': lambda: bytes(8),
    # both differ at the same address; an early byte and a late hole
    'both.img': lambda: image([(0x400, 0, b'\0' + FIVE[1:])]),
    'early.img': lambda: beside((0, 0, b'\0' + FIVE[1:4])),
    # all that can differ at once: a block before, other bytes, a hole, another run address, both, and a block behind that ends at 2^32
    'all.img': lambda: image([(0x400, 0x80000000, b'\xee\xee'), (0x3FE, 0x7FFFFFFE, b'!!'), (0x403, 0x90000003, b'\x44\xee'),
                              (0xFFFFFFF0, 0, bytes(range(16)))], entry=0x10),
    # 12 MiB of which every byte differs
    'zeros.out': lambda: coff([(0, 0, 12 << 20, 0)], bytes(12 << 20)),
    'ones.img': lambda: image([(0, 0, b'\1' * (12 << 20))]),
    # files of other kinds: an object of an EABI linker, records, text, and COFF files of other versions and of the other byte order
    'x.elf': lambda: b'\x7fELF\1\1\1' + bytes(9) + pack('<HHI', 2, 140, 1) + bytes(28),
    'x.hex': lambda: b':0504000011223344552D8\r\n:00000001FF\r\n'.replace(b'2D8', b'F8'),
    'x.srec': lambda: b'S0030000FC\nS10804001122334455F4\nS9030000FC\n',
    'x.txt': lambda: b'-o scanner.out\n-m scanner.map\n',
    # further ways to break the rules 10, 21 and 26
    'cut': lambda: A[:-1],
    'far': lambda: coff([(0, 0, 500, -70, TEXT, b'.far')], FIVE),
    'cut.0': lambda: beside((0, 0, FIVE))[:3],
    'cut.1': lambda: beside((0, 0, FIVE))[:12],
    'cut.2': lambda: beside((0, 0, FIVE))[:19],
    'cut.3': lambda: beside((0, 0, FIVE))[:23],
    'cut.4': lambda: beside((0, 0, FIVE))[:24],
    # for byte orders: raw data of whole words, in which nothing tells orders 0 and 2, or 1 and 3, apart; and an entry point alone, which is
    # read in any
    'words.out': lambda: coff([(0x1000, 0x1000, 8, 0), (0x2000, 0x3000, 4, 8)], bytes(range(1, 13)), entry=0x1004),
    'words.img': lambda: image([(0x1000, 0x1000, bytes(range(1, 9))), (0x3000, 0x2000, bytes(range(9, 13)))], entry=0x1004),
    'start.out': lambda: coff([], entry=0x1004),
    'start.img': lambda: image([], entry=0x1004),
    'turned.img': lambda: pack('>IIII', 0, 5, 0x400, 0x80000000) + FIVE + bytes(7),
    'flash': lambda: beside((0, 0, FIVE)) + b'\xff' * 100,
    # names: as long as a header holds, in the string table, none, empty, one that no terminal should see, and two that lie outside
    'odd.out': odd_names,
    # what a bench leaves out; names that would end or steer what they stand in; one that is longer than what is shown of it
    'bench.out': tests_and_stack,
    'harm.out': lambda: named_by(b'*/int x;', b'/*', b'??/\n*/', b'a\\\n*\\', b'a\x1b[2J\x07\x7f', b'"\'<&>', b'\xff\xc3\xa9', b'\xe2\x80\xae*/',
                                  b'%s%n', b'</text>', b']]>-->', b'a b', b'\r\t', b'\xc2\x85', b'?*', b"x'), 9 bytes, by '.y'\nleft out: nothing"),
    # characters that turn the direction of a line or break it, one in each name, between letters
    'turning.out': lambda: named([b'a' + c.encode() + b'b' for c in TURNING]),
    'long_name.out': lambda: named_by(b'.text', b'n' * 299 + b'x', b'n' * 300, b'm' * 1000000 + b'x'),
    # names that cannot be read: inside the table's size, before the file's end, past the table, past the file, and without an end in either
    'name.size': lambda: tabled(3, pack('<I', 9) + b'name\0'),
    'name.none': lambda: tabled(4, b'\x09\0\0'),
    'name.behind': lambda: tabled(4, b'', 1000),
    'name.out': lambda: tabled(9, pack('<I', 9) + b'name\0'),
    'name.far': lambda: tabled(0xFFFFFFFF, pack('<I', 9) + b'name\0'),
    'name.past': lambda: tabled(50, pack('<I', 100) + b'name\0'),
    'name.open': lambda: tabled(4, pack('<I', 8) + b'name\0'),
    'name.cut': lambda: tabled(4, pack('<I', 100) + b'name'),
    # the same as long as is shown of a name, one byte less and some more
    **{f'name.{n}': lambda n=n: tabled(4, pack('<I', 4 + n) + b'n' * n + b'\0') for n in (254, 255, 300)},
    # two sections of one size, of which leaving out the one or the other makes images of one length
    'twins.out': lambda: coff([(0, 0x100, 4, 0, TEXT, b'.a'), (0, 0x200, 4, 0, TEXT, b'.b')], FIVE),
    # and that just can: of no bytes, the last of the table, and in a table that says it is longer than the file
    'name.empty': lambda: tabled(8, pack('<I', 9) + b'name\0'),
    'name.last': lambda: tabled(4, pack('<I', 9) + b'name\0'),
    'name.more': lambda: tabled(4, pack('<I', 4000000000) + b'name\0'),
    'v1.out': lambda: coff([], version=0xC1),
    'v0.out': lambda: pack('<HH12xHH', 0x93, 1, 0, 2) + bytes(40),
    'turned.out': lambda: pack('>HH12xHHH', 0xC2, 1, 0, 2, 0x99) + bytes(48),
}

# For each rule a file that breaks it, with the command that refuses it, the code and the index.
RULES = {
    'r1': ('list 1 0', lambda: bytes(MOST + 1)),
    'r2': ('list 2 0', lambda: A[:21]),
    'r3': ('list 3 0', lambda: coff([], version=0xC1)),
    'r4': ('list 4 0', lambda: coff([], target=0x98)),
    'r5': ('list 5 0', lambda: coff([], optional=bytes(26))),
    'r6': ('list 6 0', lambda: coff([], flags=1)),
    'r7': ('list 7 0', lambda: coff([], count=257)),
    'r8': ('list 8 0', lambda: A[:69]),
    'r9': ('list 9 0', lambda: coff([], optional=bytes(28))),
    'r10': ('list 10 1', lambda: coff([(0, 0, 5, 0), (9, 9, 5, -1)], FIVE)),
    'r11': ('list 11 0', lambda: coff([(0, 0xfffffffc, 5, 0)], FIVE)),
    'r12': ('list 12 0', lambda: coff([(0xfffffffc, 0, 5, 0)], FIVE)),
    'r13': ('list 13 2', lambda: coff([(0, 0, 5, 0), (0, 9, 5, 0), (0, 4, 1, 0)], FIVE)),
    'r14': ('convert 14 0', lambda: coff([(0, 0, 9000000, 0), (0, 9000000, 9000000, 0)], bytes(9000000))),
    'r20': ('blocks 20 0', lambda: bytes(MOST + 1)),
    'r21': ('blocks 21 1', lambda: image([(0, 0, b'!')], end=b'\1\0')),
    'r22': ('blocks 22 4096', lambda: image([(i, i, b'!') for i in range(4097)])),
    'r23': ('blocks 23 1', lambda: image([(0, 0, b'!'), (0xffffffff, 0, b'!!')])),
    'r24': ('blocks 24 0', lambda: image([(0, 0xffffffff, b'!!')])),
    'r25': ('blocks 25 0', lambda: image([(0, 0, b'!', b'\0\1\0')])),
    'r26': ('blocks 26 1', lambda: image([(0, 0, b'!')], end=bytes(5))),
    'r27': ('blocks 27 2', lambda: image([(0, 0, b'!'), (9, 9, b'!'), (0, 0, b'!')])),
}
FILES |= {name: content for name, (_, content) in RULES.items()}

names = sys.argv[1:]
if 'rules' in names:
    names.remove('rules')
    names += RULES
    write('rules', ''.join(f'{name} {refused}\n' for name, (refused, _) in RULES.items()).encode())
for name in names:
    write(name, FILES[name]() if name in FILES else in_order(FILES[name[:-2]](), int(name[-1])))
