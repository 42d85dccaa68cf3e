#!/usr/bin/env python3
"""The listing program beside the second program: both read the same bytes and must print the same text.
usage: listing.py LISTING.. -- SECOND..   (each a command and its words)
The files are made here; the samples are read. The last line is 'N passed, M failed'."""
import os
import pathlib
import pty
import subprocess
import sys
import time

sys.dont_write_bytecode = True
from coff import TEXT, coff, optional_header

FIVE = b'\x11\x22\x33\x44\x55'


def section(run=0x80000000, load=0x400, size=5, at=0, flags=TEXT):
    return run, load, size, at, flags, b'.text'


def one(of_file={}, **of_section):
    """a file of one section: the bench's file A, but for these fields"""
    return coff([section(**of_section)], FIVE, **of_file)


def spaced(n, size=4):
    """n sections that ascend by 16, and share their raw data."""
    return coff([section(load=0x1000 + 16 * i, run=i, size=size) for i in range(n)], bytes(range(size)))


def cases():
    a = one()
    yield 'A', a
    yield 'A cut', a[:-1]
    yield 'A with flags 80h', one(flags=0x80)
    yield 'A at FFFFFFFBh', one(load=0xFFFFFFFB)
    yield 'A at FFFFFFFCh', one(load=0xFFFFFFFC)
    yield 'A run at FFFFFFFCh', one(run=0xFFFFFFFC)
    yield 'A with raw offset 69', one(at=-1)
    for load in (0x404, 0x405):
        yield f'two sections, the second at {load:X}h', coff([section(), section(run=0, size=1, load=load, at=5)], FIVE + b'\x66')
    yield 'nothing', b''
    yield '21 bytes', a[:21]
    yield '22 bytes', coff([])
    yield 'another version', one({'version': 0xC1})
    yield 'another target', one({'target': 0x98})
    yield 'an optional header of 20', one({'optional': bytes(20)})
    yield 'unresolved', one({'flags': 0})
    yield '257 sections', spaced(257)
    yield '256 sections', spaced(256)
    yield 'headers cut', a[:69]
    yield 'an entry point', one({'entry': 0x12345678})
    yield 'another magic', one({'optional': optional_header(0x12345678, magic=0x107)})
    yield 'a section of size 0', one(size=0)
    yield 'size FFFFFFFFh', one(size=0xFFFFFFFF)
    kinds = (0, 1, 2, 0x10, 0x20, 0x21, 0x40, 0x8000, 0x8060)
    yield 'kept and not kept', coff([section(flags=f, load=32 * i) for i, f in enumerate(kinds)], FIVE)
    for n in (65535, 65536, 65537, 131072):
        yield f'{n} bytes', a + bytes(n - len(a))
    yield '65536 bytes, refused', bytes(65536)
    for cut in range(0, 75, 7):
        yield f'A up to {cut}', a[:cut]
    for at in range(75):
        yield f'A with byte {at} turned', a[:at] + bytes([a[at] ^ 0xFF]) + a[at + 1:]
    for path in sorted(pathlib.Path('second/samples').glob('*.out')):
        yield path.name, path.read_bytes()


def from_folder(program):
    folder = os.open('.', os.O_RDONLY)
    end = subprocess.run(program, stdin=folder, capture_output=True)
    os.close(folder)
    return end.stdout, end.stderr


def from_pieces(program, data):
    p = subprocess.Popen(program, stdin=subprocess.PIPE, stdout=subprocess.PIPE, stderr=subprocess.PIPE)
    for at in range(0, len(data), 25):
        os.write(p.stdin.fileno(), data[at:at + 25])
        time.sleep(0.01)
    return p.communicate()


def from_terminal(program, typed):
    """4 is what the keys for the end of the input send."""
    ours, its = pty.openpty()
    os.write(ours, typed)
    end = subprocess.run(program, stdin=its, capture_output=True)
    os.close(ours)
    os.close(its)
    return end.stdout, end.stderr


def odd_inputs():
    """Each with what is to be printed on standard output and on standard error."""
    listed = b'coff sections 1 kept 1 entry 00000000\n0 load 00000400 run 80000000 size 5\nimage 28\n', b''
    unread = b'', b'input could not be read\n'
    yield 'a folder, of which each read fails', from_folder, unread
    yield 'A piece by piece', lambda program: from_pieces(program, one()), listed
    yield 'a terminal', lambda program: from_terminal(program, b'one line\n\4\4'), (b'refused 2 0\n', b'')
    yield 'a terminal that goes on behind an end', lambda program: from_terminal(program, b'one line\n\4another line\n\4'), unread


def main():
    words = sys.argv[1:]
    split = words.index('--')
    programs = words[:split], words[split + 1:]
    passed = failed = 0
    for name, data in cases():
        ours, theirs = (subprocess.run(p, input=data, capture_output=True).stdout for p in programs)
        if ours == theirs and ours:
            passed += 1
        else:
            failed += 1
            print(f'failed: {name}: the listing says {ours!r}, the second program {theirs!r}')
    for name, run, wanted in odd_inputs():
        said = run(programs[0])
        if said == wanted:
            passed += 1
        else:
            failed += 1
            print(f'failed: {name}: the listing says {said!r}, and {wanted!r} was expected')
    print(f'{passed} passed, {failed} failed')
    return 1 if failed else 0


sys.exit(main())
