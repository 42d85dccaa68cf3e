#!/usr/bin/env python3
"""initialised.py FILE SECTION=ADDRESS..: makes initialised data of sections that are not kept.

In the samples `.stack` is uninitialised and `.debug_x` a dummy section, so that to
leave them out by name changes nothing. This writes FILE to standard output with each
SECTION at ADDRESS (hexadecimal, load and run) and with the flag DATA in place of all
that kept it out. One without raw data gets as many bytes as its size says, counting
from 1, in front of the symbols, which move. Everything else stays."""

import struct
import sys

sys.dont_write_bytecode = True
from sections import read, section_header, stop

DSECT, NOLOAD, COPY, DATA, BSS = 0x1, 0x2, 0x10, 0x40, 0x80


def add_raw(data, header):
    """Raw data in front of the symbols, behind all that is there."""
    size, = struct.unpack_from("<I", data, header + 16)
    symbols_at, = struct.unpack_from("<I", data, 8)
    data[symbols_at:symbols_at] = bytes((i + 1) % 256 for i in range(size))
    struct.pack_into("<I", data, header + 20, symbols_at)
    struct.pack_into("<I", data, 8, symbols_at + size)


def initialise(data, name, address):
    header = section_header(data, name)
    flags, = struct.unpack_from("<I", data, header + 40)
    struct.pack_into("<II", data, header + 8, address, address)
    struct.pack_into("<I", data, header + 40, flags & ~(DSECT | NOLOAD | COPY | BSS) | DATA)
    if struct.unpack_from("<I", data, header + 20) == (0,):
        add_raw(data, header)


def main():
    if len(sys.argv) < 3:
        stop("FILE SECTION=ADDRESS..")
    data = read(sys.argv[1])
    for word in sys.argv[2:]:
        name, _, address = word.partition("=")
        initialise(data, name.encode(), int(address, 16))
    sys.stdout.buffer.write(data)


main()
