#!/usr/bin/env python3
"""long_name.py FILE SECTION NAME: moves the name of a section into the string table.

GNU's assembler cuts section names to eight characters, so that no sample has one
in its string table. This writes FILE to standard output with the section SECTION
called NAME there: NAME goes to the end of the string table, whose size grows by
it, and the section's header gets its offset. Everything else stays, and so does
the place of all raw data and symbols. A file without a string table gets one at
its end; where it has no symbols either, the header's symbol offset says so."""

import struct
import sys

sys.dont_write_bytecode = True
from sections import read, section_header, stop

SYMBOL = 18


def string_table(data):
    """Where it begins; one of no names is made where there is none."""
    symbols_at, symbols = struct.unpack_from("<II", data, 8)
    if symbols == 0:
        symbols_at = len(data)
        struct.pack_into("<I", data, 8, symbols_at)
    at = symbols_at + SYMBOL * symbols
    if at == len(data):
        data += struct.pack("<I", 4)
    size, = struct.unpack_from("<I", data, at)
    if at + size != len(data):
        stop("the string table is not the end of the file")
    return at


def move(data, section, name):
    header = section_header(data, section)
    table = string_table(data)
    offset = len(data) - table
    data += name + b"\0"
    struct.pack_into("<I", data, table, len(data) - table)
    struct.pack_into("<II", data, header, 0, offset)


def main():
    if len(sys.argv) != 4:
        stop("FILE SECTION NAME")
    data = read(sys.argv[1])
    move(data, sys.argv[2].encode(), sys.argv[3].encode())
    sys.stdout.buffer.write(data)


main()
