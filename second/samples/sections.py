"""What the scripts that change a sample share: the file read, and a section's header found by its name."""

import os
import struct
import sys

FILE_HEADER, SECTION_HEADER = 22, 48


def stop(why):
    sys.exit(os.path.basename(sys.argv[0]) + ": " + why)


def read(path):
    with open(path, "rb") as file:
        return bytearray(file.read())


def section_header(data, name):
    """Where the header of the section with this name begins."""
    count, = struct.unpack_from("<H", data, 2)
    optional, = struct.unpack_from("<H", data, 16)
    for i in range(count):
        at = FILE_HEADER + optional + SECTION_HEADER * i
        if data[at:at + 8].rstrip(b"\0") == name:
            return at
    stop("no section " + name.decode())
