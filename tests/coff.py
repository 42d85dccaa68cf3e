"""The maker of COFF files and boot images for tests, seeds and examples: sound ones, and ones in which any single field is wrong.
    coff.py FILE [RUN LOAD BYTES]..     writes a file of these sections of code; all three are hexadecimal"""
import sys
from struct import pack

HEADER, OPTIONAL, SECTION = 22, 28, 48
TEXT, DATA, BSS, VECTOR = 0x20, 0x40, 0x80, 0x8000
MOST = 16777216


def optional_header(entry, magic=0x108):
    return pack('<H14xI8x', magic, entry)


def coff(sections, raw=b'', entry=None, version=0xC2, target=0x99, flags=2, count=None, optional=None):
    """A section is (run, load, size, at[, flags[, name]]), in the order of its header. `at` counts from the start of `raw`, the bytes behind
    the headers; None is a section without raw data. A name of more than eight bytes stands in a string table, which then ends the file."""
    if optional is None:
        optional = b'' if entry is None else optional_header(entry)
    begin = HEADER + len(optional) + SECTION * len(sections)
    headers, strings = b'', b''
    for run, load, size, at, *more in sections:
        kind, name = (*more, *(TEXT, b'')[len(more):])
        if len(name) > 8:
            name, strings = pack('<II', 0, 4 + len(strings)), strings + name + b'\0'
        place = 0 if at is None else (begin + at) % 2**32
        headers += pack('<8sIIII16xI4x', name, run, load, size, place, kind)
    count = len(sections) if count is None else count
    symbols = begin + len(raw) if strings else 0
    head = pack('<HHIIIHHH', version, count, 0, symbols, 0, len(optional), flags, target)
    return head + optional + headers + raw + (pack('<I', 4 + len(strings)) + strings if strings else b'')


def image(blocks, entry=0, end=bytes(4)):
    """A block is (load, run, bytes[, padding])."""
    parts = [pack('<I', entry)]
    for load, run, raw, *padding in blocks:
        parts += [pack('<III', len(raw), load, run), raw, padding[0] if padding else bytes(-len(raw) % 4)]
    return b''.join([*parts, end])


def write(name, content):
    with open(name, 'wb') as file:
        file.write(content)


def main(name, *words):
    sections, raw = [], b''
    for run, load, part in zip(words[0::3], words[1::3], map(bytes.fromhex, words[2::3])):
        sections.append((int(run, 16), int(load, 16), len(part), len(raw)))
        raw += part
    write(name, coff(sections, raw))


if __name__ == '__main__':
    main(*sys.argv[1:])
