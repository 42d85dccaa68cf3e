# Makes scanner.out, a COFF file like that of a small scanner program: vectors, code, tables and variables in internal memory,
# and in external memory, from 400000h on, three overlays that run at one address, tables, a heap, and a filter that is copied before
# it runs.
#     python3 scanner.py scanner.out
import pathlib
import sys

sys.dont_write_bytecode = True
sys.path.insert(0, str(pathlib.Path(__file__).resolve().parent.parent / 'tests'))
from coff import BSS, DATA, TEXT, VECTOR, coff, write

#  name, run address, load address, size, flags
SECTIONS = [
    (b'.vectors', 0x00000000, 0x00000000, 0x0200, TEXT | VECTOR),
    (b'.text', 0x00000400, 0x00000400, 0xA880, TEXT),
    (b'.startup', 0x0000AC80, 0x0000AC80, 0x03A0, TEXT),
    (b'.const', 0x0000B020, 0x0000B020, 0x1C40, DATA),
    (b'.cinit', 0x0000CC60, 0x0000CC60, 0x044C, DATA),
    (b'.bss', 0x0000D0AC, 0x0000D0AC, 0x1F00, BSS),
    (b'.calibration', 0x0000F000, 0x00400000, 0x2400, TEXT),
    (b'.preview', 0x0000F000, 0x00402400, 0x1E00, TEXT),
    (b'.scan', 0x0000F000, 0x00404200, 0x2A22, TEXT),
    (b'.gamma', 0x00410000, 0x00410000, 0x5000, DATA),
    (b'.sysmem', 0x00415000, 0x00415000, 0x8000, BSS),
    (b'.filter', 0x00012000, 0x00420000, 0x0900, TEXT),
    (b'.serial', 0x00430000, 0x00430000, 0x0007, DATA),
]
ENTRY = 0x0000AC80

sections, raw = [], b''
for number, (name, run, load, size, flags) in enumerate(SECTIONS):
    sections.append((run, load, size, None if flags == BSS else len(raw), flags, name))
    if flags != BSS:
        raw += bytes((number * 37 + i * i) & 255 for i in range(size))
write(sys.argv[1], coff(sections, raw, entry=ENTRY))
