#!/usr/bin/env python3
"""The header's declarations beside the functions that the library exports, and the names that the archive gives.
exports.py [lib.rt [libscanboot.a]]; the last line is 'N passed, M failed'.

A C file declares each exported function anew, with parameters and result as the library's source has them, and a compiler takes it only where
the header agrees. That this can fail is seen of each function changed: a parameter less, one more, one of another type, another result."""
import pathlib
import re
import subprocess
import sys

sys.dont_write_bytecode = True
from counted import end, tell
from source import LIBRARY, exported

ROOT = pathlib.Path(__file__).resolve().parent.parent
SOURCE = pathlib.Path(sys.argv[1] if len(sys.argv) > 1 else LIBRARY)
ARCHIVE = pathlib.Path(sys.argv[2] if len(sys.argv) > 2 else ROOT / 'build/libscanboot.a')
HEADER = (ROOT / 'include/scanboot.h').read_text()
# a type of Rattle's in C
PARAMETERS = {'&[u8]': ['const uint8_t *', 'size_t'], '&mut [u8]': ['uint8_t *', 'size_t'], 'u64': ['uint64_t'], 'u32': ['uint32_t']}
RESULTS = {'u64': ('uint64_t', 'UINT64_MAX'), 'u32': ('uint32_t', 'UINT32_MAX')}
OTHER = {'const uint8_t *': 'uint8_t *', 'uint8_t *': 'const uint8_t *', 'size_t': 'uint32_t', 'uint64_t': 'uint32_t', 'uint32_t': 'uint64_t'}


def in_c():
    """Each exported function of the source: its name, its parameters in C, and its result in Rattle."""
    for name, within, result in exported(SOURCE):
        yield name, [c for p in within.split(',') if p.strip() for c in PARAMETERS[p.split(':')[1].strip()]], result


def declared_anew(name, parameters, result, arguments):
    """C for one function. What the header's call answers is a struct of one number, or that number: so wide, and filled by the largest one."""
    number, most = RESULTS[result]
    answer = f'__typeof__({name}({", ".join(f"({p})0" for p in arguments)}))'
    return (f'{answer} {name}({", ".join(parameters) or "void"});\n'
            f'_Static_assert(sizeof({answer}) == sizeof({number}), "the result of {name}");\n'
            f'extern const {answer} most_of_{name};\nconst {answer} most_of_{name} = {{{most}}};\n')


def compiles(lines):
    words = 'gcc -std=c11 -Wall -Wextra -Wpedantic -Wconversion -Werror -fsyntax-only -Iinclude -x c -'.split()
    done = subprocess.run(words, cwd=ROOT, input='#include "scanboot.h"\n' + lines, text=True, capture_output=True)
    return done.returncode == 0, done.stderr.strip()[-300:]


def changed(parameters, result):
    """Each change that must be noticed: what it is, and parameters and result after it."""
    yield 'a parameter more', [*parameters, 'uint64_t'], result
    yield 'another result', parameters, {'u64': 'u32', 'u32': 'u64'}[result]
    if parameters:
        yield 'a parameter less', parameters[:-1], result
    for at, kind in enumerate(parameters):
        yield f'another type of parameter {at}', [*parameters[:at], OTHER[kind], *parameters[at + 1:]], result


if len(sys.argv) == 1:
    subprocess.run(['make', '-s', '-f', 'build.mk', 'lib'], cwd=ROOT, check=True)
names = []
for name, parameters, result in in_c():
    names.append(name)
    right, told = compiles(declared_anew(name, parameters, result, parameters))
    tell(f'{name} is declared as it is exported', right, told)
    for what, others, another in changed(parameters, result):
        tell(f'{name}: {what} would be noticed', not compiles(declared_anew(name, others, another, parameters))[0])

declared = re.findall(r'^SCANBOOT_TO_BE_READ\s+\w+\s+(\w+)\(', HEADER, re.M)
listed = subprocess.run(['nm', '-g', '--defined-only', ARCHIVE], text=True, capture_output=True).stdout
given = re.findall(r'^[0-9a-f]+ T (\w+)$', listed, re.M)
tell('the header declares what is exported', sorted(declared) == sorted(names), f'{sorted(set(declared) ^ set(names))}')
tell('the archive gives what is exported', sorted(given) == sorted(names), f'{sorted(set(given) ^ set(names))}')
end()
