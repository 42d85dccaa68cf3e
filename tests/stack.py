#!/usr/bin/env python3
"""The stack of each call has a ceiling: the bytes that it writes at most, over every case of the bench but for the slow ones. stack.py; the last line is
'N passed, M failed'.

A painted stack shows how far down a call has written. That is the same in every run, and under the emulator as on the processor, so that this test knows
no times. What needs more stack than before raises a ceiling here, and its landing says so; what needs less lowers it."""
import pathlib
import subprocess
import sys

sys.dont_write_bytecode = True
from counted import end, tell
from source import exported

ROOT = pathlib.Path(__file__).resolve().parent.parent
CEILINGS = {
    'scanboot_measure': 248,
    'scanboot_convert': 376,
    'scanboot_list': 728,
    'scanboot_load_coff': 360,
    'scanboot_check': 972,
    'scanboot_measure_with': 472,
    'scanboot_convert_with': 616,
    'scanboot_load_coff_with': 600,
    'scanboot_check_with': 988,
    'scanboot_takes': 120,
    'scanboot_read_image': 620,
    'scanboot_load_image': 780,
    'scanboot_block': 684,
    'scanboot_block_addresses': 700,
    'scanboot_block_at': 0,
    'scanboot_block_addresses_at': 0,
    'scanboot_read_image_with': 620,
    'scanboot_load_image_with': 780,
    'scanboot_block_with': 684,
    'scanboot_block_addresses_with': 684,
    'scanboot_block_at_with': 64,
    'scanboot_block_addresses_at_with': 64,
}
# it answers a number that stands in the code
WITHOUT = {'scanboot_version'}
RUN = subprocess.run('. tools/machine.sh; echo $emulator', shell=True, cwd=ROOT, capture_output=True, text=True).stdout.split()


def bench(*words):
    return subprocess.run([*RUN, 'build/stack', *words], cwd=ROOT, check=True, capture_output=True, text=True).stdout.strip()


subprocess.run(['make', '-s', '-f', 'build.mk', 'build/stack'], cwd=ROOT, check=True)
CALLS = {name for name, _, _ in exported()}
used, highest = {}, {}
for case in [*bench('cases').splitlines(), *bench('cases', 'timed').splitlines(), *bench('cases', 'stacked').splitlines()]:
    functions = bench('call', case).split()
    if functions:
        used[case] = int(bench('stack', case, 'proved'))
    for function in functions:
        highest[function] = max(highest.get(function, 0), used[case])

for function in sorted(CALLS - WITHOUT):
    most, ceiling = highest.get(function), CEILINGS.get(function)
    tell(f'{function} is measured, and has a ceiling', most is not None and ceiling is not None)
    if most is not None and ceiling is not None:
        tell(f'the stack of {function}', most <= ceiling, f'{most} bytes, where {ceiling} is the ceiling')
        if most < ceiling:
            print(f'{function}: {most} bytes; its ceiling, {ceiling}, is to be lowered')
for function in sorted(set(CEILINGS) - CALLS):
    tell(f'{function}, which has a ceiling, is exported', False)

# five digits more are as many calls more inside each other: the paint tells how deep calls go
tell('deeper calls are seen', used['list 256 sections'] < used['list, an image of 4 GB'])
# 32 stars are as many calls inside each other for a matcher that calls itself at each
tell('stars cost no stack', used['takes, two stars'] == used['takes, 32 stars'])
end()
