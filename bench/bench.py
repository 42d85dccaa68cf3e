#!/usr/bin/env python3
"""bench.py [orders | unsorted | slow]: measures every case of build/bench and prints tables: the proved library beside plain C and beside
memcpy or memcmp of the same bytes; with patterns beside plain C and fnmatch, and by step, which is a byte of a pattern times a byte of a
name; in a byte order beside plain C and the bytes as they stand, and beside order 0. On x86-64 times are compared, each the least of
ROUNDS, 7 if the environment has no other; elsewhere the instructions executed, since a time under an emulator says nothing, and on x86-64
too where the environment has COUNTED and there is an emulator. Aims that are missed are named. With `orders` only the cases in a byte order
are measured, with `unsorted` only those of shuffled blocks and interleaved rows. With `slow` it measures, once, what hostile files can
cost, which takes minutes."""
import os
import shutil
import subprocess
import sys

EMULATOR = subprocess.run('. tools/machine.sh; echo $emulator', shell=True, capture_output=True, text=True).stdout.split()
if os.environ.get('COUNTED'):
    EMULATOR = EMULATOR or ['qemu-x86_64']
    if shutil.which(EMULATOR[0]) is None:
        sys.exit(f'bench: COUNTED counts under {EMULATOR[0]}, which is missing: install the package qemu-user')
NATIVE = not EMULATOR
# The emulator counts each byte of a `rep movsb` as an instruction, which no processor does: a processor without it is asked for, and
# memcpy takes its loops of 32-byte moves for every length.
EMULATED = [*EMULATOR, '-cpu', 'max,-erms']
UNIT = 'ns' if NATIVE else 'instructions'
ROUNDS = os.environ.get('ROUNDS') or '7'

# aims: at most so many times the bytes' own cost, and so many times plain C's; stack in bytes
MOVE = 1.2 if NATIVE else 2.5
AIMS = {'convert': (MOVE, 1.0), 'load': (MOVE, 1.0), 'read': (None, 1.0), 'check': (4.0, 1.0), 'list': (None, None), 'block,': (None, None),
        'measure': (None, 1.0), 'place,': (None, 1.0), 'walk': (None, 1.0), 'by': (None, None)}
# blocks in no order, to plain C, which sorts them in memory that it allocates, where the library has none: in time, of which vector code takes
# less than its instructions say; interleaved rows have the aim of all other blocks
SHUFFLED = {f'{job} {count} blocks, shuffled': aim if NATIVE else None for count in (1000, 2000, 4096)
            for job, aim in (('read', 10.0), ('read 16 MiB,', 10.0), ('load image 16 MiB,', 3.0), ('check 16 MiB,', 3.0),
                             ('check 16 MiB, 256 sections,', 3.5))}
STACK = 1024
# orders 2 and 3, which reverse the blocks' bytes, to order 0; small files are left out, since they stay in the nearest cache
REVERSED = 2.0 if NATIVE else 3.0
# of these the stack is the bench's own; of the calls behind them it is under 'block' and 'place'
MANY_CALLS = ('walk', 'by')
# a case is counted over many calls, so that what a call takes is seen beside what the preparing takes; of these one is enough
LONG = ('MiB', '1000', '2000', '4096', '1,000,000')
# in the names of cases whose blocks neither ascend nor descend
UNSORTED = ('shuffled', 'rows')

# why an aim is missed, where it is known
WHY = {
    'plain': 'plain C leaves moving and comparing to memcpy and memcmp, which take 32 bytes at once where the processor can;\n'
    '    the library runs on every x86-64 and takes 16',
    'shuffled': 'of blocks in no order 32 are held at a time and compared with all before them; plain C sorts in memory that it allocates',
    'rows': 'each block is compared with eight ranges that cover all before it, and widens one of them',
    'patterns': 'the end of each pattern is looked for again for every name, byte by byte, where plain C finds all of them once',
    'a name': 'where the name ends is looked for byte by byte, where plain C leaves it to memchr',
}


def output(words, counted=False):
    prefix = [] if NATIVE else EMULATED
    if counted:
        prefix += ['-plugin', 'build/count.so']
    run = subprocess.run(prefix + ['build/bench'] + words, capture_output=True, text=True)
    if run.returncode != 0:
        sys.exit(f'bench: {" ".join(words)}: {run.stderr.strip()}')
    return run.stderr if counted else run.stdout


def nanoseconds(case, who):
    return float(output(['time', case, who, ROUNDS]))


def instructions(case, who, calls):
    return int(output(['run', case, who, str(calls)], counted=True).split()[-1])


def cost(case, who):
    if NATIVE:
        return nanoseconds(case, who)
    calls = 1 if any(word in case for word in LONG) else 100
    return (instructions(case, who, calls) - instructions(case, who, 0)) / calls


def aims(job):
    """At most so many times the bytes' own cost, and so many times plain C's."""
    to_bytes, to_plain = AIMS[job.split()[0]]
    return to_bytes, SHUFFLED.get(job, to_plain)


def compare_calls(missed, words=('',)):
    """The cases without options that have one of these words in their names."""
    print(f'{"case":58} {"proved":>12} {"plain C":>12} {"bytes":>12} {"to plain":>9} {"to bytes":>9}   ({UNIT})')
    for case in output(['cases']).splitlines():
        if not any(word in case for word in words):
            continue
        to_bytes, to_plain = aims(case)
        small = 'KiB' in case
        proved, plain = cost(case, 'proved'), cost(case, 'plain')
        moved = cost(case, 'bytes') if to_bytes else None
        ratio = proved / moved if moved else None
        shown = f'{moved:12.0f}' if moved else f'{"":12}'
        print(f'{case:58} {proved:12.0f} {plain:12.0f} {shown} {proved / plain:9.2f} {f"{ratio:9.2f}" if ratio else ""}', flush=True)
        if ratio and round(ratio, 2) > to_bytes and not small:
            missed.append(f'{case}: {ratio:.2f} times the bytes\' own cost, the aim is {to_bytes}')
        if to_plain and round(proved / plain, 2) > to_plain:
            missed.append(f'{case}: {proved / plain:.2f} times plain C, the aim is {to_plain}')


def compare_names(which, missed):
    """The cases with patterns; where there is none, there are no steps. By fnmatch names are read and matched, and nothing else is done."""
    heads = f'{"proved":>12} {"plain C":>12} {"fnmatch":>12} {"to plain":>9} {"to fnmatch":>10} {"a step":>9}'
    print(f'\n{"with patterns":55} {heads}   ({UNIT})')
    for case in output(['cases', which]).splitlines():
        steps = float(output(['steps', case]))
        proved, plain = cost(case, 'proved'), cost(case, 'plain')
        alone = cost(case, 'fnmatch') if steps else None
        if steps:
            others = f'{alone:12.0f} {proved / plain:9.2f} {proved / alone:10.2f} {proved / steps:9.3f}'
        else:
            others = f'{"":12} {proved / plain:9.2f}'
        print(f'{case:55} {proved:12.0f} {plain:12.0f} {others}', flush=True)
        if round(proved / plain, 2) > 1:
            missed.append(f'{case}: {proved / plain:.2f} times plain C, the aim is 1.0')


def compare_orders(missed):
    """The cases in a byte order. An aim on bytes is of orders 0 and 1, which leave those of the blocks as they stand."""
    heads = f'{"proved":>12} {"plain C":>12} {"bytes":>12} {"to plain":>9} {"to bytes":>9} {"to order 0":>10}'
    print(f'\n{"in a byte order":58} {heads}   ({UNIT})')
    plainly = {}
    for case in output(['cases', 'turned']).splitlines():
        job, order = case.rsplit(', order ', 1)
        to_bytes, to_plain = aims(job)
        proved, plain = cost(case, 'proved'), cost(case, 'plain')
        moved = cost(case, 'bytes') if to_bytes else None
        if order == '0':
            plainly[job] = proved
        beside = f'{moved:12.0f} {proved / plain:9.2f} {proved / moved:9.2f}' if moved else f'{"":12} {proved / plain:9.2f} {"":9}'
        more = f'{proved / plainly[job]:10.2f}' if job in plainly else ''
        print(f'{case:58} {proved:12.0f} {plain:12.0f} {beside} {more}'.rstrip(), flush=True)
        if moved and order in '01' and 'KiB' not in case and round(proved / moved, 2) > to_bytes:
            missed.append(f'{case}: {proved / moved:.2f} times the bytes\' own cost, the aim is {to_bytes}')
        if more and moved and order in '23' and 'KiB' not in case and round(proved / plainly[job], 2) > REVERSED:
            missed.append(f'{case}: {proved / plainly[job]:.2f} times order 0, the aim is {REVERSED}')
        if to_plain and round(proved / plain, 2) > to_plain:
            other = 'C that reverses two fours at once' if moved and order in '23' else 'plain C'
            missed.append(f'{case}: {proved / plain:.2f} times {other}, the aim is {to_plain}')


def compare_stack(missed):
    """Of a call in several cases, and of a job in several byte orders, the most is told."""
    stacks = {}
    for case in output(['cases']).splitlines():
        kind = case.split()[0]
        if kind not in MANY_CALLS:
            call = ' '.join(case.split()[:2]) if kind == 'load' else kind.strip(',')
            stacks[call] = max(stacks.get(call, 0), int(output(['stack', case, 'proved'])))
    for case in output(['cases', 'stacked']).splitlines():
        job, *order = case.rsplit(', order ', 1)
        name = f'{job}, in an order' if order else job
        stacks[name] = max(stacks.get(name, 0), int(output(['stack', case, 'proved'])))
    print('\nmost stack of a call, in bytes:')
    for case, used in stacks.items():
        print(f'    {case:45} {used:6}')
    for case, used in stacks.items():
        if used >= STACK:
            missed.append(f'{case}: {used} bytes of stack, the aim is under {STACK}')


def tell_missed(missed):
    print()
    for line in missed or ['every aim is met']:
        print(f'aim missed: {line}' if missed else line)
    print()
    for word, reason in WHY.items():
        if any(word in line for line in missed):
            print(f'{word}: {reason}')


def main(asked):
    missed = []
    if asked == ['orders']:
        compare_orders(missed)
    elif asked == ['unsorted']:
        compare_calls(missed, UNSORTED)
    else:
        compare_calls(missed)
        compare_names('timed', missed)
        compare_orders(missed)
        compare_stack(missed)
    tell_missed(missed)


if __name__ == '__main__':
    if sys.argv[1:] == ['slow']:
        ROUNDS = '0'
        compare_names('slow', [])
    else:
        main(sys.argv[1:])
