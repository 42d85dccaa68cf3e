#!/usr/bin/env python3
"""Runs what the documents tell a reader to run, and compares what they say it prints. The last line is 'N passed, M failed'.

A command is an indented line, or a line of a fenced block without a language, that begins with `$ `, or with the name of a program of this
project or `make`. Lines behind a `$ ` line, up to the next or to the block's end, are what it must print. Targets that run as long as one likes
are run for a short while, and what is installed goes into build/. `make test` is what runs this, and is only looked up, as `make fuzz` is where
clang or its sanitizers are missing. Commands of the second program's page are run in its folder. C in a fenced block must compile beside the header.
All lines keep one width. The names in docs/PROMISES.md are looked up by tests/promises.py."""
import pathlib
import re
import subprocess
import sys
import xml.etree.ElementTree as tree

sys.dont_write_bytecode = True
from counted import end, tell
from width import wrapped

ROOT = pathlib.Path(__file__).resolve().parent.parent
SHORT = {'soak': 'N=2000', 'fuzz': 'SECONDS=2', 'mutants': 'LIMIT=2', 'bench': 'ROUNDS=1', 'plot': 'ROUNDS=1 OUT=build/cost.svg',
         'install': f'DESTDIR={ROOT}/build/docs-installed'}


def run(command, folder=ROOT):
    done = subprocess.run(command, shell=True, cwd=folder, capture_output=True, text=True)
    return done.returncode, done.stdout, done.stderr


# what the fuzzer is built with may be missing
LOOKED_UP = {'test', 'fuzz'} if 'is missing' in run('sh fuzz/clang.sh')[2] else {'test'}


def attempt(where, command, printed, folder):
    words = command.split()
    if words[0] == 'make':
        targets = [w for w in words[1:] if '=' not in w and not w.startswith('-')] or ['all']
        dry = ['-n'] if any(t in LOOKED_UP for t in targets) else []
        # of two values for one name the later counts
        code, out, err = run(' '.join(['make', *dry, *words[1:], *(SHORT.get(t, '') for t in targets)]))
        tell(f'{where}: {command}', code == 0, (err or out).strip()[-200:])
        return
    code, out, err = run(command, folder)
    right = code == 0 and (printed is None or out.splitlines() == printed)
    tell(f'{where}: {command}', right, (err or out).strip()[-200:])


def blocks(text):
    """The blocks of code of a document: (language, lines)."""
    fence = None
    lines = []
    for line in text.split('\n') + ['']:
        if fence is not None:
            if line.strip().startswith('```'):
                yield fence, lines
                fence, lines = None, []
            else:
                lines.append(line)
        elif line.strip().startswith('```'):
            if lines:
                yield None, lines
            fence, lines = line.strip()[3:], []
        elif line.startswith('    '):
            lines.append(line[4:])
        elif lines and line.strip():
            yield None, lines
            lines = []


def commands(lines):
    """The commands of a block: (command, what it prints or None)."""
    shown = any(line.startswith('$ ') for line in lines)
    now, printed = None, []
    for line in lines:
        if shown:
            if line.startswith('$ '):
                if now:
                    yield now, printed
                now, printed = line[2:].split('  #')[0].strip(), []
            elif line.strip():
                printed.append(line)
        elif re.match(r'(make|build/scanboot|target/release/second|cargo|sh tests/)\b', line):
            yield line.split('  #')[0].strip(), None
    if now:
        yield now, printed


def unstruck(picture):
    """Each curve's name stands on white that was laid over the lines of the grid."""
    white, names = [], 0
    for part in tree.parse(picture).getroot().iter():
        kind = part.get('class') or ''
        if kind == 'grid':
            white = []
        elif part.tag.endswith('rect'):
            white.append([float(part.get(side) or 0) for side in ('x', 'y', 'width', 'height')])
        elif re.fullmatch(r't\d', kind):
            names += 1
            left, foot, wide = float(part.get('x')), float(part.get('y')), 6.9 * len(part.text)
            if not any(x <= left and left + wide <= x + w and y <= foot - 10 and foot + 4 <= y + h for x, y, w, h in white):
                return False
    return names > 0


for path in [ROOT / 'README.md', ROOT / 'CONTRIBUTING.md', ROOT / 'second/README.md', *sorted((ROOT / 'docs').glob('*.md'))]:
    for language, lines in blocks(path.read_text()):
        where = path.relative_to(ROOT)
        if language == 'c':
            source = '\n'.join(lines)
            done = subprocess.run(['gcc', '-std=c99', '-Wall', '-Wextra', '-Wpedantic', '-Werror', '-fsyntax-only', '-Iinclude', '-x', 'c', '-'],
                                  cwd=ROOT, input=source, text=True, capture_output=True)
            tell(f'{where}: its C compiles', done.returncode == 0, done.stderr[-200:])
        elif not language:
            for command, printed in commands(lines):
                attempt(where, command, printed, path.parent if path.parent.name == 'second' else ROOT)
    for link in re.findall(r'\]\(([^)#]+)\)', path.read_text()):
        if '://' not in link:
            tell(f'{path.relative_to(ROOT)}: {link} is there', (path.parent / link).exists())

for path in sorted([*ROOT.glob('*.md'), *ROOT.glob('docs/**/*.md'), *ROOT.glob('second/*.md'), *ROOT.glob('second/samples/*.md')]):
    name, text = path.relative_to(ROOT), path.read_text()
    tell(f'{name}: its lines fill one width; python3 tests/width.py {name} sees to it', wrapped(text) == text)
for picture in 'docs/cost.svg', 'build/cost.svg':
    tell(f'{picture}: no name is struck through', unstruck(ROOT / picture))

# the picture in the README is what the program draws
code, out, err = run('build/scanboot map second/samples/c6x.out -o -')
tell('docs/map.svg is what the program draws', out == (ROOT / 'docs/map.svg').read_text())
end()
