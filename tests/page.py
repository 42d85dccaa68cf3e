#!/usr/bin/env python3
"""The library's manual page beside the header: the same names, and of each call, code and limit the same numbers; declarations that agree; what is kept
and what stays in the same words.
    page.py EXAMPLE.c      writes the page's examples there, one behind the other
The last line is 'N passed, M failed'."""
import pathlib
import re
import subprocess
import sys

sys.dont_write_bytecode = True
from counted import end, tell

ROOT = pathlib.Path(__file__).resolve().parent.parent
header = (ROOT / 'include/scanboot.h').read_text()
page = (ROOT / 'man/scanboot.3').read_text()
NAME = r'scanboot_[a-z_]*[a-z]|SCANBOOT_[A-Z_]*[A-Z]'


def same(what, in_header, in_page):
    tell(f'{what}: the same in header and page', in_header == in_page, f'{in_header} and {in_page}')


def section(title):
    return '\n' + page.split(f'\n.SH {title}\n')[1].split('\n.SH ')[0]


def code_in(lines):
    """C as it stands in the page's source."""
    return re.sub(r'^\.B ?"?|"$|^\.PP$|^\.nf$', '', lines, flags=re.M).replace(r'\e', '\\')


def words(text):
    """Prose without the marks of comments and of the page."""
    text = re.sub(r'^\.[BI]R? (\S+) ?(\S*)$', r'\1\2', text, flags=re.M)
    return re.sub(r'\s+', ' ', re.sub(r'^ \* ?|^\.[A-Za-z]+$', ' ', text, flags=re.M))


# What a user has to know before any call.
for begin, last in (('A section of a file is kept', 'takes its name.'), ('What stays in later versions', 'are final.'),
                    ('A byte order is for a host', 'then stand reversed.'), ('Time and stack are measured', 'was seen to take is')):
    same(begin, *(re.search(rf'{re.escape(begin)}.*?{re.escape(last)}', words(text))[0] for text in (header, page)))
same('the most stack', *(re.findall(r'seen to take is (\d+)', words(text)) for text in (header, page)))

# Names, and numbers beside them.
names = set(re.findall(NAME, header)) - {'SCANBOOT_H'}
for name in sorted(names | set(re.findall(NAME, page))):
    tell(f'{name} stands in header and page', name in names and re.search(rf'{name}\b', page))
same('codes', re.findall(r'^    (SCANBOOT_\w+) = (\d+)', header, re.M),
     [(name, number) for number, name in re.findall(r'^\.B (\d+) (SCANBOOT_\w+)$', section('CODES'), re.M)])
for what, title, of in ('limits', 'LIMITS', r'(?!SCANBOOT_ORDER_)\w+'), ('orders', 'BYTE ORDERS', r'SCANBOOT_ORDER_\w+'):
    same(what, re.findall(rf'^#define ({of}) (\d+)u$', header, re.M),
         [(name, number.replace(',', '')) for name, number in re.findall(r'^\.BR (SCANBOOT_\w+) ", ([\d,]+)"$', section(title), re.M)])
same('version', re.search(r'VERSION_TEXT "(.*)"', header)[1], re.search(r'^\.TH SCANBOOT 3 [\d-]+ "scanboot (.*?)"', page)[1])

# Calls: codes and figures are named in the comment over a declaration, if it has one. Addresses have neither there.
calls = {name: re.sub(r'\n \* ', ' ', said)
         for said, name in re.findall(r'(?:/\* ((?:(?!\*/).)*)\*/\n)?SCANBOOT_TO_BE_READ \w+ (scanboot_\w+)\(', header, re.S)}
entries = dict(re.findall(r'\n\.TP\n\.B (scanboot_\w+)\n((?:(?!\n\.TP).)*)', section('CALLS'), re.S))
same('calls', sorted(calls), sorted(entries))
for name in calls:
    codes, figures = [[re.findall(of, re.search(rf'{word}: ([^.;]*)|$', text)[1] or '') for text in (calls[name], entries.get(name, ''))]
                      for word, of in (('Codes', r'\d+|to'), ('Figures?', NAME))]
    same(f'codes of {name}', *codes)
    if 'addresses' in name:
        figures[0] = ['scanboot_load_address', 'scanboot_run_address']
    same(f'figures of {name}', *figures)

# The synopsis declares every function anew, but for the two macros and what the others are made of.
declared = code_in(section('SYNOPSIS').split('\n.fi')[0])
functions = re.findall(r'^(?:SCANBOOT_TO_BE_READ|static inline|#define) .*?(scanboot_[a-z_]+)\(', header, re.M)
functions = sorted(name for name in functions if not name.endswith('_in'))
same('functions', functions, sorted(re.findall(r'(scanboot_[a-z_]+)\(', declared)))
done = subprocess.run(['gcc', '-std=c99', '-Wall', '-Wextra', '-Wpedantic', '-Werror', '-fsyntax-only', f'-I{ROOT}/include', '-x', 'c', '-'],
                      input=re.sub(r'.*\(answer\);', '', declared), text=True, capture_output=True)
tell('the synopsis agrees with the header', done.returncode == 0, done.stderr[-300:])

examples = [part.split('\n.fi\n')[0] for part in section('EXAMPLES').split('\n.nf\n')[1:]]
pathlib.Path(sys.argv[1]).write_text(code_in('\n\n'.join(examples)) + '\n')
end()
