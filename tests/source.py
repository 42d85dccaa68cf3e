"""A file of Rattle (.rt) or antt (.antt) without its comments and without what stands in quoted texts, for tests that look names up in the code; which
files those are; and the functions that the library exports."""
import pathlib
import re

CRATES = pathlib.Path(__file__).resolve().parent.parent / 'crates'
# what C calls is exported in one file
LIBRARY = CRATES / 'scanboot_c/src/lib.rt'
# what begins something that is left out: a text (in which nothing begins a comment), a byte (Rattle), a comment to the line's end, or one that ends where
# as many were closed as begun; antt's names may hold `--`, so that a comment begins a word there
TEXT = r'"(?:[^"\\]|\\.)*"'
SKIPPED = {
    '.antt': re.compile(TEXT + r'|(?<![^\s(){}.;,@"«»])--[^\n]*|\{-', re.S),
    '.rt': re.compile(TEXT + r"|b'(?:[^'\\]|\\.)'|//[^\n]*|/\*", re.S),
}
CLOSED = {'{-': '-}', '/*': '*/'}


def behind(text, at, begins):
    """The place behind a comment whose first sign, which is two characters long, ends at the given place."""
    depth = 1
    while depth and at < len(text):
        sign = text[at:at + 2]
        depth += (sign == begins) - (sign == CLOSED[begins])
        at += 2 if sign in (begins, CLOSED[begins]) else 1
    return at


def code(path):
    """The text of the file, with each comment and each quoted text left out and the lines as they were."""
    text, kept, at = path.read_text(), [], 0
    while found := SKIPPED[path.suffix].search(text, at):
        end = behind(text, found.end(), found[0]) if found[0] in CLOSED else found.end()
        kept += [text[at:found.start()], '""' if found[0].startswith('"') else '', '\n' * text.count('\n', found.start(), end)]
        at = end
    return ''.join(kept) + text[at:]


def files(suffix, crate='*'):
    """The files of this kind of every crate, or of one: those that are written, and nothing of what is made of them."""
    return sorted(p for folder in ('src', 'specs', 'proofs') for p in CRATES.glob(f'{crate}/{folder}/**/*{suffix}'))


def exported(path=LIBRARY):
    """Each function that the file exports: its name, its parameters and its result, as they stand there."""
    return re.findall(r'#\[unsafe\(no_mangle\)\]\s*pub extern "C" fn (\w+)\(([^)]*)\) -> (\w+)', path.read_text())
