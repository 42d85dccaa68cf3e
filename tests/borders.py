#!/usr/bin/env python3
"""No crate above `coff` names what is coff's own: a change of how a COFF file's sections are laid out, read or kept stays in there. And loader and check
know the two readers by laws: a change behind the name of a reader's definition stays in the reader's crate.

Looks through the code, the definitions and the proofs of each crate that stands above it, but for the tables of bench entries, which are bytes and are
computed with every definition opened: what they take from coff is for others, and what is coff's own is not spelled there. Looks through the definitions and
the proofs of loader and check for what they open. What stands in a comment counts for nothing. The last line is 'N passed, M failed'."""
import pathlib
import re
import sys

sys.dont_write_bytecode = True
from counted import end, tell
from source import code, files

ROOT = pathlib.Path(__file__).resolve().parent.parent
LOWER = 'coff'
TABLES = {'entries'}
READERS = ['coff', 'image']
CITING = ['loader', 'compare']


def name(word):
    return rf'(?<![\w-]){word}(?![\w-])'


# what coff has for others: by its path in the code, and by its module in definitions and proofs; of a module without names, all of it
FOR_CODE = {'::parts::Coff', '::reading::read'}
FOR_PROOFS = {
    '.specs.declared.Sections': 'Sections',
    '.specs.declared.parts.Coff': 'Coff',
    '.specs.File': 'section_count entry_point',
    '.specs.Reading': 'coff_source read_coff',
    '.specs.Parts': 'part_at parts_of source_of ReadOf Accepted Tells TellsKept',
    '.specs.Handed': 'part_in parts_in source_in',
    '.specs.Answer': 'sections_of Headers headers_in headers_of',
    '.proofs.AcceptedLaws': 'accepted refused_file file_accepted file_reads read_is read_accepted entry_small',
    '.proofs.PartLaws': 'SoundPart part_cases parts_apart count_is count_few length_piece',
    '.proofs.RefusalLaws': 'refusal_small',
    '.proofs.OrderLaws': 'read_in_order row_order_passes',
    '.proofs.reading.read.Reads': '',
    '.proofs.parts.Coff.part_at.Reads': '',
    '.proofs.parts.Coff.bytes_of.Reads': '',
}
# what theorems on which sections are kept name besides: they are of coff's definitions, and stand apart only so that no mistake that is tried in coff
# checks them again
FOR_THEOREMS = {
    '.specs.File': 'section_of',
    '.specs.Names': 'name_of has_unreadable_name',
    '.specs.Kept': 'is_kept_typed is_kept_plain is_kept keeps',
    '.specs.Refusals': 'head_rules section_rules lacks_name rules_by rules_of rules_with coff_rules',
    '.specs.Reading': 'part_of source_with',
    '.proofs.OverlapLaws': 'pairs_same',
    '.proofs.ChoosingLaws': 'kept_by_flags_lem',
}
THEOREMS = {'demands'}
# what is coff's own in its code, and how it is spelled; a number of kept sections may be called `kept`, and only the function is meant here
SPELLED = {
    'the stride of section headers': r'(?<!\w)(48|0x30)(?!\d)',
    'a field of a section header': '|'.join(map(name, ('Header', 'section_at'))),
    'whether a section is kept': '|'.join([name('Chooser'), r'\bis_kept\(']),
    'the marks of kept sections': '|'.join([name('Marks'), name('is_marked'), r'\.words(?![\w-])']),
    'the flags of a section': name('flags'),
    'the name of a section, or what takes it': '|'.join([r'\bname_at\(', r'\btakes_any\(', r'::takes_any\b']),
}
# where 48 is the digit 0 in ASCII
ELSE = {'crates/demands/proofs/Spelling.antt': r'byte - 48|48 \+ d\)', 'crates/lines/proofs/DigitLaws.antt': r'\b48\b'}
# the fields of sections that are coff's own, and what has a field of that name above it: a cursor, arguments, and the goals, each by its place; figures,
# what a function answers with them, and arguments; for both, the values in a loop
FIELDS = {'at': {'c', 'here', 'next', 'a', 'args', 'goal', 'l', 'Reason'}, 'kept': {'figures', 'part', 'made', 'r', 'result', 'args', 'l'}}


def crates():
    """Each crate, with the crates that it stands on, directly or not."""
    stands = {}
    for line in (ROOT / 'crates.txt').read_text().splitlines():
        crate, colon, on = line.split('#')[0].partition(':')
        if colon:
            stands[crate.split()[0]] = on.split()

    def beneath(crate):
        return set(stands.get(crate, [])).union(*map(beneath, stands.get(crate, [])))

    return {crate: beneath(crate) for crate in stands}


def places(path, pattern, text):
    """Where the pattern is found in the text of a file."""
    return [f'{found[0]} ({path.relative_to(ROOT)}:{text.count(chr(10), 0, found.start()) + 1})' for found in re.finditer(pattern, text)]


def for_proofs(path):
    """What the file of a crate may take from each module."""
    more = FOR_THEOREMS if path.relative_to(ROOT).parts[1] in THEOREMS else {}
    return {module: ' '.join([FOR_PROOFS.get(module, ''), more.get(module, '')]).strip() for module in {*FOR_PROOFS, *more}}


def spelled_out(path, names):
    """The paths that a path and, behind it, names in braces stand for."""
    if not names:
        return [path]
    return [found for name, inner in re.findall(r'([\w:]+)(?:\{((?:[^{}]|\{[^{}]*\})*)\})?', names) for found in spelled_out(path + name, inner)]


def taken(path):
    """What a file takes from coff that is not for others, each with its line."""
    text = code(path)
    others = for_proofs(path)
    for found in re.finditer(rf'Rattle\.{LOWER}(?!\w)([^\s{{}}();]*)(?:\{{([^}}]*)\}})?', text):
        # words of a name may be joined in either way
        names = [word.split()[0].replace('-', '_') for word in (found[2] or '').split(',') if word.strip()]
        module = found[1].removesuffix('.')
        if module not in others or not set(names) <= set(others[module].split()) or bool(names) != bool(others[module]):
            yield f'{found[0]} ({path.relative_to(ROOT)}:{text.count(chr(10), 0, found.start()) + 1})'
    if path.suffix == '.rt':
        for found in re.finditer(rf'(?<![\w.]){LOWER}(?!\w)([\w:]*)(?:\{{((?:[^{{}}]|\{{[^{{}}]*\}})*)\}})?', text):
            if not set(spelled_out(found[1], found[2])) <= FOR_CODE:
                yield f'{found[0]} ({path.relative_to(ROOT)}:{text.count(chr(10), 0, found.start()) + 1})'


def looked_into(path):
    """Where a file names a field of sections that is coff's own, each with its line."""
    text = code(path)
    sections = {'s', 'sections', *' '.join(re.findall(r"([\w' -]+?)\s*:\s*Sections(?!\w)", text)).split()}
    for field, others in FIELDS.items():
        # a call is none of a field
        for place in places(path, rf"(?<![\w'-])[\w'-]*\s*\.{field}(?![\w(-])", text):
            owner = re.match(r"[\w'-]*", place)[0]
            if owner not in others - sections and not owner.startswith('loop-'):
                yield ' '.join(place.split())


def openable(crate):
    """The definitions of a crate that another one could open: those that are marked so."""
    return {name for p in files('.antt', crate) for name in re.findall(r'^ *unfoldable (?:pub )?(\S+) :', code(p), re.M)}


def opened(path):
    """The names of the definitions that a file opens, each with its line: by an `unfolding` line, or by `unfold .. in`. A name may have its path before it,
    or be one that the file itself gave on a `use` line."""
    text = code(path)
    given = {new: old for old, new in re.findall(r'([^\s{,]+) as ([^\s,}]+)', text)}
    # the names of an `unfolding` line may stand on the next line, and go on in lines that are indented further
    for found in re.finditer(r'^( *)(?:[^\n]*[^\S\n])?unfolding\s+([^\n]+(?:\n\1 [^\n]*)*)|(?<![^\s(])unfold\s((?s:.+?))\sin\s', text, re.M):
        for word in (found[2] or found[3]).split():
            name = word.split('.')[-1]
            yield given.get(name, name), text.count('\n', 0, found.start()) + 1


STANDS = crates()
for crate in sorted(crate for crate, on in STANDS.items() if LOWER in on and crate not in TABLES):
    looked = files('.rt', crate) + files('.antt', crate)
    for what, spelled in SPELLED.items():
        found = [place for p in looked for place in places(p, spelled, re.sub(ELSE.get(str(p.relative_to(ROOT)), '(?!)'), '', code(p)))]
        tell(f'{crate} names {what}', not found, ', '.join(found))
    for what, look in ('takes what is not for others', taken), ('looks into the sections', looked_into):
        found = [place for p in looked for place in look(p)]
        tell(f'{crate} {what}', looked and not found, ', '.join(found))

for crate in CITING:
    for reader in READERS:
        # a name that the crate or `fields` declares, too, is taken for theirs
        theirs = openable(reader) - openable(crate) - openable('fields')
        tell(f'{crate} and {reader} are there', theirs and files('.antt', crate))
        found = [f'{name} ({p.relative_to(ROOT)}:{n})' for p in files('.antt', crate) for name, n in opened(p) if name in theirs]
        tell(f'{crate} opens definitions of {reader}', not found, ', '.join(found))
end()
