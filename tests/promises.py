#!/usr/bin/env python3
"""Looks up in the crates what docs/PROMISES.md says is there. The last line is 'N passed, M failed'.

Every public function has its row there, and its theorem that no two outcomes satisfy its promise: of its own promise, and of no other's; with the answer,
and each buffer that is lent to be written, in the conclusion. What scanboot_c exports to C promises what the function of that name in scanboot does, word
for word, and so has its row and its theorem. Every name there is declared in a crate. What stands in a comment counts for nothing.
Every must-fail edit that docs/DECISIONS.md names is there."""
import pathlib
import re
import sys

sys.dont_write_bytecode = True
from counted import end, tell
from source import LIBRARY, code, exported, files

ROOT = pathlib.Path(__file__).resolve().parent.parent
PROMISES = (ROOT / 'docs/PROMISES.md').read_text()
DECISIONS = (ROOT / 'docs/DECISIONS.md').read_text()
THEOREMS = code(ROOT / 'crates/demands/proofs/OneOutcome.antt')
# the crate whose functions C calls, by way of the one that exports them
CALLED = 'scanboot'
# names in docs/PROMISES.md that no crate declares: Rattle's words, and the kit's
WORDS = {'requires', 'ensures', 'max', 'min', 'replicate'}
# answers that hold what was read, and what is seen of it
SEEN = {"Result<Coff<'a>, Refusal>": 'file_seen', "Result<Image<'a>, Refusal>": 'image_seen'}


def public_modules(source, folder, path=''):
    """Each module that others can name: its path before a name, and its file. The modules of a file stand in the folder of its name."""
    yield path, source
    for module in re.findall(r'\bpub\s+mod\s+(\w+)', code(source)):
        yield from public_modules(folder / f'{module}.rt', folder / module, f'{path}{module}.')


def closed(text, at):
    """The place behind the bracket that closes the one at the given place."""
    depth = 0
    for place in range(at, len(text)):
        depth += (text[place] in '([{') - (text[place] in ')]}')
        if not depth:
            return place + 1
    raise ValueError('an open bracket')


def blocks(text):
    """Each `impl` of a file and each public trait: its header's words, and where its text begins and ends."""
    for found in re.finditer(r'^(?:impl\b|pub trait\b)[^{]*', text, re.M):
        yield found[0], found.end(), closed(text, found.end())


def public_functions():
    """Each public function of the libraries below what C calls: its crate, its path in there, its parameters, and its answer. A method stands below its
    type, and that of a public trait below each type that has it, under both names; a trait's own text comes first."""
    for lib in sorted(set(ROOT.glob('crates/*/src/lib.rt')) - {LIBRARY}):
        crate = lib.parent.parent.name
        # the prover has a method where its type is declared
        homes = {type: module for module, source in public_modules(lib, lib.parent) for type in re.findall(r'\bpub (?:struct|enum) (\w+)', code(source))}
        for module, source in public_modules(lib, lib.parent):
            text = code(source)
            owned, traits = [], {}
            for header, begin, behind in blocks(text):
                owned.append((begin, behind))
                if header.startswith('pub trait'):
                    traits[re.match(r'pub trait (\w+)', header)[1]] = text[begin:behind]
                    continue
                trait, type = re.match(r'impl(?:<[^>]*>)?\s+(?:([\w<>]+)\s+for\s+)?(\w+)', header).groups()
                if trait is None:
                    yield from ((crate, f'{homes.get(type, module)}{type}.{name}', within, answer) for name, within, answer in functions(text[begin:behind], r'\bpub\s+'))
                elif trait in traits:
                    yield from ((crate, f'{module}{type}{trait}.{name}', within, answer) for name, within, answer in functions(traits[trait], ''))
            alone = ''.join(c for place, c in enumerate(text) if not any(begin <= place < behind for begin, behind in owned))
            yield from ((crate, module + name, within, answer) for name, within, answer in functions(alone, r'\bpub\s+'))


def functions(text, before):
    """The functions of a text, with what stands before `fn`: each one's name, its parameters, and its answer."""
    for name, within, answer in re.findall(before + r'(?:extern\s+""\s+)?\bfn\s+(\w+)(?:<[^>]*>)?\(([^)]*)\)(?:\s*->\s*([^{;]*?))?\s*(?=\{|;|\brequires\b|\bensures\b)', text):
        yield name, [' '.join(p.split()) for p in within.split(',') if p.strip()], answer


def promises(path):
    """What each public function of a file promises, by its name: its parameters, its answer, and its clauses."""
    text, found = code(path), {}
    for name in re.finditer(r'\bpub\s+(?:extern\s+""\s+)?fn\s+(\w+)', text):
        begin = text.index('(', name.end())
        end = closed(text, begin)
        said = ', '.join(p.strip() for p in text[begin + 1:end - 1].split(',') if p.strip())
        while clause := re.compile(r'\s*(?:->\s*\w+|(?:requires|ensures)\s*\w*\s*(?=\{))').match(text, end):
            end = closed(text, clause.end()) if text[clause.end()] == '{' else clause.end()
            said += ' ' + text[clause.start():end]
        found[name[1]] = ' '.join(said.split())
    return found


def brought_in(path):
    """Where each name that a file's promises use comes from."""
    return {name.split()[-1]: (module, name.split()[0]) for module, within in re.findall(r'\bghost\s+use\s+([^\s{]+)\.\{([^}]*)\}', code(path))
            for name in within.split(',') if name.strip()}


def given():
    """The names that stand for something in OneOutcome.antt, each as often as it is given: by a `use` line, a module, or a declaration."""
    for path, within, new in re.findall(r'\buse\s+([^\s{]+)\s*(?:\{([^}]*)\}|\bas\s+(\S+))?', THEOREMS):
        yield from [word.split()[-1] for word in within.split(',') if word.strip()] if within else [new or path.split('.')[-1]]
    yield from re.findall(r'\b(?:module|record|data)\s+(\S+)', THEOREMS)
    yield from re.findall(r'^ *(?:abbrev |unfoldable )?(?:pub )?(\S+) :', THEOREMS, re.M)


def in_common(parameters, answer):
    """What two outcomes of a call must have in common: the answer, and each buffer that is lent to be written, by its place among the parameters. Of an
    answer that is lent from what the call was given, what is seen through it: a part of these bytes, or a file or an image that was read."""
    equations = []
    if answer in SEEN:
        equations.append(f"told_by {SEEN[answer]} r ≡ told_by {SEEN[answer]} r'")
    elif answer.startswith('&'):
        equations.append("r.now ≡ r'.now")
    elif answer:
        equations.append("r ≡ r'")
    for number, parameter in enumerate(parameters):
        if re.match(r"(?:\w+: )?&('\w+ )?mut\b", parameter):
            place = '.1' * number + '.0.now'
            equations.append(f"s{place} ≡ s'{place}")
    return equations[0] if len(equations) == 1 else ' × '.join(f'({e})' for e in equations)


def lacks(crate, path, parameters, answer):
    """Why there is no theorem that the function has one outcome, or nothing where there is one."""
    # the prover makes the module `Reads` of the function's contract; a file of that name would stand in its place
    if (ROOT / 'crates' / crate / 'proofs' / path.replace('.', '/') / 'Reads.antt').exists():
        return 'its promise is read from a file'
    cited = re.search(rf'^use Rattle\.{crate}\.proofs\.{re.escape(path)}\.Reads as (\S+)$', THEOREMS, re.M)
    if not cited:
        return 'its promise has no name there'
    name = cited[1]
    if GIVEN.count(name) != 1:
        return f'two things are called {name} there'
    # words of a name may be joined in either way
    found = re.search(rf'^pub ({"[-_]".join(map(re.escape, re.split("[-_]", name)))}[-_]one) :(.*?)^\1 ', THEOREMS, re.M | re.S)
    if not found:
        return f'there is no {name}_one'
    says = ' '.join(found[2].split())
    # what is generic is said of every number or type
    every = re.match(r'((?:\(\w+ : _\) )*)\(κs', says)[1]
    says = says[len(every):].replace(' '.join([f'{name}.Post', *re.findall(r'\((\w+)', every)]), f'{name}.Post')
    wanted = f"(κs : _) (a : _) (r r' : _) (s s' : _) → {name}.Post κs a r s → {name}.Post κs a r' s' → {in_common(parameters, answer)}"
    return '' if says == wanted else f'{name}_one says\n  {says}, which should be\n  {wanted}'


GIVEN = list(given())
equality = re.findall(r'^.*◌≡◌.*$', THEOREMS, re.M)
tell('what is equal in OneOutcome.antt is equal by the library',
     len(equality) == 1 and equality[0].startswith(('use mathlib.Core.Path.{', 'use Rattle.std.specs.Prelude.{')))
calls = {name for name, _, _ in exported()}
for crate, path, parameters, answer in public_functions():
    why = lacks(crate, path, parameters, answer)
    tell(f'{crate} {path} has one outcome', not why, why)
    row = path if crate == CALLED and path in calls else '::'.join([crate, *path.split('.')])
    tell(f'{row} has its row in docs/PROMISES.md', f'\n| `{row}` | ' in PROMISES)

# what C calls is those functions
for_c, below = promises(LIBRARY), promises(ROOT / 'crates' / CALLED / 'src/lib.rt')
tell('C calls what is public, and nothing else is', calls and calls == set(for_c) == set(below), ', '.join(sorted(set(for_c) ^ set(below))))
for name in sorted(for_c):
    tell(f'{name} promises C what it promises', for_c[name] == below.get(name), f'\n  {for_c[name]}, which should be\n  {below.get(name)}')
theirs = brought_in(ROOT / 'crates' / CALLED / 'src/lib.rt')
for name, source in sorted(brought_in(LIBRARY).items()):
    tell(f'{name} is the same for C', theirs.get(name) == source, f'{source} and {theirs.get(name)}')

for path in files('.rt'):
    tell(f'{path.relative_to(ROOT)} has no `pub use`', not re.search(r'\bpub\s+use\b', code(path)),
         'a function must have one path, by which it is looked up here')

laws = '\n'.join(code(p) for p in files('.antt'))
programs = '\n'.join(code(p) for p in files('.rt'))
# what is promised is public; of the small mistakes, private functions and locals are told as well
promised, heading, mistakes = PROMISES.partition('\n## Small mistakes that the prover let through\n')
tell('docs/PROMISES.md has its section on small mistakes', heading)
for text, private in (promised, ''), (mistakes, '|let|let mut'):
    for name in sorted(set(re.findall(r'`([A-Za-z][\w-]*)`', text)) - WORDS):
        public = '(pub )?' if private else 'pub (extern "" )?'
        declared = (re.search(rf'^ *(abbrev |unfoldable )?pub ((record|data) {name}(?= )|{name} :)', laws, re.M)
                    or re.search(rf'\b{public}(fn|struct|enum|mod{private}) {name}\b', programs))
        tell(f'docs/PROMISES.md: {name} is declared', declared)

for crate, edit in sorted(set(re.findall(r'`(\w+)/(\w+)`', DECISIONS))):
    tell(f'docs/DECISIONS.md: the edit {crate}/{edit} is there', (ROOT / f'crates/{crate}/must-fail/{edit}.edit').exists())

end()
