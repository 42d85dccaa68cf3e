#!/usr/bin/env python3
"""Spells the repository's own definitions and lemmas as today's Rattle has them: words in snake case, types and modules in camel case.

usage: python3 tools/snake_names.py        at the top of the repository, once, after port.py

It goes through crates/: specs, proofs, clauses and must-fail edits. A name that is declared in specs/ or proofs/ is turned where it begins with a small
letter and has a capital inside; then where a dash joins words and not two functions, as in the name of a lemma that says what becomes of one under the
other. Names of functions, exported names and strings of the programs have neither and stay, and so do the names that Rattle makes of a function's goals.
A lemma that would get the name of a definition or of another lemma has `_lem` behind it. Last, the labels that port.py makes for clauses that had none
get words of the project.
"""

import os
import re

# lemmas that would get the name of a definition, when capitals go
TOLD_APART = {name: name + "_lem" for name in ("any_below", "block_here", "block_in", "in_order", "read_table", "stands_at", "too_long", "written_behind")}
# where port.py has turned the library's word, in names that are made of it
OLDER_WORDS = {"getD": "get_or"}

# a dash stays between two of these
FUNCTIONS = set("append drop get_or joined le16 le32 length little number numbered patch replicate set take turned undone".split())

# port.py's labels of clauses: what a call answers, the same in numbers, what it leaves in a buffer
LABELS = {
    "value": "answers",
    "result_value": "numbers",
    "out_after": "leaves",
    "text_after": "leaves",
    "window_after": "leaves",
    "firsts_after": "firsts",
    "lasts_after": "lasts",
    "known_le_number": "goes_on",
}

DECLARED = re.compile(r"(?m)^\s*(?:(?:unfoldable|abbrev|pub|record|data)\s+)*([a-z][^\s:(){}.,]*)\s*(?:\{[^}]*\}\s*|\([^)]*\)\s*)*:")
CAMEL = re.compile(r"(?<![\w'])[a-z][a-z0-9]*(?:[A-Z][a-z0-9]*)+(?![\w'])")
PLAIN = re.compile(r"(?<![\w'.-])[a-z]+(?:_[a-z]+)+(?![\w'-])")


def files(*endings):
    for folder, dirs, names in os.walk("crates"):
        dirs[:] = sorted(d for d in dirs if d != "out")
        for name in sorted(names):
            if name.endswith(endings):
                yield os.path.join(folder, name)


def text_of(path):
    with open(path, encoding="utf-8") as f:
        return f.read()


def put(path, text, turned):
    if turned != text:
        with open(path, "w", encoding="utf-8") as f:
            f.write(turned)


def snake(word):
    return re.sub(r"(?<=[a-z0-9])[A-Z]", lambda m: "_" + m.group().lower(), word)


def declared():
    found = set()
    for path in files(".antt"):
        for name in DECLARED.findall(text_of(path)):
            found.add(name)
    return found


def with_dashes():
    """The names with a dash that were given to lemmas and definitions, and those of fields; not those of goals, which are declared beside `goal.`"""
    given, fields, made = set(), set(), set()
    for path in files(".antt"):
        for line in text_of(path).splitlines():
            m = DECLARED.match(line)
            if m and "-" in m.group(1):
                kind = made if re.search(r": (goal|tie)\.", line) else fields if line.startswith("  pub ") else given
                kind.add(m.group(1))
    return given - made, fields


def undashed(name):
    parts = name.split("-")
    out = parts[0]
    for left, right in zip(parts, parts[1:]):
        out += ("-" if left in FUNCTIONS and right in FUNCTIONS else "_") + right
    return out


def turn_dashes():
    taken = declared()
    given, fields = with_dashes()
    new = {}
    for name in sorted(given | fields):
        other = undashed(name)
        if other != name:
            new[name] = other + "_lem" if other in taken else other
            taken.add(new[name])
    dashed = re.compile(r"(?<![\w'-])(?:([\w'-]*\)?)\.)?([a-z][\w']*(?:-[\w']+)+)(?![\w'-])")
    record = re.compile(r"(?<![\w'.-])([a-z][\w']*(?:-[\w']+)+)(?=\.[a-z])")
    for path in files(".antt", ".rt", ".edit"):
        text = text_of(path)
        modules = set(re.findall(r"(?m)^use .* as (\S+)$", text))

        # behind a point stands a field, or what is declared in a module that has a name in this file
        def turn(m):
            behind, name = m.groups()
            if behind is None or behind in modules or name in fields:
                name = new.get(name, name)
            return name if behind is None else f"{new.get(behind, behind)}.{name}"

        put(path, text, record.sub(lambda m: new.get(m.group(), m.group()), dashed.sub(turn, text)))
    for name in sorted(new):
        print(f"{name} {new[name]}")


def turn_labels():
    word = "|".join(LABELS)
    for path in files(".rt", "Answers.antt"):
        text = text_of(path)
        if path.endswith(".rt"):
            turned = re.sub(rf"\bensures ({word}) {{", lambda m: f"ensures {LABELS[m.group(1)]} {{", text)
        else:
            turned = re.sub(rf"(?<=\.)({word})\b(?=[^\w'-])|(?<![\w.'-])({word})(?= =)|(?<=-clause-)({word})\b", lambda m: LABELS[m.group()], text)
        put(path, text, turned)


def main():
    turn_capitals()
    turn_dashes()
    turn_labels()


def turn_capitals():
    names = declared()
    own = {part for name in names for part in CAMEL.findall(name)}
    new = {word: OLDER_WORDS.get(word, snake(word)) for word in own}
    together = set(new.values()) & names
    if together - set(TOLD_APART):
        raise SystemExit(f"these names would fall together with others: {together - set(TOLD_APART)}")
    apart = {name: TOLD_APART[name] for name in together}
    after = names | set(new.values())
    for path in files(".antt", ".rt", ".edit"):
        text = text_of(path)
        turned = text
        if path.endswith(".antt"):
            turned = PLAIN.sub(lambda m: apart.get(m.group(), m.group()), turned)
        turned = CAMEL.sub(lambda m: new.get(m.group(), m.group()), turned)
        if path.endswith(".edit"):
            # port.py turns no edit, so those have the older form of what it turned elsewhere too
            turned = CAMEL.sub(lambda m: snake(m.group()) if snake(m.group()) in after else m.group(), turned)
        put(path, text, turned)
    for word in sorted(new):
        print(f"{word} {new[word]}")


if __name__ == "__main__":
    main()
