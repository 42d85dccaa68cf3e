"""One width for the documents: width.py FILE.. fills the lines of their paragraphs and lists anew, and tests/docs.py sees that it was done.
Headings, tables, quotations, blocks of code and lines that are a commit's number stay as they are."""
import pathlib
import re
import sys

WIDTH = 155
ITEM = re.compile(r'( *)([-*]|\d+\.) ')
# a word that would begin a list, a heading, a quotation, a table or a block of code if a line began with it
MARK = re.compile(r'([-+*=]|#+|\d+[.)])$|>|\||```')


def units(text):
    """The words, each with those behind it that no line may begin with."""
    found = []
    for word in text.split():
        if found and MARK.match(word):
            found[-1] += ' ' + word
        else:
            found.append(word)
    return found


def filled(first, rest, text):
    """The text in lines of the width, the first behind `first` and the others behind `rest`."""
    lines, line = [], first
    for number, unit in enumerate(units(text)):
        if number and len(line) + len(unit) >= WIDTH:
            lines.append(line)
            line = rest + unit
        else:
            line += ' ' * (number > 0) + unit
    return lines + [line]


def wrapped(text):
    """The document with its paragraphs and the items of its lists filled."""
    out, paragraph, fenced = [], None, False
    for line in text.split('\n') + ['']:
        fence, item = line.lstrip().startswith('```'), ITEM.match(line)
        runs_on = paragraph and line.strip() and line.startswith(paragraph[1]) and not line[len(paragraph[1]):].startswith('    ')
        kept = fenced or fence or not line.strip() or re.match(r' *(#+ |\||>)|[0-9a-f]{40}$', line) or line.startswith('    ') and not runs_on
        if paragraph and (kept or item or not runs_on):
            out += filled(*paragraph)
            paragraph = None
        if kept:
            out.append(line)
        elif paragraph:
            paragraph[2] += ' ' + line.strip()
        else:
            indent = item[0] if item else re.match(' *', line)[0]
            paragraph = [indent, ' ' * len(indent), line[len(indent):]]
        fenced ^= fence
    return '\n'.join(out[:-1])


def main():
    for path in map(pathlib.Path, sys.argv[1:]):
        path.write_text(wrapped(path.read_text()))


if __name__ == '__main__':
    main()
