# What the subjects beside it ask of the program's outputs. Each function is one question; the first word names it, the exit status answers.
import json
import os
import re
import sys
from struct import unpack, unpack_from

sys.dont_write_bytecode = True
from orders import in_order


def read(name):
    with open(name, 'rb') as f:
        return f.read()


def blocks_of(data):
    at, found = 4, []
    while unpack_from('<I', data, at)[0] != 0:
        size, load, run = unpack_from('<III', data, at)
        found.append((load, run, size, at + 12))
        at += 12 + (size + 3) // 4 * 4
    return unpack_from('<I', data)[0], found


def name_in(data, n):
    """the name of a section, all of it; None where it cannot be read"""
    symbols, number, optional = (unpack_from(f, data, at)[0] for f, at in (('<I', 8), ('<I', 12), ('<H', 16)))
    at, table = 22 + optional + 48 * n, symbols + 18 * number
    first, second = unpack_from('<II', data, at)
    if first != 0 or second == 0:
        return data[at:at + 8].split(b'\0')[0]
    strings = data[table:table + unpack_from('<I', data, table)[0]] if table + 4 <= len(data) else b''
    return strings[second:].split(b'\0')[0] if second >= 4 and b'\0' in strings[second:] else None


def takes(pattern, name):
    """whether a pattern takes all of a name, by Python's regular expressions"""
    parts = {b'?': b'.', b'*': b'.*'}
    return re.fullmatch(b''.join(parts.get(c, re.escape(c)) for c in (bytes([b]) for b in os.fsencode(pattern))), name, re.DOTALL)


def by(patterns, name):
    """the first pattern that takes it, or None"""
    return next((p for p in patterns if takes(p, name)), None)


def kept_in(data, *patterns):
    """the kept sections, by the papers' own words, but for those that a pattern takes"""
    count, optional = unpack_from('<H', data, 2)[0], unpack_from('<H', data, 16)[0]
    for n in range(count):
        run, load, size, raw = unpack_from('<IIII', data, 22 + optional + 48 * n + 8)
        flags = unpack_from('<I', data, 22 + optional + 48 * n + 40)[0]
        typed, plain = size and not flags & 0x13 and flags & 0x8060, not flags & 0x80FF and size and raw
        if (typed or plain) and not (patterns and by(patterns, name_in(data, n))):
            yield n, load, run, size, raw


def shown(name):
    """a name in JSON: its first 255 bytes; what is no character is replaced"""
    return None if name is None else name[:255].decode(errors='replace')


def figures(data, section, *more):
    """the object of a section in JSON"""
    n, load, run, size = section[:4]
    return dict(zip(('section', 'name', 'load', 'run', 'size'), (n, shown(name_in(data, n)), load, run, size)), **dict(*more))


def placed(data, blocks):
    """address: (byte, run address)"""
    return {load + i: (data[at + i], run + i) for load, run, size, at in blocks for i in range(size)}


def apart(file, image):
    """the addresses that differ, by the letter: another byte or run address, or nothing on one side"""
    data, other = read(file), read(image)
    here = placed(data, [(load, run, size, raw) for _, load, run, size, raw in kept_in(data)])
    there = placed(other, blocks_of(other)[1])
    return [a for a in sorted(here.keys() | there.keys()) if here.get(a) != there.get(a)]


def all_differ(name, file, image):
    """the lines name exactly the addresses that differ, each once and by ascending address"""
    ranges = re.findall(r'^([0-9A-F]{8})-([0-9A-F]{8}) size (\d+): ', read(name).decode(), re.MULTILINE)
    told = [a for first, last, _ in ranges for a in range(int(first, 16), int(last, 16) + 1)]
    return len(ranges) > 4000 and told == apart(file, image) and all(int(b, 16) - int(a, 16) + 1 == int(n) for a, b, n in ranges)


def all_differ_json(name, file, image):
    """so does the JSON"""
    told = [a for d in json.loads(read(name))['differences'][1:] for a in range(d['first'], d['last'] + 1)]
    return told == apart(file, image)


def same_json(name, expected):
    """the output is this JSON"""
    return json.loads(read(name)) == json.loads(expected)


def refused_file(name, file):
    """the refusal names this file"""
    return json.loads(read(name))['refused']['file'] == file


def explained(name, header):
    """each code of the header, by its number, with its name and its text, and three parts that say something"""
    text, there = read(header).decode(), re.split(r'\n\n', read(name).decode().rstrip())
    codes = sorted(re.findall(r'^    (SCANBOOT_[A-Z_]+) = (\d+)', text, re.MULTILINE), key=lambda code: int(code[1]))
    texts = dict(re.findall(r'case (SCANBOOT_[A-Z_]+): return "(.*)";', text))
    for (code, number), part in zip(codes, there):
        one = re.fullmatch(r'(.*)\n  (.*)\nThe rule\n(.*)\nWhat usually causes it\n(.*)\nWhat to do\n(.*)', part, re.DOTALL)
        if one is None or one[1] != f'{number} {code}' or re.sub(r'\s+', ' ', one[2]) != texts[code]:
            return False
        if number != '0' and any(len(one[n]) < 12 for n in (3, 4, 5)):
            return False
    return len(codes) == len(there) == len(texts)


def paragraph(name, code, alone):
    """what stands alone is the code's part of the whole"""
    return [p for p in read(name).decode().rstrip().split('\n\n') if p.startswith(code + ' ')] == [read(alone).decode().rstrip()]


def same_member(name, member, expected):
    """one member of the output is this JSON"""
    return json.loads(read(name))[member] == json.loads(expected)


def reasons_right(name):
    """of each line the JSON has the verdict and the reason, and its figures stand in the sentence, decimal or hexadecimal"""
    for line in read(name).decode().splitlines():
        file, code, index, sentence = line.split(' ', 3)
        said = json.loads(read(file + '.json'))
        verdict = said['as_image' if int(code) >= 20 else 'as_coff']
        shown = [int(n, 16) for n in re.findall(r'[0-9A-Fa-f]+', sentence)] + [int(n) for n in re.findall(r'\d+', sentence)]
        if (verdict['code'], verdict['index'], verdict['reason']) != (int(code), int(index), sentence) or \
                any(n not in shown + [said['length']] for n in verdict['figures'].values()):
            return False
    return True


def pattern_figures(data, *patterns):
    """of each pattern how many sections it takes, kept or not"""
    names = [name_in(data, n) for n in range(unpack_from('<H', data, 2)[0])] if patterns else []
    return [{'pattern': p, 'takes': sum(name is not None and bool(takes(p, name)) for name in names)} for p in patterns]


def sections_right(name, file, *patterns):
    """the JSON of a COFF file has every whole section header, its name, the pattern that takes it, and whether the section is kept"""
    said, data = json.loads(read(name)), read(file)
    count, optional = (unpack_from('<H', data, at)[0] for at in (2, 16))
    whole = min(count, (len(data) - 22 - optional) // 48)
    if len(said['sections']) != whole or said['header']['sections'] != count:
        return False
    kept = [k[0] for k in kept_in(data, *patterns)] if whole == count else []
    for n, told in enumerate(said['sections']):
        at = 22 + optional + 48 * n
        run, load, size, raw = unpack_from('<IIII', data, at + 8)
        flags, name = unpack_from('<I', data, at + 40)[0], name_in(data, n)
        if [told[m] for m in ('section', 'name', 'load', 'run', 'size', 'raw', 'flags', 'plain', 'kept')] != \
                [n, shown(name), load, run, size, raw, flags, not flags & 0x80FF, n in kept] or (told['why'] is None) != told['kept'] or \
                told['pattern'] != (by(patterns, name) if name is not None else None):
            return False
    return said.get('patterns', []) == pattern_figures(data, *patterns)


def inspected_blocks(name, image):
    """the JSON of an image has all its blocks"""
    said, data = json.loads(read(name)), read(image)
    entry, found = blocks_of(data)
    return said['entry'] == entry and said['as_image']['code'] == 0 and \
        said['blocks'] == [{'block': n, 'load': b[0], 'run': b[1], 'size': b[2], 'data': b[3]} for n, b in enumerate(found)]


def list_json(name, text, file, *patterns):
    """the JSON listing says what the plain one says, and what the patterns leave of the file"""
    said, lines, data = json.loads(read(name)), read(text).decode().splitlines(), read(file)
    again = [f'coff sections {said["sections"]} kept {len(said["kept"])} entry {said["entry"]:08X}']
    again += [f'{k["section"]} load {k["load"]:08X} run {k["run"]:08X} size {k["size"]}' for k in said['kept']]
    again += [f'image {said["image"]}']
    if patterns and not said['left_out']:
        again += ['left out: nothing']
    for out in said.get('left_out', []):
        named = ' ' + quoted(name_in(data, out['section'])[:255]) if out['name'] else ''
        again += [f'left out: section {out["section"]}{named}, {out["size"]} byte{"s"[out["size"] == 1:]}, '
                  f'by {quoted(os.fsencode(by(patterns, name_in(data, out["section"]))))}']
    return again == lines and said['kept'] == [figures(data, k) for k in kept_in(data, *patterns)] and left_out(name, file, *patterns)


def quoted(name):
    """in quotes: what does not print, is no character, or is a quote or a backslash, as hexadecimal numbers of its bytes"""
    def shown(c):
        return c if c.isprintable() and c not in '\'\\' else ''.join(f'\\x{b:02X}' for b in c.encode(errors='surrogateescape'))
    return "'" + ''.join(map(shown, name.decode(errors='surrogateescape'))) + "'"


def quoted_names(name, file):
    """each kept section of the file is left out by '*', its name in quotes if it has letters"""
    data = read(file)
    names = [(k[0], name_in(data, k[0])[:255], k[3]) for k in kept_in(data)]
    lines = [f'left out: section {n}{" " + quoted(name) if name else ""}, {size} byte{"s"[size == 1:]}, by \'*\'' for n, name, size in names]
    return [line for line in read(name).decode().split('\n') if line.startswith('left out: ')] == lines


def plain_text(name):
    """lines of characters, and none that a terminal obeys"""
    return all(c.isprintable() or c == '\n' for c in read(name).decode())


def left_out(name, file, *patterns):
    """the JSON has the patterns and what they leave out, or nothing of either where there are none"""
    said, data = json.loads(read(name)), read(file)
    if not patterns:
        return 'patterns' not in said and 'left_out' not in said
    left = [k[0] for k in kept_in(data, *patterns)]
    out = [figures(data, k, {'pattern': by(patterns, name_in(data, k[0]))}) for k in kept_in(data) if k[0] not in left]
    return said['patterns'] == pattern_figures(data, *patterns) and said['left_out'] == out


def blocks_right(image, text, name):
    """both listings of an image say what is in it"""
    data, lines, said = read(image), read(text).decode().splitlines(), json.loads(read(name))
    entry, found = blocks_of(data)
    expected = [f'image blocks {len(found)} entry {entry:08X}']
    expected += [f'{n} load {b[0]:08X} run {b[1]:08X} size {b[2]}' for n, b in enumerate(found)]
    objects = [{'block': n, 'load': b[0], 'run': b[1], 'size': b[2]} for n, b in enumerate(found)]
    return lines == expected + [f'image {len(data)}'] and said == {'entry': entry, 'blocks': objects, 'image': len(data)}


def ordered_blocks(name, plain, order):
    """the JSON of an image that is the plain one in this byte order has the plain one's figures, and names the order"""
    said, (entry, found) = json.loads(read(name)), blocks_of(read(plain))
    told = [[block[m] for m in ('block', 'load', 'run', 'size')] for block in said['blocks']]
    return said['entry'] == entry and said['order'] == int(order) and told == [[n, *b[:3]] for n, b in enumerate(found)]


def loaded(memory, image, base, size, fill):
    """the memory is what the image's blocks make of it"""
    base, size = int(base, 0), int(size, 0)
    data, window = read(image), bytearray([int(fill, 0)]) * size
    for load, _, length, at in blocks_of(data)[1]:
        window[load - base:load - base + length] = data[at:at + length]
    return read(memory) == bytes(window)


def in_comment(name):
    return ''.join(chr(c) if 0x20 < c < 0x7F and c not in b'/\\' else f'\\x{c:02X}' for c in name[:255])


def section_in_comment(data, n):
    name = name_in(data, n)
    return f'section {n} ({in_comment(name)})' if name else f'section {n}'


def turned(image, plain, order):
    """the image is the plain one in this byte order"""
    return read(image) == in_order(read(plain), int(order))


REVERSED = {'1': 'entry point, sizes and addresses stand reversed in each four bytes', '2': "the blocks' bytes stand reversed in each four",
            '3': 'each four bytes of it stand reversed'}


def array(header, image, name, file, *patterns):
    """the C header holds the image"""
    return array_in('0', header, image, name, file, *patterns)


def array_in(order, header, image, name, file, *patterns):
    """the C header holds the image in this byte order, a comment before each block with its section's name and its figures, and one on the order
    and on what was left out"""
    text, data, source = read(header).decode('ascii'), read(image), read(file)
    body = text[text.index(f'static const unsigned char {name}[] = {{'):text.index('};')]
    held = bytes(int(b, 16) for b in re.findall(r'0x([0-9a-f]{2})', re.sub(r'/\*.*?\*/', '', body)))
    entry, found = blocks_of(data)
    left = [k[0] for k in kept_in(source, *patterns)]
    notes = [f'block {n}: {section_in_comment(source, left[n])}, size {b[2]}, load address {b[0]:08X}, run address {b[1]:08X}'
             for n, b in enumerate(found)]
    said = [n[3:-3] for n in re.findall(r'/\*.*?\*/', body)]
    out = [f' * left out: {section_in_comment(source, k[0])}, size {k[3]}, by \'{in_comment(os.fsencode(by(patterns, name_in(source, k[0]))))}\''
           for k in kept_in(source) if k[0] not in left]
    head = [' * Made with ' + ' '.join(f"--skip '{in_comment(os.fsencode(p))}'" for p in patterns)] + (out or [' * left out: nothing'])
    head = [f' * Byte order {order}: {REVERSED[order]}.' for _ in range(order != '0')] + head * bool(patterns)
    return held == in_order(data, int(order)) and said == [f'entry point {entry:08X}'] + notes + ['end flag'] and \
        text[:text.index(' */\n')].split('\n')[2:] == head and f'#define {name.upper()}_LENGTH {len(data)}ul\n' in text


def counted(image, file, *patterns):
    """the image holds exactly the kept sections of the file that no pattern takes"""
    data, out = read(file), read(image)
    found = [(load, run, size, out[at:at + size]) for load, run, size, at in blocks_of(out)[1]]
    return found == [(load, run, size, data[raw:raw + size]) for _, load, run, size, raw in kept_in(data, *patterns)]


sys.exit(0 if globals()[sys.argv[1]](*sys.argv[2:]) else 1)
