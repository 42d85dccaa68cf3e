# What the subjects beside it ask of a picture: picture.py SVG QUESTION WORDS.. [, QUESTION WORDS..]..
# Each function is one question; the first word names it, the exit status answers. It is told which was answered by no.
# Without words, of many pictures, since python takes longer to start than to answer: standard input has for each how many words follow, a name,
# and the words above, each with a 0 behind it. The last line is 'N passed, M failed'.
import os
import re
import sys
import xml.etree.ElementTree as tree

SPACE = '{http://www.w3.org/2000/svg}'
MOST_BOXES, MOST_WIDTH, MOST_HEIGHT, MOST_BYTES = 64, 2300, 3100, 250000


def number(words):
    return int(words.replace(',', ''))


class Box:
    """a block, or several drawn together, as its tool tip tells"""
    def __init__(self, group):
        tip, box = group.find(SPACE + 'title').text, group.find(SPACE + 'rect')
        several = re.match(r'([0-9,]+) (?:block|section)s', tip)
        elsewhere = re.search(r'([0-9,]+) run elsewhere', tip)
        self.count = number(several[1]) if several else 1
        self.hatched = any(r.get('class') == 'hatching' for r in group.iter(SPACE + 'rect'))
        self.hidden = number(elsewhere[1]) if elsewhere else 0
        self.size = number(re.search(r': ([0-9,]+) byte', tip)[1])
        self.load, self.end = re.search(r'loaded at ([0-9A-F]{8})\u2013([0-9A-F]{8})', tip).groups()
        self.x, self.y, self.width, self.height = (float(box.get(k)) for k in ('x', 'y', 'width', 'height'))

    def meets(self, other):
        return self.x < other.x + other.width - 0.2 and other.x < self.x + self.width - 0.2 and \
            self.y < other.y + other.height - 0.2 and other.y < self.y + self.height - 0.2


def picture(root, count, moved):
    """valid XML on a page of bounded size; as many blocks, all inside the page, in order and to scale; few of them each alone"""
    width, height = float(root.get('width')), float(root.get('height'))
    drawn = [Box(group) for group in root.iter(SPACE + 'g')]
    memory, run = [b for b in drawn if b.width == 128], [b for b in drawn if b.width != 128]
    texts = list(root.iter(SPACE + 'text'))
    left_out = sum(int(m[1]) for m in (re.fullmatch(r'\+(\d+) more', t.text or '') for t in texts) if m)
    ordered = sorted(memory, key=lambda b: (b.x, b.y))
    scales = [b.height / b.size for b in memory if b.height > 8]
    return width <= MOST_WIDTH and height <= MOST_HEIGHT and int(root.get('bytes')) < MOST_BYTES and \
        all(0 <= float(t.get('x')) <= width and 0 <= float(t.get('y')) <= height for t in texts) and \
        all(0 <= b.x and 0 <= b.y and b.x + b.width <= width and b.y + b.height <= height for b in drawn) and \
        sum(b.count for b in memory) == int(count) and len(memory) <= MOST_BOXES and \
        (int(count) > MOST_BOXES or len(memory) == int(count)) and \
        sum(b.count for b in run) + left_out + sum(b.hidden for b in memory) == int(moved) and \
        all(b.hatched == (b.count > 1) for b in drawn) and \
        not any(a.meets(b) for n, a in enumerate(run) for b in run[:n]) and \
        all(a.load <= a.end < b.load <= b.end for a, b in zip(ordered, ordered[1:])) and \
        (not scales or max(scales) / min(scales) < 1.01) and all(b.height >= 3.99 for b in memory)


def tells(root, *words):
    """each of these is the beginning of a tool tip"""
    tips = [group.find(SPACE + 'title').text for group in root.iter(SPACE + 'g')]
    return all(any(tip.startswith(word) for tip in tips) for word in words)


def explained(root):
    """the legend has each sign that is drawn, as it is drawn, and no other"""
    signs = {'drawn': set(), 'legend': set()}
    for element in root.iter():
        kind, place = element.get('class'), re.match(r'M([0-9.]+) [0-9.]+', element.get('d', ''))
        where = 'legend' if kind == 'sample' or float(place[1] if place else element.get('x', 100)) < 60 else 'drawn'
        if kind in ('block', 'sample', 'more') or (kind == 'gap' and element.get('fill') != '#fff'):
            signs[where].add(element.get('fill'))
        elif kind == 'mark':
            signs[where].add((kind, element.get('fill'), element.get('d')[place.end():]))
        elif kind in ('tear', 'hatching'):
            signs[where].add(kind)
    return signs['drawn'] == signs['legend']


def shows(root, *words):
    """each of these is a whole text in the picture; behind '-' each is none"""
    there, wanted = [t.text for t in root.iter(SPACE + 'text')], True
    for word in words:
        if word == '-':
            wanted = False
        elif (word in there) != wanted:
            return False
    return True


def notes(root, words):
    """one text in the picture begins with these words, and it is no wider than the page"""
    found = [t for t in root.iter(SPACE + 'text') if (t.text or '').startswith(words)]
    return len(found) == 1 and float(found[0].get('x')) + 6.2 * len(found[0].text) <= float(root.get('width'))


def entered(root, mark):
    """the entry point is marked in this colour, once beside the memory and once in the legend, or nowhere"""
    colours = {'black': ['#111'] * 2, 'red': ['#c2201a'] * 2, 'nowhere': []}
    words = [t.get('class').split() for t in root.iter(SPACE + 'text') if t.text == 'entry']
    return [p.get('fill') for p in root.iter(SPACE + 'path') if p.get('class') == 'mark'] == colours[mark] and \
        len(words) == (mark != 'nowhere') and all(('lost' in word) == (mark == 'red') for word in words)


def leaders_seen(root):
    """no block is drawn over a leader, and every leader on the right ends at a block, or where some are left out"""
    over, ends = [], []
    for element in root.iter():
        kind = element.get('class')
        if kind in ('block', 'more'):
            x, y, w, h = (float(element.get(k)) for k in ('x', 'y', 'width', 'height'))
            if any(x + 0.2 < px < x + w - 0.2 and y + 0.2 < py < y + h - 0.2 for px, py in over):
                return False
            ends.append((x, y, w, h))
        elif kind == 'leader':
            points = []
            for letter, numbers in re.findall(r'([MLHV])([^MLHV]+)', element.get('d')):
                n = [float(v) for v in numbers.split()]
                points.append((n[0], points[-1][1]) if letter == 'H' else (points[-1][0], n[0]) if letter == 'V' else (n[0], n[1]))
            for (ax, ay), (bx, by) in zip(points, points[1:]):
                over += [(ax + (bx - ax) * i / 40, ay + (by - ay) * i / 40) for i in range(41)]
            px, py = points[-1]
            if not any(x - 0.2 <= px <= x + w + 0.2 and y - 0.2 <= py <= y + h + 0.2 for x, y, w, h in ends) and points[0][0] > px:
                return False
    return True


def titled(root, name):
    """the title is this name"""
    return root.find(SPACE + 'title').text == 'Memory map of ' + name and \
        [t.text for t in root.iter(SPACE + 'text') if t.get('class') == 'title'] == [name]


def title_fits(root, advance):
    """the title, of a letter that is so many pixels wide in DejaVu Sans Bold, is cut and fits, and most of the room is used"""
    title = next(t.text for t in root.iter(SPACE + 'text') if t.get('class') == 'title')
    room, takes = float(root.get('width')) - 2 * 28, (len(title) - 3) * float(advance) + 3 * 7.6
    return title.endswith('...') and 0.6 * room < takes <= room


def noes(file, *words):
    """the questions that are answered by no"""
    try:
        page = tree.parse(file).getroot()
    except (OSError, tree.ParseError) as why:
        return [[str(why)]]
    page.set('bytes', str(os.path.getsize(file)))
    questions = [[]]
    for word in words:
        if word == ',':
            questions.append([])
        else:
            questions[-1].append(word)
    return [asked for asked in questions if not globals()[asked[0]](page, *asked[1:])]


def of_many(words):
    """the noes, under the picture's name, and how many pictures had none and some"""
    passed = failed = 0
    while words:
        count, name, *asked = words[:int(words[0]) + 1]
        words = words[int(count) + 1:]
        wrong = noes(*asked)
        passed, failed = passed + (not wrong), failed + bool(wrong)
        if wrong:
            print('failed:', name, *(f'\n    no: {" ".join(no)}' for no in wrong))
    print(f'{passed} passed, {failed} failed')
    return failed


sys.stdout.reconfigure(errors='replace')
if len(sys.argv) > 1:
    wrong = noes(*sys.argv[1:])
    for asked in wrong:
        print('    no:', *asked)
else:
    wrong = of_many([os.fsdecode(word) for word in sys.stdin.buffer.read().split(b'\0')[:-1]])
sys.exit(1 if wrong else 0)
