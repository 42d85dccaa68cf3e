#!/usr/bin/env python3
"""growth.py FILE: draws how cost grows with blocks, sections and bytes, on logarithmic axes. Instructions on Arm, nanoseconds on x86-64."""
import math
import pathlib
import sys

sys.dont_write_bytecode = True
import bench

CONVERT, LIST, READ, LOAD_COFF, CHECK, CONVERT_WITH = 0, 1, 2, 5, 6, 13
ASCENDING, SHUFFLED, EIGHT_ROWS = 0, 2, 5
MOST = 16777216
LEFT, TOP, WIDE, HIGH = 60, 50, 270, 260
APART, WHOLE = 350, 1050
# from one number under a panel to the next, at least
NUMBERS_APART = 40


def cost(call, length, sections, blocks, order, who='proved', byte_order=0):
    case = f'{call}:{length}:{sections}:{blocks}:{order}:{byte_order}'
    if bench.NATIVE:
        return bench.nanoseconds(case, who)
    calls = 1 if length > 200000 or blocks > 500 else 20
    count = bench.instructions
    return (count(case, who, calls) - count(case, who, 0)) / calls


def short(n):
    for size, name in ((10 ** 9, ' G'), (10 ** 6, ' M'), (10 ** 3, ' k')):
        if n >= size:
            return f'{n // size}{name}'
    return f'{n}'


def panel(x0, title, across, curves):
    xs = [x for _, points in curves for x, _ in points]
    ys = [y for _, points in curves for _, y in points]
    low, high = math.floor(math.log10(min(ys))), math.ceil(math.log10(max(ys)))
    first, last = math.log2(min(xs)), math.log2(max(xs))
    at_x = lambda v: x0 + LEFT + WIDE * (math.log2(v) - first) / (last - first)
    at_y = lambda v: TOP + HIGH * (1 - (math.log10(v) - low) / (high - low))
    # the curves' names stand in the upper left, and no point among them
    wide, tall = 7 * max(len(name) for name, _ in curves) + 8, 17 * len(curves) + 4
    while any(at_x(x) < x0 + LEFT + 6 + wide and at_y(y) < TOP + 4 + tall for _, points in curves for x, y in points):
        high += 1
    out = [f'<text x="{x0 + LEFT}" y="28" class="title">{title}</text>',
           f'<text x="{x0 + LEFT + WIDE}" y="{TOP + HIGH + 36}" class="end">{across}</text>']
    for power in range(low, high + 1):
        y = at_y(10 ** power)
        out.append(f'<path d="M{x0 + LEFT} {y:.1f}h{WIDE}" class="grid"/>')
        out.append(f'<text x="{x0 + LEFT - 8}" y="{y + 4:.1f}" class="end">{short(10 ** power)}</text>')
    free = x0
    for x in sorted(set(xs)):
        # the last point has its number, and no other number is too close to it
        if x == max(xs) or free <= at_x(x) <= at_x(max(xs)) - NUMBERS_APART:
            free = at_x(x) + NUMBERS_APART
            label = f'{x // 1048576} Mi' if x >= 1048576 else f'{x // 1024} Ki' if x >= 8192 else f'{x}'
            out.append(f'<text x="{at_x(x):.1f}" y="{TOP + HIGH + 18}" class="mid">{label}</text>')
    # on white, so that no line of the grid strikes them through
    out.append(f'<rect x="{x0 + LEFT + 6}" y="{TOP + 4}" width="{wide}" height="{tall}" fill="#fff"/>')
    for number, (name, points) in enumerate(curves):
        line = ' '.join(f'{at_x(x):.1f},{at_y(y):.1f}' for x, y in points)
        out.append(f'<polyline points="{line}" class="c{number}"/>')
        out += [f'<circle cx="{at_x(x):.1f}" cy="{at_y(y):.1f}" r="2.5" class="d{number}"/>' for x, y in points]
        out.append(f'<text x="{x0 + LEFT + 10}" y="{TOP + 18 + 17 * number}" class="t{number}">{name}</text>')
    return out


def main():
    counts = [1, 4, 16, 64, 256, 1000, 2000, 4096]
    lengths = [4096, 16384, 65536, 262144, 1048576, 4194304, MOST]
    # eight blocks and fewer ascend in eight rows too
    reading = [(f'{name}, {who}', [(n, cost(READ, max(65536, 64 * n), 1, n, order, made)) for n in counts if n >= fewest])
               for name, order, fewest, who, made in (('shuffled', SHUFFLED, 1, 'the library', 'proved'),
                                                      ('shuffled', SHUFFLED, 1, 'plain C', 'plain'),
                                                      ('ascending', ASCENDING, 1, 'the library', 'proved'),
                                                      ('ascending', ASCENDING, 1, 'plain C', 'plain'),
                                                      ('8 rows', EIGHT_ROWS, 16, 'the library', 'proved'))]
    bytes_ = [(name, [(n, cost(call, n, 1, blocks, 0, who, byte_order)) for n in lengths])
              for name, call, blocks, who, byte_order in (('convert, order 2', CONVERT_WITH, 0, 'proved', 2), ('check', CHECK, 1, 'proved', 0),
                                                          ('convert', CONVERT, 0, 'proved', 0),
                                                          ('memcpy of the same bytes', CONVERT, 0, 'bytes', 0))]
    # sixteen bytes to a section, so that what a section itself costs is seen
    sections = [(name, [(n, cost(call, 64 * n + 64, n, 0, 0, who)) for n in (1, 4, 16, 64, 256)])
                for name, call, who in (('list', LIST, 'proved'), ('convert', CONVERT, 'proved'),
                                        ('load the file', LOAD_COFF, 'proved'), ('convert, plain C', CONVERT, 'plain'))]
    unit = bench.UNIT
    panels = ((f'Reading an image: {unit}', 'blocks', reading), (f'Small sections: {unit}', 'sections', sections),
              (f'One section: {unit}', 'bytes', bytes_))
    body = [part for number, (title, across, curves) in enumerate(panels) for part in panel(APART * number, title, across, curves)]
    colours = ['#c0392b', '#e59866', '#1f618d', '#7fb3d5', '#1e8449']
    style = ''.join(f'.c{i}{{fill:none;stroke:{c};stroke-width:2}}.d{i}{{fill:{c}}}.t{i}{{fill:{c}}}' for i, c in enumerate(colours))
    svg = (f'<svg xmlns="http://www.w3.org/2000/svg" width="{WHOLE}" height="360" viewBox="0 0 {WHOLE} 360">'
           f'<style>text{{font:12px sans-serif;fill:#444}}.title{{font-size:14px;font-weight:bold;fill:#222}}'
           f'.end{{text-anchor:end}}.mid{{text-anchor:middle}}.grid{{stroke:#ddd}}{style}</style>'
           f'<rect width="{WHOLE}" height="360" fill="#fff"/>' + ''.join(body) + '</svg>\n')
    pathlib.Path(sys.argv[1]).write_text(svg)


main()
