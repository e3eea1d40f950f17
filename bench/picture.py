#!/usr/bin/env python3
"""Draws the tables of instructions in docs/SPEED.md as docs/speed.svg; see README.md."""
import argparse
import itertools
import math
import os
import sys
from xml.sax.saxutils import escape

HERE = os.path.dirname(os.path.abspath(__file__))
TABLES = os.path.join(HERE, '..', 'docs', 'SPEED.md')
PICTURE = os.path.join(HERE, '..', 'docs', 'speed.svg')

# The headings of the tables, what is put behind the names of their rows, and the columns in which the
# Rust crate's ratio stands, by the kind of bar that shows it.
DRAWN = [
    ('| shape | read | Rust crate | libcbor | read and written |', '', {'read': 2, 'both': 5}),
    ('| list | read |', '', {'read': 2, 'both': 4}),
    ('| list | by a `BufReader` |', ', by readers', {'read': 2, 'sevens': 4, 'both': 6}),
]
KINDS = {'read': 'to read', 'sevens': 'seven bytes a call', 'both': 'to read and write'}

LEAST, MOST = 0.5, 16
BAR, LABEL, SCALE, WIDTH = 10, 250, 110, 860
TOP = 64

STYLE = '''
svg { background: #fff; font: 13px system-ui, sans-serif; fill: #1f2328 }
.read { fill: #0969da } .sevens { fill: #8250df } .both { fill: #9a6700 } line { stroke: #d0d7de } .one { stroke: #1f2328 }
@media (prefers-color-scheme: dark) {
  svg { background: #0d1117; fill: #e6edf3 }
  .read { fill: #58a6ff } .sevens { fill: #bc8cff } .both { fill: #d29922 } line { stroke: #30363d } .one { stroke: #e6edf3 }
}
'''


def table(lines, heading):
    """The cells of each row of the table with this heading."""
    begin = next(i for i, line in enumerate(lines) if line.startswith(heading))
    for line in itertools.takewhile(lambda line: line.startswith('|'), lines[begin + 2:]):
        yield [cell.strip().replace('`', '') for cell in line.strip('|').split('|')]


def rows(lines):
    """The name of each shape, and its ratios, table by table."""
    for heading, behind, columns in DRAWN:
        for cells in table(lines, heading):
            yield cells[0] + behind, {kind: float(cells[at]) for kind, at in columns.items()}


def across(ratio):
    return LABEL + SCALE * math.log2(ratio / LEAST)


def bar(kind, ratio, top):
    start, end = sorted((across(1), across(ratio)))
    return (f'<rect class="{kind}" x="{start:.1f}" y="{top}" width="{max(end - start, 1):.1f}" height="8"/>'
            f'<text x="{max(end, across(1)) + 4:.1f}" y="{top + 8}" font-size="9">{ratio:.2f}</text>')


def legend():
    x = 12
    for kind, name in KINDS.items():
        yield f'<rect class="{kind}" x="{x}" y="32" width="8" height="8"/><text x="{x + 14}" y="40">{name}</text>'
        x += 40 + 7 * len(name)


def picture(shapes):
    height = TOP + sum(BAR * len(ratios) + 4 for _, ratios in shapes) + 8
    parts = [f'<svg xmlns="http://www.w3.org/2000/svg" viewBox="0 0 {WIDTH} {height}" role="img">',
             f'<style>{STYLE}</style>',
             '<title>How many times as many instructions the Rust crate takes</title>',
             '<text x="12" y="20">How many times as many instructions the Rust crate takes</text>',
             *legend()]
    for power in range(int(math.log2(LEAST)), int(math.log2(MOST)) + 1):
        x = across(2 ** power)
        kind = ' class="one"' if power == 0 else ''
        parts.append(f'<line{kind} x1="{x:.1f}" y1="{TOP - 8}" x2="{x:.1f}" y2="{height - 8}"/>'
                     f'<text x="{x:.1f}" y="{TOP - 12}" text-anchor="middle" font-size="10">{2 ** power:g}</text>')
    top = TOP
    for name, ratios in shapes:
        parts.append(f'<text x="{LABEL + SCALE - 118}" y="{top + 13}" text-anchor="end">{escape(name)}</text>')
        for kind, ratio in ratios.items():
            parts.append(bar(kind, ratio, top))
            top += BAR
        top += 4
    return '\n'.join(parts + ['</svg>']) + '\n'


def of_the_tables():
    with open(TABLES, encoding='utf-8') as tables:
        return picture(list(rows(tables.read().split('\n'))))


def draw():
    with open(PICTURE, 'w', encoding='utf-8') as stored:
        stored.write(of_the_tables())


def main():
    parser = argparse.ArgumentParser(description=__doc__)
    parser.add_argument('--check', action='store_true', help='say whether the picture is that of the tables')
    if not parser.parse_args().check:
        draw()
        return 0
    with open(PICTURE, encoding='utf-8') as stored:
        same = stored.read() == of_the_tables()
    if not same:
        print('docs/speed.svg is not that of docs/SPEED.md: run bench/picture.py')
    return 0 if same else 1


if __name__ == '__main__':
    sys.exit(main())
