#!/usr/bin/env python3
"""Counts anew the instructions that docs/SPEED.md gives of this library, and says where they are others, or
writes the page's tables; see README.md."""
import argparse
import concurrent.futures
import itertools
import os
import shutil
import sys

import lists
import picture
import shapes
import speed

# How far a count may be from what the page says, as the C library differs in how it copies.
NEAR = 0.03

# The page's lists, by the script's names for them.
LISTS = {
    'Vec<bool>': 'bool',
    'Vec<Option<u8>>, half null': 'Option<u8>, half null',
    'Vec<i64>, of five bytes': 'i64, five bytes',
    'Vec<u32>, of five bytes': 'u32, five bytes',
    'Vec<u32>, below 24': 'u32, below 24',
    'Vec<char>, ASCII': 'char, ASCII',
    'Vec<&str>, of 8 bytes': '&str, 8 bytes',
    'Vec<String>, of 8 bytes': 'String, 8 bytes',
    'Vec<f64>, of 64 bits': 'f64',
    'Vec<(u32, bool, String)>': '(u32, bool, String)',
    'struct of two u32, by names': 'struct of two u32, by names',
    'the same, by numbers': 'struct of two u32, by numbers',
    'enum of four variants, by names': 'enum of four variants, by names',
    'the same enum, by numbers': 'enum of four variants, by numbers',
}


# What is done with the lists of the second table, and with those of the third.
TASKS = [lists.SLICES, lists.SAID]


def said():
    """The page's tables, each as its rows' names and what they say of this library."""
    with open(picture.TABLES, encoding='utf-8') as page:
        lines = page.read().split('\n')
    for heading, _, columns in picture.DRAWN:
        yield [(cells[0], [float(cells[at - 1]) for at in columns.values()]) for cells in picture.table(lines, heading)]


def shape_counted(shape):
    """What a row of the first table takes, in millions; of records two rows, as a value and as a type."""
    item = shapes.SHAPES[shape]()
    requests = [speed.Request(task, item) for task in range(4 if shape == shapes.RECORDS else 2)]
    counts = [speed.millions([speed.OURS], request)[0] for request in requests]
    return [counts[i:i + 2] for i in range(0, len(counts), 2)]


def list_counted(name, tasks):
    """What an item of a list takes."""
    kind, make = lists.LISTS[LISTS[name]]
    item = lists.array(make() for _ in range(lists.COUNT))
    return [lists.each(lists.OURS, task, kind, item) for task in tasks.values()]


def counted(shape_rows, list_rows):
    """The rows of the page's tables, and what these give for each."""
    first, *of_lists = said()
    with concurrent.futures.ThreadPoolExecutor(os.cpu_count()) as pool:
        of_shapes = pool.map(shape_rows, shapes.SHAPES)
        cells = [pool.submit(list_rows, name, tasks) for rows, tasks in zip(of_lists, TASKS) for name, _ in rows]
        named = itertools.chain(first, *of_lists)
        return [*named], [*itertools.chain.from_iterable(of_shapes), *(row.result() for row in cells)]


def shape_cells(shape):
    """The rows' cells: what it takes, and how many times as much the peers take."""
    item = shapes.SHAPES[shape]()
    peers = [((0, 1), (speed.CRATE, speed.LIBCBOR)), ((2, 3), (speed.CRATE,))]
    rows = [speed.row('', *it, item, speed.millions) for it in peers[: 2 if shape == shapes.RECORDS else 1]]
    return [row.split('|')[2:-1] for row in rows]


def list_cells(name, tasks):
    kind, make = lists.LISTS[LISTS[name]]
    item = lists.array(make() for _ in range(lists.COUNT))
    cells = []
    for task in tasks.values():
        ours, theirs = (lists.each(program, task, kind, item) for program in (lists.OURS, lists.CRATE))
        cells += [f' {ours:.1f} ', f' {theirs / ours:.2f} ']
    return cells


def write():
    """Writes the page's tables anew, beside the peers, and draws them."""
    with open(picture.TABLES, encoding='utf-8') as page:
        lines = page.read().split('\n')
    _, cells = counted(shape_cells, list_cells)
    rows = iter(cells)
    for heading, *_ in picture.DRAWN:
        at = lines.index(next(line for line in lines if line.startswith(heading))) + 2
        while lines[at].startswith('|'):
            lines[at] = '|'.join(['', lines[at].split('|')[1], *next(rows), ''])
            at += 1
    with open(picture.TABLES, 'w', encoding='utf-8') as page:
        page.write('\n'.join(lines))
    picture.draw()


def compare():
    named, counts = counted(shape_counted, list_counted)
    others = [
        f'said: {name}: {said:.2f} on the page, {count:.2f} counted'
        for (name, says), counts in zip(named, counts, strict=True)
        for said, count in zip(says, counts)
        if abs(count - said) > NEAR * said + 0.05
    ]
    print('\n'.join(others) or f'said: {sum(map(len, counts))} counts, as docs/SPEED.md says')
    return 1 if others else 0


def main():
    parser = argparse.ArgumentParser(description=__doc__)
    parser.add_argument('--write', action='store_true', help='count beside the peers, write the tables, draw them')
    chosen = parser.parse_args()
    if chosen.write:
        write()
        return 0
    if shutil.which('valgrind') is None:
        print('said: not compared, for valgrind is not here')
        return 0
    return compare()


if __name__ == '__main__':
    sys.exit(main())
