#!/usr/bin/env python3
"""Counts the instructions that an item of a list of small things takes, or its CPU time; see README.md."""
import argparse
import os
import random
import re
import struct
import subprocess
import tempfile

import speed
from items import NEGATIVE, UNSIGNED, array, head, text

HERE = os.path.dirname(os.path.abspath(__file__))
OURS = os.path.join(HERE, '..', 'crates', 'lists_bench', 'out', 'lists_bench')
CRATE = os.path.join(HERE, 'out', 'lists')
GO = os.path.join(HERE, 'out', 'fxamacker')
COUNT = 20_000
rng = random.Random(8949)


def word(length):
    return text(''.join(rng.choice('abcdefgh') for _ in range(length)))


def of_five_bytes(major):
    return head(major, rng.randrange(1 << 16, 1 << 31))


def small_struct(spam, eggs):
    return b'\xa2' + spam + of_five_bytes(UNSIGNED) + eggs + of_five_bytes(UNSIGNED)


def color(blue):
    others = [
        b'\xa1' + text('Other') + of_five_bytes(UNSIGNED),
        b'\xa1' + text('Yellow') + head(UNSIGNED, rng.randrange(24)),
        b'\xa1' + text('Alpha') + b'\x82' + of_five_bytes(UNSIGNED) + b'\x01',
    ]
    return rng.choice([blue, *others])


LISTS = {
    'bool': ('b', lambda: rng.choice([b'\xf4', b'\xf5'])),
    'Option<u8>, half null': ('o', lambda: rng.choice([b'\xf6', head(UNSIGNED, rng.randrange(24))])),
    'i64, five bytes': ('i', lambda: of_five_bytes(rng.choice([UNSIGNED, NEGATIVE]))),
    'u32, five bytes': ('u', lambda: of_five_bytes(UNSIGNED)),
    'u32, three bytes': ('u', lambda: head(UNSIGNED, rng.randrange(1 << 8, 1 << 16))),
    'u32, two bytes': ('u', lambda: head(UNSIGNED, rng.randrange(24, 1 << 8))),
    'u32, below 24': ('u', lambda: head(UNSIGNED, rng.randrange(24))),
    'char, ASCII': ('c', lambda: word(1)),
    '&str, 8 bytes': ('s', lambda: word(8)),
    'String, 8 bytes': ('S', lambda: word(8)),
    'f64': ('f', lambda: b'\xfb' + struct.pack('>d', rng.random() * 1e9 + 1 / 3)),
    '(u32, bool, String)': ('t', lambda: b'\x83' + of_five_bytes(UNSIGNED) + b'\xf5' + word(8)),
    'struct of two u32, by names': ('p', lambda: small_struct(text('spam'), text('eggs'))),
    'struct of two u32, by numbers': ('P', lambda: small_struct(b'\x00', b'\x01')),
    'enum of four variants, by names': ('e', lambda: color(text('Blue'))),
    'enum of four variants, by numbers': ('E', lambda: color(b'\x00')),
}


def instructions(program, task, times, kind, item):
    with tempfile.TemporaryFile() as given:
        given.write(bytes([task, times]) + kind.encode() + item)
        given.seek(0)
        words = ['valgrind', '--tool=callgrind', '--callgrind-out-file=/dev/null', program]
        run = subprocess.run(words, stdin=given, stdout=subprocess.DEVNULL, stderr=subprocess.PIPE)
    assert run.returncode == 0, run.stderr.decode()
    return int(re.search(rb'Collected : (\d+)', run.stderr)[1])


def each(program, task, kind, item):
    """What one more turn takes, for each item."""
    once, twice = (instructions(program, task, times, kind, item) for times in (1, 2))
    return (twice - once) / COUNT


# What is done with a list, by the program's number for it; and the types of which the last three are.
SLICES = {'read': 0, 'read and written': 1}
DEVICES = {
    'by a BufReader': 2,
    'read ahead': 5,
    'seven bytes a call': 3,
    'read, and written by a BufWriter': 4,
    'read, and written in blocks': 6,
}
# Those that docs/SPEED.md has.
SAID = {name: task for name, task in DEVICES.items() if task in (2, 3, 4)}
RULES = {'read': 0, 'strictly': 7, 'by the canonical rules': 8, 'by unique keys': 9}
RULED = ('u32, five bytes', 'String, 8 bytes', '(u32, bool, String)', 'struct of two u32, by numbers')
# The Rust crate's way that is the nearest, where it has not the same.
NEAREST = {5: 2, 6: 4}
DEVICE_KINDS = 'boiucSftpe'
GO_KINDS = 'boiusSftpP'


def by_rules(program):
    """Prints what an item takes to be read, and what strict reading and rules add."""
    print('| list | ' + ' | '.join(RULES) + ' |')
    print('|---' * (1 + len(RULES)) + '|')
    for name in RULED:
        kind, make = LISTS[name]
        item = array(make() for _ in range(COUNT))
        read, *others = (each(program, task, kind.lower() if kind == 'P' else kind, item) for task in RULES.values())
        print('| ' + ' | '.join([name, f'{read:.1f}', *(f'+{it - read:.1f}' for it in others)]) + ' |', flush=True)


def by_instructions(program, tasks, lists):
    """Prints the instructions an item, and how many times as many the Rust crate takes."""
    print('| list | ' + ' | '.join(f'{task} | Rust crate | times' for task in tasks) + ' |')
    print('|---' * (1 + 3 * len(tasks)) + '|')
    for name, kind, item in lists:
        cells = [name]
        for task in tasks.values():
            ours = each(program, task, kind, item)
            theirs = each(CRATE, NEAREST.get(task, task), kind, item)
            cells += [f'{ours:.1f}', f'{theirs:.1f}', f'{theirs / ours:.2f}']
        print('| ' + ' | '.join(cells) + ' |', flush=True)


def by_time(program, tasks, lists):
    """Prints the CPU time an item, in ns, and how many times as much the Rust crate and fxamacker/cbor take."""
    tasks = {task: number for task, number in tasks.items() if number not in NEAREST}
    print('| list | ' + ' | '.join(f'{task}, ns | Rust crate | fxamacker/cbor' for task in tasks) + ' |')
    print('|---' * (1 + 3 * len(tasks)) + '|')
    for name, kind, item in lists:
        cells = [name]
        for task in tasks.values():
            peers = [CRATE, GO] if kind in GO_KINDS else [CRATE]
            ours, *theirs = speed.milliseconds([program, *peers], speed.Request(task, kind.encode() + item))
            times = [f'{other / ours:.2f}' for other in theirs]
            cells += [f'{ours * 1e6 / COUNT:.1f}', *times, *[''] * (2 - len(times))]
        print('| ' + ' | '.join(cells) + ' |', flush=True)


def main():
    parser = argparse.ArgumentParser(description=__doc__)
    parser.add_argument('word', nargs='?', default='', help='count the lists alone whose name has this in it')
    parser.add_argument('--program', default=OURS, help='count this program in place of lists_bench')
    parser.add_argument('--devices', action='store_true', help='from readers and to a writer')
    parser.add_argument('--rules', action='store_true', help='what strict reading and rules add')
    parser.add_argument('--time', action='store_true', help='CPU time, beside fxamacker/cbor too')
    chosen = parser.parse_args()
    if chosen.rules:
        return by_rules(chosen.program)
    tasks = DEVICES if chosen.devices else SLICES
    made = ((name, kind, array(make() for _ in range(COUNT))) for name, (kind, make) in LISTS.items())
    lists = (it for it in made if chosen.word in it[0] and (not chosen.devices or it[1] in DEVICE_KINDS))
    (by_time if chosen.time else by_instructions)(chosen.program, tasks, lists)


if __name__ == '__main__':
    main()
