#!/usr/bin/env python3
"""Compares the answers of cbor_tool with those of the Rust crate, line by line; see README.md."""
import argparse
import collections
import os
import random
import subprocess
import sys

import items

HERE = os.path.dirname(os.path.abspath(__file__))
OURS = os.path.join(HERE, '..', 'crates', 'cbor_tool', 'out', 'cbor_tool')
THEIRS = os.path.join(HERE, 'out', 'answers')


def short_inputs():
    """Every input of up to two bytes."""
    yield b''
    for first in range(256):
        yield bytes([first])
        for second in range(256):
            yield bytes([first, second])


def deep_inputs():
    """Items nested near the limit."""
    for depth in range(120, 136):
        for front in (b'\x81', b'\x9f', b'\xc1', b'\xa1\x00', b'\xbf\x00'):
            yield front * depth + b'\x00' + (items.BREAK * depth if front[0] & 31 == 31 else b'')


def hostile_lengths():
    """Strings, arrays and maps that claim more than is there, at the front and after some bytes."""
    for major in (items.BYTES, items.TEXT, items.ARRAY, items.MAP):
        for length in (2 ** 32, 2 ** 63, 2 ** 64 - 20, 2 ** 64 - 10, 2 ** 64 - 9, 2 ** 64 - 1):
            for front in (b'', b'\x81', b'\x9f\x00', bytes([major << 5 | 31])):
                yield front + items.head(major, length)
                yield front + items.head(major, length) + b'\x00\x00'


def damaged(spelled, rng):
    """The bytes with one change: a byte turned, cut off, added, taken out, or put in again elsewhere."""
    at = rng.randrange(len(spelled))
    return rng.choice([
        lambda: spelled[:at] + bytes([rng.randrange(256)]) + spelled[at + 1:],
        lambda: spelled[:at] + bytes([spelled[at] ^ 1 << rng.randrange(8)]) + spelled[at + 1:],
        lambda: spelled[:at],
        lambda: spelled + rng.randbytes(1 + rng.randrange(2)),
        lambda: spelled[:at] + spelled[at + 1:],
        lambda: spelled[:at] + spelled[rng.randrange(len(spelled)):],
    ])()


def inputs(count, seed):
    rng = random.Random(seed)
    make = items.RandomItems(rng)
    yield from short_inputs()
    for _ in range(count):
        spelled = make.item(rng.randrange(5))
        yield spelled
        yield damaged(spelled, rng)
        yield damaged(damaged(spelled, rng) or b'\x00', rng)
    yield from deep_inputs()
    yield from hostile_lengths()


def answers(program, lines):
    run = subprocess.run([program], input=lines, stdout=subprocess.PIPE, check=True)
    return run.stdout.decode().split('\n')[:-1]


def kind(ours, theirs):
    """What kind of difference two answers have."""
    refused = [answer.startswith('error: ') for answer in (ours, theirs)]
    if theirs == 'panic':
        return 'the Rust crate panics'
    if ours == theirs:
        return 'alike: refused, with the same text' if refused[0] else 'alike: written'
    if refused[0] != refused[1]:
        return 'refused by one alone'
    if refused[0]:
        return 'refused, with different texts'
    read = [items.Floats(bytes.fromhex(answer)) for answer in (ours, theirs)]
    if read[0].value == read[1].value:
        return 'written differently: the widths or NaNs of floats alone'
    if read[0].are_keys:
        return 'written differently: maps with floats among their keys'
    return 'written differently otherwise'


EXPECTED = ('alike', 'written differently: the', 'written differently: maps')


def main():
    parser = argparse.ArgumentParser(description=__doc__)
    parser.add_argument('--items', type=int, default=10_000, help='how many random items')
    parser.add_argument('--seed', type=int, default=7049)
    parser.add_argument('--show', type=int, default=3, help='how many lines to print of each kind')
    chosen = parser.parse_args()
    given = [spelled.hex() for spelled in inputs(chosen.items, chosen.seed)]
    lines = ''.join(line + '\n' for line in given).encode()
    kinds = collections.defaultdict(list)
    ours, theirs = answers(OURS, lines), answers(THEIRS, lines)
    assert len(ours) == len(theirs) == len(given), 'a line without its answer'
    for line, one, other in zip(given, ours, theirs):
        kinds[kind(one, other)].append((line, one, other))
    print(f'{len(given)} lines')
    for name, found in sorted(kinds.items()):
        print(f'{len(found)} {name}')
        shown = 0 if name.startswith('alike') else chosen.show
        for line, one, other in sorted(found, key=lambda row: len(row[0]))[:shown]:
            print(f'    {line}\n        cbor_tool:  {one}\n        Rust crate: {other}')
    return 0 if all(name.startswith(EXPECTED) for name in kinds) else 1


if __name__ == '__main__':
    sys.exit(main())
