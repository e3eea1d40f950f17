#!/usr/bin/env python3
"""Prints how many bytes a `Value` takes for each byte of input, counted at each allocation.

Usage: bench/memory.py [PROGRAM]     (crates/cbor_bench/out/cbor_bench, as `rt run` builds it)

Each shape is 120 levels deep, and stands 2,000 times in one array; but the last two are one list, of
one item more than it had room for. What the program holds before it reads, its input above all, is
subtracted.
"""
import os
import re
import subprocess
import sys
import tempfile

HERE = os.path.dirname(os.path.abspath(__file__))
DEEP, MANY, LONG = 120, 2000, 65_537

# what begins a level, what is innermost, and what ends a level
SHAPES = [
    ("arrays of one item", b"\x81", b"\x00", b""),
    ("arrays of two items", b"\x82\x00", b"\x00", b""),
    ("arrays of 17 items", b"\x91" + bytes(16), b"\x00", b""),
    ("arrays of one item, of indefinite length", b"\x9f", b"\x00", b"\xff"),
    ("arrays of two items, of indefinite length", b"\x9f\x00", b"\x00", b"\xff"),
    ("arrays of five items, of indefinite length", b"\x9f\0\0\0\0", b"\x00", b"\xff"),
    ("maps of one pair", b"\xa1\x00", b"\x00", b""),
    ("maps of two pairs", b"\xa2\x00\x00\x01", b"\x00", b""),
    ("maps of five pairs", b"\xa5\0\0\1\0\2\0\3\0\4", b"\x00", b""),
    ("maps of one pair, of indefinite length", b"\xbf\x00", b"\x00", b"\xff"),
    ("maps of two pairs, of indefinite length", b"\xbf\x00\x00\x01", b"\x00", b"\xff"),
    ("maps of five pairs, of indefinite length", b"\xbf\0\0\1\0\2\0\3\0\4", b"\x00", b"\xff"),
    ("tags", b"\xc1", b"\x00", b""),
]


def most(program, peak, turns, item):
    ran = subprocess.run([program], input=bytes([0, turns]) + item, capture_output=True, check=True,
                         env={**os.environ, "LD_PRELOAD": peak})
    return int(re.search(rb"most: (\d+)", ran.stderr)[1])


def items():
    for name, begin, within, end in SHAPES:
        one = begin * DEEP + within + end * DEEP
        yield name, b"\x99" + MANY.to_bytes(2, "big") + one * MANY
    yield "65,537 integers", b"\x9a" + LONG.to_bytes(4, "big") + bytes(LONG)
    keys = b"".join(b"\x1a" + key.to_bytes(4, "big") + b"\0" for key in range(LONG))
    yield "65,537 pairs, keys of five bytes", b"\xba" + LONG.to_bytes(4, "big") + keys


def main():
    program = sys.argv[1] if len(sys.argv) > 1 else f"{HERE}/../crates/cbor_bench/out/cbor_bench"
    with tempfile.TemporaryDirectory() as room:
        peak = f"{room}/peak.so"
        subprocess.run(["cc", "-O2", "-shared", "-fPIC", "-o", peak, f"{HERE}/peak.c"], check=True)
        for name, item in items():
            taken = most(program, peak, 1, item) - most(program, peak, 0, item)
            print(f"{name:45} {taken / len(item):6.1f}")


main()
