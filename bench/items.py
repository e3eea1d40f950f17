"""CBOR items as bytes: heads, random items in every form, and a reading of canonical bytes."""
import math
import struct

UNSIGNED, NEGATIVE, BYTES, TEXT, ARRAY, MAP, TAG, OTHER = range(8)
BREAK = b'\xff'
WIDTHS = {24: 1, 25: 2, 26: 4, 27: 8}
FLOATS = {25: '>e', 26: '>f', 27: '>d'}


def head(major, argument, least=0):
    """The shortest head with that argument, or a longer one of at least `least` bytes behind it."""
    if argument < 24 and least == 0:
        return bytes([major << 5 | argument])
    for info, width in WIDTHS.items():
        if argument < 1 << 8 * width and width >= least:
            return bytes([major << 5 | info]) + argument.to_bytes(width, 'big')
    raise ValueError(f'{argument} has no head')


def text(words):
    spelled = words.encode()
    return head(TEXT, len(spelled)) + spelled


def array(items):
    items = list(items)
    return head(ARRAY, len(items)) + b''.join(items)


def pairs(listed):
    listed = list(listed)
    return head(MAP, len(listed)) + b''.join(key + value for key, value in listed)


class RandomItems:
    """Well-formed items in every form: longer heads, indefinite lengths, chunks, tags, equal keys."""

    def __init__(self, random):
        self.random = random

    def head(self, major, argument):
        return head(major, argument, self.random.choice([0, 0, 0, 1, 2, 4, 8]))

    def number(self):
        return self.random.choice([
            self.random.randrange(30), self.random.randrange(300), self.random.getrandbits(20),
            self.random.getrandbits(64), 2 ** self.random.randrange(64) - self.random.randrange(2),
        ])

    def content(self, major):
        count = self.random.randrange(self.random.choice([4, 30]))
        if major == BYTES:
            return self.random.randbytes(count)
        return ''.join(self.random.choice('abc zé€𝄞') for _ in range(count)).encode()

    def string(self, major):
        if self.random.randrange(4):
            content = self.content(major)
            return self.head(major, len(content)) + content
        chunks = [self.content(major) for _ in range(self.random.randrange(4))]
        return bytes([major << 5 | 31]) + b''.join(self.head(major, len(c)) + c for c in chunks) + BREAK

    def float(self):
        info = self.random.choice(list(FLOATS))
        bits = self.random.choice([
            self.random.randbytes(WIDTHS[info]),
            struct.pack(FLOATS[info], self.random.choice([0.0, -0.0, 1.5, -4.0, math.inf, math.nan])),
        ])
        return bytes([OTHER << 5 | info]) + bits

    def items(self, levels, major):
        count = self.random.randrange(5)
        each = 2 if major == MAP else 1
        inside = [self.item(levels - 1) for _ in range(each * count)]
        if major == MAP and inside and self.random.randrange(3) == 0:
            inside += [self.random.choice(inside[::2]), self.item(levels - 1)]
            count += 1
        if self.random.randrange(4) == 0:
            return bytes([major << 5 | 31]) + b''.join(inside) + BREAK
        return self.head(major, count) + b''.join(inside)

    def item(self, levels):
        major = self.random.randrange(8)
        if major in (UNSIGNED, NEGATIVE):
            return self.head(major, self.number())
        if major in (BYTES, TEXT):
            return self.string(major)
        if major == OTHER or levels == 0:
            return self.float() if self.random.randrange(2) else bytes([self.random.randrange(0xf4, 0xf8)])
        if major == TAG:
            return self.head(TAG, self.number()) + self.item(levels - 1)
        return self.items(levels, major)


class Floats:
    """A reading of canonical bytes in which each float is its number, whatever its width or NaN."""

    def __init__(self, spelled):
        self.spelled = spelled
        self.at = 0
        self.are_keys = False
        self.value = self.item()
        if self.at != len(spelled):
            raise ValueError('more than one item')

    def take(self, count):
        self.at += count
        return self.spelled[self.at - count:self.at]

    def item(self):
        first = self.take(1)[0]
        major, info = first >> 5, first & 31
        behind = self.take(WIDTHS.get(info, 0))
        if major == OTHER:
            return self.number(info, behind) if info in FLOATS else ('simple', info)
        argument = int.from_bytes(behind, 'big') if behind else info
        if major in (BYTES, TEXT):
            return (major, self.take(argument))
        if major in (ARRAY, TAG):
            return (major, argument, *(self.item() for _ in range(argument if major == ARRAY else 1)))
        if major == MAP:
            return (major, *sorted((self.key(), repr(self.item())) for _ in range(argument)))
        return (major, argument)

    def key(self):
        key = repr(self.item())
        self.are_keys = self.are_keys or 'float' in key
        return key

    def number(self, info, behind):
        return ('float', repr(struct.unpack(FLOATS[info], behind)[0]))
