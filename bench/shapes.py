"""The inputs that are measured, by name: each shape of item, and maps that grow."""
import random

from items import ARRAY, BYTES, TEXT, UNSIGNED, array, head, pairs, text

NULL = b'\xf6'
LETTERS = 'abcdefghijklmnopqrstuvwxyz'
rng = random.Random(8949)


def word(length):
    return ''.join(rng.choice(LETTERS) for _ in range(length))


def integers(count):
    return array(head(UNSIGNED, rng.getrandbits(32)) for _ in range(count))


def floats(count):
    return array(b'\xfb' + rng.randbytes(8) for _ in range(count))


def texts(count, length):
    return array(text(word(length)) for _ in range(count))


def record():
    return pairs([
        (text('id'), head(UNSIGNED, rng.getrandbits(31))),
        (text('name'), text(word(12))),
        (text('email'), text(word(20))),
        (text('created'), head(UNSIGNED, rng.getrandbits(31))),
        (text('tags'), array(text(word(length)) for length in (4, 6, 5))),
        (text('active'), b'\xf5'),
    ])


def records(count):
    return array(record() for _ in range(count))


def nested(count, depth):
    return array(head(ARRAY, 1) * depth + b'\x00' for _ in range(count))


def string(major, content, length):
    return head(major, length) + content * (length // len(content))


def keys(count, order):
    numbers = list(range(count))
    if order == 'descending':
        numbers.reverse()
    elif order == 'equal':
        numbers = [7] * count
    elif order == 'shuffled' or order == 'long common fronts':
        rng.shuffle(numbers)
    if order == 'long common fronts':
        return [text('a' * 40 + f'{number:08}') for number in numbers]
    return [head(UNSIGNED, number) for number in numbers]


def maps_as_keys(depth, last=0):
    """A map of two keys that are such maps themselves, and differ in their last byte alone."""
    if depth == 0:
        return pairs([(head(UNSIGNED, 24 + last), NULL)])
    return pairs([(maps_as_keys(depth - 1), NULL), (maps_as_keys(depth - 1, last + 1), NULL)])


def of_pairs(count, order):
    if order == 'maps':
        return maps_as_keys(count.bit_length() - 2)
    return pairs((key, NULL) for key in keys(count, order))


RECORDS = '20,000 records of 6 fields'
ORDERS = ['ascending', 'descending', 'shuffled', 'equal', 'long common fronts']

# of which keys maps are read that grow; of maps within maps as many pairs in all, to a power of two
GROWING = [*ORDERS, 'maps']

SHAPES = {
    '200,000 integers': lambda: integers(200_000),
    '200,000 floats of 64 bits': lambda: floats(200_000),
    RECORDS: lambda: records(20_000),
    '2,000 arrays, 120 deep': lambda: nested(2_000, 120),
    '100,000 texts of 16 bytes': lambda: texts(100_000, 16),
    'a text of 8 MiB, ASCII': lambda: string(TEXT, b'a', 8 << 20),
    'a text of 8 MiB, two bytes a character': lambda: string(TEXT, 'é'.encode(), 8 << 20),
    'a text of 6 MiB, three bytes a character': lambda: string(TEXT, '水'.encode(), 6 << 20),
    'a text of 8 MiB, four bytes a character': lambda: string(TEXT, '💔'.encode(), 8 << 20),
    'a text of 5 MiB, characters of each width': lambda: string(TEXT, 'aé水💔'.encode(), 5 << 20),
    'a byte string of 8 MiB': lambda: string(BYTES, b'a', 8 << 20),
}
for ORDER in ORDERS:
    SHAPES[f'a map of 10,000 pairs, keys {ORDER}'] = lambda order=ORDER: of_pairs(10_000, order)

# Letters as frequent as they are here, of which texts of words are made; docs/SPEED.md has no rows of these.
ALPHABETS = {
    'Russian': 'оооееааииннттссррвллкмдпуяыьгзбчйхжшюцщэф',
    'French': 'eeeeeaaaassiiinnnttrrruulllooodcmpéévqfbghjàxèyêzçôùâûîœ',
    'Chinese': '的一是不了在人有我他这个们中来上大为和国地到以说时要就出会可也你对生能',
}


def words(alphabet, size):
    """A text of words of two to nine letters, with spaces and commas."""
    letters = random.Random(8949)
    parts = []
    while size > 0:
        one = ''.join(letters.choices(alphabet, k=letters.randrange(2, 10)))
        parts.append(one + letters.choice([' ', ' ', ' ', ', ']))
        size -= len(parts[-1].encode())
    return text(''.join(parts))


WORDS = {
    f'a text of 8 MiB, words in {tongue}': lambda alphabet=alphabet: words(alphabet, 8 << 20)
    for tongue, alphabet in ALPHABETS.items()
}
