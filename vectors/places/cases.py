"""What is asked of places without NumPy: small records whose bytes are laid out one by one, shapes and sizes near 2^64, and records that no reading gives or that are over a limit."""
import itertools
import os
import random
import sys

HERE = os.path.dirname(os.path.abspath(__file__))
sys.path[:0] = [HERE]
from forms import Ask, Given, answers
import elements
import forms
import places
import reader
import records
import rule
import writer

MOST = reader.MOST
PLAIN = [b'|b1', b'|i1', b'<u2', b'>f4', b'|S0', b'|S1', b'|S3', b'<U1', b'>U2', b'<U0', b'|V0', b'|V3', b'<m8[us]']
LAID_OUT, MOST_LEAVES = 350, 36
# A longer table says no more of a place than of a header, for which it is recorded.
MOST_CASE = 60_000


def given(found, shape, fortran, start, file=b''):
    return Given(writer.numbers_of(found), writer.names_of(found), shape, fortran, start, file)


# ---- every byte's owner

def small(rng, depth, types):
    if depth == 0 or rng.random() < 0.3:
        return records.plain(rng.choice(types))
    field = lambda: records.array([rng.choice((0, 1, 2, 2, 3)) for _ in range(rng.choice((0, 0, 1, 2)))], small(rng, depth - 1, types))
    return records.record(*[(rng.choice((b'', b'a', b'bc')), field()) for _ in range(rng.choice((0, 1, 2, 2, 3)))])


def leaves(found, path=()):
    """The paths of a dtype with their types, in the order of their bytes."""
    if found.kind == 'plain':
        yield list(path), found.what
    for k, below in enumerate(found.inner if found.kind == 'record' else found.inner * found.what if found.kind == 'array' else ()):
        yield from leaves(below, (*path, k))


def indices(shape, fortran):
    """The indices of a shape, in the order of their items: the last number runs fastest in C order, the first in Fortran order."""
    for index in itertools.product(*map(range, reversed(shape) if fortran else shape)):
        yield list(reversed(index) if fortran else index)


def laid_out(found, shape, fortran, start):
    """Each index and path with the first byte, the length and the type: the elements put down one after the other, without any stride."""
    at = start
    for index in indices(shape, fortran):
        for path, what in leaves(found):
            yield index, path, at, rule.item_size(what), what
            at += rule.item_size(what)


def file_of(rng, owners, start):
    """Bytes for the elements: short strings with zeros at their ends, some bad scalar values, and any bytes for other types."""
    file = bytearray(b'\xee' * start)
    for _, _, _, length, (order, letter, size, _) in owners:
        if letter == b'U':
            points = [rng.choice((0, 0, 0x41, 0xE9, 0x10FFFF, 0xD7FF) if rng.random() < 0.95 else (0xD800, 0x110000)) for _ in range(size)]
            file += b''.join(point.to_bytes(4, 'big' if order == b'>' else 'little') for point in points)
        else:
            file += bytes(rng.choice((0, 0, 1, 0x61, 0xFF)) for _ in range(length))
    return bytes(file)


def owned(count=LAID_OUT, seed=6, types=PLAIN):
    """Every index and path of so many small records of these types, with the answers of the layout; and after them what is in no place."""
    rng, made = random.Random(seed), 0
    while made < count:
        found, shape, fortran = small(rng, rng.choice((0, 1, 2, 2, 3)), types), [rng.choice((0, 1, 2, 2, 3, 4)) for _ in range(rng.choice((0, 1, 1, 2, 2, 3)))], rng.random() < 0.5
        start = rng.choice((0, 1, 16, 80))
        owners = list(laid_out(found, shape, fortran, start))
        if len(owners) > MOST_LEAVES or not owners and rng.random() < 0.8:
            continue
        made += 1
        file = file_of(rng, owners, start)
        record = given(found, shape, fortran, start, file)
        asks, lines = [], []
        for index, path, at, length, what in owners:
            asks.append(Ask('n', 0, len(file), index, path))
            lines.append(forms.placed(at, length, what))
            if what[1] in b'SUV' and len(file) > start:
                ask, line = element(rng, file, index, path, file[at:at + length], what)
                asks.append(ask)
                lines.append(line)
        asks += nowhere(rng, owners, shape, len(file))
        asks += [Ask('i', 0, 0, index, []) for index in rng.sample(list(indices(shape, fortran)), min(2, reader.product(shape)))]
        mine = answers(record, asks)
        assert mine[:len(lines)] == lines, (record, mine, lines)
        yield record, asks, mine


def element(rng, file, index, path, run, what):
    """A string element asked for in a room that is enough, exactly enough, one short, or none; now and then by the wrong kind."""
    operation, read = ('p', elements.read_points) if (what[1] == b'U') != (rng.random() < 0.1) else ('b', elements.read_bytes)
    left = read(what, run, 255)
    needed = 1 if isinstance(left, int) else len(left)
    room = rng.choice((needed, needed, needed + 1, max(needed, 1) - 1, 0))
    return Ask(operation, room, len(file), index, path), forms.shown(operation, read(what, run, room))


def nowhere(rng, owners, shape, length):
    index, path = owners[-1][:2] if owners else ([0] * len(shape), [0])
    yield Ask('n', 0, length, index + [0], path)
    yield Ask('n', 0, length, index, path + [0])
    yield Ask('n', 0, max(length, 1) - 1, index, path)
    yield Ask('n', 0, max(length, 1) - 1, index + [0], path)
    for numbers, other in ((index, lambda n: Ask('n', 0, length, n, path)), (path, lambda n: Ask('n', 0, length, index, n))):
        if numbers:
            k = rng.randrange(len(numbers))
            yield other(numbers[:k] + numbers[k + 1:])
            yield other(numbers[:k] + [numbers[k] + rng.choice((1, 3, MOST - numbers[k]))] + numbers[k + 1:])
    yield Ask(rng.choice('bp'), 2, max(length, 1) - 1, index, path)


# ---- near 2^64

def huge(seed=7):
    """Shapes, sizes, data starts and file lengths at the edges of 64 bits. The file itself is not held: only places and item numbers are asked."""
    rng = random.Random(seed)
    shapes = [[MOST], [2 ** 32, 2 ** 32 - 1], [2 ** 32, 2 ** 32], [2 ** 32 - 1, 2 ** 32 + 1], [2 ** 63, 1], [2, 2 ** 63], [2, 2 ** 63 - 1], [0, 2 ** 40, 2 ** 40], [2 ** 40, 2 ** 40, 0],
              [MOST, 0], [0, MOST], [MOST, 1, 1], [1] * 32, [1] * 33, [2] * 32, [4] * 32, [2 ** 61], [2 ** 60], [3, 5, 17, 257, 641, 65_537, 6_700_417], [1, MOST, 1], []]
    types = [records.plain(text) for text in (b'|S0', b'|S1', b'<i8', b'|V%d' % MOST, b'|S%d' % (MOST // 2), b'<U%d' % (2 ** 62 - 1), b'<U%d' % 2 ** 62, b'<U1')]
    types += [records.record(), records.record((b'a', records.plain(b'|S%d' % (MOST - 8))), (b'b', records.plain(b'<i8'))), records.HUGE,
              records.record((b'a', records.array([2 ** 32, 2 ** 29 - 1], records.plain(b'<i8'))), (b'b', records.plain(b'|S7'))),
              records.record((b'a', records.array([2 ** 61, 0], records.plain(b'<i8'))), (b'b', records.I4)), records.record((b'a', records.array([0, 2 ** 61], records.plain(b'<i8'))))]
    paths = [[], [0], [1], [0, 0, 0], [0, 2 ** 32 - 1, 2 ** 29 - 2], [0, 2 ** 32, 0], [0, MOST, 0], [2]]
    for shape in shapes:
        for found in types:
            fortran = rng.random() < 0.5
            product = reader.product(shape)
            size = min(writer.bytes_of(found) * product, MOST)
            start = rng.choice((0, 1, 16, 80, MOST - size, max(MOST - size, 1) - 1, min(MOST - size + 1, MOST), MOST))
            last = [max(n, 1) - 1 for n in shape]
            asks = [Ask('i', 0, 0, last, [])]
            for path in rng.sample(paths, 3) if found.kind == 'record' else ([], [0]):
                index = rng.choice((last, last, last, [rng.randrange(max(n, 1)) for n in shape], [n if k == 0 else 0 for k, n in enumerate(shape)]))
                asks.append(Ask('n', 0, rng.choice((MOST, min(start + size, MOST), max(min(start + size, MOST), 1) - 1)), index, path))
            record = given(found, shape, fortran, start)
            yield record, asks, answers(record, asks)


# ---- 27, 13, 20, 21, 22

def refused(seed=8, every=6):
    """Damaged tables of every kind, and records on both sides of each limit; a place and an element are asked of each."""
    rng = random.Random(seed)
    for k, (table, names) in enumerate(records.damaged()):
        # of the tables that give 27, one in so many
        if k % every == 0 or places.given(table, names, [3], False, 16) != 27:
            yield tried(rng, Given(table, names, [3], rng.random() < 0.5, 16, bytes(60)), rng.choice(([], [0], [1, 0, 2], [0, 0])))
    for found, shape, fortran, _, _ in records.EDGES:
        record = given(found, shape, fortran, 16, bytes(60))
        if 8 * len(record.table) + len(record.names) < MOST_CASE:
            yield tried(rng, record, [0] if found.kind == 'record' else [])


def tried(rng, record, path):
    index = [max(n, 1) - 1 for n in record.shape]
    asks = [Ask('n', 0, MOST, index, path), Ask(rng.choice('bp'), 4, len(record.file), index, path)]
    return record, asks, answers(record, asks)


def other_orders():
    """Orders that are none, and the refusals of a record asked of each kind of element."""
    found = records.record((b'a', records.plain(b'|S2')), (b'b', records.plain(b'<U1')))
    file = bytes(16) + b'xy' + b'z\0\0\0'
    for order in (0, 1, 2, 255, 256, 2 ** 32, 2 ** 32 + 1, MOST):
        record = given(found, [1], order, 16, file)
        asks = [Ask('n', 0, len(file), [0], [1]), Ask('i', 0, 0, [0], []), Ask('b', 2, len(file), [0], [0]), Ask('p', 1, len(file), [0], [1])]
        yield record, asks, answers(record, asks)
    for found, shape in ((records.I4, [1] * 33), (records.HIGH, []), (records.HUGE, [1]), (records.I4, [2 ** 32, 2 ** 32])):
        record = given(found, shape, False, 16, bytes(60))
        asks = [Ask(operation, 4, 60, [0] * len(shape), []) for operation in 'nbp']
        yield record, asks, answers(record, asks)
