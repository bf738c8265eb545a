"""What is asked of values: runs of every type at the edges of its width, and questions to which one refusal or two of them apply, each with the answer that document 02's wish 1 and its readings give.
A case is that of run_npy (docs/FRAMES.md); its answer is the number of a refusal, or 0 for a value, which is for the models and NumPy to say."""
import itertools
import os
import sys

HERE = os.path.dirname(os.path.abspath(__file__))
sys.path[:0] = [os.path.join(os.path.dirname(HERE), 'places')]
import calls
import forms
import records
import rule
import writer
from forms import Ask, Given

MOST = 2 ** 64 - 1
UNITS = [units.decode() for units in writer.UNITS if units]
ORDERS = {1: '<>|'}
# Letters with their sizes, as type strings have them.
SIZES = {'b': (1,), 'i': (1, 2, 4, 8), 'u': (1, 2, 4, 8), 'f': (2, 4, 8), 'c': (8, 16)}
VALUED = [f'{order}{letter}{size}' for letter, sizes in SIZES.items() for size in sizes for order in ORDERS.get(size, '<>')]
TIMES = [f'{order}{letter}8[{units}]' for letter in 'mM' for units in UNITS for order in '<>']
VALUELESS = ['<f16', '>f16', '<c32', '>c32'] + [f'{order}{letter}{size}' for letter in 'SV' for size in (0, 1, 2, 8) for order in '<>|'] + [f'{order}U{size}' for size in (0, 1, 2) for order in '<>']
OBJECTS = ['<O', '>O', '|O']

# zeros, smallest and largest subnormal, smallest normal, 1, a third, -2, largest, infinities, signalling and quiet NaNs, the least and the largest payload; of each both signs
HALVES = [half | sign for half in (0, 1, 2, 0x1FF, 0x200, 0x3FE, 0x3FF, 0x400, 0x401, 0x7FF, 0x3C00, 0x3555, 0x4000, 0x7BFE, 0x7BFF, 0x7C00, 0x7C01, 0x7D00, 0x7DFF, 0x7E00, 0x7E01, 0x7FFF) for sign in (0, 0x8000)]
SINGLES = [single | sign for single in (0, 1, 0x7FFFFF, 0x800000, 0x3F800000, 0x7F7FFFFF, 0x7F800000, 0x7F800001, 0x7FBFFFFF, 0x7FC00000, 0x7FFFFFFF, 0x1020304) for sign in (0, 2 ** 31)]
DOUBLES = [double | sign for double in (0, 1, 2 ** 52 - 1, 2 ** 52, 0x3FF << 52, 0x7FF << 52 - 1, (0x7FF << 52) - 1, 0x7FF << 52, (0x7FF << 52) + 1, (0xFFF << 51) - 1, 0xFFF << 51, 2 ** 63 - 1, 0x102030405060708) for sign in (0, 2 ** 63)]
# of a pair: zeros, subnormals, infinities, NaNs and a normal number; the bytes of two differ, so that one pair has the bytes 0, 1, 2, ..
PARTS = {8: [0, 2 ** 31, 0x10203, 1, 0x7F800000, 0xFF800000, 0x7F800001, 0xFFC00000, 0x4050607], 16: [0, 2 ** 63, 0x1020304050607, 1, 0x7FF << 52, 0xFFF << 52, (0x7FF << 52) + 1, 0x1FFF << 51, 0x8090A0B0C0D0E0F]}


def numbers_of(text):
    """The four numbers of a type."""
    return calls.type_numbers(rule.type_string(text.encode()))


def read_value(text, run):
    return calls.case_of('read_value', numbers_of(text), run)


def turned(text, size, *parts):
    """Numbers of so many bytes each, in the byte order of the type."""
    return b''.join(part.to_bytes(size, 'big' if text[0] == '>' else 'little') for part in parts)


def edges(text):
    """The runs of a type at its edges."""
    _, letter, size, _ = rule.type_string(text.encode())
    if letter == b'b':
        return [bytes([byte]) for byte in (0, 1, 2, 3, 127, 128, 255)]
    if letter == b'f':
        return [turned(text, size, one) for one in {2: HALVES, 4: SINGLES, 8: DOUBLES}[size]]
    if letter == b'c':
        return [turned(text, size // 2, *pair) for pair in itertools.product(PARTS[size], repeat=2)]
    middle, end = 2 ** (8 * size - 1), 2 ** (8 * size)
    return [turned(text, size, one) for one in dict.fromkeys((0, 1, 2, middle - 2, middle - 1, middle, middle + 1, end - 2, end - 1, int.from_bytes(bytes(range(1, size + 1)), 'big'), int.from_bytes(bytes(range(0xF1, 0xF1 + size)), 'big')))]


def runs():
    """Types and runs that are as long as their type: the edges, and every 64th half float."""
    for text in VALUED + TIMES:
        for run in edges(text):
            yield text, run
    for text in '<f2', '>f2':
        for half in range(0, 65_536, 64):
            yield text, turned(text, 2, half)


def lengths():
    """Runs that are not as long as their type, and types without values."""
    for text in VALUED + TIMES[::3]:
        size = rule.item_size(rule.type_string(text.encode()))
        for length in {0, size - 1, size + 1, 2 * size, size // 2} - {size}:
            # 27 before 32: bytes of 2
            yield read_value(text, bytes([2]) * length), 27
    for text in VALUELESS + OBJECTS:
        size = rule.item_size(rule.type_string(text.encode())) or 0
        for length in {size, size + 1, max(size, 1) - 1, 0, 8}:
            # 31 before the 27 of a length
            yield read_value(text, bytes([1]) * length), 31


def no_types():
    """Numbers that no type string gives, with runs of the length that they name and others: 27 before 31 and before 32."""
    wrong = [[0, 98, 1, 0], [61, 98, 1, 0], [60 + 256, 98, 1, 0], [2 ** 32 + 124, 98, 1, 0], [MOST, 98, 1, 0], [124, 0, 1, 0], [124, 97, 1, 0], [124, 98 + 256, 1, 0], [124, 2 ** 32 + 98, 1, 0], [124, MOST, 1, 0],
             [124, 98, 0, 0], [124, 98, 2, 0], [60, 98, 2, 0], [124, 98, 257, 0], [124, 98, MOST, 0], [124, 98, 1, 1], [124, 98, 1, 14], [124, 98, 1, MOST], [124, 105, 2, 0], [124, 105, 4, 0], [60, 105, 3, 0], [60, 105, 16, 0],
             [60, 105, 4, 7], [60, 117, 0, 0], [60, 117, 2 ** 32 + 4, 0], [124, 102, 2, 0], [124, 102, 4, 0], [124, 102, 16, 0], [60, 102, 1, 0], [60, 102, 3, 0], [60, 102, 32, 0], [124, 99, 8, 0], [60, 99, 4, 0], [124, 99, 32, 0],
             [60, 99, 64, 0], [60, 109, 8, 0], [60, 109, 8, 14], [60, 109, 8, MOST], [60, 109, 4, 7], [124, 109, 8, 7], [60, 77, 8, 0], [62, 77, 16, 1], [124, 77, 8, 1], [60, 77, 8, 2 ** 32 + 1],
             [124, 85, 1, 0], [60, 85, 1, 1], [60, 83, 1, 1], [124, 86, 1, 13], [124, 79, 4, 0], [124, 79, 8, 0], [124, 79, 0, 1], [0, 79, 0, 0], [0, 0, 0, 0], [MOST] * 4]
    for given in wrong:
        for length in dict.fromkeys((min(given[2], 40), 0, 1, 8)):
            yield calls.case_of('read_value', given, bytes([2]) * length), 27


# ---- at places

ORDERED = (27, 13, 20, 21, 22, 24, 25, 26, 31, 32)
# What does not go together: a type has a size over 2^64-1 only without an object, and no type is refused by both 31 and 32.
APART = {(21, 24), (31, 32)}
# Ways to be no record, and to be nowhere.
NO_RECORD, NOWHERE = ('order', 'large order', 'cut', 'name', 'bytes'), ('index', 'short index', 'long index', 'path', 'short path', 'long path', 'inside an element')
START = 3


def question(refusals, no_record='order', nowhere='index', fortran=False):
    """A value of a file to which all of these refusals apply, and which has no other fault."""
    fields = [(b'v', records.plain(b'|V2')), (b'a', records.array([2], records.plain(b'|S1' if 31 in refusals else b'|b1')))]
    fields += [(b'o', records.plain(b'|O'))] * (24 in refusals) + [(b'h', records.HUGE)] * (21 in refusals) + [(b'', records.plain(b'|V0'))] * (509 if 20 in refusals else 0)
    found, shape = records.record(*fields), [2 ** 32, 2 ** 32] if 22 in refusals else [3, 1]
    shape = [1] * (31 if 13 in refusals else 0) + shape
    table, names, order = writer.numbers_of(found), writer.names_of(found), int(fortran)
    index, path = [0] * len(shape), [1, 1]
    index[-2] = 2
    if 27 in refusals:
        order = {'order': 2, 'large order': MOST}.get(no_record, order)
        table = table[:-1] if no_record == 'cut' else [n + (k == 7) for k, n in enumerate(table)] if no_record == 'bytes' else table
        names = b'\xff' + names[1:] if no_record == 'name' else names
    if 26 in refusals:
        index = {'index': [3] + [0] * (len(shape) - 1) if shape[0] == 3 else [MOST] * len(shape), 'short index': index[1:], 'long index': index + [0]}.get(nowhere, index)
        path = {'path': [1, 2], 'short path': [1], 'long path': [1, 1, 0], 'inside an element': [0, 0]}.get(nowhere, path)
    item = b'xy' + (b'\2\2' if 32 in refusals else b'\0\1')
    file = b'abc' + 3 * item
    return Given(table, names, shape, order, START, file), Ask('v', 0, len(file) - (25 in refusals), index, path)


def refusals():
    """Each refusal at a place alone, and each two that go together: the first in the order of document 02 is the answer. And none of them."""
    ways = lambda numbers: itertools.product(NO_RECORD if 27 in numbers else NO_RECORD[:1], NOWHERE if 26 in numbers else NOWHERE[:1], (False, True))
    alone = [(), *((one,) for one in ORDERED), *(pair for pair in itertools.combinations(ORDERED, 2) if pair not in APART)]
    for numbers in alone:
        for no_record, nowhere, fortran in ways(numbers):
            given, ask = question(numbers, no_record, nowhere, fortran)
            yield forms.case_of(given, ask), numbers[0] if numbers else 0


def alone():
    """Each type in a record of its own, and each run of a few as its last item."""
    for text in VALUED + TIMES + VALUELESS + OBJECTS:
        found = records.plain(text.encode())
        size = found.size or 0
        some = edges(text) if text in VALUED or text in TIMES else [b'\2' * size]
        for k, run in enumerate(some[::max(1, len(some) // 3)]):
            start, before = (0, 16)[k % 2], (0, 2)[k // 2 % 2]
            given = Given(writer.numbers_of(found), b'', [before + 1] if before else [], k % 2, start, b'\xee' * start + b'\1' * (before * size) + run)
            yield forms.case_of(given, Ask('v', 0, len(given.file), [before] if before else [], [])), 24 if text in OBJECTS else 31 if text in VALUELESS else 32 if text[1] == 'b' and run > b'\1' else 0
