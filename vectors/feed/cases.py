"""The recorded cases of run_feed: what document 02's wish 10 and its readings name, and headers of every kind in their cuttings."""
import random

import feeds
import feeder
import files
from feeds import END, MOST, ROOMS, calls_case, cuts_case, needed

# Document 01's header of 80 bytes, and its text.
H80 = b'\x93NUMPY\x01\x00F\x00' + b"{'descr': '<i4', 'fortran_order': False, 'shape': (3, ), }" + 11 * b' ' + b'\n'
MAGIC = b'\x93NUMPY'
PAIR = files.H(b"[('a', '<i2'), ('b', '<U3', (2,))]", b'(2,3)', b'True')
SHORT = (200, *ROOMS)


def small_files():
    """Files of 12 bytes and fewer: every front of a header, each of 1 to 4, and empty and short texts."""
    yield from (H80[:k] for k in range(13))
    yield from (file_[:12] for file_ in (b'x' * 12, b'\x93NUMPX\x01\x00\x00\x00ab', b'\0' + H80[1:], b'PK\x03\x04' + bytes(8)))
    for version in ((1, 0), (1, 1), (0, 0), (2, 0), (2, 1), (3, 0), (4, 0), (255, 255)):
        yield from (MAGIC + bytes(version) + rest for rest in (b'', b'\0', b'\0\0', b'\0\0ab', b'\1\0', b'\1\0$', b'\1\0$x', b'\2\0{}', b'\2\0[]', b'\3\0ab', b'\0\0\0\0', b'\1\0\0\0', b'\1\0\2\0', b'\0\0\2\0', b'\xff\xff\xff\xff'))


def short_files():
    """Every cutting of each, in buffers of 0 bytes, of the text's length and of more; of those that are refused at byte 8, in one."""
    for file in dict.fromkeys(small_files()):
        refused = len(file) >= 8 and (file[:6] != MAGIC or tuple(file[6:8]) not in ((1, 0), (2, 0), (3, 0)))
        yield from (cuts_case('all', file, text) for text in ((2,) if refused else (0, 1, 2)))


def headers():
    """Headers of up to 250 bytes: the edges of files.py, each version, and generated ones."""
    edges = [file for file, _ in files.EDGES if 12 < len(file) <= 250]
    versions = [files.file_of(files.header(), version, data=data) for version in ((1, 0), (2, 0), (3, 0)) for data in (b'', b'x', bytes(30))]
    yield from dict.fromkeys([H80, H80 + b'data', H80[:-1], PAIR, *versions, *edges, *(file for file in files.generated(700, 10) if 40 <= len(file) <= 250)])


def whole_headers():
    """Every cut in two of each, byte by byte, and parts of every length; in turn with rooms that are exact, one short in each, and with a buffer of one byte less and one more."""
    for k, file in enumerate(headers()):
        length, rooms = needed(file)
        length = min(length, 1_000)
        yield cuts_case('two', file, length + (0, 1, 0, 9)[k % 4], rooms)
        yield cuts_case('bytes', file, length, ROOMS)
        yield cuts_case('equal', file, length + 1, ROOMS)
        if k % 5 == 0:
            yield cuts_case('two', file, max(0, length - 1), ROOMS)
            yield from (cuts_case('two', file, length, tuple(max(0, n - (at == room)) for at, n in enumerate(rooms))) for room in range(3))


def in_three():
    """Every cut in three of some short ones: an accepted one, a record, one with data after it, an early end, and refused ones."""
    for file, text in ((H80, 70), (H80, 69), (H80 + b'ab', 71), (H80[:70], 70), (PAIR, 200), (files.file_of(b'{}'), 2), (files.file_of(b'\xff'), 1), (files.file_of(b'$' * 20, (2, 0)), 20), (b'x' * 20, 0), (files.file_of(b'', (2, 0), 131_073, b'$' * 9), 0), (files.file_of(b'[' * 40), 40)):
        yield cuts_case('three', file, text)


def long_files():
    """Texts of 65,535 bytes and of 131,072, in buffers of their length and of one byte less; 20, which no short header gives; 4 in a buffer of no bytes."""
    one = files.file_of(files.padded(files.header(), 65_535), (1, 0))
    two = files.file_of(files.padded(files.header(), 131_072), (2, 0))
    for text in (65_534, 65_535):
        yield from (cuts_case(kind, one, text, ROOMS, first, upto) for kind, first, upto in (('two', 7, 12), ('two', 65_544, 65_546), ('equal', 1_460, 1_461), ('bytes', 0, 1)))
    yield from (cuts_case(kind, two, text, ROOMS, first, first + 1) for kind, first, text in (('equal', 1_460, 131_072), ('bytes', 0, 131_072), ('two', 11, 131_071)))
    yield from (cuts_case(kind, files.H(files.fields(count)), 20_000, (4_608, 600, 32), first, first + 1) for count in (511, 512) for kind, first in (('two', 5_000), ('equal', 1_460), ('bytes', 0)))
    yield from (calls_case(made, text) for made, text in (([one[:10], one[10:11], END], 65_534), ([one[:15], END], 65_535), ([two[:12], two[12:13], END], 131_071), ([two[:17], END], 131_072)))
    yield from (cuts_case(kind, files.file_of(b'', version, length, b'ab'), text) for kind in ('two', 'bytes') for version in ((2, 0), (3, 0)) for length in (131_073, 2 ** 32 - 1) for text in (0, 131_088))
    yield from (cuts_case('two', files.file_of(b'', version, length, b'ab'), text) for version in ((2, 0), (3, 0)) for length in (131_072, 131_071) for text in (0, 131_071, 131_072))


def differing():
    """Another file is fed than was read, so that differences are there: in the outcome, the record, a name, the blanks of the text, the total, a byte of an incomplete file. Two fronts of 7 bytes have the same answers."""
    changed = lambda file, old, new: file.replace(old, new)
    for file, other in ((H80, changed(H80, b'(3, )', b'(4, )')), (H80, changed(H80, b'<i4', b'>i4')), (H80, changed(H80, b'<i4', b'<i9')), (H80, changed(H80, b'False', b'True ')), (H80, changed(H80, b' \n', b'\n ')),
                        (H80, changed(H80, b'F\0', b'E\0')), (H80, b'x' * 80), (PAIR, changed(PAIR, b"'b'", b"'c'")), (H80[:9], b'y' + H80[1:9]), (H80[:7], b'y' + H80[1:7]), (H80[:8] + b'F\0ab', H80[:8] + b'F\0cd')):
        yield from (cuts_case(kind, file, 100, ROOMS, other=other) for kind in ('two', 'bytes', 'equal'))


def named_calls():
    """Calls that document 02 and its readings name: each outcome's place, the end after each number of bytes, feeding after an outcome and after the end, buffers that are just enough."""
    empty = MAGIC + b'\1\0\0\0'
    yield from (calls_case(made, text) for made, text in (
        ([b'xxxxxxx', b'xx'], 10), ([MAGIC + b'\1', b'\1ab'], 10), ([empty], 0), ([empty[:9], b'', b'\0ab'], 0), ([MAGIC + b'\1\0\1\0'], 0), ([MAGIC + b'\1\0\1\0$'], 1), ([files.file_of(b'$' * 9)[:12], b'$' * 6, b'$', b'$'], 9),
        ([files.file_of(b'', (2, 0), 131_073)], 0), ([files.file_of(b'', (2, 0), 131_073)[:11], b'\0\0'], 0), ([files.file_of(b'', (2, 0), 1)], 0), ([], 0), ([END], 0), ([END, END, b'', H80, END], 90), ([b''] * 3 + [END], 0)))
    for k in [*range(13), 20, 79, 80]:
        yield from (calls_case(made, 70) for made in ([H80[:k], END], [H80[:k], END, H80[k:], END], [H80[:k], b'', H80[k:] + b'ab', H80, END], [H80[:k]], [b'y' + H80[1:k], END]))
    for file, _ in [(file, want) for file, want in files.EDGES if len(file) < 400] + [(H80, 0), (PAIR, 0)]:
        length, rooms = needed(file)
        for text in (max(0, min(length, 500) - 1), min(length, 500), min(length, 500) + 1):
            yield calls_case([file[:len(file) // 2], file[len(file) // 2:], b'zz', END], text, rooms if text % 2 else ROOMS)
    for k in range(81):
        yield calls_case([H80[:k], H80[k:]], 75)


def buffers():
    """A buffer that is shorter or longer in a later call."""
    for first, later in ((70, 69), (70, 20), (70, 0), (200, 70), (70, 200), (0, 70)):
        yield from (calls_case([(first, H80[:k]), (later, H80[k:]), (200, b'x'), END], 200) for k in (4, 9, 10, 11, 30, 50, 79, 80))


def any_numbers():
    """Twenty numbers that no feeding gives: each in turn at odd values, in five feeders; every said with every version and order."""
    odd = (0, 1, 2, 3, 4, 5, 10, 11, 12, 13, 147, 255, 256, 257, 256 + 147, 2 ** 32, 2 ** 63, MOST - 10, MOST)
    head = lambda taken: [*H80[:12], taken] + [0] * 7
    for base, rest in (([0] * 20, H80), (head(8), H80[8:]), (head(10), H80[10:]), ([*H80[:10], 9, 9, 10] + [0] * 7, H80[10:]), ([*H80[:12], 80, 255, 1, 0, 1, 1, 0, 80], b'ab')):
        for place in range(20):
            for value in odd:
                numbers = [*base]
                numbers[place] = value
                yield calls_case([rest, b'ab', END], 75, ROOMS, numbers)
                if value in (0, 1, 12, 255, MOST):
                    yield calls_case([END, b'ab', END], 75, ROOMS, numbers)
    for said in (*range(42), 100, 254, 255, 256, 256 + 255, 2 ** 64 - 1):
        for version in (0, 1, 2, 3, 4, 257, MOST) if said == 255 else (0, 1, 7):
            for order in (0, 1, 2, 256, MOST) if said == 255 else (0, 5):
                numbers = [*H80[:12], 30, said, version, order, MOST, 7, 2 ** 32, 10]
                yield from (calls_case(made, 75, ROOMS, numbers) for made in ([b'abc', b'', END], [END, b'abc']))
    # the bytes so far: of any head, with any count of bytes taken, and with the 5s of a text buffer
    for front in (H80[:12], MAGIC + b'\2\0\4\0\0\0', MAGIC + b'\1\0\4\0\7\7', MAGIC + b'\3\0\0\0\0\0', MAGIC + b'\1\0\0\0\7\7', b'x' * 12, MAGIC + b'\1\1\0\0\0\0', MAGIC + b'\2\0\1\0\2\0', MAGIC + b'\2\0'):
        for taken in (*range(18), 40, 87, 88, 2 ** 63, MOST - 12, MOST):
            yield from (calls_case(made, text, ROOMS, [*(front + bytes(4))[:12], taken] + [0] * 7) for text in (0, 3, 4, 5, 75) for made in ([b'', b'{}{}{}{}', END],))


def random_ones():
    rng = random.Random(31)
    chosen = [file for file in files.generated(1_500, 32) if len(file) < 400]
    yield from (feeds.random_calls(rng, file) for file in chosen)


SOURCES = (('every cutting of short files', short_files), ('whole headers', whole_headers), ('cuts in three', in_three), ('long texts', long_files), ('another file fed', differing), ('named calls', named_calls),
           ('other buffers', buffers), ('any numbers', any_numbers), ('random calls', random_ones))
