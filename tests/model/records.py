"""Records for the writer: the edges that document 01 and its readings name, with their answers; generated ones; and tables that no reading gives."""
import random

import files
import reader
import rule
import writer
from reader import Type

I4 = Type('plain', (b'<', b'i', 4, None))
MOST = reader.MOST


def plain(text):
    return Type('plain', rule.type_string(text))


def record(*fields):
    return Type('record', len(fields), [one for _, one in fields], [name for name, _ in fields])


def array(shape, found):
    for n in reversed(shape):
        found = Type('array', n, [found])
    return found


def nested(count, found):
    for _ in range(count):
        found = record((b'a', found))
    return found


def of_length(length, found=I4, first=b''):
    """A record whose unpadded dict text with shape (3) has that many bytes, by the length of one name."""
    return record((first + b'n' * (length - len(writer.text_of(record((first, found)), [3], False))), found))


def accented(length):
    """One whose name is not ASCII."""
    return of_length(length, first='\u00e9'.encode())


LONG = 10 ** 6
DEEP = nested(16, I4)
WIDE = record(*[(b'a', I4)] * 512)
HUGE = record((b'a', plain(b'|S%d' % MOST)), (b'b', plain(b'|S1')))
HIGH = record((b'a', array([1] * 33, I4)))

# dtype, shape, whether Fortran, room -> the refusal's number, or 0
EDGES = [
    (I4, [3], False, 128, 0), (I4, [3], False, 127, 28), (I4, [3], False, 80, 28), (I4, [3], False, 0, 28), (I4, [3], True, 128, 0), (record((b'', I4)), [], True, 128, 0),
    (record((b'a', plain(b'<i2')), (b'b', array([2], plain(b'<U3')))), [2, 3], False, 128, 0), (plain(b'<i08'), [3], False, 128, 0), (plain(b'<O'), [3], False, 128, 0),
    (plain(b'>M8[as]'), [3], False, 128, 0),
    # texts of 53 and 54 bytes, none and 63 spaces; then of 51, 52 and 55
    (plain(b'|O'), [], True, 64, 0), (plain(b'|O'), [], True, 63, 28), (I4, [], True, 128, 0), (I4, [], True, 127, 28), (record(), [], True, 64, 0), (record(), [], False, 64, 0), (I4, [], False, 128, 0),
    (record(), [3], False, 128, 0), (record(), [3], False, 127, 28),
    (record((b"it's \\ \r\n\t\"\x00", I4)), [1], False, LONG, 0), (record(('\u00e9'.encode(), I4)), [1], False, LONG, 0), (record((b'\xed\xa0\x80', I4)), [1], False, LONG, 27),
    (record((b'\xc3', I4), (b'\xa9', I4)), [1], False, LONG, 27),
    # 27
    (array([2], I4), [3], False, LONG, 27), (array([1] * 33, I4), [3], False, LONG, 27),
    # 13, 20, 21, 22
    (I4, [1] * 32, False, LONG, 0), (I4, [1] * 33, False, LONG, 13), (record((b'a', array([1] * 32, I4))), [], False, LONG, 0), (HIGH, [], False, LONG, 13),
    (record((b'a', array([1] * 32, record((b'b', array([1] * 32, I4)))))), [], False, LONG, 0),
    (record(*[(b'a', I4)] * 511), [], False, LONG, 0), (WIDE, [], False, LONG, 20), (of_length(65_536 + 62), [3], False, LONG, 0),
    (record((b'n' * 65_536, I4)), [], False, LONG, 0), (record((b'n' * 65_537, I4)), [], False, LONG, 20),
    (plain(b'<U%d' % (2 ** 62 - 1)), [], False, LONG, 0), (plain(b'<U%d' % 2 ** 62), [], False, LONG, 21), (HUGE, [], False, LONG, 21),
    (record((b'a', HUGE), (b'b', plain(b'|O'))), [], False, LONG, 0),
    (record((b'a', array([0, 2 ** 61], plain(b'<i8')))), [], False, LONG, 21), (record((b'a', array([2 ** 61, 0], plain(b'<i8')))), [], False, LONG, 0),
    (I4, [2 ** 32, 2 ** 32], False, LONG, 22), (I4, [2 ** 32, 2 ** 32 - 1], False, LONG, 0), (I4, [0, 2 ** 40, 2 ** 40], False, LONG, 22),
    (I4, [0, 2 ** 40, 2 ** 40], True, LONG, 0), (I4, [2 ** 40, 2 ** 40, 0], False, LONG, 0), (I4, [2 ** 40, 2 ** 40, 0], True, LONG, 22),
    # 7: "15 nested records with a sub-shape in the innermost open 32 brackets"
    (nested(14, record((b'a', array([2], I4)))), [], False, LONG, 0), (nested(15, record((b'a', I4))), [], False, LONG, 7), (nested(15, record()), [], False, LONG, 0),
    (nested(15, I4), [], False, LONG, 0), (DEEP, [], False, LONG, 7), (nested(14, record((b'a', array([2], record())))), [], False, LONG, 0),
    (nested(15, record((b'[(', plain(b'|O')))), [], False, LONG, 7), (nested(600, I4), [], False, LONG, 20), (nested(500, I4), [], False, LONG, 7),
    # (1,0) and (2,0), 4 and 28
    (of_length(65_525), [3], False, 65_536, 0), (of_length(65_525), [3], False, 65_535, 28), (of_length(65_526), [3], False, 65_600, 0), (of_length(65_526), [3], False, 65_599, 28),
    # not ASCII, so (3,0): texts of 115 and 116 bytes, none and 63 spaces
    (accented(115), [3], False, 128, 0), (accented(115), [3], False, 127, 28), (accented(116), [3], False, 192, 0), (accented(116), [3], False, 191, 28),
    (record((b"'" * 65_500, I4)), [3], False, LONG, 4), (record((b"'" * 65_498, I4)), [3], False, LONG, 4), (record((b"'" * 65_498, I4)), [3], False, 0, 4),
    (record((b"'" * 65_498 + '\u00e9'.encode(), I4)), [3], False, LONG, 4),
    # the order: 27, 13, 20, 21, 22, 7, 4, 28
    (record((b'a', HIGH), (b'\xff', I4)), [], False, LONG, 27), (record((b'a', HIGH), (b'b', WIDE)), [], False, LONG, 13),
    (record((b'a', WIDE), (b'b', HUGE)), [], False, LONG, 20), (HUGE, [2 ** 32, 2 ** 32], False, LONG, 21), (DEEP, [2 ** 32, 2 ** 32], False, LONG, 22),
    (record((b"'" * 65_498, I4), (b'b', DEEP)), [3], False, LONG, 7), (DEEP, [3], False, 0, 7), (I4, [2 ** 32, 2 ** 32], False, 0, 22), (HUGE, [3], False, 0, 21),
    (HIGH, [3], False, 0, 13), (array([2], I4), [3], False, 0, 27),
]


def most_text():
    """Records at the edge of 4: unpadded texts of 131,059 and 131,060 bytes, one byte a letter and two, to a room of 131,072 bytes; and the first to one of a byte less."""
    for length, room, number in ((131_059, 131_072, 0), (131_059, 131_071, 28), (131_060, 131_072, 4)):
        count = (length - len(writer.text_of(record((b'', I4)), [3], False))) // 2
        rest = length - len(writer.text_of(record((b"'" * (count - 1), I4)), [3], False))
        yield record((b"'" * (count - 1) + b'n' * rest, I4)), [3], False, room, number


def given(found, shape, fortran, room):
    return writer.numbers_of(found), writer.names_of(found), shape, fortran, room


def name_of(rng):
    parts = ['a', 'b', 'x1', ' ', '"', '[', 'é', '日', '𝄞', '\t', '\x00', "'", '\\', '\n', '\r', '\x7f']
    return ''.join(rng.choice(parts[:6] if rng.random() < 0.6 else parts) for _ in range(rng.choice((0, 1, 1, 2, 5)))).encode()


def dimension(rng):
    return rng.choice((0, 1, 2 ** 31, 2 ** 32, 2 ** 40, 2 ** 61, 2 ** 63, MOST)) if rng.random() < 0.15 else rng.randrange(6)


def shape_of(rng):
    return [dimension(rng) for _ in range(rng.choice((0, 1, 1, 2, 2, 3, 4)))] if rng.random() < 0.97 else [1] * rng.choice((31, 32, 33, 40))


def dtype_of(rng, depth):
    if depth == 0 or rng.random() < 0.3:
        return plain(rng.choice(files.VALID))
    field = lambda: (name_of(rng), array(shape_of(rng) if rng.random() < 0.3 else [], dtype_of(rng, depth - 1)))
    return record(*[field() for _ in range(rng.choice((0, 1, 1, 2, 3, 4)))])


def generated(count, seed):
    """That many records, each with the room it needs, one byte less, more, or any; now and then outermost an array, deep, wide, or long."""
    rng = random.Random(seed)
    for _ in range(count):
        kind = rng.random()
        found = nested(rng.randrange(12, 17), dtype_of(rng, 1)) if kind < 0.03 else record(*[(name_of(rng), I4)] * rng.randrange(509, 514)) if kind < 0.033 else dtype_of(rng, rng.randrange(5))
        found = array([2], found) if kind > 0.99 else of_length(rng.choice((65_510, 65_524, 65_525, 65_526, 65_527, 65_540)), found) if kind > 0.988 else found
        shape, fortran = shape_of(rng), rng.random() < 0.5
        answer = writer.write(*given(found, shape, fortran, LONG))
        need = len(answer) if isinstance(answer, bytes) else 200
        yield found, shape, fortran, rng.choice((need, need, need, need - 1, need + 1, LONG, 0, rng.randrange(need)))


def damaged():
    """Tables and names that no reading gives: every number of some tables put to others, entries and name bytes dropped, added and exchanged."""
    bases = [I4, record(), plain(b'|O'), plain(b'>m8[us]'), plain(b'<U3'), record((b'a', I4), (b'bc', array([2, 3], plain(b'|S5')))),
             record((b'', record((b'x', plain(b'<f8')))), (b'y', record())), record((b'a', array([0], record((b'b', plain(b'|O'))))))]
    for base in bases:
        table, names = writer.numbers_of(base), writer.names_of(base)
        for place, number in enumerate(table):
            for other in {0, 1, 2, 3, 4, 8, 9, 60, 62, 97, 124, number + 1, max(number, 1) - 1, MOST} - {number}:
                yield table[:place] + [other] + table[place + 1:], names
        for cut in range(len(table)):
            yield table[:cut], names
        yield table + [0], names
        yield table + table[-writer.WIDTH:], names
        yield table + writer.numbers_of(I4), names
        yield table, names + b'a'
        yield table, names[:-1] + b'\xff' if names else b'\xff'
        if names:
            yield table, names[1:]
        entries = [table[k:k + writer.WIDTH] for k in range(0, len(table), writer.WIDTH)]
        for a in range(len(entries)):
            for b in range(a):
                swapped = list(entries)
                swapped[a], swapped[b] = entries[b], entries[a]
                yield [n for entry in swapped for n in entry], names
    yield writer.numbers_of(WIDE)[:-writer.WIDTH], b'a' * 512
    yield writer.numbers_of(WIDE)[:-1] + [0], b'a' * 512
    yield writer.numbers_of(WIDE), b'a' * 511
