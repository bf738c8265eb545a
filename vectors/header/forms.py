"""Headers to be read and records to be written, in the form in which they go to a program (docs/FRAMES.md), and document 01's answers by the models of tests/model."""
import itertools
import os
import random
import struct
import sys

HERE = os.path.dirname(os.path.abspath(__file__))
ROOT = os.path.dirname(os.path.dirname(HERE))
sys.path[:0] = [os.path.join(ROOT, 'tests', 'model'), os.path.dirname(HERE), os.path.join(os.path.dirname(HERE), 'npy')]
import calls
import files
import reader
import records
import rule
import writer

FULL = (512, 65_536, 32)


def needed(record):
    """The rooms that a record needs: entries, name bytes, dimensions."""
    return len(record.table), len(record.names), len(record.shape)


def rooms_of(file):
    """The rooms with which a file is asked: full; for an accepted one also exactly enough, each one short in turn, none at all; for another none at all."""
    yield FULL
    record = reader.read(file)
    if not isinstance(record, int):
        exact = needed(record)
        yield exact
        yield from (tuple(n - (k == one) for k, n in enumerate(exact)) for one in range(3) if exact[one] > 0)
    yield 0, 0, 0


def reads():
    """The recorded cases of reading, the edges first."""
    more = [files.H(shape=b'(' + b'1,' * 32 + b')'), files.H(b"[('a','<i4',(2,3)),('b',[('','<U3')])]", b'(2,3)', b'True'), files.H(b"[('\xc3\xa9','<i4'),('\\n\\'\\\\','|O')]", b'()'),
            files.H(b"'|a4'"), files.H(b"'|a4[us]'"), files.H(b"'>i" + b'9' * 30 + b"x'"), files.H(b"'<i99999999999999999999\\n'"), files.H(b"[(('title','n'),'<i4')]"), files.H(b"[('\x00','<i4')]")]
    for file in [file for file, _ in files.EDGES] + more:
        # a listing of 65,536 spaces says no more with other rooms
        for rooms in rooms_of(file) if len(file) < 3_000 else [FULL]:
            yield read_case(rooms, file)
    yield from generated_reads(8_500, 2, 400)


def generated_reads(count, seed, below):
    """Those of so many generated files that have fewer bytes, half of them with other rooms than full ones."""
    rng = random.Random(seed + 1)
    for file in files.generated(count, seed):
        if len(file) < below:
            yield read_case(rng.choice(list(rooms_of(file))) if rng.random() < 0.5 else FULL, file)


def long_reads():
    """Both sides of 4, of 20's name bytes, and of 23 where they meet; the rooms are full but for one case each."""
    for text in (files.padded(files.header(), 131_072), files.padded(files.header(), 131_073)):
        yield read_case(FULL, files.file_of(text))
    for count in (65_536, 65_537):
        file = files.file_of(files.header(b"[('" + b'n' * count + b"','<i4')]"), (2, 0))
        yield read_case(FULL, file)
        yield read_case((2, 65_535, 1), file)
    for text in (files.header(b"[('" + b'\\n' * 65_400 + b"','<i4')]"), b'{' * 131_072, files.padded(files.header(), 131_071) + b'\xff'):
        yield read_case(FULL, files.file_of(text, (3, 0)))


def dimension_reads():
    """Dimensions on both sides of each block of eight digits, of 2^64 and of twenty digits, in a shape and in a sub-shape; with a letter after them, and at the text's end."""
    edges = sorted({10 ** n - d for n in (1, 7, 8, 9, 15, 16, 17, 19, 20, 21, 24, 30) for d in (0, 1)} | {2 ** 64 - 1, 2 ** 64, 2 ** 64 + 4})
    for number in (str(edge).encode() for edge in edges):
        files_of = (files.H(shape=b'(0,' + number + b')'), files.H(b"[('a','<i4',(0," + number + b'))]'), files.H(shape=b'(' + number + b'x,)'), files.file_of(b"{'shape':(" + number))
        yield from (read_case(FULL, file) for file in files_of)


def held_reads():
    """The first bytes of files that are longer, cut around each part of the prefix and of the text; and 16,384 name bytes, and one more, in the room of the listing program."""
    for file in (files.H(), files.file_of(files.header(), (2, 0)), files.file_of(files.header(b"[('\xc3\xa9','<U3',(2,))]"), (3, 0)), files.H(b"'=i4'"), files.file_of(files.padded(files.header(), 131_073), (2, 0))[:200]):
        for cut in sorted({0, 5, 6, 7, 8, 9, 10, 11, 12, 13, len(file) // 2, len(file) - 1, len(file)}):
            yield read_case(FULL, file[:cut], True)
        yield read_case(FULL, file + b'\0', True)
        yield read_case((0, 0, 0), file, True)
    for count in (16_384, 16_385):
        file = files.file_of(files.header(b"[('" + b'n' * count + b"','<i4')]"))
        for longer in (False, True):
            yield read_case((512, 16_384, 32), file, longer)
            yield read_case((512, 16_384, 32), file[:-1], longer)


def read_case(rooms, file, longer=False):
    return struct.pack('<3IB', *rooms, longer) + file


def read_answer(case):
    *rooms, longer = struct.unpack_from('<3IB', case)
    return reader.line(reader.read(case[13:], *rooms, longer))


def writes():
    """The recorded cases of writing, the edges first, and after them tables that no reading gives."""
    for *edge, _ in records.EDGES:
        yield write_case(*records.given(*edge))
    for length, room in ((65_525, 65_536), (65_525, 65_535), (65_526, 65_600), (65_526, 65_599)):
        yield write_case(*records.given(escaped(length), [3], False, room))
    for table, names in itertools.islice(records.damaged(), 0, None, 3):
        yield write_case(table, names, [3], False, 1_000)
    for table, names in records.damaged():
        if not isinstance(writer.write(table, names, [3], False, 1_000), int):
            yield write_case(table, names, [3], True, 1_000)
    yield from generated_writes(1_500, 2)


def generated_writes(count, seed):
    for record in records.generated(count, seed):
        given = records.given(*record)
        if len(given[0]) < 40 * writer.WIDTH and len(given[1]) < 1_000:
            yield write_case(*given)


def long_writes():
    for *edge, _ in itertools.chain(records.EDGES, records.most_text()):
        yield write_case(*records.given(*edge))


def escaped(length):
    """A record whose dict text has that many bytes, half of them the backslashes before its name's quotes."""
    fixed = len(writer.text_of(records.record((b'', records.I4)), [3], False))
    count, odd = divmod(length - fixed, 2)
    return records.record((b"'" * count + b'n' * odd, records.I4))


def write_case(table, names, shape, fortran, room):
    return calls.case_of('write_header', [int(fortran), 0, 0, 0, room], table=table, names=names, shape=shape)


# ---- what run_npy alone is asked

MOST = reader.MOST
# Orders, and what is given in the place of one: "an order is 0 or 1".
ORDERS = (0, 1, 2, 255, 256, 2 ** 32, 2 ** 32 + 1, MOST)


def lent(rooms):
    """The numbers of a case that lends these rooms, in entries, bytes and dimensions."""
    entries, names, rank = rooms
    return [0, 0, 0, 0, writer.WIDTH * entries, names, rank]


def record_reads(most):
    """Files, first bytes of files and texts with the rooms that are lent, and so what the rooms then hold: the edges, in full rooms, in rooms that are exactly enough, one short in each, and none at all."""
    for file in [file for file, _ in files.EDGES]:
        if len(file) > most:
            if len(file) < 10 * most:
                yield calls.case_of('read', lent(FULL), file)
                yield calls.case_of('read_held', [1] + lent(FULL)[1:], file)
                yield calls.case_of('read_text', lent(FULL), file[10 if file[6:7] == b'\x01' else 12:])
            continue
        for rooms in rooms_of(file):
            yield calls.case_of('read', lent(rooms), file)
        yield calls.case_of('read_held', [1] + lent(FULL)[1:], file)
        yield calls.case_of('read_held', [MOST] + lent((2, 1, 1))[1:], file[:-1])
        text = file[10 if file[6:7] == b'\x01' else 12:]
        for rooms in rooms_of(file):
            yield calls.case_of('read_text', lent(rooms), text)
        # a table's room that is no whole number of entries
        yield calls.case_of('read', [0, 0, 0, 0, 8, 3, 1], file)
        yield calls.case_of('read', [0, 0, 0, 0, 35, MOST, MOST], file)
    for case in held_reads():
        *rooms, longer = struct.unpack_from('<3IB', case)
        if len(case) <= most:
            yield calls.case_of('read_held', [int(longer)] + lent(rooms)[1:], case[13:])
    for text in (b'', b'{', b'{}', b' ', files.header() * 2, b'\xff', files.header() + b'\n', b'[' * 33, files.header(b"'<i9'"), b'{' + b"'a': 1, " * 400 + files.header()[1:], files.padded(files.header(), 131_073)):
        yield calls.case_of('read_text', lent(FULL), text)


def asked_records():
    """Records as a caller lends them, well-formed or not: the edges, every ninth damaged table, generated ones."""
    for found, shape, fortran, *_ in records.EDGES:
        yield records.given(found, shape, fortran, 0)[:4]
    for table, names in itertools.islice(records.damaged(), 0, None, 9):
        yield table, names, [3], False
    for found, shape, fortran, _ in records.generated(300, 3):
        yield records.given(found, shape, fortran, 0)[:4]


def checks():
    """npy_check and npy_list of the same records, a few with orders and versions that are none, and of each with the room that is needed, one byte less, or none."""
    for number, (table, names, shape, fortran) in enumerate(asked_records()):
        order, record = ORDERS[number // 10 % len(ORDERS)] if number % 10 == 0 else int(fortran), dict(table=table, names=names, shape=shape)
        if 8 * len(table) + len(names) > 5_000:
            continue
        yield calls.case_of('check', [order], **record)
        if 8 * len(table) + len(names) > 1_500:
            continue
        version = (0, 4, 255, 256, 2 ** 32 + 1, MOST)[number // 10 % 6] if number % 10 == 5 else number % 3 + 1
        start = (0, 80, MOST, 2 ** 63)[number % 4]
        line = calls.answer(calls.case_of('list', [order, start, version, 0, MOST], **record))
        need = int(line.split(';')[0].split()[1]) if line.startswith('0 ') else 200
        yield calls.case_of('list', [order, start, version, 0, need], **record)
        if line.startswith('0 '):
            yield calls.case_of('list', [order, start, version, 0, (need - 1, 0, MOST)[number % 3]], **record)
    # the bytes of a type: each one alone in a table
    for what in dict.fromkeys(what for what in map(rule.type_string, files.type_strings.valid()) if not isinstance(what, int)):
        yield calls.case_of('check', [0], table=writer.numbers_of(reader.Type('plain', what)))
    # 513 entries, and 65,537 name bytes
    for found in (records.WIDE, records.of_length(65_637)):
        yield calls.case_of('check', [1], table=writer.numbers_of(found), names=writer.names_of(found))
    yield calls.case_of('list', [0, 80, 1, 0, 20_000], table=writer.numbers_of(records.WIDE), names=writer.names_of(records.WIDE))
    # 2 before 27
    yield calls.case_of('list', [2, 0, 4, 0, 0], table=writer.numbers_of(records.I4))


def shapes():
    """Counts and strides of shapes up to the most that a case has, in every order and number of one, in rooms that are enough, one short, or none."""
    rng = random.Random(9)
    named = [[], [0], [5], [5, 5], [3, 5], [2, 3], [2, 3, 4], [MOST], [MOST, 1], [MOST, 2], [2, MOST], [0, MOST, 2], [MOST, 2, 0], [2 ** 32, 2 ** 32], [2 ** 32, 2 ** 32 - 1], [0, 2 ** 40, 2 ** 40], [2 ** 40, 2 ** 40, 0],
             [1] * 32, [1] * 33, [1] * 64, [2] * 63, [2] * 64, [2] * 63 + [0], [0] + [2] * 63]
    for shape in named + [records.shape_of(rng) for _ in range(150)]:
        for order in ORDERS if len(shape) == 3 else ORDERS[:2]:
            yield calls.case_of('count', [order], shape=shape)
            for room in {len(shape), max(len(shape), 1) - 1, len(shape) + 1, MOST} if order < 2 else {len(shape)}:
                yield calls.case_of('strides', [order, 0, 0, 0, room], shape=shape)


def other_orders():
    """A header written in every order and number of one."""
    for order in ORDERS:
        yield calls.case_of('write_header', [order, 0, 0, 0, 128], shape=[3], table=writer.numbers_of(records.I4))
