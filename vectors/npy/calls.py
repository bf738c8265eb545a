"""The cases of run_npy (docs/FRAMES.md), one for each call of a function of include/npy.h, and the answers of documents 01 and 02 by the models of tests/model."""
import collections
import os
import struct
import sys

HERE = os.path.dirname(os.path.abspath(__file__))
ROOT = os.path.dirname(os.path.dirname(HERE))
sys.path[:0] = [os.path.join(ROOT, 'tests', 'model'), os.path.dirname(HERE)]
import elements
import frames
import places
import reader
import rule
import writer

OPERATIONS = ('read read_held read_text type_read check place count item_number strides element_bytes element_points read_bytes read_points write_bytes write_points type_print '
              'write_header list element_value read_value').split()
# Those that lend no room but that of their values.
VALUES_ALONE = 'type_read check place element_value read_value'.split()
# What the program lends at most: bytes; numbers, or code points; and of a record the table's numbers, name bytes, dimensions.
MOST_BYTES, MOST_NUMBERS, MOST_TABLE, MOST_NAMES, MOST_SHAPE = 131_088, 1_024, 4_608, 65_536, 64


def numbers(members):
    """A part of numbers: one byte that says how many bytes each of them has, and these."""
    width = max([1] + [(n.bit_length() + 7) // 8 for n in members])
    return bytes([width]) + b''.join(n.to_bytes(width, 'little') for n in members) if members else b''


def case_of(operation, given=(), file=b'', shape=(), index=(), table=(), names=b'', path=()):
    """A case, without the empty parts at its end and the zeros at the end of what is given."""
    given = list(given)
    while given and given[-1] == 0:
        given.pop()
    parts = [file, numbers(given), numbers(shape), numbers(index), numbers(table), names, numbers(path)]
    while parts and not parts[-1]:
        parts.pop()
    return bytes([OPERATIONS.index(operation)]) + b''.join(struct.pack('<I', len(part)) + part for part in parts)


def parts_of(case):
    """The operation's name, the seven numbers that are given, and the other six parts in their order."""
    parts, at = [], 1
    for _ in range(7):
        (length,) = struct.unpack_from('<I', case, at) if at < len(case) else (0,)
        parts.append(case[at + 4:at + 4 + length])
        at += 4 + length
    file, given, shape, index, table, names, path = parts
    unpacked = lambda part: [int.from_bytes(part[k:k + part[0]], 'little') for k in range(1, len(part), part[0])] if part else []
    return OPERATIONS[case[0]], (unpacked(given) + [0] * 7)[:7], file, unpacked(shape), unpacked(index), unpacked(table), names, unpacked(path)


# ---- the line

def decimal(members):
    return ''.join(f' {n}' for n in members)


def room_of(members):
    """A room that begins with these, without the 5s at its end."""
    members = list(members)
    while members and members[-1] == 5:
        members.pop()
    return members


def record_line(number, values=(), table=(), names=b'', shape=()):
    return f'{number}{decimal(values)};{decimal(room_of(table))};{bytes(room_of(names)).hex()};{decimal(room_of(shape))}'


def room_line(number, count=None, members=(), written=b'', points=()):
    values = '' if count is None else f' {count}'
    return f'{number}{values};{decimal(room_of(members))};{bytes(room_of(written)).hex()};{decimal(room_of(points))}'


def value_line(found):
    """The line of a value, or of its refusal."""
    return str(found) if isinstance(found, int) else '0' + decimal(found)


# ---- the answers of documents 01 and 02

def answer(case):
    operation, given, *parts = parts_of(case)
    try:
        return ANSWERS[operation](given, *parts)
    except reader.Refused as refusal:
        number = refusal.args[0]
    if operation in VALUES_ALONE:
        return str(number)
    return f'{number};;;'


def checked(found):
    """What a model gives, where it is no number of a refusal."""
    return reader.refuse(found) if isinstance(found, int) else found


def fortran_of(order):
    return order == 1 if order in (0, 1) else reader.refuse(27)


def record_of(order, table, names, shape, start=0):
    return checked(places.given(table, names, shape, fortran_of(order), start))


def type_numbers(what):
    order, letter, size, units = what
    return [order[0], letter[0], size, writer.UNITS.index(units)]


def read(given, file, *_, held=False):
    record = checked(reader.read(file, min(given[4], MOST_TABLE) // writer.WIDTH, min(given[5], MOST_NAMES), min(given[6], MOST_SHAPE), held and given[0] != 0))
    values = [record.version[0], record.fortran, len(record.shape), len(record.table), len(record.names), record.data]
    return record_line(0, map(int, values), writer.numbers_of(record.dtype), record.names, record.shape)


def read_text(given, text, *_):
    record = checked(reader.read_text(text, min(given[4], MOST_TABLE) // writer.WIDTH, min(given[5], MOST_NAMES), min(given[6], MOST_SHAPE)))
    return record_line(0, map(int, [record.fortran, len(record.shape), len(record.table), len(record.names)]), writer.numbers_of(record.dtype), record.names, record.shape)


def type_read(given, text, *_):
    return '0' + decimal(type_numbers(checked(rule.type_string(text))))


def check(given, file, shape, index, table, names, path):
    record = record_of(given[0], table, names, shape)
    size = record.item_size()
    return '0' + decimal([len(shape), len(record.table), int(size is not None), size or 0, record.count()])


def place(given, file, shape, index, table, names, path):
    first, length, text = checked(places.place(record_of(given[0], table, names, shape, given[1]), given[2], index, path))
    return '0' + decimal([first, length] + type_numbers(rule.type_string(text.encode())))


def counted(shape, fortran):
    if reader.product(shape) > reader.MOST or any(stride > reader.MOST for stride in reader.strides(shape, fortran)):
        reader.refuse(22)
    return reader.product(shape)


def count(given, file, shape, *_):
    return room_line(0, counted(shape, fortran_of(given[0])))


def item_number(given, file, shape, index, *_):
    found = checked(places.item_number(shape, fortran_of(given[0]), index))
    return room_line(0, found.split()[1])


def strides(given, file, shape, *_):
    fortran = fortran_of(given[0])
    total = counted(shape, fortran)
    return room_line(0, total, members=reader.strides(shape, fortran)) if len(shape) <= min(given[4], MOST_NUMBERS) else reader.refuse(23)


def element_bytes(given, file, shape, index, table, names, path):
    found = checked(places.element(record_of(given[0], table, names, shape, given[1]), file, index, path, elements.read_bytes, min(given[4], MOST_BYTES)))
    return room_line(0, len(found), written=found)


def element_points(given, file, shape, index, table, names, path):
    found = checked(places.element(record_of(given[0], table, names, shape, given[1]), file, index, path, elements.read_points, min(given[4], MOST_NUMBERS)))
    return room_line(0, len(found), points=found)


def read_bytes(given, run, *_):
    found = checked(elements.read_bytes(writer.plain(*given[:4]), run, min(given[4], MOST_BYTES)))
    return room_line(0, len(found), written=found)


def read_points(given, run, *_):
    found = checked(elements.read_points(writer.plain(*given[:4]), run, min(given[4], MOST_NUMBERS)))
    return room_line(0, len(found), points=found)


def put(found):
    return room_line(0, len(checked(found)), written=found)


def write_bytes(given, value, *_):
    return put(elements.write_bytes(writer.plain(*given[:4]), value, min(given[4], MOST_BYTES)))


def write_points(given, file, shape, value, *_):
    return put(elements.write_points(writer.plain(*given[:4]), [n % 2 ** 32 for n in value], min(given[4], MOST_BYTES)))


def type_print(given, *_):
    text = rule.printed(writer.plain(*given[:4])).encode()
    return put(text if len(text) <= given[4] else 28)


def write_header(given, file, shape, index, table, names, path):
    return put(writer.write(table, names, shape, fortran_of(given[0]), min(given[4], MOST_BYTES)))


def listed(given, file, shape, index, table, names, path):
    if given[2] not in (1, 2, 3):
        reader.refuse(2)
    record = record_of(given[0], table, names, shape, given[1])
    record.version = given[2], 0
    text = b''.join(line + b'\n' for line in reader.lines_of(record))
    return put(text if len(text) <= min(given[4], MOST_BYTES) else 28)


def element_value(given, file, shape, index, table, names, path):
    return value_line(places.element(record_of(given[0], table, names, shape, given[1]), file, index, path, elements.read_value))


def read_value(given, run, *_):
    return value_line(elements.read_value(writer.plain(*given[:4]), run))


ANSWERS = dict(zip(OPERATIONS, (read, lambda *case: read(*case, held=True), read_text, type_read, check, place, count, item_number, strides, element_bytes, element_points,
                                read_bytes, read_points, write_bytes, write_points, type_print, write_header, listed, element_value, read_value)))


# ---- the recorded cases, in the order of the operations

def recorded():
    """The cases of crates/run_npy/stdin and the lines of its stdout."""
    folder = os.path.join(ROOT, 'crates', 'run_npy')
    if not os.path.exists(os.path.join(folder, 'stdin')):
        return []
    with open(os.path.join(folder, 'stdin'), 'rb') as asked, open(os.path.join(folder, 'stdout')) as answered:
        return list(zip(frames.cases_of(asked.read()), answered.read().split('\n')))


def recorded_of(*operations):
    return [(case, line) for case, line in recorded() if OPERATIONS[case[0]] in operations]


def record(cases, *operations):
    """Puts these cases in the place of the recorded ones of these operations, with the models' answers; gives how often each answer of an operation was met, 0 for one that is no refusal."""
    cases = list(dict.fromkeys(cases))
    assert all(OPERATIONS[case[0]] in operations for case in cases)
    kept = [(case, line) for case, line in recorded() if OPERATIONS[case[0]] not in operations]
    mine = [(case, answer(case)) for case in cases]
    both = sorted(kept + mine, key=lambda one: one[0][0])
    folder = os.path.join(ROOT, 'crates', 'run_npy')
    with open(os.path.join(folder, 'stdin'), 'wb') as asked, open(os.path.join(folder, 'stdout'), 'w') as answered:
        asked.writelines(frames.frame(case) for case, _ in both)
        answered.writelines(line + '\n' for _, line in both)
    met = collections.defaultdict(collections.Counter)
    for case, line in mine:
        met[OPERATIONS[case[0]]][refusal(line)] += 1
    for operation in operations:
        print(f'{operation}: {sum(met[operation].values())} cases:', ', '.join(f'{n} of {k}' if k else f'{n} accepted' for k, n in sorted(met[operation].items())))
    return met


def refusal(line):
    """The number that a line begins with."""
    return int(line.replace(';', ' ').split()[0])
