"""A model of document 01's reader, written from its text: the bytes of a file and the sizes of the lent rooms in, the record or the refusal's number out.
It takes the literal from vectors/literal/automaton.py and type strings from vectors/type_str/rule.py. Numbers have no bound here, so every limit is a test that can be read.
"""
import os
import sys

ROOT = os.path.dirname(os.path.dirname(os.path.dirname(os.path.abspath(__file__))))
sys.path[:0] = [os.path.join(ROOT, 'vectors', 'literal'), os.path.join(ROOT, 'vectors', 'type_str')]
import automaton
import rule

MOST = 2 ** 64 - 1
# The limits of 4, 13 and 20, and the rule for type strings; tests/npyz/compare-read puts others in their places to tell what npyz does.
MOST_TEXT, MOST_DIMENSIONS, MOST_ENTRIES, MOST_NAMES = 131_072, 32, 512, 65_536
type_string = rule.type_string


class Refused(Exception):
    """Carries the number."""


def refuse(number):
    raise Refused(number)


class Type:
    """A dtype as a tree: kind `plain` (what: the type, as rule.type_string gives it), `array` (what: its length) or `record` (what: its field count); the types inside,
    and for a record their names. `size` is in bytes, None where there is an `O` in it."""

    def __init__(self, kind, what, inner=(), names=None):
        self.kind, self.what, self.inner, self.names = kind, what, inner, names or [None] * len(inner)
        sizes = [one.size for one in inner]
        self.size = rule.item_size(what) if kind == 'plain' else None if None in sizes else sum(sizes) if kind == 'record' else what * sizes[0]


class Entry:
    """One entry of the table: a Type's kind, what and size, the number of its parent or None, and a field's name or None."""

    def __init__(self, found, parent, name):
        self.kind, self.what, self.size, self.parent, self.name = found.kind, found.what, found.size, parent, name


class Record:
    """dtype (a Type), table, names (decoded, end to end), shape, fortran; and beside the record version (a pair) and data, where the data starts."""

    def count(self):
        return product(self.shape)

    def strides(self):
        return strides(self.shape, self.fortran)

    def item_size(self):
        return self.table[0].size


def product(numbers):
    total = 1
    for n in numbers:
        total *= n
    return total


def strides(shape, fortran):
    """"C: stride k is the product of all dimensions after k. Fortran: of all before k.\""""
    return [product(shape[:k] if fortran else shape[k + 1:]) for k in range(len(shape))]


def preamble(file):
    """Version, text start and text end."""
    if len(file) < 8 or file[:6] != b'\x93NUMPY':
        refuse(1)
    version = (file[6], file[7])
    if version not in ((1, 0), (2, 0), (3, 0)):
        refuse(2)
    start = 10 if version == (1, 0) else 12
    if len(file) < start:
        refuse(3)
    length = int.from_bytes(file[8:start], 'little')
    if length > MOST_TEXT:
        refuse(4)
    return version, start, start + length


def is_list(value):
    return isinstance(value, list) and not isinstance(value, automaton.Items)


def dimensions(value):
    """The members of a shape or sub-shape: 11 or 12 at the first bad one. How many there are is judged elsewhere."""
    if not is_list(value) and not isinstance(value, tuple):
        refuse(11)
    found = []
    for member in value:
        if not isinstance(member, automaton.Integer):
            refuse(11)
        # `-0` is 0; a number of more than 20 digits is over 2^64-1
        digits = member.lstrip('-')
        if member.startswith('-') and digits != '0':
            refuse(11)
        if len(digits) > 20 or int(digits) > MOST:
            refuse(12)
        found.append(int(digits))
    return found


def descr(value, late):
    """The type of a descr, judged "depth first, left to right, each field as item count, name, inner descr, sub-shape". A sub-shape of over 32 dimensions is put into
    `late`, since its 13 comes after the whole descr."""
    if isinstance(value, bytes):
        read = type_string(value.raw)
        return refuse(read) if isinstance(read, int) else Type('plain', read)
    if not is_list(value):
        refuse(14)
    names, inner = [], []
    for field in value:
        if not is_list(field) and not isinstance(field, tuple) or len(field) not in (2, 3) or not isinstance(field[0], bytes):
            refuse(14)
        found = descr(field[1], late)
        shape = dimensions(field[2]) if len(field) == 3 else []
        if len(shape) > MOST_DIMENSIONS:
            late.append(13)
            shape = []
        # "Sub-shape (2,3) means 2 of 3 of the type"
        for n in reversed(shape):
            found = Type('array', n, [found])
        names.append(bytes(field[0]))
        inner.append(found)
    return Type('record', len(value), inner, names)


def table_of(found, parent=None, name=None, table=None):
    """"listed depth first, left to right, parent first: one entry for each plain type, array level and record\""""
    table = [] if table is None else table
    number = len(table)
    table.append(Entry(found, parent, name))
    for one, its_name in zip(found.inner, found.names):
        table_of(one, number, its_name, table)
    return table


def record_of(value):
    """The record that a value gives: 8 to 22."""
    if not isinstance(value, automaton.Items) or not all(isinstance(key, bytes) for key, _ in value):
        refuse(8)
    # "of equal keys the last counts"
    keys = {bytes(key): held for key, held in value}
    record = Record()

    def of(key):
        return keys[key] if key in keys else refuse(9)

    record.fortran = of(b'fortran_order')
    if record.fortran is not True and record.fortran is not False:
        refuse(10)
    record.shape = dimensions(of(b'shape'))
    if len(record.shape) > MOST_DIMENSIONS:
        refuse(13)
    late = []
    found = descr(of(b'descr'), late)
    if late:
        refuse(13)
    record.dtype, record.table = found, table_of(found)
    record.names = b''.join(entry.name for entry in record.table if entry.name is not None)
    if len(record.table) > MOST_ENTRIES or len(record.names) > MOST_NAMES:
        refuse(20)
    # "no `O`, and some entry's size over 2^64-1"
    if not any(entry.kind == 'plain' and entry.what[1] == b'O' for entry in record.table) and any(entry.size > MOST for entry in record.table):
        refuse(21)
    if record.count() > MOST or any(stride > MOST for stride in record.strides()):
        refuse(22)
    return record


def record_in(text, entries, name_bytes, dimensions_room):
    """The record of a header's text: 5 to 23."""
    try:
        text.decode('utf-8')
    except UnicodeDecodeError:
        refuse(5)
    verdict, rest = automaton.check(text)
    if verdict != 'ok':
        refuse(verdict)
    record = record_of(rest)
    if len(record.table) > entries or len(record.names) > name_bytes or len(record.shape) > dimensions_room:
        refuse(23)
    return record


def read_text(text, entries=512, name_bytes=65_536, dimensions_room=32):
    """The record of a text without its prefix, of any length, or the number of its refusal."""
    try:
        return record_in(text, entries, name_bytes, dimensions_room)
    except Refused as refusal:
        return refusal.args[0]


def read(file, entries=512, name_bytes=65_536, dimensions_room=32, longer=False):
    """The record, or the number of its refusal. Of a file that is longer than what is held of it: "a longer file whose header ends past those gets 23 right after 4"."""
    try:
        version, start, end = preamble(file)
        if end > len(file):
            refuse(23 if longer else 3)
        record = record_in(file[start:end], entries, name_bytes, dimensions_room)
        record.version, record.data = version, end
        return record
    except Refused as refusal:
        return refusal.args[0]


def quoted(name):
    """A name as the writer quotes it: "quoted with `'`, and backslash, `'`, CR, LF are escaped"."""
    return b"'" + name.replace(b'\\', b'\\\\').replace(b"'", b"\\'").replace(b'\r', b'\\r').replace(b'\n', b'\\n') + b"'"


def lines_of(record):
    """The lines of a record's listing."""
    numbers = lambda word, members: ' '.join([word] + [str(n) for n in members])
    size = record.item_size()
    lines = ['version %d.%d' % record.version, 'order ' + ('F' if record.fortran else 'C'), numbers('shape', record.shape), numbers('strides', record.strides()),
             f'count {record.count()}', f'item {"none" if size is None else size}', f'data {record.data}']
    out = [line.encode() for line in lines]
    for number, entry in enumerate(record.table):
        what = rule.printed(entry.what) if entry.kind == 'plain' else entry.what
        line = f'{number} {"-" if entry.parent is None else entry.parent} {entry.kind} {what}'.encode()
        out.append(line + (b' ' + quoted(entry.name) if entry.name is not None else b''))
    return out


def line(found):
    """The record, or the refusal, in one line."""
    return b'refused %d' % found if isinstance(found, int) else b'; '.join(lines_of(found))


def listing(file):
    """What the small program writes for a file."""
    record = read(file[:65_536], name_bytes=16_384, longer=len(file) > 65_536)
    return b'refused %d\n' % record if isinstance(record, int) else b'\n'.join(lines_of(record)) + b'\n'
