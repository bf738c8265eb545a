"""A model of document 01's writer, written from its text ("Header bytes out"), with document 02's padding: a caller's record and the size of the lent room in, the header's bytes or the refusal's number out.
A caller lends a table of numbers, the names end to end, the shape and the order. A dtype is a reader.Type here; numbers_of and dtype_of go to its table and back.
"""
import sys

import reader
from reader import Refused, Type, automaton, refuse, rule

sys.setrecursionlimit(20_000)

# An entry of the table: parent, kind, order, letter, number, units, extent, bytes, name length (docs/DECISIONS.md).
WIDTH = 9
KINDS = ('plain', 'array', 'record')
UNITS = (None, b'Y', b'M', b'W', b'D', b'h', b'm', b's', b'ms', b'us', b'ns', b'ps', b'fs', b'as')
# "the fewest spaces and one LF that make prefix plus text a multiple of 16", which document 02 corrects: "a multiple of 64"
MULTIPLE = 64
MOST_OPEN = 32


def bytes_of(found):
    """The size in bytes, an object counting 0."""
    sizes = [bytes_of(one) for one in found.inner]
    return rule.item_size(found.what) or 0 if found.kind == 'plain' else sum(sizes) if found.kind == 'record' else found.what * sizes[0]


def entries_of(found):
    return 1 + sum(map(entries_of, found.inner))


def numbers_of(found, parent=0, name=None, table=None):
    """The table of a dtype."""
    table = [] if table is None else table
    number = len(table) // WIDTH
    order, letter, size, units = found.what if found.kind == 'plain' else (b'\x00', b'\x00', found.what, None)
    table += [parent, KINDS.index(found.kind), order[0], letter[0], size, UNITS.index(units), entries_of(found), min(bytes_of(found), reader.MOST), len(name or b'')]
    for one, its_name in zip(found.inner, found.names):
        numbers_of(one, number, its_name, table)
    return table


def names_of(found):
    return b''.join((name or b'') + names_of(one) for one, name in zip(found.inner, found.names))


def dtype_of(table, names):
    """The dtype whose table and names these are, or 27: a tree is read from them by kind, number and name alone, and everything is compared with that tree's own table."""
    entry, name = 0, 0

    def one():
        nonlocal entry, name
        if WIDTH * (entry + 1) > len(table):
            refuse(27)
        _, kind, order, letter, number, units, *_ = table[WIDTH * entry:WIDTH * (entry + 1)]
        entry += 1
        if kind == 0:
            return Type('plain', plain(order, letter, number, units))
        if kind == 1:
            return Type('array', number, [one()])
        if kind != 2 or number > len(table):
            refuse(27)
        names_read, inner = [], []
        for _ in range(number):
            length = table[WIDTH * entry + 8] if WIDTH * entry + 8 < len(table) else refuse(27)
            names_read.append(names[name:name + length])
            name += length
            inner.append(one())
        return Type('record', number, inner, names_read)

    found = one()
    if numbers_of(found) != list(table) or names_of(found) != names or found.kind == 'array' or not all(map(is_utf8, all_names(found))):
        refuse(27)
    return found


def plain(order, letter, number, units):
    """The type of these numbers, if a type string gives it."""
    if order > 255 or letter > 255 or units >= len(UNITS):
        refuse(27)
    what = bytes([order]), bytes([letter]), number, UNITS[units]
    text = b'%c%c%s%s' % (order, letter, b'' if what[1] == b'O' else b'%d' % number, b'[%s]' % what[3] if units else b'')
    return what if rule.type_string(text) == what else refuse(27)


def all_names(found):
    for one, name in zip(found.inner, found.names):
        if name is not None:
            yield name
        yield from all_names(one)


def is_utf8(name):
    try:
        name.decode()
        return True
    except UnicodeDecodeError:
        return False


def levels(found):
    """The sub-shape that a field was given, and the type below it."""
    shape = []
    while found.kind == 'array':
        shape.append(found.what)
        found = found.inner[0]
    return shape, found


def descr(found):
    """"`'<i4'`, or `[('a', '<i4'), ('b', '<f8', (2,3,)), ]` with every field followed by comma and space\""""
    if found.kind == 'plain':
        return b"'" + rule.printed(found.what).encode() + b"'"
    fields = []
    for one, name in zip(found.inner, found.names):
        shape, below = levels(one)
        fields.append(b'(' + reader.quoted(name) + b', ' + descr(below) + (b', (' + b''.join(b'%d,' % n for n in shape) + b')' if shape else b'') + b'), ')
    return b'[' + b''.join(fields) + b']'


def text_of(found, shape, fortran):
    """"`{'descr': D, 'fortran_order': False, 'shape': (3, ), }`, each dimension followed by comma and space\""""
    return b"{'descr': " + descr(found) + b", 'fortran_order': " + (b'True' if fortran else b'False') + b", 'shape': (" + b''.join(b'%d, ' % n for n in shape) + b'), }'


def padded(text, prefix):
    return text + b' ' * (-(prefix + len(text) + 1) % MULTIPLE) + b'\n'


def header_of(text):
    """Prefix and padded text: "Any non-ASCII byte: (3,0). Otherwise (1,0) if the padded text is at most 65,535 bytes, else (2,0).\""""
    version, prefix = ((1, 0), 10) if text.isascii() and len(padded(text, 10)) <= 65_535 else ((2, 0) if text.isascii() else (3, 0), 12)
    text = padded(text, prefix)
    return b'\x93NUMPY' + bytes(version) + len(text).to_bytes(prefix - 8, 'little') + text


def limited(found, shape, fortran):
    """13, 20, 21, 22 of a record."""
    every = [found]
    for one in every:
        every += one.inner
    if len(shape) > reader.MOST_DIMENSIONS or any(len(levels(one)[0]) > reader.MOST_DIMENSIONS for one in every):
        refuse(13)
    if len(every) > reader.MOST_ENTRIES or len(names_of(found)) > reader.MOST_NAMES:
        refuse(20)
    if found.size is not None and any(one.size > reader.MOST for one in every):
        refuse(21)
    if reader.product(shape) > reader.MOST or any(stride > reader.MOST for stride in reader.strides(shape, fortran)):
        refuse(22)


def written(found, shape, fortran):
    """The header's bytes for a record, whatever the room: 13, 20, 21, 22, 7, 4."""
    limited(found, shape, fortran)
    text = text_of(found, shape, fortran)
    verdict, _ = automaton.check(text)
    if verdict == 7:
        refuse(7)
    assert verdict == 'ok', text
    header = header_of(text)
    if len(header) - (10 if header[6] == 1 else 12) > reader.MOST_TEXT:
        refuse(4)
    return header


def write(table, names, shape, fortran, room):
    """The header's bytes, or the number: "27 (bad tree, type, order or UTF-8 name), 13, 20, 21, 22, 7, 4, 28"."""
    try:
        header = written(dtype_of(table, names), shape, fortran)
        return header if len(header) <= room else 28
    except Refused as refusal:
        return refusal.args[0]
