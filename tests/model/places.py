"""A model of document 01's places, written from its text: "A place starts at data start + item size times the sum of index times stride + the offset inside the item; a path is one number for each
record (its field's, from 0) or array level; sub-arrays go row by row." """
import reader
import rule
import writer


def inside(found, path):
    """The offset inside a dtype, its length and its plain type, or 26."""
    if found.kind == 'plain':
        return (0, found.size, rule.printed(found.what)) if not path else 26
    if not path or path[0] >= found.what:
        return 26
    below = found.inner[path[0] if found.kind == 'record' else 0]
    before = sum(one.size for one in found.inner[:path[0]]) if found.kind == 'record' else path[0] * below.size
    rest = inside(below, path[1:])
    return rest if rest == 26 else (before + rest[0], *rest[1:])


def place(record, length, index, path):
    """Start, length and plain type of what an index and a path name in a file of that many bytes, or 24, 25, 26, in this order."""
    size = record.item_size()
    if size is None:
        return 24
    if length < record.data + record.count() * size:
        return 25
    if len(index) != len(record.shape) or any(i >= n for i, n in zip(index, record.shape)):
        return 26
    found = inside(record.dtype, path)
    if found == 26:
        return 26
    return (record.data + size * sum(i * stride for i, stride in zip(index, record.strides())) + found[0], *found[1:])


def given(table, names, shape, fortran, data):
    """A caller's record, or the first of 27, 13, 20, 21, 22 that applies."""
    try:
        record = reader.Record()
        record.dtype, record.shape, record.fortran, record.data = writer.dtype_of(table, names), shape, fortran, data
        writer.limited(record.dtype, shape, fortran)
        record.table = reader.table_of(record.dtype)
        return record
    except reader.Refused as refusal:
        return refusal.args[0]


def item_number(shape, fortran, index):
    """The number of the item that an index names, or 13, 22, 26."""
    if len(shape) > reader.MOST_DIMENSIONS:
        return 13
    strides = reader.strides(shape, fortran)
    if reader.product(shape) > reader.MOST or any(stride > reader.MOST for stride in strides):
        return 22
    if len(index) != len(shape) or any(i >= n for i, n in zip(index, shape)):
        return 26
    return 'item %d' % sum(i * stride for i, stride in zip(index, strides))


def element(record, file, index, path, read, *room):
    """"A string element is read after its place: 29, 23." And of a value 31, 32: "both after 26, 31 first". `read` is elements.read_bytes or elements.read_points with a room, or elements.read_value."""
    found = place(record, len(file), index, path)
    if isinstance(found, int):
        return found
    start, length, text = found
    return read(rule.type_string(text.encode()), file[start:start + length], *room)
