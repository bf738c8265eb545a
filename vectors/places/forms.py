"""Records with a file and what is asked of them: the cases of run_npy (docs/FRAMES.md), and the answers of documents 01 and 02 by the models of tests/model."""
import collections
import os
import sys

HERE = os.path.dirname(os.path.abspath(__file__))
sys.path[:0] = [os.path.join(os.path.dirname(HERE), 'npy')]
import calls

# A record as a caller lends it, with its data start and the bytes of the file.
Given = collections.namedtuple('Given', 'table names shape fortran start file')
# `n` for a place, `i` for the item's number, `b` for bytes, `p` for code points, `v` for a value; the room; the file's length; index and path.
Ask = collections.namedtuple('Ask', 'operation room length index path')


def case_of(given, ask):
    order, record = int(given.fortran), dict(shape=given.shape, index=ask.index, table=given.table, names=given.names, path=ask.path)
    if ask.operation == 'i':
        return calls.case_of('item_number', [order], shape=given.shape, index=ask.index)
    if ask.operation == 'n':
        return calls.case_of('place', [order, given.start, ask.length], **record)
    if ask.operation == 'v':
        return calls.case_of('element_value', [order, given.start], given.file[:ask.length], **record)
    return calls.case_of('element_bytes' if ask.operation == 'b' else 'element_points', [order, given.start, 0, 0, ask.room], given.file[:ask.length], **record)


def answers(given, asks):
    """The answers of documents 01 and 02, by the models."""
    return [calls.answer(case_of(given, ask)) for ask in asks]


def placed(first, length, what):
    """The line of a place."""
    return '0' + calls.decimal([first, length] + calls.type_numbers(what))


def shown(operation, found):
    """The line of an element, or of its refusal."""
    if isinstance(found, int):
        return f'{found};;;'
    return calls.room_line(0, len(found), written=found) if operation == 'b' else calls.room_line(0, len(found), points=found)
