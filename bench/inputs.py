#!/usr/bin/env python3
"""Makes the files that are timed, the same each time.

    bench/inputs.py FOLDER         writes FOLDER/NAME.npy, headers alone, and FOLDER/names.txt, their names in order

    small       a header of 128 bytes for `<i4`, as NumPy writes it
    record20    a record of 20 fields of all letters
    deep        15 records one in the other, each with a sub-shape of 32 dimensions: the most that brackets, dimensions and entries allow, for the stack
    braces      a key that is ignored, with dicts one in the other, as deep as 32 brackets allow, for the stack
    flat        as many fields as a record may have, less one, each with a name of some 120 bytes, in a text that is set line by line
    escaped     the same with names of quotes, each after its backslash
    nested      records in records, as deep as 32 brackets allow, most of the text in the innermost, one of whose fields has a sub-shape
    shapes      fields with sub-shapes of 32 dimensions of 20 digits, each on a line of its own
    wide        one field with a sub-shape of thousands of dimensions of one digit, which 13 refuses after the whole descr
    digits-K-   the same with dimensions of K digits, 2 to 20 and 40, as many as there is room for; 12 refuses those of 40
    integer     a key that is ignored, with one integer of as many digits as there is room for
    sizes20     a record of 20 fields with sizes of 1 to 20 digits, zeros in front
    sizes       as many fields as in flat, with sizes of 230 digits, zeros in front

All from flat on but sizes20 are texts of 65,536 bytes (flat64, digits-8-64 ..) and of 131,072 (flat128 ..): the same with twice as many fields or members. What is missing to the length is blanks.
"""
import os
import sys

TYPES = ('<i4', '<f8', '|b1', '<u2', '>c16', '<M8[ns]', '<m8[us]', '|S12', '<U8', '|V6')
MOST = 2 ** 64 - 1
DIGITS = (*range(2, 21), 40)


def header(descr, shape='(10, 100)'):
    return f"{{'descr': {descr}, 'fortran_order': False, 'shape': {shape}, }}"


def file_of(text, length):
    """A file whose text has that many bytes: blanks and a line's end after it."""
    text = text.encode()
    assert len(text) < length, (len(text), length)
    text += b' ' * (length - 1 - len(text)) + b'\n'
    prefix = b'\x93NUMPY\x01\x00' + length.to_bytes(2, 'little') if length < 65_536 else b'\x93NUMPY\x02\x00' + length.to_bytes(4, 'little')
    return prefix + text


def name(number, length, piece='field_name_'):
    """A name of so many bytes with a number of its own, which no other has."""
    front = f'n{number}_'
    return front + (piece * length)[:length - len(front)]


def field(spelled, inner, shape=None):
    return f"('{spelled}', {inner})" if shape is None else f"('{spelled}', {inner}, {shape})"


def plain(number):
    return repr(TYPES[number % len(TYPES)])


def flat(count):
    return header('[' + ',\n'.join(' ' * 120 + field(name(k, 120), plain(k)) for k in range(count)) + ']')


def escaped(count):
    return header('[' + ',\n'.join(field(f'n{k}_' + "\\'" * 118, plain(k)) for k in range(count)) + ']')


def nested(count):
    inner = '[' + ',\n'.join(' ' * 120 + field(name(k, 125), plain(k), '(2, 3)' if k == 0 else None) for k in range(count)) + ']'
    # "15 nested records with a sub-shape in the innermost open 32 brackets"
    for level in range(14):
        inner = '[' + field(f'level_{level}', inner) + ', ' + field(f'beside_{level}', plain(level)) + ']'
    return header(inner)


def deep():
    inner = "'<i4'"
    for level in range(15):
        inner = '[' + field(f'level_{level}', inner, '(' + '1, ' * 32 + ')') + ']'
    return header(inner)


def shapes(count):
    """The innermost length is 0: no size is over 2^64-1."""
    def shape(number):
        return '(' + ',\n'.join(' ' * 118 + str(MOST - number - k) for k in range(31)) + ', 0)'
    return header('[' + ',\n'.join(field(name(k, 4_500), plain(k), shape(k)) for k in range(count)) + ']')


def wide(count):
    return header('[' + field('a', "'<i4'", '(' + ', '.join(str(1 + k % 9) for k in range(count)) + ')') + ']')


def digits(each, length):
    """Dimensions of so many digits; those of 20 are the largest there are."""
    def dimension(number):
        if each == len(str(MOST)):
            return str(MOST - 7 * number)
        return str(1 + number % 9) + ''.join(str((7 * number + 3 * k) % 10) for k in range(1, each))
    count = (length - len(header('[' + field('a', "'<i4'", '()') + ']'))) // (each + 2)
    return header('[' + field('a', "'<i4'", '(' + ', '.join(map(dimension, range(count))) + ')') + ']')


def sized(number, each):
    """A type of 8 bytes, its size written with so many digits."""
    return repr(('<i', '|S', '<f', '>u')[number % 4] + '8'.rjust(each, '0'))


def sizes(count):
    return header('[' + ',\n'.join(field(f'n{k}', sized(k, 230)) for k in range(count)) + ']')


def files():
    yield 'small', file_of(header("'<i4'", '(3,)'), 118)
    twenty = header('[' + ', '.join(field(f'field_{k}', plain(k)) for k in range(20)) + ']')
    yield 'record20', file_of(twenty, len(twenty) // 64 * 64 + 64 + 54)
    yield 'deep', file_of(deep(), 2_038)
    yield 'braces', file_of(header("'<i4'", '(3,)')[:-1] + "'x': " + "{'y': " * 31 + '0' + '}' * 32, 310)
    for what, half in ((flat, 255), (escaped, 254), (nested, 240), (shapes, 7), (wide, 21_750)):
        yield what.__name__ + '64', file_of(what(half), 65_536)
        yield what.__name__ + '128', file_of(what(2 * half), 131_072)
    for each in DIGITS:
        for length in (64, 128):
            yield f'digits-{each}-{length}', file_of(digits(each, length * 1024), length * 1024)
    for length in (64, 128):
        start = header("'<i4'", '(3,)')[:-1] + "'x': "
        yield f'integer{length}', file_of(start + '7' * (length * 1024 - len(start) - 2) + '}', length * 1024)
    twenty = header('[' + ', '.join(field(f'field_{k}', sized(k, k)) for k in range(1, 21)) + ']')
    yield 'sizes20', file_of(twenty, len(twenty) // 64 * 64 + 64 + 54)
    for length, count in ((64, 255), (128, 510)):
        yield f'sizes{length}', file_of(sizes(count), length * 1024)


def main():
    if len(sys.argv) != 2:
        sys.exit(__doc__)
    os.makedirs(sys.argv[1], exist_ok=True)
    names = []
    for name_of, file in files():
        with open(os.path.join(sys.argv[1], name_of + '.npy'), 'wb') as f:
            f.write(file)
        names.append(name_of)
    with open(os.path.join(sys.argv[1], 'names.txt'), 'w') as f:
        f.writelines(one + '\n' for one in names)


if __name__ == '__main__':
    main()
