"""A model of elements: S, U and V from the bytes of one element and back, written from document 01's text ("String elements"), and the value of one, written from that of document 02's
wish 1. A type is what rule.type_string gives; it is for the caller to have 27 judged before. An answer is the bytes, the points or the value, or the refusal's number; `room` counts bytes, and for
read_points code points."""
from writer import UNITS


def is_scalar(point):
    return point < 0xD800 or 0xDFFF < point < 0x110000


def read_bytes(what, run, room):
    """"S: trailing zero bytes are dropped. V: nothing is dropped.\""""
    _, letter, _, _ = what
    if letter not in (b'S', b'V'):
        return 26
    left = run.rstrip(b'\x00') if letter == b'S' else run
    return left if len(left) <= room else 23


def read_points(what, run, room):
    """"Each four bytes give a Unicode scalar value or refusal 29; then trailing zeros are dropped. Room is asked for what is left.\""""
    order, letter, _, _ = what
    if letter != b'U':
        return 26
    if len(run) % 4:
        return 29
    points = [int.from_bytes(run[k:k + 4], 'big' if order == b'>' else 'little') for k in range(0, len(run), 4)]
    if not all(map(is_scalar, points)):
        return 29
    while points and points[-1] == 0:
        points.pop()
    return points if len(points) <= room else 23


def write_bytes(what, value, room):
    """"Writing S or U fills up with zeros; V takes exactly its size, else 30.\""""
    _, letter, size, _ = what
    if letter not in (b'S', b'V'):
        return 26
    if len(value) > size or letter == b'V' and len(value) < size:
        return 30
    return value + bytes(size - len(value)) if size <= room else 28


def write_points(what, value, room):
    order, letter, size, _ = what
    if letter != b'U':
        return 26
    if not all(map(is_scalar, value)):
        return 29
    if len(value) > size:
        return 30
    if 4 * size > room:
        return 28
    return b''.join(point.to_bytes(4, 'big' if order == b'>' else 'little') for point in list(value) + [0] * (size - len(value)))


# ---- values: (kind, first, second, units), as include/npy.h has them; what is not used is 0

BOOL, SIGNED, UNSIGNED, SINGLE, DOUBLE, SINGLE_PAIR, DOUBLE_PAIR, TIME = range(8)
KINDS = {b'b': BOOL, b'i': SIGNED, b'u': UNSIGNED, b'm': TIME, b'M': TIME}
# "16-byte floats, 32-byte complex, S, U and V have no value here", nor has an object, which no place gives
FLOATS = {(b'f', 2): SINGLE, (b'f', 4): SINGLE, (b'f', 8): DOUBLE, (b'c', 8): SINGLE_PAIR, (b'c', 16): DOUBLE_PAIR}


def single_of_half(half):
    """The 32 bits of "the f32 of exactly the same number", from sign, exponent and fraction alone: no float is made on the way."""
    sign, exponent, fraction = half >> 15, half >> 10 & 31, half & 1023
    if exponent == 31:
        # "infinities stay infinities, and a NaN keeps its sign and its ten payload bits at the top of the wider payload"
        return sign << 31 | 255 << 23 | fraction << 13
    if exponent == 0 and fraction == 0:
        return sign << 31
    # the number is digits * 2 ** (place - 25), and its leading one counts 2 ** (leading + place - 25)
    digits, place = (fraction, 1) if exponent == 0 else (1024 + fraction, exponent)
    leading = digits.bit_length() - 1
    return sign << 31 | leading + place - 25 + 127 << 23 | digits - (1 << leading) << 23 - leading


def signed(number, width):
    """The number of that many bytes in two's complement, as 64 bits."""
    return number - (number >> 8 * width - 1 << 8 * width) & 2 ** 64 - 1


def read_value(what, run):
    """"Give the element at a place as a value: bool (byte 0 or 1), signed, unsigned, a single or double float, a complex pair of either, or a time count with its unit." 31, 32; and between them 27
    for a run that is not as long as its type, which no place gives."""
    order, letter, size, units = what
    kind = KINDS.get(letter, FLOATS.get((letter, size)))
    if kind is None:
        return 31
    if len(run) != size:
        return 27
    # "in either byte order": each part of a pair is turned by itself, the real one first
    parts = [run[:size // 2], run[size // 2:]] if letter == b'c' else [run]
    first, second = ([int.from_bytes(part, 'big' if order == b'>' else 'little') for part in parts] + [0])[:2]
    if kind == BOOL and first > 1:
        return 32
    if kind in (SIGNED, TIME):
        first = signed(first, size)
    if (letter, size) == (b'f', 2):
        first = single_of_half(first)
    return kind, first, second, UNITS.index(units)
