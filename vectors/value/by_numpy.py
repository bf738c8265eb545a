"""The value of an element by NumPy: the four numbers of include/npy.h, made of what NumPy says of an array of one element. Needs a Python with NumPy."""
import numpy as np

UNITS = 'Y M W D h m s ms us ns ps fs as'.split()
MOST = 2 ** 64 - 1
# The types that have values.
VALUED = {*'?bhilqBHILQefdFDmM'}


def bits(number):
    """The bits of a float in memory."""
    return int.from_bytes(number.tobytes(), 'little')


def value(element):
    """The value of an array of one element, 31 for a type without values, or 32 for a bool byte above 1, which NumPy takes for True. A byte order is turned and a half float is widened by NumPy's
    own conversions."""
    element = element.reshape(-1)[:1]
    kind, size = element.dtype.kind, element.dtype.itemsize
    if element.dtype.char not in VALUED:
        return 31
    if kind == 'b':
        return (0, int(element[0]), 0, 0) if element.tobytes() <= b'\1' else 32
    if kind in 'iu':
        return 'iu'.index(kind) + 1, int(element[0]) & MOST, 0, 0
    if kind in 'mM':
        return 7, int(element.astype('<i8')[0]) & MOST, 0, UNITS.index(np.datetime_data(element.dtype)[0]) + 1
    if kind == 'c':
        turned = element.astype(f'<c{size}')
        return size // 8 + 4, bits(turned.real), bits(turned.imag), 0
    return (4 if size == 8 else 3), bits(element.astype('<f8' if size == 8 else '<f4')), 0, 0


def value_of_run(text, run):
    """The same of a run of bytes by its type string."""
    return value(np.ndarray(1, np.dtype(text), bytes(run)))
