"""Arrays that NumPy makes over random bytes, of plain and nested dtypes, the files that it writes of them, and random paths in them. Needs a Python with NumPy."""
import ast
import io

import numpy as np

LEAVES = ['?', 'i1', '<i2', '>i2', '<i4', '>i4', '<i8', 'u1', '>u8', '<f2', '<f4', '>f8', '<c8', '>c16', 'S1', 'S5', 'S5', '<U1', '<U3', '>U2', 'V3', '<M8[us]', '>m8[D]']
NAMES = ['a', 'b', 'port', 'x y', "it's", 'back\\', '日', 'f0', 'A']
SHAPES = [(), (1,), (3,), (5,), (2, 3), (3, 2), (4, 1, 2), (2, 3, 2), (2, 2, 2, 2), (1, 3), (0,), (2, 0, 3)]
DEEP = [shape for shape in SHAPES if len(shape) > 1]
SUB = [(), (), (), (2,), (3,), (2, 3), (2, 1, 2), (1,), (0,)]
TEXTS = ['', 'a', 'é', '\U0001d11e', 'ab', 'a\x00b', '日本', 'abc']


def dtype_of(rng, depth, leaves=LEAVES):
    """A dtype, packed or, now and then, with the gaps of a C compiler."""
    if depth == 0 or rng.random() < 0.35:
        return np.dtype(rng.choice(leaves))
    fields = []
    for name in rng.sample(NAMES, rng.choice((1, 2, 2, 3, 4))):
        sub = rng.choice(SUB)
        fields.append((name, dtype_of(rng, depth - 1, leaves), sub) if sub else (name, dtype_of(rng, depth - 1, leaves)))
    return np.dtype(fields, align=rng.random() < 0.25)


def array_of(rng, shape, dtype, order):
    """An array over random bytes, a third of them zero, in which most elements of U hold texts."""
    data = bytearray(rng.choice((0, rng.randrange(256), rng.randrange(256))) for _ in range(int(np.prod(shape, dtype=object)) * dtype.itemsize))
    array = np.ndarray(shape, dtype, buffer=data, order=order)
    spread_texts(rng, array)
    return array


def spread_texts(rng, array):
    for name in array.dtype.names or ():
        spread_texts(rng, array[name])
    if array.dtype.kind == 'U' and rng.random() < 0.85:
        for index in np.ndindex(array.shape):
            array[index] = rng.choice(TEXTS)


def written(array):
    """The file that NumPy writes, and where its data starts."""
    out = io.BytesIO()
    np.lib.format.write_array(out, array)
    file = out.getvalue()
    return file, len(file) - array.nbytes


def descr_of(file, start):
    return ast.literal_eval(file[10 if file[6] == 1 else 12:start].decode())['descr']


def pick(rng, view, dtype, descr):
    """Follows a random path below a view: the view of one element and the path; None where an array of length 0 is met. `view` has one element of `dtype`."""
    path = []
    while dtype.names:
        name = rng.choice(dtype.names)
        # NumPy writes gaps as fields without a name, so a field's number is that of its place in the descr
        number = next(k for k, field in enumerate(descr) if field[0] == name)
        path.append(number)
        descr, dtype, view = descr[number][1], dtype[name], view[name]
        if dtype.shape:
            if 0 in dtype.shape:
                return None
            at = [rng.randrange(n) for n in dtype.shape]
            path += at
            view = view[(Ellipsis, *(slice(i, i + 1) for i in at))]
            dtype = dtype.base
    return view, path
