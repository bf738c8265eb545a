#!/usr/bin/env python3
"""Times NumPy on the files of bench/inputs.py, in the form of bench/times.c; with a Python that has NumPy.

    bench/numpy_times.py FOLDER         lines `numpy WHAT INPUT NUMBER`: the median of nanoseconds for one call; or `numpy WHAT INPUT refuses`

Reading is `read_magic` and `read_array_header_1_0` or `_2_0` of numpy.lib.format, with the limit on a header's length raised; writing is `write_array_header_1_0` or `_2_0`. NumPy has no function for the
place of an element: `places` takes 1,000 elements by index and field name from an array in memory, without their values being looked at; `values` takes 1,000 that have a value here (no S, U, V) and calls `item()` of
each. Time is the thread's own on the processor.
"""
import functools
import io
import itertools
import operator
import os
import statistics
import sys
import time

import numpy as np
from numpy.lib import format as npy

SAMPLES, SAMPLE_NS, PLACES = 21, 2_000_000, 1_000


def sample(call, times):
    """Nanoseconds for one call, of so many."""
    begun = time.thread_time_ns()
    for _ in range(times):
        call()
    return (time.thread_time_ns() - begun) / times


def median(call):
    times = 1
    while sample(call, times) * times < SAMPLE_NS:
        times *= 2
    return statistics.median(sample(call, times) for _ in range(SAMPLES))


def tell(what, name, call):
    try:
        call()
    except (ValueError, TypeError) as e:
        print(f'numpy {what}: {name}: {str(e)[:100]!r}', file=sys.stderr)
        print('numpy', what, name, 'refuses', flush=True)
        return False
    print('numpy', what, name, f'{median(call):.1f}', flush=True)
    return True


def read(file):
    held = io.BytesIO(file)
    version = npy.read_magic(held)
    return (npy.read_array_header_1_0 if version == (1, 0) else npy.read_array_header_2_0)(held, max_header_size=1_000_000)


def path_to(dtype, k):
    """The path of bench/times.c to a plain type, as names and indices, and that type."""
    path = []
    while dtype.names or dtype.shape:
        if dtype.shape:
            path.append(tuple(k % n for n in dtype.shape))
            dtype = dtype.base
        else:
            path.append(dtype.names[0 if dtype[0].names else k % len(dtype.names)])
            dtype = dtype[path[-1]]
    return path, dtype


def places(file):
    """A function that takes 1,000 elements, those that bench/times.c asks for."""
    shape, _, dtype = read(file)
    array = np.zeros(shape, dtype)
    asked = [(np.unravel_index(k % array.size, shape), path_to(dtype, k)[0]) for k in range(PLACES)]

    def take():
        for index, path in asked:
            functools.reduce(operator.getitem, path, array[index])
    return take


def values(file):
    """A function that takes the values of 1,000 elements, those that bench/times.c asks for."""
    shape, _, dtype = read(file)
    array = np.zeros(shape, dtype)
    numbers = (k for k in itertools.count() if path_to(dtype, k)[1].kind not in 'SUV')
    asked = [(np.unravel_index(k % array.size, shape), path_to(dtype, k)[0]) for k in itertools.islice(numbers, PLACES)]

    def take():
        for index, path in asked:
            functools.reduce(operator.getitem, path, array[index]).item()
    return take


def main():
    if len(sys.argv) != 2:
        sys.exit(__doc__)
    with open(os.path.join(sys.argv[1], 'names.txt')) as f:
        names = f.read().split()
    for name in names:
        with open(os.path.join(sys.argv[1], name + '.npy'), 'rb') as f:
            file = f.read()
        if not tell('read', name, lambda: read(file)):
            continue
        shape, fortran, dtype = read(file)
        record = {'shape': shape, 'fortran_order': fortran, 'descr': npy.dtype_to_descr(dtype)}
        write = npy.write_array_header_1_0 if len(file) < 60_000 else npy.write_array_header_2_0
        tell('write', name, lambda: write(io.BytesIO(), record))
        tell('places', name, places(file))
        tell('values', name, values(file))


if __name__ == '__main__':
    main()
