#!/usr/bin/env python3
"""Writes docs/BENCHMARKS.md from the lines of the benchmark programs, and judges the goals.

    bench/report.py LINES FILE         LINES has lines `WHO WHAT INPUT NUMBER`, as bench/run gathers them

Prints each goal with what was measured; exit status 1 where one is missed. What FILE has between the two marks of `KEPT` is kept as it is.
"""
import collections
import datetime
import os
import platform
import sys

KEPT = '<!-- from here: kept by bench/run -->', '<!-- up to here: kept by bench/run -->'
KEPT_TEXT = 'Not measured yet.'
# functions that ask for memory from the heap, or are asked for it
HEAP = {'malloc', 'calloc', 'realloc', 'reallocarray', 'free', 'aligned_alloc', 'posix_memalign', 'memalign', 'valloc', 'pvalloc', 'mmap', 'mmap64', 'mremap', 'brk', 'sbrk', 'strdup', 'strndup',
        '__rust_alloc', '__rust_alloc_zeroed', '__rust_realloc', '__rust_dealloc'}
MOST_STACK, FASTER_THAN_NUMPY, WITHIN_C, MOST_DOUBLED = 65_536, 100, 1.5, 2.2
# a header in parts: how it is cut, and what is asked of it
WAYS = {'feed-whole': 'one part', 'feed-1460': '1,460 bytes', 'feed-16': '16 bytes', 'feed-1': '1 byte'}
ONE_PART, WITHIN_WHOLE, MORE_STACK = ('flat64', 'flat128'), 1.2, 1_024


def lines_of(path):
    """WHO -> WHAT -> INPUT -> a number or a word."""
    found = collections.defaultdict(lambda: collections.defaultdict(dict))
    with open(path) as f:
        for line in f:
            who, what, name, held = line.split(maxsplit=3)
            if who == 'asks':
                found[who][what][held.strip()] = True
            else:
                held = held.strip()
                found[who][what][name] = float(held) if held.replace('.', '', 1).isdigit() else held
    return found


def time_text(ns):
    """A time in three digits."""
    if not isinstance(ns, float):
        return ns or '–'
    for unit, size in (('ms', 1e6), ('us', 1e3), ('ns', 1)):
        if ns >= size or unit == 'ns':
            return f'{ns / size:.3g} {unit}' if ns / size < 1000 else f'{ns / size:.0f} {unit}'


def times(a, b):
    """How many times a is b."""
    if not isinstance(a, float) or not isinstance(b, float) or b == 0:
        return '–'
    return f'{a / b:.2f}' if a / b < 100 else f'{a / b:.0f}'


def table(head, rows):
    return '\n'.join(['| ' + ' | '.join(head) + ' |', '|' + '---|' * len(head)] + ['| ' + ' | '.join(map(str, row)) + ' |' for row in rows]) + '\n'


def feeding_stack(found, name):
    """The most stack that feeding an input takes, however it is cut."""
    return max(found['stack'][way][name] for way in WAYS)


def goals(found, names):
    """For each goal: its words, what was measured, whether it is met."""
    ours, small = found['ours']['read'], 'small'
    numpy, npyz = found['numpy']['read'].get(small), found['npyz']['read'].get(small)
    yield f'a small header at least {FASTER_THAN_NUMPY} times faster than NumPy', times(numpy, ours[small]), isinstance(numpy, float) and numpy >= FASTER_THAN_NUMPY * ours[small]
    yield 'a small header faster than npyz', times(npyz, ours[small]), isinstance(npyz, float) and npyz > ours[small]
    for name in names:
        ratio = found['ratio']['read'][name]
        yield f'{name}: within {WITHIN_C} times of the C reader', f'{ratio:.2f}', ratio <= WITHIN_C
    for name, ratio in found['doubled']['read'].items():
        yield f'{name.removesuffix("128").rstrip("-")}: doubling the text takes at most {MOST_DOUBLED} times the time', f'{ratio:.2f}', ratio <= MOST_DOUBLED
    for name in ONE_PART:
        ratio = found['ratio']['feed-whole'][name]
        yield f'{name} in one part: at most {WITHIN_WHOLE} times reading it whole', f'{ratio:.2f}', ratio <= WITHIN_WHOLE
    ratio = found['doubled']['feed-1']['flat128']
    yield f'flat byte by byte: doubling the text takes at most {MOST_DOUBLED} times the time', f'{ratio:.2f}', ratio <= MOST_DOUBLED
    for name, ratio in found['ratio']['half'].items():
        yield f'half floats, {name}, converted: within {WITHIN_C} times of plain C', f'{ratio:.2f}', ratio <= WITHIN_C
    for what in ('read', 'write', 'places', 'values'):
        most = max(found['stack'][what].values())
        yield f'stack of {what}: under {MOST_STACK:,} bytes', f'{most:,.0f}', most < MOST_STACK
    more = max(feeding_stack(found, name) - found['stack']['read'][name] for name in names)
    yield f'stack of feeding: at most {MORE_STACK:,} bytes more than that of reading the same input', f'{more:,.0f}', more <= MORE_STACK
    asked = found['asks']['symbol']
    yield 'no heap', 'calls ' + (', '.join(sorted(asked)) or 'no outside function'), not HEAP & set(asked)


def machine():
    """The processor's model where it is known, how many there are, their kind, and the system."""
    kind, model = platform.machine(), None
    with open('/proc/cpuinfo') as f:
        for line in f:
            if line.startswith('model name'):
                model = line.split(':', 1)[1].strip()
                break
    processors = f'{os.cpu_count()} processors'
    known = (model, processors, kind) if model else (kind, processors)
    return ', '.join((*known, f'{platform.system()} {platform.release()}'))


def flags():
    """How both were compiled."""
    with open(os.path.join(os.path.dirname(os.path.abspath(__file__)), 'flags')) as f:
        return f.read().strip()


def page(found, names, judged, kept):
    ours, numpy, npyz = found['ours'], found['numpy'], found['npyz']
    tool = {what: found['tool'][what]['library'] for what in found['tool']}
    when = datetime.datetime.now(datetime.timezone.utc).strftime('%Y-%m-%d')
    yield f'''# Benchmarks

Written by `bench/run` on {when}, all in one run on one machine: {machine()}. The proved library and the C reader are compiled by clang {tool['clang']} with `bench/flags` (`{flags()}`) for any processor of that kind (`rt lib` has flags of its own, and its archive was not measured); npyz 0.9.1 by
rustc {tool['rustc']} in its release profile; NumPy is {tool['numpy']} on Python {tool['python']}.

A number is the median of 41 samples of some 2 ms (NumPy: 21), in time of the thread itself on the processor. Ours and the C reader are called in turns in one process, and their ratio is the median of the pairs' ratios; so it is for a text and the one of twice its length, and for a header in parts and the whole.
They gave the same answer and the same rooms for each input. The inputs are made by `bench/inputs.py`; `64` and `128` are texts of 65,536 and 131,072 bytes. `–` is where a program does not do that.

The C reader (`bench/plain.c`) reads the text once for UTF-8 and once for everything else, digits one at a time; `bench/check-plain` holds it against the recorded answers. npyz hands the literal to a crate that is not among its sources: here its literal is read by our own
(`tests/npyz/py_literal.rs`), and what npyz takes with the other is not known. `refuses` is where npyz or NumPy refuses the input, or panics.

## Goals
'''
    yield table(('Goal', 'Measured', 'Met'), [(words, measured, 'yes' if met else '**no**') for words, measured, met in judged])
    yield '\n## Reading a header\n'
    rows = []
    for name in names:
        mine = ours['read'][name]
        refused = found['found']['refused'][name]
        rows.append((name, f'{found["found"]["bytes"][name]:,.0f}', f'refused {refused:.0f}' if refused else f'{found["found"]["entries"][name]:.0f}', time_text(mine), time_text(found['plain']['read'][name]),
                     f'{found["ratio"]["read"][name]:.2f}', time_text(npyz['read'].get(name)), times(npyz['read'].get(name), mine), time_text(numpy['read'].get(name)), times(numpy['read'].get(name), mine)))
    yield table(('Input', 'Bytes', 'Entries', 'Ours', 'C reader', 'ours / C', 'npyz', 'npyz / ours', 'NumPy', 'NumPy / ours'), rows)
    yield '''
## A header in parts

`npy_feed` of a header in one part and in parts of 1,460, 16 and 1 bytes, from a feeder of zeros and with a text buffer of 131,072 bytes, in turns with `npy_read` of the whole. The ratios are of the time for all parts to the time for the whole. A call with 1 byte: the time for all parts
by their number, as many as the header has bytes; the last call reads the text. For every input of the tables each of these ways gave the answer, values and rooms of `npy_read`, each part was used whole, and the text buffer had the text and was unchanged after it.
'''
    yield table(('Input', 'Bytes', 'Whole', *(f'{way} / whole' for way in WAYS.values()), 'a call with 1 byte'),
                [(name, f'{found["found"]["bytes"][name]:,.0f}', time_text(whole), *(f'{found["ratio"][way][name]:.2f}' for way in WAYS), f'{ours["feed-1"][name] / found["found"]["bytes"][name]:.1f} ns')
                 for name, whole in found['whole']['feed-whole'].items()])
    yield '\n## Writing a header\n'
    yield table(('Input', 'Ours', 'npyz', 'npyz / ours', 'NumPy', 'NumPy / ours'),
                [(name, time_text(mine), time_text(npyz['write'].get(name)), times(npyz['write'].get(name), mine), time_text(numpy['write'].get(name)), times(numpy['write'].get(name), mine))
                 for name, mine in ours['write'].items()])
    yield '''
## 1,000 places

Each call checks the whole record that it is given before it answers. NumPy has no such function: 1,000 elements are taken from an array in memory, by index and field name.
'''
    yield table(('Input', 'Ours', 'NumPy', 'NumPy / ours'), [(name, time_text(mine), time_text(numpy['places'].get(name)), times(numpy['places'].get(name), mine)) for name, mine in ours['places'].items()])
    yield '''
## 1,000 values

The first 1,000 of these places, round and round, that have a value (no S, U, V), in a file whose data is zeros. NumPy takes the element as above and calls its `item()`.
'''
    yield table(('Input', 'Ours', 'NumPy', 'NumPy / ours'), [(name, time_text(mine), time_text(numpy['values'].get(name)), times(numpy['values'].get(name), mine)) for name, mine in ours['values'].items()])
    yield '''
## A half float

`npy_read_value` of a run of two bytes, and the conversion `value_float::from_half` alone; with `plain_value` and `plain_half` of `bench/plain.c`. The half floats come in no order: any, normal ones of exponents 14 and 15, and subnormal ones.
All 65,536 had the same bits, in both byte orders, and types of every letter and size the same value or refusal.
'''
    yield table(('Half floats', 'Conversion', 'plain C', 'ours / C', 'Value', 'plain C', 'ours / C'),
                [(name, *(cell for what in ('half', 'half-value') for cell in (time_text(ours[what][name]), time_text(found['plain'][what][name]), f'{found["ratio"][what][name]:.2f}'))) for name in ours['half']])
    yield '''
## The class of a byte

A call of `literal_classes::class_of` for each byte, which looks into the proved table, and of `plain_class` of `bench/plain.c`, a chain of comparisons. The bytes come in no order: any, and those of the text of a header. All 256 had the same class.
'''
    yield table(('Bytes', 'Table', 'Comparisons in C', 'ours / C'), [(name, time_text(mine), time_text(found['plain']['class'][name]), f'{found["ratio"]["class"][name]:.2f}') for name, mine in ours['class'].items()])
    yield '''
## Memory

Beside the rooms that a caller lends, the stack: a thread's stack is painted before a call, and what has lost its paint was used.
'''
    stack = found['stack']
    yield table(('Input', 'Reading', 'Feeding', 'Writing', 'Places', 'Values', 'C reader'),
                [(name, f'{stack["read"][name]:,.0f}', f'{feeding_stack(found, name):,.0f}', *(f'{stack[what][name]:,.0f}' if name in stack[what] else '–' for what in ('write', 'places', 'values', 'plain'))) for name in names])
    yield f"\nOutside functions that the library calls: {', '.join(f'`{one}`' for one in sorted(found['asks']['symbol'])) or 'none'}.\n"
    yield f"\n## The gate's time for each crate\n\n{KEPT[0]}\n{kept}\n{KEPT[1]}\n"


def kept_of(path):
    if not os.path.exists(path):
        return KEPT_TEXT
    with open(path) as f:
        text = f.read()
    if KEPT[0] not in text or KEPT[1] not in text:
        return KEPT_TEXT
    return text.split(KEPT[0], 1)[1].split(KEPT[1], 1)[0].strip('\n')


def main():
    if len(sys.argv) != 3:
        sys.exit(__doc__)
    found = lines_of(sys.argv[1])
    names = list(found['ours']['read'])
    judged = list(goals(found, names))
    text = '\n'.join(page(found, names, judged, kept_of(sys.argv[2])))
    with open(sys.argv[2], 'w') as f:
        f.write(text)
    for words, measured, met in judged:
        print('met   ' if met else 'MISSED', words, measured, sep='  ')
    missed = sum(not met for *_, met in judged)
    print(f'{len(judged) - missed} goals met, {missed} missed')
    sys.exit(1 if missed else 0)


if __name__ == '__main__':
    main()
