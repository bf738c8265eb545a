"""The cases of run_feed (docs/FRAMES.md) and their lines, by the model of tests/model/feeder.py; and generated cases."""
import os
import random
import struct
import sys

HERE = os.path.dirname(os.path.abspath(__file__))
ROOT = os.path.dirname(os.path.dirname(HERE))
sys.path[:0] = [os.path.join(ROOT, 'tests', 'model'), os.path.dirname(HERE), os.path.join(os.path.dirname(HERE), 'npy')]
import calls
import feeder
import files
import frames
import reader

MOST, MOST_CASE = 2 ** 64 - 1, 147_456
# What the program lends at most: bytes of the text buffer, numbers of the table, name bytes, dimensions.
MOST_LENT = (131_088, 4_608, 65_536, 64)
KINDS = 'calls two three bytes equal all'.split()
# Rooms that are enough for every header of the gate but the largest.
ROOMS = (180, 64, 32)
FRESH = (0,) * feeder.NUMBERS
END = None


def calls_case(made, text, rooms=ROOMS, numbers=FRESH):
    """A list of calls: END, or a part with how much of the text buffer is lent (a part alone: all of it)."""
    made = [b'' if call is END else struct.pack('<I', call[0]) + call[1] for call in ((text, call) if isinstance(call, bytes) else call for call in made)]
    case = bytes([0]) + struct.pack('<4Q', text, *rooms) + struct.pack(f'<{feeder.NUMBERS}Q', *numbers) + b''.join(struct.pack('<I', len(call)) + call for call in made)
    assert len(case) <= MOST_CASE, len(case)
    return case


def cuts_case(kind, file, text, rooms=ROOMS, first=None, upto=None, other=b''):
    """A file in the cuttings of a kind: those from one number up to another, or every one. `other` is fed in its place, and has to have its length."""
    assert not other or len(other) == len(file)
    few, most = every(kind, len(file))
    return bytes([KINDS.index(kind)]) + struct.pack('<6Q', text, *rooms, few if first is None else first, most if upto is None else upto) + struct.pack('<I', len(file)) + file + other


def every(kind, n):
    """The numbers of all cuttings of a kind, from one up to another."""
    return {'two': (0, n + 1), 'three': (0, (n + 1) ** 2), 'bytes': (0, 1), 'equal': (1, n + 1), 'all': (0, 2 ** max(0, n - 1))}[kind]


def ends_of(kind, number, n):
    """Where the parts of a cutting end; None where the number is no cutting's."""
    if kind == 'two':
        return [number, number, n]
    if kind == 'three':
        first, second = divmod(number, n + 1)
        return [first, second, n] if first <= second else None
    if kind == 'bytes':
        return [end for k in range(n) for end in (k, k + 1)]
    if kind == 'equal':
        return [*range(number, n, number), n]
    return [k + 1 for k in range(n - 1) if number >> k & 1] + [n]


# ---- the lines

def answer(case):
    text, *rooms = (min(n, most) for n, most in zip(struct.unpack_from('<4Q', case, 1), MOST_LENT))
    return answer_calls(case, text, rooms) if case[0] == 0 else answer_cuts(case, text, rooms)


def answer_calls(case, text, rooms):
    view = feeder.InC(struct.unpack_from(f'<{feeder.NUMBERS}Q', case, 33), text, *rooms)
    said = []
    for call in frames.cases_of(case[193:]):
        if call:
            returned, values, used = view.feed(call[4:], min(struct.unpack_from('<I', call)[0], text))
            said.append(f'{returned} {5 if used is None else used}' + calls.decimal(values or ()))
        else:
            returned, values = view.end()
            said.append(str(returned) + calls.decimal(values or ()))
    shown = lambda room: bytes(calls.room_of(room)).hex()
    numbers = lambda room: calls.decimal(calls.room_of(room))
    return f'{",".join(said)};{calls.decimal(view.numbers)};{shown(view.text)};{numbers(view.table)};{shown(view.names)};{numbers(view.shape)}'


def answer_cuts(case, text, rooms):
    kind, (first, upto, length) = KINDS[case[0]], struct.unpack_from('<2QI', case, 33)
    file, other = case[53:53 + length], case[53 + length:]
    whole = feeder.Feeder(text, (rooms[0] // 9, *rooms[1:]))
    says, total = whole.feed(file)
    number = whole.end() if says is None else says
    number = number if isinstance(number, int) else 0
    cuttings = [ends for ends in (ends_of(kind, k, length) for k in range(first, upto)) if ends is not None]
    # document 02: "However the input was cut [..] outcome and record equal those of the whole-slice reader"
    differ = sum(trace(ends, file, text, rooms) != trace(ends, other, text, rooms) for ends in cuttings) if other else 0
    return f'{number} {"-" if says is None else total} {len(cuttings)} {differ}'


def trace(ends, file, text, rooms):
    """All that the calls of a cutting return and leave in the rooms."""
    view = feeder.InC(FRESH, text, *rooms)
    returned = [view.feed(file[start:end], text) for start, end in zip([0] + ends, ends)] + [view.end()]
    return returned, view.text, view.table, view.names, view.shape


# ---- generated cases

def cut(rng, file):
    """The parts of a file in a random cutting, some of them empty."""
    most = rng.choice((1, 1, 2, 3, 5, min(len(file), 700)))
    ends = sorted(rng.randrange(len(file) + 1) for _ in range(most)) + [len(file)]
    return [file[start:end] for start, end in zip([0] + ends, ends)]


def needed(file):
    """The rooms that a file's record needs, and the length of its text as it is named."""
    record = reader.read(file)
    rooms = ROOMS if isinstance(record, int) else (9 * len(record.table), len(record.names), len(record.shape))
    return (int.from_bytes(file[8:10 if file[6] == 1 else 12], 'little') if len(file) >= 12 else 0), rooms


def random_calls(rng, file):
    """A header in a random cutting: rooms that are enough, exact or one short, a buffer near the text's length; sometimes other calls after it, and numbers that no feeding gives."""
    length, rooms = needed(file)
    text = rng.choice((length, length, length + 1, length + 7, max(0, length - 1), 0)) if length < 3_000 else rng.choice((0, 100))
    if rng.random() < 0.3:
        rooms = tuple(max(0, n + rng.choice((-1, 0, 0, 9))) for n in rooms)
    made = cut(rng, file + rng.choice((b'', b'', b'abc')))
    if rng.random() < 0.2:
        del made[rng.randrange(len(made)):]
    made += rng.choice(([], [END], [b'x'], [END, b'xyz', END], [b'', END]))
    if rng.random() < 0.1:
        made = [call if call is END or rng.random() < 0.7 else (rng.choice((0, 1, text, max(0, text - 1), text + 5)), call) for call in made]
    return calls_case(made, text, rooms, hostile(rng, file) if rng.random() < 0.2 else FRESH)


def hostile(rng, file):
    """Twenty numbers: those of a feeder in the middle of a file, most often, with some of them changed."""
    taken = rng.choice((0, 3, 8, 9, 10, 11, 12, 12, 13, 20, len(file)))
    numbers = [*(file + bytes(12))[:12], taken] + [0] * 7
    for _ in range(rng.choice((0, 1, 1, 2, 5))):
        numbers[rng.choice((rng.randrange(20), 12, 13, 14, 15))] = rng.choice((0, 1, 2, 3, 10, 12, 27, 32, 33, 36, 37, 147, 254, 255, 256, 257, 511, 2 ** 32, 2 ** 63, MOST - 12, MOST))
    if rng.random() < 0.2:
        numbers[13:16] = [255, rng.choice((0, 1, 2, 3, 4, MOST)), rng.choice((0, 1, 2, 256))]
    return numbers


def generated(count, seed, most=600):
    """That many cases: a header in a random cutting, or in all of a kind. Every fiftieth file is any of the generated ones, the others have at most so many bytes."""
    rng = random.Random(seed)
    made = 0
    for file in files.generated(10 ** 9, seed + 1_000):
        if made == count:
            return
        if len(file) > (most if made % 50 else 140_000):
            continue
        made += 1
        if rng.random() < 0.8 or len(file) > most:
            yield random_calls(rng, file)
            continue
        length, rooms = needed(file)
        yield cuts_case(rng.choice(('two', 'bytes', 'equal')), file, max(0, min(length, 2_000) + rng.choice((0, 0, 3, -1))), tuple(max(0, n - rng.choice((0, 0, 0, 1))) for n in rooms))
