"""The type strings that are asked: every short one, and many longer ones. The same cases each time."""
import itertools
import random

ORDERS = [b'<', b'>', b'|']
LETTERS = [bytes([b]) for b in b'biufcmMSUOV']
UNITS = [b'Y', b'M', b'W', b'D', b'h', b'm', b's', b'ms', b'us', b'ns', b'ps', b'fs', b'as']
# orders and a wrong one, letters with `a`, digits, brackets
CORE = b'<>|=biufcmMSUOVa0123456789[]'
# the letters of the units that are no type letters, a backslash, a quote, a blank, a letter of nothing
WIDE = CORE + b'YWDhsnp\\\' x'

NUMBERS = sorted({0, 3, 5, 6, 7, 9, 10, 12, 17, 24, 31, 33, 63, 64, 65, 99, 100, 255, 256, 10 ** 19, 10 ** 20 - 1, 10 ** 20, 10 ** 30 - 1, 2 ** 65, 2 ** 66, 2 ** 128}
                 | {2 ** k + d for k in (0, 1, 2, 3, 4, 5, 7, 8, 16, 31, 32, 61, 62, 63, 64) for d in (-1, 0, 1)}
                 | {2 ** 64 + d for d in range(-20, 21)} | {10 * 2 ** 64, 2 ** 64 + 2 ** 32, 2 ** 64 // 10, 2 ** 64 // 4 * 5})
ZEROS = [0, 1, 2, 16, 19, 20, 21, 40, 300]
TAILS = [b''] + [b'[' + u + b']' for u in UNITS] + [
    b'[]', b'[', b']', b'[[us]]', b'[us', b'us]', b'[us]]', b'[us][us]', b'[Us]', b'[US]', b'[ us]', b'[us ]', b' [us]', b'[25s]', b'[1s]', b'[B]', b'[generic]', b'[\xc2\xb5s]',
    b'x', b' ', b'\\', b'\x00', b'\n', b'.0', b'e1', b'-', b'+', b'_0', b'\xc3\xa9', b'\xd9\xa1', b'\xff']

# the answers that document 01 and the decisions beside it name
DOCUMENTED = [
    (b'|i1', '|i 1 - 1 |i1'), (b'<i08', '<i 8 - 8 <i8'), (b'>U0', '>U 0 - 0 >U0'), (b'|O4', '15'), (b'>i' + b'9' * 30, '16'), (b'|i9', '17'), (b'>i9', '18'), (b'>m8', '19'),
    (b'=i4', '15'), (b'|U1', '17'), (b'|m1', '18'), (b'|O[us]', '19'), (b'', '15'), (b'>i' + b'9' * 30 + b'x', '15'), (b'<a4', '15'), (b'<i1', '<i 1 - 1 <i1'),
    (b'<b1', '<b 1 - 1 <b1'), (b'>S3', '>S 3 - 3 >S3'), (b'<O', '<O 0 - none <O'), (b'|i0', '17'), (b'|m8', '17'), (b'|f1', '18'), (b'|O[xx]', '15'), (b'<i4[]', '15'),
    (b'<i8', '<i 8 - 8 <i8'), (b'|O', '|O 0 - none |O'), (b'>m8[us]', '>m 8 us 8 >m8[us]'), (b'<U3', '<U 3 - 12 <U3'), (b'<i\\x38', '15'), (b'<\\i8', '15'),
    (b'<U4611686018427387904', '<U 4611686018427387904 - over <U4611686018427387904'), (b'<S18446744073709551615', '<S 18446744073709551615 - 18446744073709551615 <S18446744073709551615'),
    (b'<S18446744073709551616', '16')]


def up_to(length, alphabet):
    for n in range(length + 1):
        for case in itertools.product(alphabet, repeat=n):
            yield bytes(case)


def valid():
    """Strings that document 01 accepts, of every letter, order and unit."""
    sizes = {b'b': [1], b'i': [1, 2, 4, 8], b'u': [1, 2, 4, 8], b'f': [2, 4, 8, 16], b'c': [8, 16, 32], b'm': [8], b'M': [8]}
    for order in ORDERS:
        for letter in LETTERS:
            if letter == b'O':
                yield order + letter
                continue
            for size in sizes.get(letter, [0, 1, 3, 10, 65535, 2 ** 62 - 1, 2 ** 62, 2 ** 64 - 1]):
                if order == b'|' and (letter == b'U' or letter in sizes and size != 1):
                    continue
                for unit in UNITS if letter in b'mM' else [None]:
                    for zeros in (0, 1, 21):
                        yield order + letter + b'0' * zeros + str(size).encode() + (b'[' + unit + b']' if unit else b'')


def damaged(text, rng):
    """One to three small changes: a byte lost, doubled, put in, put in place of another, or two that change places; or the text cut off."""
    text = bytearray(text)
    for _ in range(rng.choice((1, 1, 1, 2, 3))):
        at = rng.randrange(len(text) + 1)
        new = rng.choice(WIDE) if rng.random() < 0.9 else rng.randrange(128)
        kind = rng.randrange(6)
        if kind == 0 and at < len(text):
            del text[at]
        elif kind == 1 and at < len(text):
            text.insert(at, text[at])
        elif kind == 2:
            text.insert(at, new)
        elif kind == 3 and at < len(text):
            text[at] = new
        elif kind == 4 and at + 1 < len(text):
            text[at], text[at + 1] = text[at + 1], text[at]
        elif kind == 5:
            del text[at:]
    return bytes(text)


def short():
    """Every ASCII string up to 3 bytes, and every one of up to 4 over WIDE."""
    yield from up_to(3, range(128))
    for case in itertools.product(WIDE, repeat=4):
        yield bytes(case)


def middling():
    """Each order and letter with every tail of up to 5 parts."""
    parts = [b'0', b'1', b'8', b'9', b'[', b']', b's', b'us', b'\xc3\xa9']
    for order in ORDERS:
        for letter in LETTERS + [b'a']:
            for n in range(6):
                for tail in itertools.product(parts, repeat=n):
                    yield order + letter + b''.join(tail)


def numbers():
    for order in ORDERS + [b'=']:
        for letter in LETTERS + [b'a', b'B']:
            for number in NUMBERS:
                for zeros in ZEROS:
                    for tail in TAILS:
                        yield order + letter + b'0' * zeros + str(number).encode() + tail


def units():
    """Every run of up to 4 of the units' letters in brackets."""
    for n in range(5):
        for unit in itertools.product(b'YMWDhmsunpfa', repeat=n):
            yield b'>m8[' + bytes(unit) + b']'


def single_bytes():
    """Every byte of 256 in every place of some valid strings, and put in there."""
    for text in (b'<i8', b'|O', b'>m8[us]', b'<U18446744073709551615', b'|S0', b'<M08[D]'):
        for at in range(len(text) + 1):
            for byte in range(256):
                yield text[:at] + bytes([byte]) + text[at:]
                yield text[:at] + bytes([byte]) + text[at + 1:]


def damaged_ones(count, seed):
    rng = random.Random(seed)
    texts = sorted(set(valid()))
    for _ in range(count):
        yield damaged(rng.choice(texts), rng)


def sizes(count, seed):
    """S, U and V of any size that fits, half of them with leading zeros."""
    rng = random.Random(seed)
    for _ in range(count):
        letter = rng.choice((b'S', b'U', b'V'))
        order = rng.choice(ORDERS[:2] if letter == b'U' else ORDERS)
        yield order + letter + b'0' * rng.choice((0, 0, 1, 5, 25)) + str(rng.randrange(2 ** rng.randrange(1, 65))).encode()


def digit_runs():
    """Sizes on both sides of each block of eight digits, of 2^64 and of twenty digits, with up to 17 zeros in front, with each neighbour of the digits after them, and with a letter or `/` in each place."""
    edges = sorted({10 ** n - d for n in (1, 7, 8, 9, 15, 16, 17, 19, 20, 21, 24, 30) for d in (0, 1)} | {2 ** 64 - 1, 2 ** 64, 2 ** 64 + 4})
    for size in edges:
        for zeros in range(18):
            yield b'|S' + b'0' * zeros + str(size).encode()
        yield from (b'>V' + str(size).encode() + tail for tail in (b'/', b':', b'x', b'[s]'))
    for n in (7, 8, 9, 15, 16, 17, 19, 20, 24, 25):
        run = (b'1234567890' * 3)[:n]
        yield from (b'<U' + run[:at] + byte + run[at:] for at in range(n) for byte in (b'x', b'/'))


def everything():
    for part in (short(), middling(), numbers(), units(), single_bytes(), damaged_ones(400_000, 1), sizes(100_000, 4), digit_runs(), valid()):
        yield from part


def recorded():
    """The gate's cases: every string up to 3 bytes over CORE, 20,000 others, and sizes of many digits."""
    rng = random.Random(2)
    brief = list(up_to(3, CORE))
    seen = set(brief)
    others = []

    def take(cases, most):
        cases = [case for case in dict.fromkeys(cases) if case not in seen and len(case) < 80]
        for case in cases if len(cases) <= most else rng.sample(cases, most):
            seen.add(case)
            others.append(case)

    take(valid(), 1_000)
    take((case for case, _ in DOCUMENTED), 100)
    take([b'|m8[us]', b'<i99999999999999999999', b'<i18446744073709551616x'], 100)
    take(sizes(5_000, 5), 3_000)
    take(single_bytes(), 3_000)
    take((o + l + bytes([b]) for o in ORDERS for l in LETTERS for b in range(256)), 2_000)
    take((case for case in numbers() if case[:1] in (b'<', b'>', b'|') and case[1:2] != b'a'), 5_000)
    take((case for case in middling()), 2_000)
    take(units(), 1_000)
    take(damaged_ones(60_000, 3), 20_000 - len(others))
    take(digit_runs(), 1_000)
    return brief + others
