#!/usr/bin/env python3
"""Makes the vectors of crate utf8: `make_utf8.py` writes crates/run_utf8/stdin and crates/run_utf8/stdout.

The answers are CPython's: UnicodeDecodeError.start of the strict UTF-8 decoder, or ok. Each is checked against the definition itself: the first
place such that what is before it decodes and no scalar value's encoding begins there. A case is framed by its length, four bytes little-endian.
"""
import itertools
import os
import random
import sys

EDGES = bytes([0x00, 0x41, 0x7F, 0x80, 0x81, 0x8F, 0x90, 0x9F, 0xA0, 0xBF, 0xC0, 0xC1, 0xC2, 0xDF, 0xE0, 0xE1, 0xEC, 0xED, 0xEE, 0xEF, 0xF0, 0xF1, 0xF3,
               0xF4, 0xF5, 0xF7, 0xF8, 0xFF])
ENCODINGS = {chr(c).encode() for c in range(0x110000) if not 0xD800 <= c <= 0xDFFF}
PIECES = [b'a', b'\x00', b"'descr': "] + [chr(c).encode() for c in (0xE9, 0x7FF, 0x800, 0x20AC, 0xD7FF, 0xE000, 0xFFFF, 0x10000, 0x10FFFF)]
FAULTS = [b'\x80', b'\xbf', b'\xc0\x80', b'\xc1\xbf', b'\xe0\x80\x80', b'\xe0\x9f\xbf', b'\xed\xa0\x80', b'\xed\xbf\xbf', b'\xf0\x80\x80\x80', b'\xf0\x8f\xbf\xbf',
          b'\xf4\x90\x80\x80', b'\xf5\x80\x80\x80', b'\xf8\x88\x80\x80\x80', b'\xfe', b'\xff', b'\xc3', b'\xe2\x82', b'\xf0\x9f\x98', b'\xe2a\x82']


def answer(text):
    """CPython's answer: None, or the first byte of the first ill-formed sequence."""
    try:
        text.decode('utf-8')
    except UnicodeDecodeError as fault:
        return fault.start
    return None


def by_definition(text):
    """The same from the encodings alone."""
    at = 0
    while at < len(text):
        length = next((n for n in range(1, 5) if text[at:at + n] in ENCODINGS), None)
        if length is None:
            return at
        at += length
    return None


def short_cases():
    """Every text of one and two bytes, texts of three and four at the edges of the encodings, and none at all."""
    yield b''
    for length in 1, 2:
        for text in itertools.product(range(256), repeat=length):
            yield bytes(text)
    for text in itertools.product(EDGES, repeat=3):
        yield bytes(text)
    for text in itertools.product(b'\xef\xf0\xf1\xf3\xf4\xf5\xf7\xf8', b'\x7f\x80\x8f\x90\xbf\xc0', b'\x7f\x80\xbf\xc0', b'\x7f\x80\xbf\xc0'):
        yield bytes(text)


def long_cases():
    """Pieces in a row, with and without a fault, cut at every byte; and long texts whose only fault or only high byte is at one end."""
    chance = random.Random(5)
    for _ in range(2000):
        row = [chance.choice(PIECES) for _ in range(chance.randrange(12))]
        if chance.random() < 0.6:
            row.insert(chance.randrange(len(row) + 1), chance.choice(FAULTS))
        yield b''.join(row)
    whole = b''.join(PIECES)
    for end in range(len(whole)):
        yield whole[:end]
        yield whole[end:]
    for size in 15, 16, 17, 31, 32, 33, 63, 64, 65, 4096, 65536:
        yield b'a' * size
        yield b'a' * (size - 1) + b'\x80'
        yield b'\x80' + b'a' * (size - 1)
        yield b'\xc3\xa9' + b'a' * (size - 2)
        yield b'a' * (size - 2) + b'\xc3\xa9'
        yield b'a' * (size - 1) + b'\xc3'


def frame(text):
    return len(text).to_bytes(4, 'little') + text


def line(place):
    return b'ok\n' if place is None else b'%d\n' % place


def main():
    cases = list(short_cases()) + list(long_cases())
    answers = [answer(text) for text in cases]
    for text, place in zip(cases, answers):
        if by_definition(text) != place:
            sys.exit('%s: CPython gives %s, the definition %s' % (text.hex(), place, by_definition(text)))
    folder = os.path.join(os.path.dirname(os.path.abspath(__file__)), '..', 'crates', 'run_utf8')
    with open(os.path.join(folder, 'stdin'), 'wb') as out:
        out.write(b''.join(map(frame, cases)))
    with open(os.path.join(folder, 'stdout'), 'wb') as out:
        out.write(b''.join(map(line, answers)))
    print('%d cases, %d of them ok' % (len(cases), answers.count(None)))


if __name__ == '__main__':
    main()
