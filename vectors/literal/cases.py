"""The texts that are asked: short ones, all of them; well-formed ones made from values and laid out in every allowed way; and damaged copies. All are UTF-8."""
import ast
import itertools
import os
import random

HERE = os.path.dirname(os.path.abspath(__file__))
STRUCTURE = b"[](){},:'1- 0T"
# what a damaged place gets: structure, the pieces of tokens, what looks like a blank and is none, and prefixes
PIECES = [bytes([b]) for b in b"[](){},:'\"1- 0T\\9anrx\t\n\r"] + [
    b'True', b'False', b'None', b'Tru', b'true', b'nan', b'(3)', b'(3,)', b'- 1', b'-0', b'00', b'01', b'1_0', b'1.0', b'1e5', b'0x1f', b'1L', b'+1', b'--1', b"b'", b"u'", b"r'", b"''", b"'a' 'b'",
    b"\\x41", b"\\u0041", b'\\0', b'\\\n', b'#', b'...', b';', b'\x0b', b'\x0c', b'\x00', b'\x7f', b'\xc2\xa0', b'\xc2\x85', b'\xe2\x80\xa8', b'\xef\xbb\xbf', b'\xc3\xa9', b'\xe6\x97\xa5', b'\xf0\x9d\x84\x9e',
    b'[[', b'((', b'}}', b'{}', b'[]', b'()', b',,', b'::', b', ]', b',)', b'set()']

# text -> answer: the places and the cases of 6 against 7 that the house's readings of document 01 name
NAMED = [
    (b'', '6 0'), (b'  ', '6 2'), (b'- 1', '6 1'), (b'Tru}', '6 3'), (b'True1', '6 4'), (b'-}', '6 1'), (b'00', '6 1'), (b'1a', '6 1'), (b'1_0', '6 1'), (b"'ab", '6 3'), (b"'a\\x41'", '6 3'),
    (b'(3)', '6 2'), (b'[,]', '6 1'), (b"b'a'", '6 0'), (b"'a' 'b'", '6 4'), (b'(,)', '6 1'), (b'{,}', '6 1'), (b'{1}', '6 2'), (b'{1:}', '6 3'), (b'{1:2 3', '6 5'), (b'(1,,', '6 3'), (b'[1)', '6 2'),
    (b'[' * 31 + b'(3),[[', '6 33'), (b'[' * 31 + b'00,[[', '6 32'), (b'[' * 33 + b'$', '7 32'), (b'[' * 32 + b'Tru[', '6 35'), (b'[' * 32 + b'1 [', '6 34'), (b'{' * 33, '7 32'),
    (b'[' * 32 + b"'[[[', (", '7 39'), (b'[({' * 10 + b'[(', '6 32'), (b'[({' * 10 + b'[([', '7 32'), (b'[' * 32 + b']' * 32, 'ok'), (b'[' * 33 + b']' * 33, '7 32'),
    (b'[' * 32 + b']' * 32 + b'[', '6 64'), (b'[' * 31 + b'[],[],[[]]', '7 38'), (b'[' * 31 + b'[],[],[1]' + b']' * 31, 'ok'), (b"['" + b'[' * 40 + b"']", 'ok'),
    (b'1', 'ok'), (b'-0', 'ok'), (b'()', 'ok'), (b'(3,)', 'ok'), (b'(3,4)', 'ok'), (b'[3,]', 'ok'), (b'{1:2,}', 'ok'), (b'{[]:{}}', 'ok'), (b" \t\r\n'a' \t\r\n", 'ok'), (b'-01', '6 2'), (b'--1', '6 1'), (b'+1', '6 0'),
    (b"'a\nb'", '6 2'), (b"'a\rb'", '6 2'), (b"'a\tb'", 'ok'), (b"'\x00\x0b\x0c\xc2\xa0'", 'ok'), (b'\x0c1', '6 0'), (b'1\x0b', '6 1'), (b'\xc2\xa01', '6 0'), (b'1\x00', '6 1'), (b"'\\", '6 2'), (b"'\\'", '6 3'),
    (b"'\\\\'", 'ok'), (b"'\\\\\\'\\\"\\n\\r\\t\"'", 'ok'), (b"'\\a'", '6 2'), (b'"a\'b"', 'ok'), (b"'a\"b'", 'ok'), (b'TrueFalse', '6 4'), (b'None_', '6 4'), (b'true', '6 0'), (b'Nonf', '6 3'), (b'1 1', '6 2'), (b'1,', '6 1'),
    (b'#', '6 0'), (b'1 # x', '6 2'), (b'9' * 5000, 'ok'), (b'-' + b'1' * 5000 + b'x', '6 5001'), (b'[1' + b' ' * 3000 + b'1]', '6 3002'),
    # the inputs of docs/DIFFERENCES.md that are not above
    (b'0,', '6 1'), (b'(0)', '6 2'), (b'{0}', '6 2'), (b'set()', '6 0'), (b'+0', '6 0'), (b'-\t0', '6 1'), (b'-(0)', '6 1'), (b'0_0', '6 1'), (b'0b0', '6 1'), (b'0.', '6 1'), (b'.0', '6 0'), (b'0j', '6 1'), (b'0+0j', '6 1'),
    (b'...', '6 0'), (b'b""', '6 0'), (b'""\'\'', '6 2'), (b'""""""', '6 2'), (b'"\\\x01"', '6 2'), (b'"\\x41"', '6 2'), (b'"\\q"', '6 2'), (b'"\\\n"', '6 2'), (b'\\\n0', '6 0'), (b'0#', '6 1'), (b'\x0c0', '6 0'),
    (b'\n\t1', 'ok'), (b'1\n ', 'ok'), (b'{[]:0}', 'ok'), (b'"\x00"', 'ok'), (b'{1:2,True:3}', 'ok'),
]


def up_to(length, alphabet):
    for n in range(length + 1):
        for case in itertools.product(alphabet, repeat=n):
            yield bytes(case)


def written_by_numpy():
    with open(os.path.join(HERE, 'numpy-headers.txt')) as f:
        return [ast.literal_eval(row) for row in f if not row.startswith('#')]


def text_of(rng, depth, wide=4):
    """A well-formed text of nesting at most `depth`, blanks and quotes and last commas at will."""
    gap = lambda: b''.join(rng.choices((b' ', b' ', b' ', b'\t', b'\n', b'\r'), k=rng.choice((0, 0, 0, 0, 1, 1, 2))))
    kind = rng.randrange(9 if depth else 5)
    if kind < 2:
        return string_of(rng)
    if kind < 4:
        return rng.choice((b'', b'', b'-')) + rng.choice((b'0', str(rng.randrange(1, 10 ** rng.choice((1, 2, 5, 25)))).encode()))
    if kind == 4:
        return rng.choice((b'True', b'False', b'None'))
    count = rng.choice((0, 1, 1, 2, 3, wide))
    one = lambda: gap() + text_of(rng, depth - 1, 2) + gap()
    if kind == 8:
        parts, ends = [one() + b':' + one() for _ in range(count)], (b'{', b'}')
    else:
        parts, ends = [one() for _ in range(count)], rng.choice(((b'[', b']'), (b'(', b')')))
    last = b',' + gap() if parts and (rng.random() < 0.3 or ends[0] == b'(' and count == 1) else b'' if parts else gap()
    return ends[0] + b','.join(parts) + last + ends[1]


def string_of(rng):
    quote, other = rng.choice(((b"'", b'"'), (b'"', b"'")))
    plain = [b'a', b'shape', b'descr', b'fortran_order', b'<i4', b' ', b'\t', b'[', b']', b'(', b',', b':', b'#', b'\x00', b'\x0c', b'\x7f', b'\xc3\xa9', b'\xe6\x97\xa5', b'\xf0\x9d\x84\x9e', other]
    escaped = [b'\\\\', b"\\'", b'\\"', b'\\n', b'\\r', b'\\t']
    return quote + b''.join(rng.choice(plain if rng.random() < 0.85 else escaped) for _ in range(rng.choice((0, 1, 1, 2, 3, 8)))) + quote


def header_of(rng):
    """A header text such as a writer gives, in any order of keys."""
    kinds = (b"'<i4'", b"'|b1'", b"'>U3'", b"'|O'", b"'<M8[us]'", b"[('a', '<i4'), ]", b"[('a', '<i4'), ('b', '<f8', (2,3,)), ]", b'[("q", [(\'in\', \'|S3\')], (4,))]', b'[]')
    shape = b'(' + b''.join(str(rng.randrange(10 ** rng.choice((1, 2, 19, 21)))).encode() + b', ' for _ in range(rng.randrange(5))) + b')'
    items = [b"'descr': " + rng.choice(kinds), b"'fortran_order': " + rng.choice((b'True', b'False')), b"'shape': " + shape, b"'extra': " + text_of(rng, 3)]
    rng.shuffle(items)
    return b'{' + b', '.join(items[:rng.choice((3, 4, 4))]) + rng.choice((b', }', b'}', b',}')) + b' ' * rng.randrange(17) + rng.choice((b'\n', b''))


def deep_of(rng):
    """Brackets around the limit of 32, of any kind, with something in the middle, and closed or not."""
    text, closing = b'', []
    for _ in range(rng.choice((29, 30, 31, 31, 32, 32, 32, 33, 34, 40))):
        opened, closed = rng.choice(((b'[', b']'), (b'(', b',)'), (b'{1:', b'}'), (b'[0,', b']'), (b"('[',", b')'), (b'{', b':0}')))
        text += opened
        closing.append(closed)
    text += rng.choice((b'', b'1', b"'[['", b'Tru[', b'(3),[[', b'00,[[', b'1 [', b'$', b'[]', b'{}', b'()', b'[[]]', b'-[', b',[', b':['))
    return text + (b''.join(reversed(closing)) if rng.random() < 0.8 else b'')


def damaged(text, rng):
    """One to three changes: a byte or a run lost, doubled, put in, put in place of another; two that change places; the text cut off or doubled."""
    text = bytearray(text)
    for _ in range(rng.choice((1, 1, 1, 1, 2, 3))):
        at = rng.randrange(len(text) + 1)
        kind = rng.randrange(9)
        if kind == 0:
            del text[at:at + rng.choice((1, 1, 1, 2, 5))]
        elif kind == 1:
            text[at:at] = text[at:at + rng.choice((1, 1, 2, 5))]
        elif kind in (2, 3):
            text[at:at] = rng.choice(PIECES)
        elif kind in (4, 5):
            text[at:at + 1] = rng.choice(PIECES)
        elif kind == 6 and at + 1 < len(text):
            text[at], text[at + 1] = text[at + 1], text[at]
        elif kind == 7 and rng.random() < 0.5:
            del text[at:]
        elif kind == 8 and rng.random() < 0.1:
            text *= 2
    return bytes(text).decode('utf-8', 'ignore').encode()


def generated(count, seed):
    """That many texts: a third of them well-formed."""
    rng = random.Random(seed)
    numpy = written_by_numpy()
    for _ in range(count):
        kind = rng.randrange(20)
        text = rng.choice(numpy) if kind == 0 else header_of(rng) if kind < 4 else deep_of(rng) if kind < 6 else b''.join(rng.choices(PIECES, k=rng.randrange(1, 9))) if kind < 9 else text_of(rng, rng.choice((1, 2, 3, 5)))
        yield text if kind >= 6 and kind < 9 or rng.random() < 0.35 else damaged(text, rng)


def long_ones():
    rng = random.Random(11)
    for n in (100, 4300, 4301, 20_000):
        yield b'7' * n
        yield b'[-' + b'1' * n + b']'
        yield b'1' + b'0' * n + b'a'
        yield b"'" + b'x' * n + b"'"
        yield b"'" + b'x' * n
        yield b'"' + b"\\n'" * (n // 3) + b'"'
        yield b"'" + '日é𝄞'.encode() * (n // 9) + b'\n'
        yield b' ' * n + b'0' + b'\t' * 9
        yield b'[' + b'1,' * (n // 2) + b']'
        yield b'[' + b'[],' * (n // 3) + b')'
        yield b'{' + b''.join(b"'k%d':(%d,)," % (k, k) for k in range(n // 12)) + b'}'
        yield b'(' + b'{},' * (n // 3) + b',)'
    for _ in range(30):
        yield text_of(rng, 6, 40)


def digit_runs():
    """Runs of digits on both sides of each block of eight: alone, in brackets, after a minus sign and a zero, with each neighbour of the digits after them, and with a letter or `/` in each place."""
    for n in (*range(1, 27), 31, 32, 33, 40, 41):
        run = (b'1234567890' * 5)[:n]
        yield from (run, b'-' + run, b'[' + run + b']', b'[' + run, b'0' + run, run + b'/', run + b':', run + b'a', run + b' 1', b'(' + run + b', ' + run + b',)')
        yield from (run[:at] + byte + run[at:] for at in range(n) for byte in (b'a', b'/'))


def recorded():
    """The gate's texts: those named in document 01 and the readings, all short ones over the structure, every byte in every place of some texts and after a backslash, NumPy's, long and generated ones, and runs of digits."""
    rng = random.Random(12)
    texts = [text for text, _ in NAMED]
    texts += up_to(3, STRUCTURE)
    texts += rng.sample(list(itertools.islice(up_to(5, STRUCTURE), 3000, None)), 5000)
    texts += (bytes([b]) for b in range(128))
    for text in (b"{'a': (1,)}", b"[True, 'x\\n', -12]", b'( 0 ,)'):
        for at in range(len(text) + 1):
            texts += (text[:at] + bytes([b]) + text[at:] for b in range(128))
            texts += (text[:at] + bytes([b]) + text[at + 1:] for b in range(0, 128, 3))
    texts += (quote + b'\\' + bytes([b]) + quote for quote in (b"'", b'"') for b in range(128))
    texts += written_by_numpy()
    texts += long_ones()
    texts = list(dict.fromkeys(texts))
    have = set(texts)
    for text in generated(100_000, 13):
        if len(texts) == 30_000:
            break
        if text not in have:
            have.add(text)
            texts.append(text)
    return list(dict.fromkeys([*texts, *digit_runs()]))
