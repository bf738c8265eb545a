"""Files for the reader: the edges that document 01 and its readings name, with their answers; and generated ones, valid and damaged."""
import os
import random
import sys

HERE = os.path.dirname(os.path.abspath(__file__))
ROOT = os.path.dirname(os.path.dirname(HERE))
sys.path[:0] = [os.path.join(ROOT, 'vectors', 'literal'), os.path.join(ROOT, 'vectors', 'type_str')]
import importlib.util


def module(name, folder):
    spec = importlib.util.spec_from_file_location(name, os.path.join(ROOT, 'vectors', folder, 'cases.py'))
    found = importlib.util.module_from_spec(spec)
    spec.loader.exec_module(found)
    return found


literals = module('literal_cases', 'literal')
type_strings = module('type_str_cases', 'type_str')


def file_of(text, version=None, length=None, data=b''):
    """A file with that text; version (1,0) where it fits and is not named. `length` overrides the length field."""
    version = version or ((1, 0) if len(text) < 65_536 else (2, 0))
    size = 2 if version == (1, 0) else 4
    return b'\x93NUMPY' + bytes(version) + (len(text) if length is None else length).to_bytes(size, 'little') + text + data


def header(descr=b"'<i4'", shape=b'(3,)', fortran=b'False'):
    return b"{'descr': " + descr + b", 'fortran_order': " + fortran + b", 'shape': " + shape + b'}'


def H(descr=b"'<i4'", shape=b'(3,)', fortran=b'False'):
    return file_of(header(descr, shape, fortran))


def padded(text, length):
    return text + b' ' * (length - len(text))


def nested(count, innermost):
    """That many records, each the only field of the one around it."""
    return b"[('a', " * count + innermost + b')]' * count


def fields(count, inner=b"'|i1'", name=b'a'):
    return b'[' + (b"('" + name + b"', " + inner + b'), ') * count + b']'


P62, P61, P64 = (str(2 ** k).encode() for k in (62, 61, 64))
M64 = str(2 ** 64 - 1).encode()

# file -> the refusal's number, or 0 where it is accepted
EDGES = [
    # 1 to 4
    (b'', 1), (b'\x93NUMPY\x01', 1), (b'\x93NUMPX\x01\x00\x00\x00', 1), (b'\x93NUMPY\x01\x01', 2), (b'\x93NUMPY\x04\x00', 2), (b'\x93NUMPY\x00\x00', 2), (b'\x93NUMPY\x01\x00', 3), (b'\x93NUMPY\x01\x00\x01', 3),
    (b'\x93NUMPY\x02\x00\x01\x00\x00', 3), (file_of(b'', (2, 0), 131_073), 4), (file_of(b'', (2, 0), 131_072), 3), (file_of(b'', (3, 0), 2 ** 32 - 1), 4), (file_of(header(), length=len(header()) + 1), 3),
    (file_of(header(), (1, 0)), 0), (file_of(header(), (2, 0)), 0), (file_of(header(), (3, 0)), 0), (file_of(header(), data=b'\x00' * 5), 0),
    # the first 65,536 bytes
    (file_of(padded(header(), 65_526), (1, 0)), 0), (file_of(padded(header(), 65_527), (1, 0)), 23), (file_of(padded(header(), 65_524), (2, 0), data=b'xx'), 0), (file_of(padded(header(), 65_525), (2, 0)), 23),
    (file_of(b'', (1, 0), 65_527, b' ' * 65_526), 3), (file_of(b'', (2, 0), 131_072, b'\xff' * 65_525), 23), (file_of(b'', (2, 0), 131_073, b'\xff' * 70_000), 4), (file_of(b'$' * 65_526, (1, 0)), 6),
    # 5
    (file_of(b'\xff'), 5), (file_of(b'$\xff'), 5), (file_of(b'[' * 40 + b'\xc0\x80'), 5), (file_of(b"'\xed\xa0\x80'"), 5), (file_of(b"'\xf4\x90\x80\x80'"), 5), (file_of(b"'\xe0\x9f\xbf'"), 5), (file_of(b"'\xf4\x8f\xbf\xbf'"), 8),
    (file_of(b"'\xc3'"), 5), (file_of(b"'\xe6\x97"), 5), (file_of(b"'\xf0\x8f\xbf\xbf'"), 5), (file_of(b"'\x00'"), 8),
    # 6, 7 and 8
    (file_of(b''), 6), (file_of(b'- 1'), 6), (file_of(b'[' * 31 + b'(3),[['), 6), (file_of(b'[' * 33 + b'$'), 7), (file_of(b'[' * 32 + b'1 ['), 6), (file_of(b'{' * 33), 7), (file_of(b'1'), 8), (file_of(b'[]'), 8),
    (file_of(b'{1: 2}'), 8), (file_of(b"{'a': 1, (): 2}"), 8), (file_of(header()[:-1] + b', None: 0}'), 8), (file_of(header()[:-1] + b", 'x': {1: 2}}"), 0),
    # 9 and 10: the order of the keys is fixed, the last of equal ones counts
    (file_of(b'{}'), 9), (file_of(b"{'fortran_order': 1}"), 10), (file_of(b"{'fortran_order': True}"), 9), (file_of(b"{'fortran_order': False, 'shape': (-1,)}"), 11), (file_of(b"{'fortran_order': False, 'shape': ()}"), 9),
    (file_of(b"{'shape': (3,), 'descr': '<i4'}"), 9), (H(fortran=b"'False'"), 10), (H(fortran=b'None'), 10), (H(fortran=b'0'), 10), (file_of(header()[:-1] + b", 'shape': 1}"), 11), (file_of(b"{'shape': 1, " + header()[1:]), 0),
    (file_of(header(fortran=b'1')[:-1] + b", \"fortran_order\": True}"), 0),
    # 11, 12 and 13
    (H(shape=b'3'), 11), (H(shape=b'None'), 11), (H(shape=b'{}'), 11), (H(shape=b"('3',)"), 11), (H(shape=b'(True,)'), 11), (H(shape=b'(-1,)'), 11), (H(shape=b'[-0]'), 0), (H(shape=b'[]'), 0), (H(shape=b'(' + M64 + b',)'), 0),
    (H(shape=b'(' + P64 + b',)'), 12), (H(shape=b'(-' + P64 + b',)'), 11), (H(shape=b'(' + P64 + b',-1)'), 12), (H(shape=b'(-1,' + P64 + b')'), 11), (H(shape=b'(' + b'9' * 5000 + b',)'), 12), (H(shape=b'(-' + b'9' * 5000 + b',)'), 11),
    (H(shape=b'(' + b'1,' * 32 + b')'), 0), (H(shape=b'(' + b'1,' * 33 + b')'), 13), (H(shape=b'(' + b'1,' * 33 + b'-1)'), 11), (H(shape=b'(' + b'1,' * 33 + P64 + b')'), 12),
    (file_of(b"{'fortran_order': False, 'shape': (" + b'1,' * 33 + b')}'), 13), (file_of(header()[:-1] + b", 'x': " + b'9' * 5000 + b'}'), 0),
    (H(b"[('a','<i4',(" + b'1,' * 33 + b')),]'), 13), (H(b"[('a','<i4',(" + b'1,' * 32 + b')),]'), 0), (H(b"[('a','<i4',(" + b'1,' * 33 + b")), ('b','=i4')]"), 15), (H(b"[('a','<i4',(" + b'1,' * 33 + b')),] '), 13),
    # 14
    (H(b'1'), 14), (H(b'None'), 14), (H(b"('a','<i4')"), 14), (H(b'{}'), 14), (H(b'[5]'), 14), (H(b"['ab']"), 14), (H(b"[('a',)]"), 14), (H(b"[('a','<i4',(),1)]"), 14), (H(b"[(1,'<i4')]"), 14), (H(b"[('a',1)]"), 14), (H(b"[('a',('b','<i4'))]"), 14),
    (H(b"[['a','<i4']]"), 0), (H(b"[('a','<i4'),('a','<i4')]"), 0), (H(b'[]'), 0), (H(b"[('a',[])]"), 0), (H(b'[()]'), 14), (H(b"[{'a':'<i4'}]"), 14), (H(b"[('a','=i4'), 5]"), 15), (H(b"[(1,'=i4')]"), 14), (H(b"[('a','=i4',(),1)]"), 14),
    (H(b"[('a','<i9',-1)]"), 18), (H(b"[('a','<i4',3)]"), 11), (H(b"[('a','<i4',(-1,))]"), 11), (H(b"[('a','<i4',(" + P64 + b',))]'), 12), (H(b"[('a','<i4',(-0,))]"), 0), (H(b"[('a','<i4',())]"), 0), (H(b"[('a','<i4',[2,3])]"), 0),
    # 15 to 19
    (H(b"''"), 15), (H(b"'=i4'"), 15), (H(b"'<i\\n4'"), 15), (H(b"'<i4\\\\'"), 15), (H(b'"<i4"'), 0), (H(b"'>i" + b'9' * 30 + b"'"), 16), (H(b"'|i9'"), 17), (H(b"'>i9'"), 18), (H(b"'>m8'"), 19), (H(b"'|O[us]'"), 19), (H(b"'<i08'"), 0), (H(b"'<O'"), 0),
    # 20
    (H(fields(511)), 0), (H(fields(512)), 20), (H(b"[('a','<i4',(1,1)), " + fields(508)[1:]), 0), (H(b"[('a','<i4',(1,1)), " + fields(509)[1:]), 20), (H(fields(512, b"'|S" + M64 + b"'")), 20),
    (file_of(header(b"[('" + b'n' * 60_000 + b"','<i4')]"), (2, 0)), 23), (file_of(header(b"[('" + b'n' * 16_384 + b"','<i4')]")), 0), (file_of(header(b"[('" + b'n' * 16_385 + b"','<i4')]")), 23),
    (file_of(header(b"[('" + b'n' * 16_384 + b"','<i4'), ('','<i4')]")), 0), (file_of(header(b"[('" + b'\\n' * 16_384 + b"','<i4')]")), 0), (file_of(header(b"[('" + b'n' * 16_385 + b"','|S" + M64 + b"',(2,))]")), 21),
    # 21
    (H(b"'<U" + P62 + b"'"), 21), (H(b"'<U" + str(2 ** 62 - 1).encode() + b"'"), 0), (H(b"'|S" + M64 + b"'"), 0), (H(b"[('a','|S" + M64 + b"'),('b','|S0')]"), 0), (H(b"[('a','|S" + M64 + b"'),('b','|S1')]"), 21),
    (H(b"[('a','<i8',(0," + P61 + b'))]'), 21), (H(b"[('a','<i8',(" + P61 + b',0))]'), 0), (H(b"[('a','<i8',(0," + P61 + b")),('b','|O')]"), 0), (H(b"[('a','<U" + P62 + b"',(0,))]"), 21), (H(b"[('a',[],(" + M64 + b',' + M64 + b'))]'), 0),
    # 22
    (H(shape=b'(0,1099511627776,1099511627776)'), 22), (H(shape=b'(0,1099511627776,1099511627776)', fortran=b'True'), 0), (H(shape=b'(1099511627776,1099511627776,0)'), 0), (H(shape=b'(1099511627776,1099511627776,0)', fortran=b'True'), 22),
    (H(shape=b'(4294967296,4294967296)'), 22), (H(shape=b'(4294967296,4294967295)'), 0), (H(shape=b'()'), 0), (H(b"'|S" + M64 + b"'", b'(' + M64 + b',)'), 0), (H(b"'<U" + P62 + b"'", b'(4294967296,4294967296)'), 21),
    # depth: "15 nested records with a sub-shape in the innermost open 32 brackets; a 16th with a field gives 7, an empty 16th doesn't"
    (H(nested(14, b"[('a','<i4',(2,))]")), 0), (H(nested(15, b"[('a','<i4')]")), 7), (H(nested(15, b'[]')), 0), (H(nested(15, b"'<i4'")), 0), (H(nested(16, b"'<i4'")), 7),
]


def name_of(rng):
    parts = ['a', 'b', 'x1', ' ', '"', '[', 'é', '日', '𝄞', '\t', '\x00', "\\'", '\\\\', '\\n', '\\r', '\\"', '\\t']
    count = rng.choice((0, 1, 1, 1, 2, 5)) if rng.random() < 0.999 else rng.randrange(8_000, 17_000)
    return b"'" + ''.join(rng.choice(parts) for _ in range(count)).encode() + b"'"


def number_of(rng):
    edges = (0, 1, 2, 3, 2 ** 31, 2 ** 32, 2 ** 32 - 1, 2 ** 40, 2 ** 61, 2 ** 62, 2 ** 63, 2 ** 64 - 1, 2 ** 64, 10 ** 20)
    text = str(rng.choice(edges) if rng.random() < 0.25 else rng.randrange(6)).encode()
    return b'-' + text if rng.random() < 0.02 else text


def shape_of(rng):
    count = rng.choice((0, 1, 1, 2, 2, 3, 4)) if rng.random() < 0.97 else rng.choice((31, 32, 33, 40))
    members = [number_of(rng) for _ in range(count)] if count < 9 else [b'1'] * count
    return rng.choice((b'[%s]', b'(%s)')).replace(b'%s', b''.join(m + rng.choice((b',', b', ')) for m in members))


VALID = sorted(set(type_strings.valid()))


def type_of(rng):
    text = rng.choice(VALID) if rng.random() < 0.9 else rng.choice((b'<i4', b'|O', b'<O', b'<U3', b'>m8[us]'))
    if rng.random() < 0.06:
        text = type_strings.damaged(text, rng).replace(b"'", b'')
    if rng.random() < 0.03:
        text = rng.choice(type_strings.ORDERS) + rng.choice(type_strings.LETTERS) + str(rng.choice(type_strings.NUMBERS)).encode() + rng.choice((b'', b'', b'[us]', b'[D]'))
    return b"'" + text + b"'"


def descr_of(rng, depth):
    if depth == 0 or rng.random() < 0.5:
        return type_of(rng)
    items = []
    for _ in range(rng.choice((0, 1, 1, 2, 3, 4))):
        parts = [name_of(rng), descr_of(rng, depth - 1)] + ([shape_of(rng)] if rng.random() < 0.3 else [])
        if rng.random() < 0.03:
            parts[rng.randrange(len(parts))] = rng.choice((b'1', b'None', b"''", b'()', b'{}', b'[]'))
        if rng.random() < 0.02:
            parts = parts[:1] if rng.random() < 0.5 else parts + [b'()', b'1'][:rng.randrange(1, 3)]
        items.append(rng.choice((b'(%s)', b'(%s)', b'[%s]')).replace(b'%s', b', '.join(parts) + (b',' if len(parts) == 1 else b'')))
    return b'[' + b''.join(item + b', ' for item in items) + b']'


def text_of(rng):
    """A header text, most often valid."""
    odd = lambda usual: usual if rng.random() < 0.96 else rng.choice((b'1', b'None', b"'x'", b'()', b'{}', b'True'))
    kind = rng.random()
    descr = fields(rng.choice((510, 511, 512, 513)), type_of(rng)) if kind < 0.005 else nested(rng.randrange(13, 17), descr_of(rng, 1)) if kind < 0.02 else descr_of(rng, rng.randrange(5))
    items = [b"'descr': " + odd(descr), b"'fortran_order': " + odd(rng.choice((b'True', b'False'))), b"'shape': " + odd(shape_of(rng))]
    if rng.random() < 0.1:
        items.append(rng.choice((b"'shape': ", b"'descr': ", b"'extra': ", b'"fortran_order": ', b'1: ')) + literals.text_of(rng, 2))
    if rng.random() < 0.05:
        del items[rng.randrange(len(items))]
    if rng.random() < 0.5:
        rng.shuffle(items)
    text = b'{' + b''.join(item + b', ' for item in items) + b'}' + b' ' * rng.randrange(20) + b'\n'
    return literals.damaged(text, rng) if rng.random() < 0.25 else text


def generated(count, seed):
    """That many files: most are read to the end, a quarter have a damaged text, some a damaged prefix, length or byte."""
    rng = random.Random(seed)
    for _ in range(count):
        text = text_of(rng)
        version = rng.choice(((1, 0), (1, 0), (2, 0), (3, 0)))
        if len(text) > 65_535:
            version = (3, 0)
        length = len(text) + rng.choice((-1, 1, 2, 70_000, 131_072)) if rng.random() < 0.03 else len(text)
        length = max(0, min(length, 65_535 if version == (1, 0) else 2 ** 32 - 1))
        file = bytearray(file_of(text, version, length, b'\x00' * rng.choice((0, 0, 12, 100, 66_000) if rng.random() < 0.1 else (0,))))
        if rng.random() < 0.05:
            file[rng.randrange(min(len(file), 12))] = rng.choice((0, 1, 2, 3, 4, 0x93, 0xff))
        if rng.random() < 0.02:
            file[rng.randrange(len(file))] = rng.randrange(256)
        if rng.random() < 0.02:
            del file[rng.randrange(len(file)):]
        yield bytes(file)
