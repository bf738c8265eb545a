"""Document 01's rule for type strings ("The record", second paragraph), written from its text and apart from every parser: one pattern for the
syntax, and then the checks in the order the document gives. A case is the part of the header text between the quotes, as bytes."""
import re

# "byte order `<`, `>` or `|`; a letter of `b i u f c m M S U O V`; decimal size, leading zeros allowed, absent for `O` and needed otherwise;
# then optional units in brackets, one of `Y M W D h m s ms us ns ps fs as`"
SYNTAX = re.compile(rb'([<>|])(?:(O)|([biufcmMSUV])([0-9]+))(?:\[(Y|M|W|D|h|m|s|ms|us|ns|ps|fs|as)\])?')

# "Sizes: b 1; i, u 1 2 4 8; f 2 4 8 16; c 8 16 32; m, M 8; others any."
SIZES = {b'b': {1}, b'i': {1, 2, 4, 8}, b'u': {1, 2, 4, 8}, b'f': {2, 4, 8, 16}, b'c': {8, 16, 32}, b'm': {8}, b'M': {8}}

MOST = 2 ** 64 - 1


def type_string(case):
    """15 to 19, or (order, letter, size, units or None)."""
    found = SYNTAX.fullmatch(case)
    if found is None:
        return 15
    order, obj, letter, digits, units = found.groups()
    letter = letter or obj
    # "leading zeros allowed"; "size over 2^64-1": more than 20 digits after the zeros are over it in any case
    digits = b'0' + (digits or b'').lstrip(b'0')
    if len(digits) > 21 or int(digits) > MOST:
        return 16
    size = int(digits)
    # "`|` is refused for U, and for b i u f c m M when the size is not 1"
    if order == b'|' and (letter == b'U' or letter in SIZES and size != 1):
        return 17
    if letter in SIZES and size not in SIZES[letter]:
        return 18
    # "Units stand exactly on m and M"
    if (units is not None) != (letter in b'mM'):
        return 19
    return order, letter, size, units


def printed(read):
    """"Type strings print without leading zeros, `O` without a size"."""
    order, letter, size, units = read
    return order.decode() + letter.decode() + ('' if letter == b'O' else str(size)) + (f'[{units.decode()}]' if units else '')


def item_size(read):
    """"Bytes: the size, or 4 times it for U. With an `O` anywhere there is no item size": None for `O`."""
    order, letter, size, units = read
    return None if letter == b'O' else 4 * size if letter == b'U' else size


def line(case):
    """The line that answers a case: the refusal, or `<order><letter> SIZE UNITS BYTES CANON`."""
    read = type_string(case)
    if isinstance(read, int):
        return str(read)
    order, letter, size, units = read
    total = item_size(read)
    return '%s %d %s %s %s' % ((order + letter).decode(), size, units.decode() if units else '-',
                               'none' if total is None else 'over' if total > MOST else total, printed(read))
