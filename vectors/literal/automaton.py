"""Document 01, "The literal", as an automaton with a stack: one byte at a time, a state, and a mark for each open bracket; no recursion, no tokens and no way
back. It finds a fault at the byte for which there is no step, and so has its exact place. The text is bytes, and UTF-8 (refusal 5 is judged before).

A state is
    item      a value or the closing bracket may be here: after an opening bracket, and after a comma
    value     a value must be here: at the beginning of the text, and after a colon
    after     after a value
    minus zero digits      inside an integer
    ' or " or '\\ or "\\     inside a string of that quote, and after its backslash
    a beginning of True, False or None
A mark is `[`, `(` (a tuple without a comma yet), `(,`, `{` (a dict whose next key is read, or is awaited) or `{:` (whose value is read, or is awaited).
"""
BLANKS = frozenset(b' \t\n\r')
WORDS = {'True': True, 'False': False, 'None': None}
STARTS = {word[:n] for word in WORDS for n in range(1, len(word))}
ESCAPES = {ord('\\'): '\\', ord("'"): "'", ord('"'): '"', ord('n'): '\n', ord('r'): '\r', ord('t'): '\t'}
OPEN = {'[': '[', '(': '(', '{': '{'}
CLOSE = {'[': ']', '(': ')', '(,': ')', '{': '}', '{:': '}'}
# after a value: mark, byte -> the mark in its place (None: the bracket closes) and the next state
AFTER = {
    ('[', ','): ('[', 'item'), ('[', ']'): (None, 'after'),
    ('(', ','): ('(,', 'item'),
    ('(,', ','): ('(,', 'item'), ('(,', ')'): (None, 'after'),
    ('{', ':'): ('{:', 'value'),
    ('{:', ','): ('{', 'item'), ('{:', '}'): (None, 'after'),
}
START = ('value', ())


def step(state, marks, byte, most=32):
    """The state and marks after one more byte, or 6, or 7 where it is a bracket that may be here but would be one too many."""
    char = chr(byte)
    if state in ("'", '"'):
        return 6 if char in '\n\r' else ('after' if char == state else state + '\\' if char == '\\' else state), marks
    if state in ("'\\", '"\\'):
        return state[0] if byte in ESCAPES else 6, marks
    if state in STARTS:
        word = state + char
        return 'after' if word in WORDS else word if word in STARTS else 6, marks
    if state == 'minus':
        return 'zero' if char == '0' else 'digits' if char in '123456789' else 6, marks
    if state == 'digits' and char in '0123456789':
        return 'digits', marks
    if byte in BLANKS:
        return state if state in ('item', 'value') else 'after', marks
    if state in ('item', 'value'):
        if char in OPEN:
            return (7, marks) if len(marks) == most else ('item', marks + (OPEN[char],))
        if state == 'item' and char == CLOSE[marks[-1]]:
            return 'after', marks[:-1]
        if char in STARTS or char in '\'"':
            return char, marks
        return 'minus' if char == '-' else 'zero' if char == '0' else 'digits' if char in '123456789' else 6, marks
    # after a value: `after`, and the integers, which end here
    new = AFTER.get((marks[-1], char)) if marks else None
    if new is None:
        return 6, marks
    return new[1], marks[:-1] + ((new[0],) if new[0] else ())


def ends(state, marks):
    """Whether the text may end here."""
    return not marks and state in ('after', 'zero', 'digits')


class Integer(str):
    """An integer as written: an optional `-` and its digits."""


class String(bytes):
    """A string's decoded bytes; `raw` is what is between its quotes."""


class Items(list):
    """A dict's items, (key, value), in the order of the text."""


def check(text, most=32):
    """(6, place) or (7, place), or ('ok', value): strings are String; integers Integer; dicts Items; lists, tuples, True, False and None themselves."""
    state, marks = START
    holders = [[]]

    def put(value):
        holders[-1].append(value)

    def string(decoded, raw):
        value = String(decoded)
        value.raw = raw
        return value

    begun = 0
    for at, byte in enumerate(text):
        was, had = state, marks
        state, marks = step(state, marks, byte, most)
        if state in (6, 7):
            return state, at
        if was in ('item', 'value'):
            begun = at
            piece = bytearray()
        if was in ('zero', 'digits') and state not in ('zero', 'digits'):
            put(Integer(text[begun:at].decode()))
        if was in ("'", '"'):
            if state == 'after':
                put(string(piece, text[begun + 1:at]))
            elif state == was:
                piece.append(byte)
        elif was in ("'\\", '"\\'):
            piece += ESCAPES[byte].encode()
        elif was in STARTS and state == 'after':
            put(WORDS[text[begun:at + 1].decode()])
        if len(marks) > len(had):
            holders.append([])
        elif len(marks) < len(had):
            held = holders.pop()
            put(held if had[-1] == '[' else Items(zip(held[::2], held[1::2])) if had[-1][0] == '{' else tuple(held))
    if not ends(state, marks):
        return 6, len(text)
    if state in ('zero', 'digits'):
        put(Integer(text[begun:].decode()))
    return 'ok', holders[0][0]


def line(text):
    """The line that answers a text: `ok`, `6 PLACE` or `7 PLACE`."""
    verdict, rest = check(text)
    return 'ok' if verdict == 'ok' else f'{verdict} {rest}'


def value_line(value):
    """A value in one line: `s` and the decoded bytes in hex, `i` and the integer as written, True, False, None, `[v v]`, `(v v)`, `{k:v k:v}`."""
    if isinstance(value, bytes):
        return 's' + value.hex()
    if isinstance(value, Integer):
        return 'i' + value
    if isinstance(value, Items):
        return '{' + ' '.join(value_line(k) + ':' + value_line(v) for k, v in value) + '}'
    if isinstance(value, list):
        return '[' + ' '.join(map(value_line, value)) + ']'
    if isinstance(value, tuple):
        return '(' + ' '.join(map(value_line, value)) + ')'
    return repr(value)
