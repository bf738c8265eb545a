"""Document 01, "The literal", a second time and in another way: its sentences as the rules of a grammar, and Earley's recogniser over them, which knows no
state and no stack of its own. A byte after which no rule is left is "the first byte that no valid text could have after what precedes it", by construction.

The grammar of nesting at most d and the grammar "nesting aside" give 6 and 7 apart: the first fault of both is 6; a fault of the first alone is 7.
Slow, and only for judging automaton.py.
"""
from functools import lru_cache

# one rule a line; a quoted part is its bytes, `/` parts the choices. `value` inside brackets is the value of the next depth
RULES = r"""
text: gap value gap
gap: / gap blank
value: string / integer / word / list / tuple / dict
word: 'True' / 'False' / 'None'
list: '[' gap ']' / '[' gap values ']' / '[' gap values ',' gap ']'
values: inner gap / values ',' gap inner gap
tuple: '(' gap ')' / '(' gap inner gap ',' gap ')' / '(' gap inner gap ',' gap values ')' / '(' gap inner gap ',' gap values ',' gap ')'
dict: '{' gap '}' / '{' gap items '}' / '{' gap items ',' gap '}'
items: item / items ',' gap item
item: inner gap ':' gap inner gap
integer: natural / '-' natural
natural: '0' / nonzero digits
digits: / digits digit
string: single chars1 single / double chars2 double
chars1: / chars1 char1 / chars1 backslash escape
chars2: / chars2 char2 / chars2 backslash escape
"""
CLASSES = {
    'blank': b' \t\n\r', 'nonzero': b'123456789', 'digit': b'0123456789', 'single': b"'", 'double': b'"', 'backslash': b'\\', 'escape': b'\\\'"nrt',
    'char1': bytes(b for b in range(256) if b not in b"'\\\n\r"), 'char2': bytes(b for b in range(256) if b not in b'"\\\n\r'),
}
# the rules that speak of a depth, and so are written once for each
DEEP = {'value', 'list', 'values', 'tuple', 'dict', 'items', 'item'}


def rules(depth):
    """The rules for nesting up to `depth`, or for any where it is None: name -> list of bodies, a body being a tuple of names and byte sets."""
    table = {}
    for level in [None] if depth is None else range(depth + 1):
        for row in RULES.strip().split('\n'):
            name, bodies = row.split(': ', 1)
            if name not in DEEP and level not in (None, depth):
                continue
            here = (name, level) if name in DEEP else name
            for body in (' ' + bodies).split(' /'):
                parts = []
                for part in body.split():
                    if part[0] == "'":
                        parts += [frozenset({b}) for b in part[1:-1].encode()]
                    elif part in CLASSES:
                        parts.append(frozenset(CLASSES[part]))
                    elif part == 'inner':
                        parts.append(('value', None if level is None else level - 1))
                    else:
                        parts.append((part, level) if part in DEEP else part)
                if level == 0 and parts and parts[0] in (('list', 0), ('tuple', 0), ('dict', 0)):
                    continue
                table.setdefault(here, []).append(tuple(parts))
    return table


class Earley:
    # what may be empty
    NULLABLE = {'gap', 'digits', 'chars1', 'chars2'}

    def __init__(self, depth=None):
        self.rules = rules(depth)
        self.first = self.close([('text', body, 0, 0) for body in self.rules['text']], ())

    def close(self, items, before):
        """All items that follow from these at one place: `before` are the sets of the places before it. An item is name, body, dot, origin."""
        here = len(before)
        done = set(items)
        todo = list(items)
        waiting = {}

        def add(item):
            if item not in done:
                done.add(item)
                todo.append(item)

        while todo:
            name, body, dot, origin = todo.pop()
            if dot < len(body):
                part = body[dot]
                if isinstance(part, frozenset):
                    continue
                waiting.setdefault(part, []).append((name, body, dot, origin))
                for choice in self.rules[part]:
                    add((part, choice, 0, here))
                if part in self.NULLABLE:
                    add((name, body, dot + 1, origin))
            else:
                source = waiting.get(name, ()) if origin == here else before[origin][1].get(name, ())
                for other, obody, odot, oorigin in list(source):
                    add((other, obody, odot + 1, oorigin))
        return done, waiting

    def begin(self):
        return (self.first,)

    def follow(self, places):
        """The bytes that may be next."""
        may = set()
        for name, body, dot, origin in places[-1][0]:
            if dot < len(body) and isinstance(body[dot], frozenset):
                may |= body[dot]
        return may

    def step(self, places, byte):
        """The places with one more, or None where the byte may not be there."""
        items = [(name, body, dot + 1, origin) for name, body, dot, origin in places[-1][0]
                 if dot < len(body) and isinstance(body[dot], frozenset) and byte in body[dot]]
        return places + (self.close(items, places),) if items else None

    def ends(self, places):
        return any(name == 'text' and dot == len(body) for name, body, dot, origin in places[-1][0])


@lru_cache
def reader(depth):
    return Earley(depth)


def fault(text, depth):
    """The place of the first fault by the grammar of that depth, or None."""
    earley = reader(depth)
    places = earley.begin()
    for at, byte in enumerate(text):
        places = earley.step(places, byte)
        if places is None:
            return at
    return None if earley.ends(places) else len(text)


def line(text, most=32):
    bounded, free = fault(text, most), fault(text, None)
    return 'ok' if bounded is None else f'6 {bounded}' if bounded == free else f'7 {bounded}'
