// A plain reader of NPY headers and of values (plain.h). The text is read once to see that it is UTF-8, and once more for everything else: the literal's faults, which go before
// all that is judged of the record, and the record itself, which is kept here until the last refusal is ruled out and is then written to the lent rooms. A name stays in
// the text until then. No heap; some 30 KiB of stack.
#include "plain.h"

#include <stdbool.h>
#include <string.h>

enum { MOST_TEXT = 131072, MOST_OPEN = 32, MOST_DIMENSIONS = 32, MOST_ENTRIES = 512, MOST_NAMES = 65536, ENTRY = 9 };
enum { PLAIN, ARRAY, RECORD };

// A string of the text: what is between its quotes, and how many bytes that is decoded.
struct string {
    const uint8_t *from, *to;
    size_t length;
};

// A plain type or a record, and what its field says of it: its name and its sub-shape, whose dimensions are in `dims` from `first` on. A node makes an entry of the table for
// each dimension and then one of its own. `bytes` and `extent` (how many entries) are without the sub-shape.
struct node {
    uint64_t number, bytes;
    const uint8_t *name;
    uint32_t name_raw, name_length;
    uint16_t parent, extent, levels, first, entry;
    uint8_t kind, order, letter, units;
};

// A text that is read, and what was found of its record so far. There is one node more than a record may have: what is too much goes there.
struct reader {
    const uint8_t *end;
    uint8_t fault;
    bool has_order, has_shape, has_descr, object, wide, over;
    uint8_t order, bad_order, bad_shape, bad_descr;
    size_t rank, entries, names, nodes_used, dims_used;
    uint64_t shape[MOST_DIMENSIONS];
    uint64_t dims[MOST_ENTRIES];
    struct node nodes[MOST_ENTRIES + 1];
};

enum { BLANK = 1, DIGIT = 2, SPECIAL = 4 };

// Bytes by class: blanks, digits, and what ends a run of plain bytes in a string.
static const uint8_t class_of[256] = {
    [' '] = BLANK, ['\t'] = BLANK, ['\n'] = BLANK | SPECIAL, ['\r'] = BLANK | SPECIAL, ['\''] = SPECIAL, ['"'] = SPECIAL, ['\\'] = SPECIAL,
    ['0'] = DIGIT, ['1'] = DIGIT, ['2'] = DIGIT, ['3'] = DIGIT, ['4'] = DIGIT, ['5'] = DIGIT, ['6'] = DIGIT, ['7'] = DIGIT, ['8'] = DIGIT, ['9'] = DIGIT,
};

static bool is_utf8(const uint8_t *p, const uint8_t *end)
{
    uint8_t all = 0;
    for (const uint8_t *q = p; q < end; q++)
        all |= *q;
    if (all < 0x80)
        return true;
    while (p < end) {
        uint8_t lead = *p, low = 0x80, high = 0xBF;
        ptrdiff_t more = 3;
        if (lead < 0x80) {
            p++;
            continue;
        }
        if (lead < 0xC2 || lead > 0xF4)
            return false;
        if (lead < 0xE0) {
            more = 1;
        } else if (lead < 0xF0) {
            more = 2;
            low = lead == 0xE0 ? 0xA0 : 0x80;
            high = lead == 0xED ? 0x9F : 0xBF;
        } else {
            low = lead == 0xF0 ? 0x90 : 0x80;
            high = lead == 0xF4 ? 0x8F : 0xBF;
        }
        if (end - p <= more || p[1] < low || p[1] > high)
            return false;
        for (ptrdiff_t k = 2; k <= more; k++)
            if ((p[k] & 0xC0) != 0x80)
                return false;
        p += more + 1;
    }
    return true;
}

// The literal. A function takes where something begins and gives where it ends, or NULL at a fault, which is 6 or 7. `open` is how many brackets are open.

static const uint8_t *faulted(struct reader *r, uint8_t number)
{
    r->fault = number;
    return NULL;
}

static inline const uint8_t *blanks(const struct reader *r, const uint8_t *p)
{
    while (p < r->end && class_of[*p] & BLANK)
        p++;
    return p;
}

static inline bool is_at(const struct reader *r, const uint8_t *p, uint8_t byte)
{
    return p < r->end && *p == byte;
}

static inline bool is_quote(const struct reader *r, const uint8_t *p)
{
    return p < r->end && (*p == '\'' || *p == '"');
}

// The bracket that closes a list or a tuple; 0 where neither begins.
static inline uint8_t closing(const struct reader *r, const uint8_t *p)
{
    return is_at(r, p, '[') ? ']' : is_at(r, p, '(') ? ')' : 0;
}

// After an opening bracket or a comma, at p: the next item, or what follows where the bracket closes.
static inline const uint8_t *enter(const struct reader *r, const uint8_t *p, uint8_t close, bool *item)
{
    p = blanks(r, p + 1);
    *item = !is_at(r, p, close);
    return *item ? p : p + 1;
}

// The same after an item. A tuple may not close after its only item.
static inline const uint8_t *follow(struct reader *r, const uint8_t *p, uint8_t close, bool may_close, bool *item)
{
    p = blanks(r, p);
    if (is_at(r, p, ','))
        return enter(r, p, close, item);
    if (!is_at(r, p, close) || !may_close)
        return faulted(r, 6);
    *item = false;
    return p + 1;
}

static const uint8_t *string(struct reader *r, const uint8_t *p, struct string *s)
{
    uint8_t quote = *p++;
    size_t escapes = 0;
    s->from = p;
    for (;;) {
        while (p < r->end && !(class_of[*p] & SPECIAL))
            p++;
        if (p == r->end || *p == '\n' || *p == '\r')
            return faulted(r, 6);
        if (*p == quote)
            break;
        if (*p == '\\') {
            p++;
            if (p == r->end || (*p != '\\' && *p != '\'' && *p != '"' && *p != 'n' && *p != 'r' && *p != 't'))
                return faulted(r, 6);
            escapes++;
        }
        p++;
    }
    s->to = p;
    s->length = (size_t)(p - s->from) - escapes;
    return p + 1;
}

// The digits of an integer, at a digit, and its number.
static inline const uint8_t *natural(const struct reader *r, const uint8_t *p, uint64_t *n, bool *over)
{
    *n = *p - '0';
    *over = false;
    if (*p++ == '0')
        return p;
    for (; p < r->end && class_of[*p] & DIGIT; p++) {
        *over |= __builtin_mul_overflow(*n, 10, n);
        *over |= __builtin_add_overflow(*n, (uint64_t)(*p - '0'), n);
    }
    return p;
}

static const uint8_t *digits(struct reader *r, const uint8_t *p)
{
    if (p == r->end || !(class_of[*p] & DIGIT))
        return faulted(r, 6);
    if (*p++ == '0')
        return p;
    while (p < r->end && class_of[*p] & DIGIT)
        p++;
    return p;
}

static const uint8_t *word(struct reader *r, const uint8_t *p, const char *known, size_t length)
{
    if ((size_t)(r->end - p) < length || memcmp(p, known, length) != 0)
        return faulted(r, 6);
    return p + length;
}

static const uint8_t *value(struct reader *r, const uint8_t *p, unsigned open);

static const uint8_t *colon(struct reader *r, const uint8_t *p)
{
    p = blanks(r, p);
    return is_at(r, p, ':') ? blanks(r, p + 1) : faulted(r, 6);
}

static const uint8_t *dict(struct reader *r, const uint8_t *p, unsigned open)
{
    bool item;
    p = enter(r, p, '}', &item);
    while (item) {
        if (!(p = value(r, p, open)) || !(p = colon(r, p)) || !(p = value(r, p, open)) || !(p = follow(r, p, '}', true, &item)))
            return NULL;
    }
    return p;
}

static const uint8_t *list(struct reader *r, const uint8_t *p, uint8_t close, unsigned open)
{
    bool item, may_close = close == ']';
    p = enter(r, p, close, &item);
    for (; item; may_close = true) {
        if (!(p = value(r, p, open)) || !(p = follow(r, p, close, may_close, &item)))
            return NULL;
    }
    return p;
}

// Any value, of which nothing is asked but that it is one.
static const uint8_t *value(struct reader *r, const uint8_t *p, unsigned open)
{
    struct string s;
    if (p == r->end)
        return faulted(r, 6);
    switch (*p) {
    case '\'': case '"':
        return string(r, p, &s);
    case '-':
        return digits(r, p + 1);
    case '0': case '1': case '2': case '3': case '4': case '5': case '6': case '7': case '8': case '9':
        return digits(r, p);
    case 'T':
        return word(r, p, "True", 4);
    case 'F':
        return word(r, p, "False", 5);
    case 'N':
        return word(r, p, "None", 4);
    case '[': case '(': case '{':
        if (open == MOST_OPEN)
            return faulted(r, 7);
        return *p == '{' ? dict(r, p, open + 1) : list(r, p, *p == '[' ? ']' : ')', open + 1);
    default:
        return faulted(r, 6);
    }
}

// The record. What is judged goes to `bad`: 0, or the first refusal that applies; a literal's fault after it still counts, and so the text is read to its end.

// A dimension. `bad` becomes 11 or 12.
static const uint8_t *dimension(struct reader *r, const uint8_t *p, unsigned open, uint64_t *n, uint8_t *bad)
{
    bool over;
    if (p < r->end && class_of[*p] & DIGIT) {
        p = natural(r, p, n, &over);
        if (over)
            *bad = 12;
        return p;
    }
    if (!(is_at(r, p, '-') && is_at(r, p + 1, '0')))
        *bad = 11;
    *n = 0;
    return value(r, p, open);
}

// A shape or sub-shape. As many dimensions as have room are stored.
static const uint8_t *dimensions(struct reader *r, const uint8_t *p, unsigned open, uint64_t *room, size_t most, size_t *rank, uint8_t *bad)
{
    uint8_t close = closing(r, p);
    bool item;
    size_t n = 0;
    if (close == 0) {
        *bad = 11;
        return value(r, p, open);
    }
    if (open == MOST_OPEN)
        return faulted(r, 7);
    for (p = enter(r, p, close, &item); item; n++) {
        uint64_t d = 0;
        p = *bad ? value(r, p, open + 1) : dimension(r, p, open + 1, &d, bad);
        if (!p)
            return NULL;
        if (n < most)
            room[n] = d;
        if (!(p = follow(r, p, close, close == ']' || n > 0, &item)))
            return NULL;
    }
    *rank = n;
    return p;
}

// The units in brackets that a type string ends with: their number, 0 for none, or 255 for what is no units.
static uint8_t units(const uint8_t *p, const uint8_t *end)
{
    static const char one[] = "YMWDhms", two[] = "munpfa";
    ptrdiff_t length = end - p;
    const char *found;
    if (length == 0)
        return 0;
    if ((length != 3 && length != 4) || p[0] != '[' || end[-1] != ']' || p[1] == 0)
        return 255;
    if (length == 3)
        return (found = strchr(one, p[1])) ? (uint8_t)(1 + (found - one)) : 255;
    return p[2] == 's' && (found = strchr(two, p[1])) ? (uint8_t)(8 + (found - two)) : 255;
}

static bool allowed(uint8_t letter, uint64_t size)
{
    switch (letter) {
    case 'b': return size == 1;
    case 'i': case 'u': return size == 1 || size == 2 || size == 4 || size == 8;
    case 'f': return size == 2 || size == 4 || size == 8 || size == 16;
    case 'c': return size == 8 || size == 16 || size == 32;
    case 'm': case 'M': return size == 8;
    default: return true;
    }
}

// A type string: 0, or 15 to 19 in document 01's order.
static uint8_t type_string(const uint8_t *p, const uint8_t *end, struct node *t)
{
    bool over = false, fixed, dated, object;
    const uint8_t *from = p + 2;
    uint64_t size = 0;
    if (end - p < 2 || (p[0] != '<' && p[0] != '>' && p[0] != '|'))
        return 15;
    switch (p[1]) {
    case 'b': case 'i': case 'u': case 'f': case 'c': case 'm': case 'M': fixed = true; break;
    case 'S': case 'U': case 'O': case 'V': fixed = false; break;
    default: return 15;
    }
    t->order = p[0];
    t->letter = p[1];
    object = p[1] == 'O';
    dated = p[1] == 'm' || p[1] == 'M';
    for (p = from; p < end && class_of[*p] & DIGIT; p++) {
        over |= __builtin_mul_overflow(size, 10, &size);
        over |= __builtin_add_overflow(size, (uint64_t)(*p - '0'), &size);
    }
    if ((p == from) != object || (t->units = units(p, end)) == 255)
        return 15;
    if (over)
        return 16;
    if (t->order == '|' && (t->letter == 'U' || (fixed && size != 1)))
        return 17;
    if (!allowed(t->letter, size))
        return 18;
    if ((t->units != 0) != dated)
        return 19;
    t->number = size;
    return 0;
}

static inline uint64_t held_sum(struct reader *r, uint64_t a, uint64_t b)
{
    if (__builtin_add_overflow(a, b, &a)) {
        r->over = true;
        return UINT64_MAX;
    }
    return a;
}

static inline uint64_t held_product(struct reader *r, uint64_t a, uint64_t b)
{
    if (__builtin_mul_overflow(a, b, &a)) {
        r->over = true;
        return UINT64_MAX;
    }
    return a;
}

// What a descr or a field comes to: its bytes and its entries.
struct size {
    uint64_t bytes;
    unsigned extent;
};

static const uint8_t *field(struct reader *r, const uint8_t *p, unsigned open, size_t parent, struct size *size, uint8_t *bad);

// A type string or a list of fields, as a node after those there are.
static const uint8_t *descr(struct reader *r, const uint8_t *p, unsigned open, size_t parent, struct size *size, uint8_t *bad)
{
    size_t number = r->nodes_used;
    struct node *t = &r->nodes[number];
    if (number < MOST_ENTRIES)
        r->nodes_used++;
    r->entries++;
    t->parent = (uint16_t)parent;
    t->levels = 0;
    t->name_raw = t->name_length = 0;
    size->bytes = 0;
    size->extent = 1;
    if (is_quote(r, p)) {
        struct string s;
        if (!(p = string(r, p, &s)))
            return NULL;
        // any escape in it is a syntax fault, and so is its backslash
        *bad = type_string(s.from, s.to, t);
        if (*bad)
            return p;
        t->kind = PLAIN;
        r->object |= t->letter == 'O';
        size->bytes = t->letter == 'U' ? held_product(r, 4, t->number) : t->number;
    } else if (is_at(r, p, '[')) {
        bool item;
        uint64_t n = 0;
        if (open == MOST_OPEN)
            return faulted(r, 7);
        for (p = enter(r, p, ']', &item); item; n++) {
            struct size one = { 0, 0 };
            p = *bad ? value(r, p, open + 1) : field(r, p, open + 1, number, &one, bad);
            if (!p || !(p = follow(r, p, ']', true, &item)))
                return NULL;
            size->bytes = held_sum(r, size->bytes, one.bytes);
            size->extent += one.extent;
        }
        t->kind = RECORD;
        t->order = t->letter = t->units = 0;
        t->number = n;
    } else {
        *bad = 14;
        return value(r, p, open);
    }
    t->bytes = size->bytes;
    t->extent = (uint16_t)size->extent;
    return p;
}

// A list or tuple of 2 or 3: name, inner descr, and perhaps a sub-shape. Another item count goes before what is wrong inside.
static const uint8_t *field(struct reader *r, const uint8_t *p, unsigned open, size_t parent, struct size *size, uint8_t *bad)
{
    uint8_t close = closing(r, p);
    size_t number = r->nodes_used, room = MOST_ENTRIES - r->dims_used, rank = 0, n = 0;
    struct node *t = &r->nodes[number];
    struct string name = { NULL, NULL, 0 };
    bool item;
    if (close == 0) {
        *bad = 14;
        return value(r, p, open);
    }
    if (open == MOST_OPEN)
        return faulted(r, 7);
    for (p = enter(r, p, close, &item); item; n++) {
        if (*bad || n > 2) {
            p = value(r, p, open + 1);
        } else if (n == 1) {
            p = descr(r, p, open + 1, parent, size, bad);
            room = MOST_ENTRIES - r->dims_used;
        } else if (n == 2) {
            room = room < MOST_DIMENSIONS ? room : MOST_DIMENSIONS;
            p = dimensions(r, p, open + 1, r->dims + r->dims_used, room, &rank, bad);
        } else if (is_quote(r, p)) {
            p = string(r, p, &name);
        } else {
            *bad = 14;
            p = value(r, p, open + 1);
        }
        if (!p || !(p = follow(r, p, close, close == ']' || n > 0, &item)))
            return NULL;
    }
    if (n != 2 && n != 3)
        *bad = 14;
    if (*bad)
        return p;
    t->name = name.from;
    t->name_raw = (uint32_t)(name.to - name.from);
    t->name_length = (uint32_t)name.length;
    r->names += name.length;
    r->entries += rank;
    r->wide |= rank > MOST_DIMENSIONS;
    size->extent += (unsigned)rank;
    if (rank <= room) {
        t->levels = (uint16_t)rank;
        t->first = (uint16_t)r->dims_used;
        r->dims_used += rank;
        for (size_t k = rank; k-- > 0;)
            size->bytes = held_product(r, r->dims[t->first + k], size->bytes);
    }
    return p;
}

// A value of the outermost dict, by its key. Of equal keys the last counts, so each begins anew.
static const uint8_t *keyed(struct reader *r, const uint8_t *p, struct string key)
{
    size_t length = (size_t)(key.to - key.from);
    if (length == 13 && memcmp(key.from, "fortran_order", 13) == 0) {
        r->has_order = true;
        r->bad_order = is_at(r, p, 'T') || is_at(r, p, 'F') ? 0 : 10;
        r->order = is_at(r, p, 'T');
    } else if (length == 5 && memcmp(key.from, "shape", 5) == 0) {
        r->has_shape = true;
        r->bad_shape = 0;
        return dimensions(r, p, 1, r->shape, MOST_DIMENSIONS, &r->rank, &r->bad_shape);
    } else if (length == 5 && memcmp(key.from, "descr", 5) == 0) {
        struct size size;
        r->has_descr = true;
        r->bad_descr = 0;
        r->object = r->wide = r->over = false;
        r->entries = r->names = r->nodes_used = r->dims_used = 0;
        return descr(r, p, 1, 0, &size, &r->bad_descr);
    }
    return value(r, p, 1);
}

// The whole text: 0, or 6 or 7, or 8.
static uint8_t read_text(struct reader *r, const uint8_t *p)
{
    bool item, strings = true;
    p = blanks(r, p);
    if (!is_at(r, p, '{')) {
        strings = false;
        p = value(r, p, 0);
    } else {
        p = enter(r, p, '}', &item);
        while (p && item) {
            struct string key = { p, p, 0 };
            if (is_quote(r, p)) {
                p = string(r, p, &key);
            } else {
                strings = false;
                p = value(r, p, 1);
            }
            if (p && (p = colon(r, p)) && (p = keyed(r, p, key)))
                p = follow(r, p, '}', true, &item);
        }
    }
    if (!p)
        return r->fault;
    if (blanks(r, p) != r->end)
        return 6;
    return strings ? 0 : 8;
}

// Whether the item count or a stride of the order is over 2^64-1.
static bool over_shape(const struct reader *r)
{
    uint64_t product = 1;
    for (size_t k = 0; k < r->rank; k++)
        if (__builtin_mul_overflow(product, r->shape[r->order ? k : r->rank - 1 - k], &product))
            return true;
    return false;
}

// What is judged once the text has been read: 0, or 9 to 22 in document 01's order.
static uint8_t judge(const struct reader *r)
{
    if (!r->has_order)
        return 9;
    if (r->bad_order)
        return r->bad_order;
    if (!r->has_shape)
        return 9;
    if (r->bad_shape)
        return r->bad_shape;
    if (r->rank > MOST_DIMENSIONS)
        return 13;
    if (!r->has_descr)
        return 9;
    if (r->bad_descr)
        return r->bad_descr;
    if (r->wide)
        return 13;
    if (r->entries > MOST_ENTRIES || r->names > MOST_NAMES)
        return 20;
    if (!r->object && r->over)
        return 21;
    return over_shape(r) ? 22 : 0;
}

static inline void put_entry(uint64_t *e, uint64_t parent, const struct node *t, uint64_t kind, uint64_t number, uint64_t extent, uint64_t bytes, uint64_t name)
{
    bool plain = kind == PLAIN;
    e[0] = parent;
    e[1] = kind;
    e[2] = plain ? t->order : 0;
    e[3] = plain ? t->letter : 0;
    e[4] = number;
    e[5] = plain ? t->units : 0;
    e[6] = extent;
    e[7] = bytes;
    e[8] = name;
}

static uint8_t *put_name(uint8_t *out, const struct node *t)
{
    const uint8_t *p = t->name;
    if (t->name_raw == t->name_length) {
        memcpy(out, p, t->name_length);
        return out + t->name_length;
    }
    for (const uint8_t *end = p + t->name_raw; p < end; p++) {
        if (*p == '\\')
            p++, *out++ = *p == 'n' ? '\n' : *p == 'r' ? '\r' : *p == 't' ? '\t' : *p;
        else
            *out++ = *p;
    }
    return out;
}

// Writes table and names.
static void put_table(struct reader *r, uint64_t *table, uint8_t *names)
{
    uint16_t entry = 0;
    for (size_t i = 0; i < r->nodes_used; i++) {
        struct node *t = &r->nodes[i];
        uint64_t *e = table + ENTRY * entry, parent = i ? r->nodes[t->parent].entry : 0, bytes = t->bytes;
        // a level's bytes are known from the inside out
        for (size_t k = t->levels; k-- > 0;) {
            bytes = held_product(r, r->dims[t->first + k], bytes);
            put_entry(e + ENTRY * k, k ? entry + k - 1 : parent, t, ARRAY, r->dims[t->first + k], t->extent + t->levels - k, bytes, k ? 0 : t->name_length);
        }
        t->entry = entry + t->levels;
        put_entry(e + ENTRY * t->levels, t->levels ? (uint64_t)t->entry - 1 : parent, t, t->kind, t->number, t->extent, t->bytes, t->levels ? 0 : t->name_length);
        entry = t->entry + 1;
        if (t->name_raw)
            names = put_name(names, t);
    }
}

uint8_t plain_read_held(const uint8_t *file, size_t file_len, bool longer, uint64_t *table, size_t table_len, uint8_t *names, size_t names_len, uint64_t *shape, size_t shape_len, uint64_t said[6])
{
    struct reader r;
    size_t start, length;
    uint8_t refusal;
    if (file_len < 8 || memcmp(file, "\x93NUMPY", 6) != 0)
        return 1;
    if (file[6] < 1 || file[6] > 3 || file[7] != 0)
        return 2;
    start = file[6] == 1 ? 10 : 12;
    if (file_len < start)
        return 3;
    length = file[8] | (size_t)file[9] << 8;
    if (start == 12)
        length |= (size_t)file[10] << 16 | (size_t)file[11] << 24;
    if (length > MOST_TEXT)
        return 4;
    if (file_len - start < length)
        return longer ? 23 : 3;
    r.end = file + start + length;
    if (!is_utf8(file + start, r.end))
        return 5;
    r.has_order = r.has_shape = r.has_descr = false;
    refusal = read_text(&r, file + start);
    if (refusal == 0)
        refusal = judge(&r);
    if (refusal != 0)
        return refusal;
    if (table_len / ENTRY < r.entries || names_len < r.names || shape_len < r.rank)
        return 23;
    put_table(&r, table, names);
    memcpy(shape, r.shape, r.rank * sizeof *shape);
    said[0] = file[6];
    said[1] = r.order;
    said[2] = r.rank;
    said[3] = r.entries;
    said[4] = r.names;
    said[5] = start + length;
    return 0;
}

uint8_t plain_read(const uint8_t *file, size_t file_len, uint64_t *table, size_t table_len, uint8_t *names, size_t names_len, uint64_t *shape, size_t shape_len, uint64_t said[6])
{
    return plain_read_held(file, file_len, false, table, table_len, names, names_len, shape, shape_len, said);
}

// ---- classes of bytes

uint8_t plain_class(uint8_t b)
{
    if (b == ' ' || b == '\t' || b == '\n' || b == '\r')
        return 0;
    if (b >= '0' && b <= '9')
        return 1;
    if ((b >= 'A' && b <= 'Z') || (b >= 'a' && b <= 'z') || b == '_')
        return 2;
    if (b == '\'' || b == '"')
        return 3;
    if (b == '[' || b == ']' || b == '(' || b == ')' || b == '{' || b == '}')
        return 4;
    return b == '-' ? 5 : b == ',' ? 6 : b == ':' ? 7 : b == '\\' ? 8 : 9;
}

// ---- values

uint32_t plain_half(uint16_t half)
{
    uint32_t sign = (uint32_t)(half & 0x8000) << 16, exponent = half >> 10 & 31, fraction = half & 1023, shift;
    if (exponent == 31)
        return sign | 0x7F800000 | fraction << 13;
    if (exponent > 0)
        return sign | (exponent + 112) << 23 | fraction << 13;
    if (fraction == 0)
        return sign;
    // the leading one goes to the place that it has in a normal number
    shift = (uint32_t)__builtin_clz(fraction) - 21;
    return sign | (113 - shift) << 23 | (fraction << shift & 1023) << 13;
}

static inline uint64_t number(const uint8_t *run, size_t length, uint64_t order)
{
    uint64_t n = 0;
    for (size_t i = 0; i < length; i++)
        n = n << 8 | run[order == '>' ? i : length - 1 - i];
    return n;
}

// Whether a type string gives these numbers.
static bool is_type(uint64_t order, uint64_t letter, uint64_t size, uint64_t units)
{
    bool time = letter == 'm' || letter == 'M';
    if ((order != '<' && order != '>' && order != '|') || (time ? units < 1 || units > 13 : units != 0))
        return false;
    switch (letter) {
    case 'O': return size == 0;
    case 'S': case 'V': return true;
    case 'U': return order != '|';
    case 'b': case 'i': case 'u': case 'f': case 'c': case 'm': case 'M': return (order != '|' || size == 1) && allowed((uint8_t)letter, size);
    default: return false;
    }
}

static inline uint8_t give(uint64_t said[4], uint64_t kind, uint64_t first, uint64_t second, uint64_t units)
{
    said[0] = kind;
    said[1] = first;
    said[2] = second;
    said[3] = units;
    return 0;
}

uint8_t plain_value(const uint8_t *run, size_t run_len, uint64_t order, uint64_t letter, uint64_t size, uint64_t units, uint64_t said[4])
{
    uint64_t n, half = size / 2;
    if (!is_type(order, letter, size, units))
        return 27;
    if (letter == 'S' || letter == 'U' || letter == 'V' || letter == 'O' || (letter == 'f' && size == 16) || (letter == 'c' && size == 32))
        return 31;
    if (run_len != size)
        return 27;
    if (letter == 'c')
        return give(said, size == 8 ? 5 : 6, number(run, half, order), number(run + half, half, order), 0);
    n = number(run, size, order);
    switch (letter) {
    case 'b': return n > 1 ? 32 : give(said, 0, n, 0, 0);
    case 'u': return give(said, 2, n, 0, 0);
    case 'f': return size == 8 ? give(said, 4, n, 0, 0) : give(said, 3, size == 2 ? plain_half((uint16_t)n) : n, 0, 0);
    default: break;
    }
    // two's complement
    n = (uint64_t)((int64_t)(n << (64 - 8 * size)) >> (64 - 8 * size));
    return letter == 'i' ? give(said, 1, n, 0, 0) : give(said, 7, n, 0, units);
}
