// Replays the cases of crates/run_npy through the C interface (docs/FRAMES.md): a frame of 4 bytes of length and a case, one line a case, as the program of that crate writes it. Every
// part that is read is in memory of its own size, so that a look past its end can be seen; the number after each lent room is looked at too, and a line ends in ` beyond` where it changed.
#include "../../include/npy.h"

#include <inttypes.h>
#include <stdio.h>
#include <stdlib.h>
#include <string.h>

enum { MOST_CASE = 1 << 20, MOST_BYTES = 131088, MOST_FEW = 1024, MOST_TABLE = NPY_MOST_ENTRIES * NPY_ENTRY, MOST_SHAPE = 64 };

static uint8_t held[MOST_CASE], out[MOST_BYTES + 1];
static uint64_t table_out[MOST_TABLE + 1], shape_out[MOST_SHAPE + 1], values[NPY_READ_SAID];
static uint32_t points_out[MOST_FEW + 1], points[256];

struct part {
    uint8_t *bytes;
    uint64_t *numbers;
    size_t len, count;
} parts[7];

static size_t four(const uint8_t *p)
{
    return p[0] | (size_t)p[1] << 8 | (size_t)p[2] << 16 | (size_t)p[3] << 24;
}

static size_t least(uint64_t n, size_t most)
{
    return n < most ? (size_t)n : most;
}

// The parts of a case, each as bytes and as numbers: the first byte says how many bytes each number has.
static void take_parts(const uint8_t *p, const uint8_t *end)
{
    for (int k = 0; k < 7; k++) {
        struct part *one = parts + k;
        size_t len = end - p < 4 ? 0 : least(four(p), end - p - 4), width;
        p += end - p < 4 ? end - p : 4;
        one->bytes = malloc(len + (len == 0));
        memcpy(one->bytes, p, one->len = len);
        p += len;
        width = len > 0 && one->bytes[0] > 0 && one->bytes[0] <= 8 ? one->bytes[0] : 8;
        one->count = len > 0 ? (len - 1) / width : 0;
        one->numbers = calloc(one->count + 1, 8);
        for (size_t i = 0; i < one->count; i++)
            memcpy(one->numbers + i, one->bytes + 1 + width * i, width);
    }
}

static void fill(void)
{
    memset(out, 5, sizeof out);
    for (size_t i = 0; i <= MOST_TABLE; i++)
        table_out[i] = 5;
    for (size_t i = 0; i <= MOST_SHAPE; i++)
        shape_out[i] = 5;
    for (size_t i = 0; i <= MOST_FEW; i++)
        points_out[i] = 5;
    for (size_t i = 0; i < NPY_READ_SAID; i++)
        values[i] = 5;
}

static void tell(uint8_t refusal, size_t count)
{
    size_t changed = NPY_READ_SAID;
    while (changed > 0 && values[changed - 1] == 5)
        changed--;
    printf("%d", refusal);
    for (size_t i = 0; i < (refusal ? changed ? NPY_READ_SAID : 0 : count); i++)
        printf(" %" PRIu64, values[i]);
    if (!refusal && changed > count)
        printf(" beyond");
}

// A room of numbers, bytes or code points without the 5s at its end; it has one element more than `most`.
static void show(const uint64_t *room, size_t most)
{
    size_t n = most + 1;
    while (n > 0 && room[n - 1] == 5)
        n--;
    putchar(';');
    for (size_t i = 0; i < n; i++)
        printf(" %" PRIu64, room[i]);
}

static void show_bytes(size_t most)
{
    size_t n = most + 1;
    while (n > 0 && out[n - 1] == 5)
        n--;
    putchar(';');
    for (size_t i = 0; i < n; i++)
        printf("%02x", out[i]);
}

static void show_points(void)
{
    size_t n = MOST_FEW + 1;
    while (n > 0 && points_out[n - 1] == 5)
        n--;
    putchar(';');
    for (size_t i = 0; i < n; i++)
        printf(" %" PRIu32, points_out[i]);
}

#define BYTES parts[0].bytes, parts[0].len
#define NUMBERS(k) parts[k].numbers, parts[k].count
#define RECORD NUMBERS(4), parts[5].bytes, parts[5].len, NUMBERS(2)
#define PLACE NUMBERS(3), NUMBERS(6)

static void replay(uint8_t operation)
{
    uint64_t g[7] = { 0 };
    memcpy(g, parts[1].numbers, 8 * least(parts[1].count, 7));
    const uint64_t a = g[0], b = g[1], c = g[2], d = g[3];
    const size_t room = least(g[4], MOST_BYTES), few = least(g[4], MOST_FEW), table_len = least(g[4], MOST_TABLE), names_len = least(g[5], NPY_MOST_NAMES), shape_len = least(g[6], MOST_SHAPE);
    size_t count = least(parts[3].count, 256);
    for (size_t i = 0; i < count; i++)
        points[i] = (uint32_t)parts[3].numbers[i];
#define LENT table_out, table_len, out, names_len, shape_out, shape_len, values
    switch (operation) {
    case 0: tell(npy_read(BYTES, LENT), NPY_READ_SAID); break;
    case 1: tell(npy_read_held(BYTES, a != 0, LENT), NPY_READ_SAID); break;
    case 2: tell(npy_read_text(BYTES, LENT), NPY_TEXT_SAID); break;
    case 3: tell(npy_type_read(BYTES, values), 4); break;
    case 4: tell(npy_check(RECORD, a, values), NPY_CHECK_SAID); break;
    case 5: tell(npy_place(c, b, RECORD, a, PLACE, values), NPY_RUN); break;
    case 6: tell(npy_count(NUMBERS(2), a, values), 1); break;
    case 7: tell(npy_item_number(NUMBERS(2), a, NUMBERS(3), values), 1); break;
    case 8: tell(npy_strides(NUMBERS(2), a, table_out, few, values), 1); break;
    case 9: tell(npy_element_bytes(BYTES, b, RECORD, a, PLACE, out, room, values), 1); break;
    case 10: tell(npy_element_points(BYTES, b, RECORD, a, PLACE, points_out, few, values), 1); break;
    case 11: tell(npy_read_bytes(BYTES, a, b, c, d, out, room, values), 1); break;
    case 12: tell(npy_read_points(BYTES, a, b, c, d, points_out, few, values), 1); break;
    case 13: tell(npy_write_bytes(a, b, c, d, BYTES, out, room, values), 1); break;
    case 14: tell(npy_write_points(a, b, c, d, points, count, out, room, values), 1); break;
    case 15: tell(npy_type_print(a, b, c, d, out, room, values), 1); break;
    case 16: tell(npy_write_header(RECORD, a, out, room, values), 1); break;
    case 17: tell(npy_list(c, b, RECORD, a, out, room, values), 1); break;
    case 18: tell(npy_element_value(BYTES, b, RECORD, a, PLACE, values), NPY_VALUE_SAID); break;
    default: tell(npy_read_value(BYTES, a, b, c, d, values), NPY_VALUE_SAID); break;
    }
    if (operation < 3) {
        show(table_out, MOST_TABLE);
        show_bytes(NPY_MOST_NAMES);
        show(shape_out, MOST_SHAPE);
    } else if (operation > 5 && operation < 18) {
        show(table_out, MOST_FEW);
        show_bytes(MOST_BYTES);
        show_points();
    }
}

int main(void)
{
    uint8_t length[4];
    while (fread(length, 1, 4, stdin) == 4) {
        size_t n = four(length);
        if (n < 1 || n > MOST_CASE || fread(held, 1, n, stdin) != n)
            return 1;
        take_parts(held + 1, held + n);
        fill();
        replay(held[0]);
        putchar('\n');
        for (int k = 0; k < 7; k++) {
            free(parts[k].bytes);
            free(parts[k].numbers);
        }
    }
    return 0;
}
