// Replays files from standard input through a reader with the C interface, as the program of crates/run_header does (docs/FRAMES.md): a frame of 4 bytes of length and a
// case, one line a case. READ is the reader's name. With any argument a line has all that the reader wrote: `said`, the table's numbers, the names in hex, and the shape.
#include "../../include/npy.h"

#include <inttypes.h>
#include <stdio.h>
#include <stdlib.h>
#include <string.h>

#ifndef READ
#define READ npy_read_held
#endif

uint8_t READ(const uint8_t *file, size_t file_len, bool longer, uint64_t *table, size_t table_len, uint8_t *names, size_t names_len, uint64_t *shape, size_t shape_len, uint64_t said[NPY_READ_SAID]);

enum { MOST_RANK = 64, MOST_CASE = 1 << 20 };

static const char *const unit_names[] = { "", "[Y]", "[M]", "[W]", "[D]", "[h]", "[m]", "[s]", "[ms]", "[us]", "[ns]", "[ps]", "[fs]", "[as]" };

static uint64_t table[NPY_ENTRY * NPY_MOST_ENTRIES], shape[MOST_RANK];
static uint8_t names[NPY_MOST_NAMES], held[MOST_CASE];

static size_t four(const uint8_t *p)
{
    return p[0] | (size_t)p[1] << 8 | (size_t)p[2] << 16 | (size_t)p[3] << 24;
}

static size_t at_most(size_t n, size_t most)
{
    return n < most ? n : most;
}

static void fill_rooms(void)
{
    for (size_t i = 0; i < NPY_ENTRY * NPY_MOST_ENTRIES; i++)
        table[i] = 5;
    for (size_t i = 0; i < MOST_RANK; i++)
        shape[i] = 5;
    memset(names, 5, NPY_MOST_NAMES);
}

// Whether the rooms after what was written are as they were.
static bool kept(size_t numbers, size_t bytes, size_t rank)
{
    for (size_t i = numbers; i < NPY_ENTRY * NPY_MOST_ENTRIES; i++)
        if (table[i] != 5)
            return false;
    for (size_t i = bytes; i < NPY_MOST_NAMES; i++)
        if (names[i] != 5)
            return false;
    for (size_t i = rank; i < MOST_RANK; i++)
        if (shape[i] != 5)
            return false;
    return true;
}

static void put_name(const uint8_t *name, size_t length)
{
    fputs(" '", stdout);
    for (size_t i = 0; i < length; i++) {
        if (name[i] == '\\' || name[i] == '\'')
            printf("\\%c", name[i]);
        else if (name[i] == '\r' || name[i] == '\n')
            fputs(name[i] == '\r' ? "\\r" : "\\n", stdout);
        else
            putchar(name[i]);
    }
    putchar('\'');
}

// The stride at k, and the count where k is below or past all dimensions.
static uint64_t product(size_t from, size_t to)
{
    uint64_t all = 1;
    for (size_t k = from; k < to; k++)
        all *= shape[k];
    return all;
}

static void list(const uint64_t said[NPY_READ_SAID])
{
    size_t rank = said[NPY_READ_RANK], entries = said[NPY_READ_ENTRIES];
    bool fortran = said[NPY_READ_ORDER] == NPY_ORDER_FORTRAN;
    bool object = false;
    const uint8_t *name = names;
    for (size_t i = 0; i < entries; i++)
        object |= table[NPY_ENTRY * i + NPY_ENTRY_LETTER] == 'O';
    printf("version %" PRIu64 ".0; order %c; shape", said[NPY_READ_VERSION], fortran ? 'F' : 'C');
    for (size_t k = 0; k < rank; k++)
        printf(" %" PRIu64, shape[k]);
    fputs("; strides", stdout);
    for (size_t k = 0; k < rank; k++)
        printf(" %" PRIu64, fortran ? product(0, k) : product(k + 1, rank));
    printf("; count %" PRIu64 "; item ", product(0, rank));
    if (object)
        fputs("none", stdout);
    else
        printf("%" PRIu64, table[NPY_ENTRY_BYTES]);
    printf("; data %" PRIu64, said[NPY_READ_START]);
    for (size_t i = 0; i < entries; i++) {
        const uint64_t *e = table + NPY_ENTRY * i;
        printf("; %zu ", i);
        if (i == 0)
            putchar('-');
        else
            printf("%" PRIu64, e[NPY_ENTRY_PARENT]);
        if (e[NPY_ENTRY_KIND] == NPY_KIND_PLAIN && e[NPY_ENTRY_LETTER] == 'O')
            printf(" plain %c%c%s", (int)e[NPY_ENTRY_ORDER], (int)e[NPY_ENTRY_LETTER], unit_names[e[NPY_ENTRY_UNITS]]);
        else if (e[NPY_ENTRY_KIND] == NPY_KIND_PLAIN)
            printf(" plain %c%c%" PRIu64 "%s", (int)e[NPY_ENTRY_ORDER], (int)e[NPY_ENTRY_LETTER], e[NPY_ENTRY_NUMBER], unit_names[e[NPY_ENTRY_UNITS]]);
        else
            printf(" %s %" PRIu64, e[NPY_ENTRY_KIND] == NPY_KIND_ARRAY ? "array" : "record", e[NPY_ENTRY_NUMBER]);
        if (i > 0 && table[NPY_ENTRY * e[NPY_ENTRY_PARENT] + NPY_ENTRY_KIND] == NPY_KIND_RECORD) {
            put_name(name, e[NPY_ENTRY_NAME]);
            name += e[NPY_ENTRY_NAME];
        }
    }
}

static void show_rooms(const uint64_t said[NPY_READ_SAID])
{
    for (size_t k = 0; k < NPY_READ_SAID; k++)
        printf("%" PRIu64 " ", said[k]);
    putchar(';');
    for (size_t i = 0; i < NPY_ENTRY * said[NPY_READ_ENTRIES]; i++)
        printf(" %" PRIu64, table[i]);
    fputs("; ", stdout);
    for (size_t i = 0; i < said[NPY_READ_NAMES]; i++)
        printf("%02x", names[i]);
    putchar(';');
    for (size_t k = 0; k < said[NPY_READ_RANK]; k++)
        printf(" %" PRIu64, shape[k]);
}

int main(int argc, char **argv)
{
    uint8_t length[4];
    (void)argv;
    while (fread(length, 1, 4, stdin) == 4) {
        size_t n = four(length), before = NPY_READ_SAID;
        uint64_t said[NPY_READ_SAID] = { 5, 5, 5, 5, 5, 5 };
        uint8_t *file, refusal;
        if (n < 13 || n > MOST_CASE || fread(held, 1, n, stdin) != n)
            return 1;
        // a file of its own size, so that a look past its end can be seen
        file = malloc(n - 13 + (n == 13));
        memcpy(file, held + 13, n - 13);
        fill_rooms();
        refusal = READ(file, n - 13, held[12], table, NPY_ENTRY * at_most(four(held), NPY_MOST_ENTRIES), names, at_most(four(held + 4), NPY_MOST_NAMES), shape, at_most(four(held + 8), MOST_RANK), said);
        free(file);
        if (refusal) {
            while (before > 0 && said[before - 1] == 5)
                before--;
            printf("refused %d%s", refusal, kept(0, 0, 0) && before == 0 ? "" : " changed");
        } else {
            (argc > 1 ? show_rooms : list)(said);
            if (!kept(NPY_ENTRY * said[NPY_READ_ENTRIES], said[NPY_READ_NAMES], said[NPY_READ_RANK]))
                fputs(" changed", stdout);
        }
        putchar('\n');
    }
    return 0;
}
