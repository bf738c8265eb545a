// Asks two readers with the C interface, npy_read and plain_read (bench/plain.c), the same questions: the framed cases of standard input (docs/FRAMES.md), and
// each of them damaged in N ways. The answers, `said` and all three rooms must be the same, byte for byte.
//
//     agree N         the last line says how many were asked and how many differ; exit status 1 where one does
#include "../../bench/plain.h"
#include "../../include/npy.h"

#include <stdio.h>
#include <stdlib.h>
#include <string.h>

enum { MOST_RANK = 64, MOST_CASE = 1 << 20, MOST_EDITS = 4 };

struct rooms {
    uint64_t table[NPY_ENTRY * NPY_MOST_ENTRIES], shape[MOST_RANK], said[NPY_READ_SAID];
    uint8_t names[NPY_MOST_NAMES];
};

static uint8_t held[MOST_CASE], damaged[MOST_CASE + MOST_EDITS];
static struct rooms ours, plain;
static unsigned long asked, differ, seen[NPY_MISFIT + 1];
static uint64_t state = 88172645463325252u;

// Bytes that mean something in a header's text.
static const uint8_t telling[] = "[](){},:'\"\\ \t\n\r-0123456789<>|biufcmMSUOVTFNaes_$\x00\x7f\x80\xc3\xa9\xed\xf4\xff";

static size_t below(size_t n)
{
    state ^= state << 13;
    state ^= state >> 7;
    state ^= state << 17;
    return (size_t)((state >> 11) % n);
}

static size_t four(const uint8_t *p)
{
    return p[0] | (size_t)p[1] << 8 | (size_t)p[2] << 16 | (size_t)p[3] << 24;
}

static size_t at_most(size_t n, size_t most)
{
    return n < most ? n : most;
}

static void ask(const uint8_t *rooms, const uint8_t *file, size_t length)
{
    size_t entries = at_most(four(rooms), NPY_MOST_ENTRIES), names = at_most(four(rooms + 4), NPY_MOST_NAMES), rank = at_most(four(rooms + 8), MOST_RANK);
    uint8_t a, b;
    memset(&ours, 5, sizeof ours);
    memset(&plain, 5, sizeof plain);
    a = npy_read(file, length, ours.table, NPY_ENTRY * entries, ours.names, names, ours.shape, rank, ours.said);
    b = plain_read(file, length, plain.table, NPY_ENTRY * entries, plain.names, names, plain.shape, rank, plain.said);
    asked++;
    seen[b <= NPY_MISFIT ? b : NPY_MISFIT]++;
    if (a != b || memcmp(&ours, &plain, sizeof ours) != 0) {
        differ++;
        if (differ <= 5)
            printf("npy_read %d, plain_read %d, of %zu bytes: %.*s\n", a, b, length, (int)at_most(length, 300), file);
    }
}

// A copy of a file with up to four bytes changed, left out or put in, and mostly with a length field that fits.
static size_t damage(const uint8_t *file, size_t length)
{
    memcpy(damaged, file, length);
    for (size_t edits = 1 + below(MOST_EDITS); edits > 0 && length > 0; edits--) {
        size_t at = below(length);
        uint8_t byte = telling[below(sizeof telling - 1)];
        switch (below(4)) {
        case 0:
            damaged[at] = byte;
            break;
        case 1:
            memmove(damaged + at, damaged + at + 1, --length - at);
            break;
        case 2:
            memmove(damaged + at + 1, damaged + at, length++ - at);
            damaged[at] = byte;
            break;
        default:
            damaged[at] = damaged[below(length)];
        }
    }
    if (length >= 12 && below(8) && damaged[6] >= 1 && damaged[6] <= 3) {
        size_t start = damaged[6] == 1 ? 10 : 12, text = length - start;
        for (size_t k = 8; k < start; k++, text >>= 8)
            damaged[k] = (uint8_t)text;
    }
    return length;
}

int main(int argc, char **argv)
{
    uint8_t length[4];
    long ways = argc > 1 ? strtol(argv[1], NULL, 10) : 0;
    while (fread(length, 1, 4, stdin) == 4) {
        size_t n = four(length);
        if (n < 13 || n > MOST_CASE || fread(held, 1, n, stdin) != n)
            return 1;
        ask(held, held + 13, n - 13);
        for (long k = 0; k < ways; k++)
            ask(held, damaged, damage(held + 13, n - 13));
    }
    for (int k = 0; k <= NPY_ROOM; k++)
        printf("%s%d: %lu", k ? ", " : "answers ", k, seen[k]);
    printf("\n%lu asked, %lu differ\n", asked, differ);
    return differ || asked == 0;
}
