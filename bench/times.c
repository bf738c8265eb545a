// Times the proved library against the plain C reader, and a header in parts against the same read whole, in one process and in turns, and measures the library's stack. Half floats, and the class of a byte, are timed by themselves.
//
//     times FOLDER         the files of bench/inputs.py, named in FOLDER/names.txt
//
// Writes lines `WHO WHAT INPUT NUMBER`: the median of nanoseconds for one call (`ours`, `plain`, `whole`), the median of the pairs' ratios (`ratio`), that of an input of 128 KiB to the one of
// 64 KiB, which is before it (`doubled`), bytes of stack (`stack`), or what was found (`bytes`, `entries`, `refused`). Of half floats and bytes a call is one of them, and of a header in parts it is all its parts. Time is the thread's
// own on the processor. The two readers must give the same answer and the same rooms, and the same values, and so must a header in parts and the same read whole, or the exit status is 1.
#define _GNU_SOURCE
#include "../include/npy.h"
#include "plain.h"

#include <pthread.h>
#include <stdbool.h>
#include <stdio.h>
#include <stdlib.h>
#include <string.h>
#include <sys/mman.h>
#include <time.h>

enum { PAIRS = 41, SAMPLE_NS = 2000000, MOST_FILE = 200000, MOST_NUMBERS = 9 * 512, MOST_NAMES = 65536, MOST_RANK = 32, PLACES = 1000, MOST_DATA = 1 << 28, HALVES = 65536, PACKET = 1460, BLOCK = 16, STACK = 262144, PAINT = 0xA5 };

// The proved conversion of a half float, value_float::from_half, by itself (bench/run).
uint32_t half_bits(uint16_t half);

// The class of a byte by the proved table, literal_classes::class_of, by itself.
uint8_t class_by_table(uint8_t b);

// A file, and the record that was read of it.
struct input {
    char name[32];
    uint8_t file[MOST_FILE];
    size_t length;
    uint8_t refusal, names[MOST_NAMES];
    uint64_t table[MOST_NUMBERS], shape[MOST_RANK], said[6];
};

struct question {
    uint64_t index[MOST_RANK], path[512];
    size_t length;
};

// A call that is timed, of an input.
typedef void call(struct input *in);

static struct question asked[PLACES];
static uint64_t table[MOST_NUMBERS], shape[MOST_RANK], said[6], written, run[6], used;
static uint8_t names[MOST_NAMES], out[MOST_FILE], text[NPY_MOST_TEXT];
static npy_feeder feeder;
// the file of an input, with zeros for its data
static uint8_t *data;
static size_t data_length;
static uint16_t halves[HALVES];
static uint8_t runs[HALVES][2], classed[HALVES];
static unsigned sink;

static void read_ours(struct input *in)
{
    sink += npy_read(in->file, in->length, table, MOST_NUMBERS, names, MOST_NAMES, shape, MOST_RANK, said);
}

static void read_plain(struct input *in)
{
    sink += plain_read(in->file, in->length, table, MOST_NUMBERS, names, MOST_NAMES, shape, MOST_RANK, said);
}

// The header in parts of so many bytes, the last of what is left, until one of them gives the outcome.

static uint8_t feed_from(const struct input *in, size_t at, size_t part)
{
    return npy_feed(&feeder, in->file + at, in->length - at < part ? in->length - at : part, text, NPY_MOST_TEXT, table, MOST_NUMBERS, names, MOST_NAMES, shape, MOST_RANK, said, &used);
}

static void feed_ours(const struct input *in, size_t part)
{
    uint8_t answer = NPY_MORE;
    feeder = (npy_feeder){ { 0 } };
    for (size_t at = 0; answer == NPY_MORE && at < in->length; at += part)
        answer = feed_from(in, at, part);
    sink += answer;
}

static void feed_whole(struct input *in)
{
    feed_ours(in, MOST_FILE);
}

static void feed_packets(struct input *in)
{
    feed_ours(in, PACKET);
}

static void feed_blocks(struct input *in)
{
    feed_ours(in, BLOCK);
}

static void feed_bytes(struct input *in)
{
    feed_ours(in, 1);
}

static const struct way {
    const char *name;
    size_t part;
    call *one;
} ways[] = { { "feed-whole", MOST_FILE, feed_whole }, { "feed-1460", PACKET, feed_packets }, { "feed-16", BLOCK, feed_blocks }, { "feed-1", 1, feed_bytes } };

enum { WAYS = sizeof ways / sizeof *ways };

static void write_ours(struct input *in)
{
    sink += npy_write_header(in->table, 9 * in->said[3], in->names, in->said[4], in->shape, in->said[2], (uint8_t)in->said[1], out, MOST_FILE, &written);
}

// The k-th question for a place: the item k in C order, and a path to a plain type. Of a record whose first field is a record, or that has one field alone, that field is taken, and
// else field k; of an array its item k; round and round.
static void question(const struct input *in, uint64_t k, struct question *q)
{
    uint64_t item = k;
    size_t e = 0;
    for (size_t d = in->said[2]; d-- > 0; item /= in->shape[d])
        q->index[d] = item % in->shape[d];
    for (q->length = 0; in->table[9 * e + 1] != 0; q->length++) {
        const uint64_t *entry = in->table + 9 * e++;
        uint64_t chosen = entry[4] ? k % entry[4] : 0;
        if (entry[1] == 2 && entry[10] == 2)
            chosen = 0;
        for (uint64_t field = 0; entry[1] == 2 && field < chosen; field++)
            e += in->table[9 * e + 6];
        q->path[q->length] = chosen;
    }
}

static uint8_t place_ours(struct input *in, const struct question *q)
{
    return npy_place(UINT64_MAX, in->said[5], in->table, 9 * in->said[3], in->names, in->said[4], in->shape, in->said[2], (uint8_t)in->said[1], q->index, in->said[2], q->path, q->length, run);
}

static void places_ours(struct input *in)
{
    for (size_t k = 0; k < PLACES; k++)
        sink += place_ours(in, &asked[k]);
}

static uint8_t value_ours(struct input *in, const struct question *q)
{
    return npy_element_value(data, data_length, in->said[5], in->table, 9 * in->said[3], in->names, in->said[4], in->shape, in->said[2], (uint8_t)in->said[1], q->index, in->said[2], q->path, q->length, run);
}

static void values_ours(struct input *in)
{
    for (size_t k = 0; k < PLACES; k++)
        sink += value_ours(in, &asked[k]);
}

// Half floats, converted and read as values.

static void halves_ours(struct input *in)
{
    (void)in;
    for (size_t i = 0; i < HALVES; i++)
        sink += half_bits(halves[i]);
}

static void halves_plain(struct input *in)
{
    (void)in;
    for (size_t i = 0; i < HALVES; i++)
        sink += plain_half(halves[i]);
}

static void half_values_ours(struct input *in)
{
    (void)in;
    for (size_t i = 0; i < HALVES; i++)
        sink += npy_read_value(runs[i], 2, '<', 'f', 2, 0, run) + (unsigned)run[1];
}

static void half_values_plain(struct input *in)
{
    (void)in;
    for (size_t i = 0; i < HALVES; i++)
        sink += plain_value(runs[i], 2, '<', 'f', 2, 0, run) + (unsigned)run[1];
}

// Bytes, classified.

static void classes_ours(struct input *in)
{
    (void)in;
    for (size_t i = 0; i < HALVES; i++)
        sink += class_by_table(classed[i]);
}

static void classes_plain(struct input *in)
{
    (void)in;
    for (size_t i = 0; i < HALVES; i++)
        sink += plain_class(classed[i]);
}

static double now(void)
{
    struct timespec t;
    clock_gettime(CLOCK_THREAD_CPUTIME_ID, &t);
    return 1e9 * (double)t.tv_sec + (double)t.tv_nsec;
}

// Nanoseconds for one call, of so many.
static double sample(call *one, struct input *in, long times)
{
    double from = now();
    for (long i = 0; i < times; i++)
        one(in);
    return (now() - from) / (double)times;
}

// How many calls fill a sample.
static long calls(call *one, struct input *in)
{
    long times = 1;
    while (sample(one, in, times) * (double)times < SAMPLE_NS)
        times *= 2;
    return times;
}

static int compare(const void *a, const void *b)
{
    double x = *(const double *)a, y = *(const double *)b;
    return (x > y) - (x < y);
}

static double median(double *of)
{
    qsort(of, PAIRS, sizeof *of, compare);
    return of[PAIRS / 2];
}

static void time_alone(const char *what, call *one, struct input *in)
{
    double found[PAIRS];
    long times = calls(one, in);
    for (int i = 0; i < PAIRS; i++)
        found[i] = sample(one, in, times);
    printf("ours %s %s %.1f\n", what, in->name, median(found));
}

// Two calls in turns, each of which does so many of what is timed; `who` is the name of the other.
static void time_pair(const char *what, call *one, const char *who, call *other, struct input *in, int many)
{
    double ours[PAIRS], others[PAIRS], ratio[PAIRS];
    long of_ours = calls(one, in), of_others = calls(other, in);
    for (int i = 0; i < PAIRS; i++) {
        if (i % 2)
            others[i] = sample(other, in, of_others);
        ours[i] = sample(one, in, of_ours);
        if (i % 2 == 0)
            others[i] = sample(other, in, of_others);
        ratio[i] = ours[i] / others[i];
    }
    printf("ours %s %s %.*f\n%s %s %s %.*f\nratio %s %s %.3f\n", what, in->name, many > 1 ? 3 : 1, median(ours) / many, who, what, in->name, many > 1 ? 3 : 1, median(others) / many, what, in->name, median(ratio));
}

// An input and the one that has twice its text, in turns.
static void time_doubled(const char *what, call *one, struct input *half, struct input *whole)
{
    double ratio[PAIRS];
    long of_half = calls(one, half), of_whole = calls(one, whole);
    for (int i = 0; i < PAIRS; i++) {
        double time = sample(one, half, of_half);
        ratio[i] = sample(one, whole, of_whole) / time;
    }
    printf("doubled %s %s %.3f\n", what, whole->name, median(ratio));
}

static void fail(const char *why, const char *name)
{
    fprintf(stderr, "times: %s: %s\n", name, why);
    exit(1);
}

static void fives(void)
{
    memset(table, 5, sizeof table);
    memset(names, 5, sizeof names);
    memset(shape, 5, sizeof shape);
    memset(said, 5, sizeof said);
    memset(text, 5, sizeof text);
}

// Whether the rooms and values are those that were read.
static bool as_read(const struct input *in)
{
    return !(memcmp(table, in->table, sizeof table) || memcmp(names, in->names, sizeof names) || memcmp(shape, in->shape, sizeof shape) || memcmp(said, in->said, sizeof said));
}

// Reads the file by both readers, into rooms of fives, and keeps what was read.
static void read_both(struct input *in)
{
    uint8_t refusal;
    fives();
    memcpy(in->table, table, sizeof table);
    memcpy(in->names, names, sizeof names);
    memcpy(in->shape, shape, sizeof shape);
    memcpy(in->said, said, sizeof said);
    in->refusal = npy_read(in->file, in->length, in->table, MOST_NUMBERS, in->names, MOST_NAMES, in->shape, MOST_RANK, in->said);
    refusal = plain_read(in->file, in->length, table, MOST_NUMBERS, names, MOST_NAMES, shape, MOST_RANK, said);
    if (refusal != in->refusal || !as_read(in))
        fail("the readers differ", in->name);
    printf("found bytes %s %zu\nfound refused %s %d\n", in->name, in->length, in->name, in->refusal);
    if (!refusal)
        printf("found entries %s %zu\n", in->name, (size_t)in->said[3]);
}

// Feeds the header, which is the whole file, in each way, into rooms of fives: more is needed up to the last part, each part is used whole, and the text buffer has the text and then fives.
static void feed_all(const struct input *in)
{
    for (const struct way *way = ways; way < ways + WAYS; way++) {
        uint8_t answer = NPY_MORE;
        size_t start = in->file[6] == 1 ? 10 : 12, after = in->length - start;
        bool right = true;
        fives();
        feeder = (npy_feeder){ { 0 } };
        for (size_t at = 0; right && at < in->length; at += used) {
            answer = feed_from(in, at, way->part);
            right = used == (in->length - at < way->part ? in->length - at : way->part) && (answer == NPY_MORE) == (at + used < in->length);
        }
        right = right && answer == in->refusal && as_read(in) && memcmp(text, in->file + start, after) == 0;
        for (; right && after < sizeof text; after++)
            right = text[after] == 5;
        if (!right) {
            fprintf(stderr, "times: %s: %s and reading it whole differ\n", in->name, way->name);
            exit(1);
        }
    }
}

// The stack that a call takes: a thread's stack is painted, and what is no longer painted afterwards was used. A thread that calls nothing is subtracted.

struct called {
    call *one;
    struct input *in;
};

static void *in_thread(void *given)
{
    struct called *c = given;
    if (c->one)
        c->one(c->in);
    return NULL;
}

static size_t touched(call *one, struct input *in)
{
    struct called c = { one, in };
    pthread_attr_t attr;
    pthread_t thread;
    size_t at = 0;
    uint8_t *stack = mmap(NULL, STACK, PROT_READ | PROT_WRITE, MAP_PRIVATE | MAP_ANONYMOUS, -1, 0);
    if (stack == MAP_FAILED)
        fail("no memory", in->name);
    memset(stack, PAINT, STACK);
    if (pthread_attr_init(&attr) || pthread_attr_setstack(&attr, stack, STACK) || pthread_create(&thread, &attr, in_thread, &c) || pthread_join(thread, NULL))
        fail("no thread", in->name);
    while (at < STACK && stack[at] == PAINT)
        at++;
    munmap(stack, STACK);
    return STACK - at;
}

static void stack_of(const char *what, call *one, struct input *in)
{
    size_t alone, with;
    one(in);
    alone = touched(NULL, in);
    with = touched(one, in);
    printf("stack %s %s %zu\n", what, in->name, with > alone ? with - alone : 0);
}

// The values of 1,000 elements: of the questions for places the first that have one, round and round.
static void measure_values(struct input *in)
{
    uint64_t check[NPY_CHECK_SAID];
    size_t found = 0;
    if (npy_check(in->table, 9 * in->said[3], in->names, in->said[4], in->shape, in->said[2], in->said[1], check) || check[NPY_CHECK_ITEM] == 0 || check[NPY_CHECK_COUNT] > MOST_DATA / check[NPY_CHECK_ITEM])
        fail("no room for its data", in->name);
    data_length = in->said[5] + check[NPY_CHECK_COUNT] * check[NPY_CHECK_ITEM];
    if (!(data = calloc(data_length, 1)))
        fail("no memory", in->name);
    for (uint64_t k = 0; found < PLACES; k++) {
        question(in, k, &asked[found]);
        found += value_ours(in, &asked[found]) == 0;
        if (k > 100 * PLACES)
            fail("no values", in->name);
    }
    time_alone("values", values_ours, in);
    stack_of("values", values_ours, in);
    free(data);
}

// Whether an input is one of those whose parts are timed.
static bool in_parts(const struct input *in)
{
    static const char *const timed[] = { "small", "record20", "flat64", "flat128", "wide128" };
    for (size_t i = 0; i < sizeof timed / sizeof *timed; i++)
        if (strcmp(in->name, timed[i]) == 0)
            return true;
    return false;
}

// All that is asked of one input.
static void measure(struct input *in)
{
    read_both(in);
    time_pair("read", read_ours, "plain", read_plain, in, 1);
    stack_of("read", read_ours, in);
    stack_of("plain", read_plain, in);
    feed_all(in);
    for (const struct way *way = ways; way < ways + WAYS; way++) {
        if (in_parts(in))
            time_pair(way->name, way->one, "whole", read_ours, in, 1);
        stack_of(way->name, way->one, in);
    }
    if (in->refusal)
        return;
    sink = 0;
    write_ours(in);
    if (sink)
        fail("not written", in->name);
    time_alone("write", write_ours, in);
    stack_of("write", write_ours, in);
    for (uint64_t k = 0; k < PLACES; k++)
        question(in, k, &asked[k]);
    places_ours(in);
    if (sink) {
        // an empty array has no places
        if (place_ours(in, &asked[0]) != 26)
            fail("no place", in->name);
        return;
    }
    time_alone("places", places_ours, in);
    stack_of("places", places_ours, in);
    measure_values(in);
}

// Whether the two give the same value or refusal, and leave what is not theirs.
static bool alike(const uint8_t *bytes, size_t length, uint64_t order, uint64_t letter, uint64_t size, uint64_t units)
{
    uint64_t one[4] = { 9, 9, 9, 9 }, other[4] = { 9, 9, 9, 9 };
    uint8_t ours = npy_read_value(bytes, length, order, letter, size, units, one), plain = plain_value(bytes, length, order, letter, size, units, other);
    return ours == plain && memcmp(one, other, sizeof one) == 0;
}

// All half floats in both byte orders, and types of all letters and sizes, some of them none, with three runs of each of three lengths.
static void compare_values(void)
{
    static const uint64_t sizes[] = { 0, 1, 2, 3, 4, 8, 16, 32, 64, UINT64_MAX };
    static const char orders[] = "<>|=", letters[] = "biufcmMSUVOa";
    uint8_t bytes[65];
    uint32_t next = 1;
    for (uint32_t i = 0; i < HALVES; i++) {
        uint8_t little[2] = { (uint8_t)i, (uint8_t)(i >> 8) };
        if (half_bits((uint16_t)i) != plain_half((uint16_t)i) || !alike(little, 2, '<', 'f', 2, 0) || !alike(little, 2, '>', 'f', 2, 0))
            fail("differ", "half floats");
    }
    for (size_t s = 0; s < sizeof sizes / sizeof *sizes; s++)
        for (const char *order = orders; *order; order++)
            for (const char *letter = letters; *letter; letter++)
                for (uint64_t units = 0; units < 15; units++)
                    for (int turn = 0; turn < 9; turn++) {
                        size_t length = sizes[s] < 65 ? sizes[s] : 1;
                        for (size_t i = 0; i < sizeof bytes; i++)
                            bytes[i] = turn % 3 == 0 ? (uint8_t)(turn / 3) : (uint8_t)((next = 1664525 * next + 1013904223) >> 24);
                        if (!alike(bytes, turn < 3 ? length : turn < 6 ? length + 1 : length / 2, (uint64_t)*order, (uint64_t)*letter, sizes[s], units))
                            fail("differ", "values");
                    }
}

// Half floats of one sort, in an order that a processor cannot guess.
static void measure_halves(const char *name, uint16_t kept, uint16_t set)
{
    static struct input sort;
    uint32_t next = 1;
    snprintf(sort.name, sizeof sort.name, "%s", name);
    for (size_t i = 0; i < HALVES; i++) {
        next = 1664525 * next + 1013904223;
        halves[i] = (uint16_t)(((next >> 16) & kept) | set);
        runs[i][0] = (uint8_t)halves[i];
        runs[i][1] = (uint8_t)(halves[i] >> 8);
    }
    time_pair("half", halves_ours, "plain", halves_plain, &sort, HALVES);
    time_pair("half-value", half_values_ours, "plain", half_values_plain, &sort, HALVES);
}

static const char FIELDS[] = "{'descr': [('field_0', '<i4'), ('field_1', '<f8', (2, 3)), ('field_2', '<M8[ns]')], 'fortran_order': False, 'shape': (10, 100), }";

// Bytes of one sort, in an order that a processor cannot guess: any, or those of a text.
static void measure_classes(const char *name, const char *of, size_t length)
{
    static struct input sort;
    uint32_t next = 1;
    snprintf(sort.name, sizeof sort.name, "%s", name);
    for (size_t i = 0; i < HALVES; i++) {
        next = 1664525 * next + 1013904223;
        classed[i] = length ? (uint8_t)of[(next >> 8) % length] : (uint8_t)(next >> 24);
    }
    time_pair("class", classes_ours, "plain", classes_plain, &sort, HALVES);
}

static void compare_classes(void)
{
    for (int b = 0; b < 256; b++)
        if (class_by_table((uint8_t)b) != plain_class((uint8_t)b))
            fail("differ", "classes of bytes");
}

int main(int argc, char **argv)
{
    // one input, and the one before it
    static struct input held[2];
    char path[4096];
    FILE *list = NULL, *file;
    if (argc == 2) {
        snprintf(path, sizeof path, "%s/names.txt", argv[1]);
        list = fopen(path, "r");
    }
    if (!list)
        fail("times FOLDER", "usage");
    for (int n = 0; fscanf(list, "%31s", held[n % 2].name) == 1; n++) {
        struct input *in = &held[n % 2], *before = &held[1 - n % 2];
        snprintf(path, sizeof path, "%s/%s.npy", argv[1], in->name);
        if (!(file = fopen(path, "rb")))
            fail("not there", in->name);
        in->length = fread(in->file, 1, MOST_FILE, file);
        fclose(file);
        measure(in);
        if (strstr(in->name, "128") && strstr(before->name, "64"))
            time_doubled("read", read_ours, before, in);
        if (strcmp(in->name, "flat128") == 0 && strcmp(before->name, "flat64") == 0)
            time_doubled("feed-1", feed_bytes, before, in);
    }
    fclose(list);
    compare_values();
    measure_halves("any", 0xFFFF, 0);
    measure_halves("normal", 0x87FF, 0x3800);
    measure_halves("subnormal", 0x83FF, 0);
    compare_classes();
    measure_classes("any", NULL, 0);
    measure_classes("text", FIELDS, sizeof FIELDS - 1);
    return 0;
}
