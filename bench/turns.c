// Times two proved libraries, such as those of two commits, in one process and in turns.
//
//     turns FOLDER OTHER THIS         the files of bench/inputs.py, named in FOLDER/names.txt, and two shared objects of the C interface
//
// Writes for each input the nanoseconds of one `npy_read` by OTHER and by THIS, and the median of the pairs' ratios; and the same of `npy_write_header` for an input that is read. Time is the thread's own
// on the processor. Exit status 1 where the two give different answers, rooms or values.
#define _GNU_SOURCE
#include "../include/npy.h"

#include <dlfcn.h>
#include <stdbool.h>
#include <stdint.h>
#include <stdio.h>
#include <stdlib.h>
#include <string.h>
#include <time.h>

enum { PAIRS = 81, SAMPLE_NS = 1000000, MOST_FILE = 200000, MOST_NUMBERS = 9 * 512, MOST_NAMES = 65536, MOST_RANK = 32 };

typedef __typeof__(npy_read) reader;
typedef __typeof__(npy_write_header) writer;

// A library, and what it read and wrote last.
struct library {
    reader *read;
    writer *write;
    uint8_t answer, names[MOST_NAMES], out[MOST_FILE];
    uint64_t table[MOST_NUMBERS], shape[MOST_RANK], said[6], written;
};

typedef void call(struct library *l);

static struct library libraries[2];
static uint8_t file[MOST_FILE];
static size_t length;

static void fail(const char *what, const char *why)
{
    fprintf(stderr, "turns: %s: %s\n", what, why);
    exit(1);
}

static void read_it(struct library *l)
{
    l->answer = l->read(file, length, l->table, MOST_NUMBERS, l->names, MOST_NAMES, l->shape, MOST_RANK, l->said);
}

static void write_it(struct library *l)
{
    l->answer = l->write(l->table, 9 * l->said[3], l->names, l->said[4], l->shape, l->said[2], l->said[1], l->out, MOST_FILE, &l->written);
}

static double now(void)
{
    struct timespec t;
    clock_gettime(CLOCK_THREAD_CPUTIME_ID, &t);
    return 1e9 * (double)t.tv_sec + (double)t.tv_nsec;
}

static double sample(call *one, struct library *l, long times)
{
    double from = now();
    for (long i = 0; i < times; i++)
        one(l);
    return (now() - from) / (double)times;
}

static int compare(const void *a, const void *b)
{
    double x = *(const double *)a, y = *(const double *)b;
    return (x > y) - (x < y);
}

static double median(double *of)
{
    qsort(of, PAIRS, sizeof *of, compare);
    return of[PAIRS / 2];
}

static void time_both(const char *what, call *one, const char *name)
{
    double found[2][PAIRS], ratio[PAIRS];
    long times = 1;
    while (sample(one, &libraries[0], times) * (double)times < SAMPLE_NS)
        times *= 2;
    for (int i = 0; i < PAIRS; i++) {
        for (int turn = 0; turn < 2; turn++)
            found[(i + turn) % 2][i] = sample(one, &libraries[(i + turn) % 2], times);
        ratio[i] = found[1][i] / found[0][i];
    }
    printf("%-6s %-14s %10.1f %10.1f %6.3f\n", what, name, median(found[0]), median(found[1]), median(ratio));
}

// Whether both gave the same.
static bool alike(void)
{
    const struct library *a = &libraries[0], *b = &libraries[1];
    return a->answer == b->answer && a->written == b->written && !memcmp(a->table, b->table, sizeof a->table) && !memcmp(a->names, b->names, sizeof a->names)
        && !memcmp(a->shape, b->shape, sizeof a->shape) && !memcmp(a->said, b->said, sizeof a->said) && !memcmp(a->out, b->out, sizeof a->out);
}

static void measure(const char *name)
{
    for (int i = 0; i < 2; i++) {
        reader *read = libraries[i].read;
        writer *write = libraries[i].write;
        memset(&libraries[i], 5, sizeof libraries[i]);
        libraries[i].read = read;
        libraries[i].write = write;
        read_it(&libraries[i]);
    }
    if (!alike())
        fail(name, "the libraries read it differently");
    time_both("read", read_it, name);
    if (libraries[0].answer)
        return;
    for (int i = 0; i < 2; i++)
        write_it(&libraries[i]);
    if (!alike() || libraries[0].answer)
        fail(name, "the libraries write it differently, or not at all");
    time_both("write", write_it, name);
}

int main(int argc, char **argv)
{
    char path[4096], name[32];
    FILE *list, *one;
    if (argc != 4)
        fail("usage", "turns FOLDER OTHER THIS");
    for (int i = 0; i < 2; i++) {
        void *library = dlopen(argv[2 + i], RTLD_NOW | RTLD_LOCAL);
        if (!library || !(*(void **)&libraries[i].read = dlsym(library, "npy_read")) || !(*(void **)&libraries[i].write = dlsym(library, "npy_write_header")))
            fail(argv[2 + i], dlerror());
    }
    snprintf(path, sizeof path, "%s/names.txt", argv[1]);
    if (!(list = fopen(path, "r")))
        fail(path, "not there");
    printf("%-6s %-14s %10s %10s %6s\n", "", "input", "other ns", "this ns", "ratio");
    while (fscanf(list, "%31s", name) == 1) {
        snprintf(path, sizeof path, "%s/%s.npy", argv[1], name);
        if (!(one = fopen(path, "rb")))
            fail(path, "not there");
        length = fread(file, 1, MOST_FILE, one);
        fclose(one);
        measure(name);
    }
    fclose(list);
    return 0;
}
