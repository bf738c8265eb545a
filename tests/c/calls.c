/* Calls every function of include/npy.h with an answer and with a refusal, and looks at all that was lent, before and after. Exit status 1 where one of them surprises. */
#include "../../include/npy.h"
#include <stdio.h>
#include <string.h>

static int asked, wrong;

static void is(int holds, const char *what, int line) {
    asked++;
    if (!holds) {
        wrong++;
        printf("line %d: %s\n", line, what);
    }
}
#define IS(x) is((x), #x, __LINE__)

/* The rooms of one call, filled with marks so that a byte written by mistake shows. */
static struct rooms {
    uint64_t table[NPY_MOST_ENTRIES * NPY_ENTRY], shape[NPY_MOST_RANK], said[NPY_READ_SAID], strides[NPY_MOST_RANK];
    npy_feeder feeder;
    uint64_t used[1];
    uint8_t names[256], out[1024], text[128];
    uint32_t points[16];
} now, marks;

static void mark(void) {
    memset(&marks, 0xA5, sizeof marks);
    now = marks;
}
static int untouched(void) { return memcmp(&now, &marks, sizeof now) == 0; }

/* Document 01's header of 80 bytes: three <i4 in C order. */
static size_t small(uint8_t file[96]) {
    memcpy(file, "\x93NUMPY\x01\x00\x46\x00", 10);
    memset(file + 10, ' ', 70);
    memcpy(file + 10, "{'descr': '<i4', 'fortran_order': False, 'shape': (3, ), }", 58);
    file[79] = '\n';
    memset(file + 80, 7, 16);
    return 80;
}

static uint8_t read_into(const uint8_t *file, size_t n) {
    return npy_read(file, n, now.table, NPY_MOST_ENTRIES * NPY_ENTRY, now.names, sizeof now.names, now.shape, NPY_MOST_RANK, now.said);
}

static void reading(void) {
    uint8_t file[96];
    size_t n = small(file);
    const uint64_t entry[NPY_ENTRY] = {0, NPY_KIND_PLAIN, '<', 'i', 4, 0, 1, 4, 0}, said[NPY_READ_SAID] = {1, NPY_ORDER_C, 1, 1, 0, 80};
    for (size_t k = 0; k < n; k++) {
        mark();
        IS(read_into(file, k) == (k < 8 ? NPY_NOT_NPY : NPY_INCOMPLETE));
        IS(untouched());
        mark();
        IS(npy_read_held(file, k, true, now.table, NPY_ENTRY, now.names, 0, now.shape, 1, now.said) == (k < 8 ? NPY_NOT_NPY : k < 10 ? NPY_INCOMPLETE : NPY_ROOM));
        IS(untouched());
    }
    mark();
    IS(read_into(file, n) == 0);
    IS(memcmp(now.said, said, sizeof said) == 0 && memcmp(now.table, entry, sizeof entry) == 0 && now.shape[0] == 3);
    memcpy(marks.said, said, sizeof said), memcpy(marks.table, entry, sizeof entry), marks.shape[0] = 3;
    IS(untouched());
    mark();
    IS(npy_read_held(file, n, true, now.table, NPY_ENTRY, now.names, 0, now.shape, 1, now.said) == 0 && now.said[NPY_READ_START] == 80);
    mark();
    IS(npy_read(file, n, now.table, NPY_ENTRY - 1, now.names, 0, now.shape, 1, now.said) == NPY_ROOM && untouched());
    IS(npy_read(file, n, now.table, NPY_ENTRY, now.names, 0, now.shape, 0, now.said) == NPY_ROOM && untouched());
    IS(npy_read_text(file + 10, 70, now.table, NPY_ENTRY, now.names, 0, now.shape, 1, now.said) == 0);
    IS(now.said[NPY_TEXT_ORDER] == NPY_ORDER_C && now.said[NPY_TEXT_RANK] == 1 && now.said[NPY_TEXT_ENTRIES] == 1 && now.said[NPY_TEXT_NAMES] == 0);
    mark();
    IS(npy_read_text(file + 10, 57, now.table, NPY_ENTRY, now.names, 0, now.shape, 1, now.said) == NPY_FAULT && untouched());
}

/* ---- headers that arrive part by part */
static uint8_t feed(const void *part, size_t n, size_t text_len) {
    return npy_feed(&now.feeder, part, n, now.text, text_len, now.table, NPY_MOST_ENTRIES * NPY_ENTRY, now.names, sizeof now.names, now.shape, NPY_MOST_RANK, now.said, now.used);
}

/* The input whose parts are fed. */
static const uint8_t *input;

/* A feeder that has taken nothing, and marks in all that is lent beside it. */
static void fresh(const void *bytes) {
    mark();
    marks.feeder = now.feeder = (npy_feeder){{0}};
    input = bytes;
}

/* Whether a call left all as it must: so many bytes of the input are taken, those before the text in the feeder and the others in the text buffer; it says this, of a header with its values; it used so
 * many bytes of the part; and the rest is as it was. */
static int left(uint64_t taken, uint64_t says, uint64_t used, const uint64_t *said) {
    size_t start = taken >= 8 && input[6] == 1 && input[7] == 0 ? 10 : 12;
    for (size_t k = 0; k < 12; k++) marks.feeder.numbers[k] = k < taken && k < start ? input[k] : 0;
    marks.feeder.numbers[12] = taken, marks.feeder.numbers[13] = says, marks.used[0] = used;
    for (size_t k = 0; k < NPY_READ_SAID; k++) marks.feeder.numbers[14 + k] = said ? said[k] : 0;
    for (size_t k = start; k < taken; k++) marks.text[k - start] = input[k];
    if (said) memcpy(marks.said, said, sizeof marks.said);
    return untouched();
}

static const uint64_t small_said[NPY_READ_SAID] = {1, NPY_ORDER_C, 1, 1, 0, 80};

/* What npy_read writes to the rooms for the header of 80 bytes. */
static void mark_small(void) {
    const uint64_t entry[NPY_ENTRY] = {0, NPY_KIND_PLAIN, '<', 'i', 4, 0, 1, 4, 0};
    memcpy(marks.table, entry, sizeof entry), marks.shape[0] = 3;
}

/* An outcome comes again from both functions, with all as it was but `said` and `used`. */
static void again(uint8_t outcome) {
    marks = now;
    memset(marks.said, 9, sizeof marks.said), now = marks;
    if (!outcome) memcpy(marks.said, now.feeder.numbers + 14, sizeof marks.said);
    IS(npy_feed_end(&now.feeder, now.said) == outcome && untouched());
    memset(now.said, 9, sizeof now.said);
    marks.used[0] = 0;
    IS(feed("\x93NUMPY", 6, 70) == outcome && untouched());
    IS(npy_feed(&now.feeder, (const uint8_t *)"", 0, now.text, 0, now.table, 0, now.names, 0, now.shape, 0, now.said, now.used) == outcome && untouched());
}

static void feeding_bytes(void) {
    uint8_t file[96];
    size_t n = small(file);
    fresh(file);
    for (size_t k = 0; k < n; k++) {
        IS(feed(file + k, 0, 70) == NPY_MORE && left(k, 0, 0, NULL));
        if (k + 1 < n) IS(feed(file + k, 1, 70) == NPY_MORE && left(k + 1, 0, 1, NULL));
    }
    mark_small();
    IS(feed(file + n - 1, 17, 70) == 0 && left(80, 255, 1, small_said));
    again(0);
    for (size_t k = 0; k <= n; k++) {
        fresh(file);
        if (k == n) mark_small();
        IS(feed(file, k, 71) == (k < n ? NPY_MORE : 0) && left(k, k < n ? 0 : 255, k, k < n ? NULL : small_said));
        mark_small();
        IS(feed(file + k, 96 - k, 71) == 0 && left(80, 255, n - k, small_said));
    }
}

static void feeding_refused(void) {
    uint8_t file[96];
    size_t n = small(file);
    fresh(file);
    IS(feed(input, 96, 69) == NPY_BUFFER && left(10, NPY_BUFFER, 10, NULL));
    again(NPY_BUFFER);
    fresh(file);
    IS(feed(input, 9, 69) == NPY_MORE && left(9, 0, 9, NULL) && feed(input + 9, 87, 69) == NPY_BUFFER && left(10, NPY_BUFFER, 1, NULL));
    fresh("\x93NUMPY\x03\x00\x00\x00\x02\x00{}");
    IS(feed(input, 14, 128) == NPY_BUFFER && left(12, NPY_BUFFER, 12, NULL));
    fresh("\x93NUMPY\x02\x00\x01\x00\x02\x00{}");
    IS(feed(input, 14, 0) == NPY_LONG_TEXT && left(12, NPY_LONG_TEXT, 12, NULL));
    again(NPY_LONG_TEXT);
    fresh("xxxxxxxxx");
    IS(feed(input, 7, 0) == NPY_MORE && left(7, 0, 7, NULL));
    IS(feed(input + 7, 2, 0) == NPY_NOT_NPY && left(8, NPY_NOT_NPY, 1, NULL));
    again(NPY_NOT_NPY);
    fresh("\x93NUMPY\x01\x01\x46\x00");
    IS(feed(input, 10, 0) == NPY_OTHER_VERSION && left(8, NPY_OTHER_VERSION, 8, NULL));
    again(NPY_OTHER_VERSION);
    fresh("\x93NUMPY\x01\x00\x00\x00");
    IS(feed(input, 10, 0) == NPY_FAULT && left(10, NPY_FAULT, 10, NULL));
    file[10] = '$';
    fresh(file);
    IS(feed(input, n - 1, 128) == NPY_MORE && left(n - 1, 0, n - 1, NULL));
    IS(feed(input + n - 1, 17, 128) == NPY_FAULT && left(n, NPY_FAULT, 1, NULL));
    again(NPY_FAULT);
    small(file);
    fresh(file);
    IS(npy_feed(&now.feeder, file, n, now.text, 70, now.table, NPY_ENTRY - 1, now.names, 0, now.shape, 1, now.said, now.used) == NPY_ROOM && left(n, NPY_ROOM, n, NULL));
    again(NPY_ROOM);
}

static void feeding_ends(void) {
    uint8_t file[96];
    size_t n = small(file);
    for (size_t k = 0; k < n; k++) {
        uint8_t early = k < 8 ? NPY_NOT_NPY : NPY_INCOMPLETE;
        fresh(file);
        IS(feed(file, k, 70) == NPY_MORE && left(k, 0, k, NULL));
        IS(npy_feed_end(&now.feeder, now.said) == early && left(k, early, k, NULL));
        again(early);
    }
    /* the numbers before what is said stay as they are, the values become 0 */
    mark();
    now.feeder.numbers[13] = 0;
    marks = now;
    marks.feeder.numbers[13] = NPY_INCOMPLETE, memset(marks.feeder.numbers + 14, 0, 48);
    IS(npy_feed_end(&now.feeder, now.said) == NPY_INCOMPLETE && untouched());
}

/* Numbers that are no feeder's: 27, and all is as it was. */
static void no_feeder(void) {
    marks = now;
    IS(feed("\x93NUMPY", 6, 70) == NPY_NO_READING && untouched());
    IS(npy_feed_end(&now.feeder, now.said) == NPY_NO_READING && untouched());
}

/* Numbers that no call leaves. */
static void feeding_numbers(void) {
    const uint64_t none[] = {33, 34, 35, 37, 128, 254, 256, 257, 256 + 36, 65536, UINT64_MAX};
    for (size_t k = 0; k < sizeof none / sizeof *none; k++) {
        mark();
        now.feeder.numbers[13] = none[k];
        no_feeder();
    }
    for (uint64_t k = 1; k <= 36; k++) {
        if (k > 32 && k < 36) continue;
        mark();
        now.feeder.numbers[13] = k;
        again((uint8_t)k);
    }
    /* a header's version and order, and whether they are named so */
    const uint64_t named[][3] = {{1, 0, 1}, {2, 1, 1}, {3, 1, 1}, {0, 0, 0}, {4, 0, 0}, {1, 2, 0}, {257, 0, 0}, {1, 256, 0}, {UINT64_MAX, 0, 0}, {3, UINT64_MAX, 0}};
    for (size_t k = 0; k < sizeof named / sizeof *named; k++) {
        mark();
        now.feeder.numbers[13] = 255, now.feeder.numbers[14] = named[k][0], now.feeder.numbers[15] = named[k][1], now.feeder.numbers[16] = UINT64_MAX, now.feeder.numbers[19] = 0;
        if (named[k][2]) {
            again(0);
        } else {
            no_feeder();
        }
    }
    /* of a number of the head the lowest byte counts; values that are not said become 0 */
    uint8_t file[96];
    size_t n = small(file);
    fresh(file);
    IS(feed(file, 20, 70) == NPY_MORE);
    for (uint64_t k = 0; k < 12; k++) now.feeder.numbers[k] += 256 * (k + 1);
    now.feeder.numbers[14] = 77;
    IS(feed(file + 20, 1, 70) == NPY_MORE && left(21, 0, 1, NULL));
    /* a count of more bytes than the head and the buffer hold is all that they hold */
    fresh(file);
    IS(feed(file, 10, 70) == NPY_MORE);
    now.feeder.numbers[12] = UINT64_MAX, memcpy(now.text, file + 10, 70);
    mark_small();
    IS(feed(file + n, 1, 70) == 0 && left(80, 255, 0, small_said));
}

/* A record of two fields, `a` of S3 and `b` of <U2, two items in Fortran order, read from text. */
static const char pair[] = "{'descr': [('a', '|S3'), ('b', '<U2'), ], 'fortran_order': True, 'shape': (2, ), }";

static void read_pair(void) {
    mark();
    IS(npy_read_text((const uint8_t *)pair, sizeof pair - 1, now.table, 3 * NPY_ENTRY, now.names, 2, now.shape, 1, now.said) == 0);
    IS(now.said[NPY_TEXT_ORDER] == NPY_ORDER_FORTRAN && now.said[NPY_TEXT_RANK] == 1 && now.said[NPY_TEXT_ENTRIES] == 3 && now.said[NPY_TEXT_NAMES] == 2 && memcmp(now.names, "ab", 2) == 0);
}

#define RECORD now.table, 3 * NPY_ENTRY, now.names, 2, now.shape, 1

static void records(void) {
    read_pair();
    const uint64_t said[NPY_CHECK_SAID] = {1, 3, 1, 11, 2};
    IS(npy_check(RECORD, 1, now.said) == 0 && memcmp(now.said, said, sizeof said) == 0);
    marks = now;
    IS(npy_check(RECORD, 2, now.said) == NPY_NO_READING && untouched());
    IS(npy_check(now.table, 3 * NPY_ENTRY - 1, now.names, 2, now.shape, 1, 1, now.said) == NPY_NO_READING && untouched());
    uint64_t count[1] = {7};
    IS(npy_write_header(RECORD, 1, now.out, sizeof now.out, count) == 0 && count[0] == 128);
    IS(memcmp(now.out, "\x93NUMPY\x01\x00\x76\x00", 10) == 0 && memcmp(now.out + 10, pair, sizeof pair - 1) == 0 && now.out[126] == ' ' && now.out[127] == '\n' && now.out[128] == 0xA5);
    marks = now, count[0] = 7;
    IS(npy_write_header(RECORD, 1, now.out, 127, count) == NPY_OUTPUT_ROOM && count[0] == 7 && untouched());
    IS(npy_write_header(RECORD, 256, now.out, sizeof now.out, count) == NPY_NO_READING && count[0] == 7 && untouched());
    const char text[] = "version 1.0\norder F\nshape 2\nstrides 1\ncount 2\nitem 11\ndata 128\n0 - record 2\n1 0 plain |S3 'a'\n2 0 plain <U2 'b'\n";
    IS(npy_list(1, 128, RECORD, 1, now.out, sizeof now.out, count) == 0 && count[0] == sizeof text - 1 && memcmp(now.out, text, sizeof text - 1) == 0);
    marks = now, count[0] = 7;
    IS(npy_list(4, 128, RECORD, 1, now.out, sizeof now.out, count) == NPY_OTHER_VERSION && npy_list(1, 128, RECORD, 9, now.out, sizeof now.out, count) == NPY_NO_READING);
    IS(npy_list(1, 128, RECORD, 1, now.out, 10, count) == NPY_OUTPUT_ROOM && count[0] == 7 && untouched());
}

static void shapes(void) {
    const uint64_t shape[3] = {2, 3, 4}, c[3] = {12, 4, 1}, fortran[3] = {1, 2, 6}, index[3] = {1, 2, 3}, big[2] = {4294967296u, 4294967296u};
    uint64_t count[1] = {7};
    mark();
    IS(npy_count(shape, 3, 0, count) == 0 && count[0] == 24);
    count[0] = 7;
    IS(npy_count(big, 2, 0, count) == NPY_SHAPE && npy_count(shape, 3, 2, count) == NPY_NO_READING && count[0] == 7);
    IS(npy_strides(shape, 3, 0, now.strides, 32, count) == 0 && count[0] == 24 && memcmp(now.strides, c, sizeof c) == 0);
    IS(npy_strides(shape, 3, 1, now.strides, 3, count) == 0 && memcmp(now.strides, fortran, sizeof fortran) == 0);
    marks = now, count[0] = 7;
    IS(npy_strides(shape, 3, 1, now.strides, 2, count) == NPY_ROOM && npy_strides(big, 2, 1, now.strides, 2, count) == NPY_SHAPE && npy_strides(shape, 3, 7, now.strides, 3, count) == NPY_NO_READING);
    IS(untouched() && count[0] == 7);
    IS(npy_item_number(shape, 3, 0, index, 3, count) == 0 && count[0] == 23);
    count[0] = 7;
    IS(npy_item_number(shape, 3, 0, index, 2, count) == NPY_NOWHERE && npy_item_number(shape, 3, 3, index, 3, count) == NPY_NO_READING && count[0] == 7);
}

static void places(void) {
    read_pair();
    uint8_t file[128 + 22] = {0};
    uint64_t one[1] = {1}, two[1] = {2}, path[1] = {1}, count[1] = {7}, run[NPY_RUN];
    const uint64_t there[NPY_RUN] = {128 + 11 + 3, 8, '<', 'U', 2, 0};
    memcpy(file + 128 + 11, "xy", 2);
    file[128 + 14] = 0xE9;
    marks = now;
    memset(run, 0, sizeof run);
    IS(npy_place(sizeof file, 128, RECORD, 1, one, 1, path, 1, run) == 0 && memcmp(run, there, sizeof run) == 0);
    IS(npy_place(sizeof file - 1, 128, RECORD, 1, one, 1, path, 1, run) == NPY_SHORT_FILE && npy_place(sizeof file, 128, RECORD, 1, two, 1, path, 1, run) == NPY_NOWHERE);
    IS(npy_place(sizeof file, 128, RECORD, 2, one, 1, path, 1, run) == NPY_NO_READING && memcmp(run, there, sizeof run) == 0);
    IS(npy_element_points(file, sizeof file, 128, RECORD, 1, one, 1, path, 1, now.points, 16, count) == 0 && count[0] == 1 && now.points[0] == 0xE9);
    IS(now.points[1] == 0xA5A5A5A5);
    marks = now, count[0] = 7;
    IS(npy_element_points(file, sizeof file, 128, RECORD, 1, one, 1, path, 1, now.points, 0, count) == NPY_ROOM && untouched());
    path[0] = 0;
    IS(npy_element_points(file, sizeof file, 128, RECORD, 1, one, 1, path, 1, now.points, 16, count) == NPY_NOWHERE && untouched() && count[0] == 7);
    IS(npy_element_bytes(file, sizeof file, 128, RECORD, 1, one, 1, path, 1, now.out, 2, count) == 0 && count[0] == 2 && memcmp(now.out, "xy", 2) == 0);
    marks = now, count[0] = 7;
    IS(npy_element_bytes(file, sizeof file, 128, RECORD, 1, one, 1, path, 1, now.out, 1, count) == NPY_ROOM && untouched() && count[0] == 7);
    IS(npy_element_bytes(file, sizeof file, 128, RECORD, 5, one, 1, path, 1, now.out, 2, count) == NPY_NO_READING && untouched() && count[0] == 7);
}

static void elements(void) {
    const uint32_t points[2] = {0x1F600, 'a'}, half[1] = {0xD800};
    const uint8_t run[12] = {0, 1, 0xF6, 0, 0, 0, 0, 'a'};
    uint64_t count[1] = {7};
    mark();
    IS(npy_write_points('>', 'U', 3, 0, points, 2, now.out, 12, count) == 0 && count[0] == 12 && memcmp(now.out, run, 12) == 0 && now.out[12] == 0xA5);
    marks = now, count[0] = 7;
    IS(npy_write_points('>', 'U', 3, 0, half, 1, now.out, 12, count) == NPY_SCALAR && npy_write_points('>', 'U', 1, 0, points, 2, now.out, 12, count) == NPY_MISFIT);
    IS(npy_write_points('>', 'U', 3, 0, points, 2, now.out, 11, count) == NPY_OUTPUT_ROOM && npy_write_points('|', 'U', 3, 0, points, 2, now.out, 12, count) == NPY_NO_READING);
    IS(npy_write_points('>', 'S', 3, 0, points, 2, now.out, 12, count) == NPY_NOWHERE && untouched() && count[0] == 7);
    IS(npy_read_points(run, 12, '>', 'U', 3, 0, now.points, 2, count) == 0 && count[0] == 2 && memcmp(now.points, points, 8) == 0 && now.points[2] == 0xA5A5A5A5);
    marks = now, count[0] = 7;
    IS(npy_read_points(run, 12, '<', 'U', 3, 0, now.points, 2, count) == NPY_SCALAR && npy_read_points(run, 12, '>', 'U', 3, 0, now.points, 1, count) == NPY_ROOM);
    IS(npy_read_points(run, 12, '>', 'V', 12, 0, now.points, 2, count) == NPY_NOWHERE && npy_read_points(run, 12, 0, 'U', 3, 0, now.points, 2, count) == NPY_NO_READING);
    IS(untouched() && count[0] == 7);
    IS(npy_write_bytes('|', 'S', 4, 0, (const uint8_t *)"xy", 2, now.out, 4, count) == 0 && count[0] == 4 && memcmp(now.out, "xy\0\0", 4) == 0);
    IS(npy_read_bytes(now.out, 4, '|', 'S', 4, 0, now.names, 2, count) == 0 && count[0] == 2 && memcmp(now.names, "xy", 2) == 0);
    marks = now, count[0] = 7;
    IS(npy_write_bytes('|', 'V', 4, 0, (const uint8_t *)"xy", 2, now.out, 4, count) == NPY_MISFIT && npy_write_bytes('|', 'S', 4, 14, (const uint8_t *)"xy", 2, now.out, 4, count) == NPY_NO_READING);
    IS(npy_read_bytes(now.out, 4, '|', 'V', 4, 0, now.names, 3, count) == NPY_ROOM && npy_read_bytes(now.out, 4, '<', 'i', 4, 0, now.names, 9, count) == NPY_NOWHERE);
    IS(untouched() && count[0] == 7);
}

/* The value in a run of bytes, by its type string: the refusal, and `said` as it is to be. */
static uint8_t value_in(const char *text, const char *run, size_t n, uint64_t said[NPY_VALUE_SAID]) {
    uint64_t type[4] = {0};
    IS(npy_type_read((const uint8_t *)text, strlen(text), type) == 0);
    return npy_read_value((const uint8_t *)run, n, type[0], type[1], type[2], type[3], said);
}

static int is_value(const char *text, const char *run, size_t n, uint64_t kind, uint64_t first, uint64_t second, uint64_t units) {
    uint64_t said[NPY_VALUE_SAID] = {9, 9, 9, 9};
    const uint64_t want[NPY_VALUE_SAID] = {kind, first, second, units};
    return value_in(text, run, n, said) == 0 && memcmp(said, want, sizeof want) == 0;
}

/* Whether a run is refused by that number, and `said` is left as it was. */
static int is_refused(const char *text, const char *run, size_t n, uint8_t refusal) {
    uint64_t said[NPY_VALUE_SAID] = {9, 9, 9, 9};
    const uint64_t before[NPY_VALUE_SAID] = {9, 9, 9, 9};
    return value_in(text, run, n, said) == refusal && memcmp(said, before, sizeof before) == 0;
}

static void values(void) {
    IS(is_value("|b1", "\0", 1, NPY_IS_BOOL, 0, 0, 0) && is_value("<b1", "\1", 1, NPY_IS_BOOL, 1, 0, 0));
    IS(is_value("|i1", "\xff", 1, NPY_IS_SIGNED, UINT64_MAX, 0, 0) && is_value("|u1", "\xff", 1, NPY_IS_UNSIGNED, 255, 0, 0));
    IS(is_value("<i2", "\0\x80", 2, NPY_IS_SIGNED, UINT64_MAX - 32767, 0, 0) && is_value(">i2", "\0\x80", 2, NPY_IS_SIGNED, 128, 0, 0));
    IS(is_value("<u8", "\1\2\3\4\5\6\7\x80", 8, NPY_IS_UNSIGNED, 0x8007060504030201, 0, 0) && is_value(">i8", "\x80\0\0\0\0\0\0\0", 8, NPY_IS_SIGNED, 1ull << 63, 0, 0));
    IS(is_value("<f2", "\0\x3c", 2, NPY_IS_SINGLE, 0x3F800000, 0, 0) && is_value("<f4", "\0\0\x80\x3f", 4, NPY_IS_SINGLE, 0x3F800000, 0, 0));
    IS(is_value(">f2", "\x7c\1", 2, NPY_IS_SINGLE, 0x7F802000, 0, 0) && is_value(">f2", "\0\1", 2, NPY_IS_SINGLE, 0x33800000, 0, 0) && is_value("<f2", "\0\x80", 2, NPY_IS_SINGLE, 0x80000000, 0, 0));
    IS(is_value(">f4", "\xff\x80\0\1", 4, NPY_IS_SINGLE, 0xFF800001, 0, 0) && is_value(">f8", "\x7f\xf0\0\0\0\0\0\1", 8, NPY_IS_DOUBLE, 0x7FF0000000000001, 0, 0));
    IS(is_value(">c8", "\0\1\2\3\4\5\6\7", 8, NPY_IS_SINGLE_PAIR, 0x00010203, 0x04050607, 0) && is_value("<c8", "\0\1\2\3\4\5\6\7", 8, NPY_IS_SINGLE_PAIR, 0x03020100, 0x07060504, 0));
    IS(is_value(">c16", "\0\1\2\3\4\5\6\7\x8\x9\xa\xb\xc\xd\xe\xf", 16, NPY_IS_DOUBLE_PAIR, 0x0001020304050607, 0x08090A0B0C0D0E0F, 0));
    IS(is_value("<M8[us]", "\xff\xff\xff\xff\xff\xff\xff\xff", 8, NPY_IS_TIME, UINT64_MAX, 0, 9) && is_value(">m8[as]", "\0\0\0\0\0\0\0\7", 8, NPY_IS_TIME, 7, 0, 13));
    IS(is_refused("|b1", "\2", 1, NPY_BOOL_BYTE) && is_refused(">b1", "\xff", 1, NPY_BOOL_BYTE) && is_refused("|b1", "\2\2", 2, NPY_NO_READING) && is_refused("<i4", "abc", 3, NPY_NO_READING));
    IS(is_refused("|S1", "a", 1, NPY_NO_VALUE) && is_refused("<U1", "a\0\0", 4, NPY_NO_VALUE) && is_refused("|V1", "a", 1, NPY_NO_VALUE) && is_refused("|O", "", 0, NPY_NO_VALUE));
    IS(is_refused("<f16", "", 0, NPY_NO_VALUE) && is_refused(">c32", "", 0, NPY_NO_VALUE));
    uint64_t said[NPY_VALUE_SAID] = {9, 9, 9, 9};
    const uint64_t before[NPY_VALUE_SAID] = {9, 9, 9, 9};
    IS(npy_read_value((const uint8_t *)"abcd", 4, '|', 'i', 4, 0, said) == NPY_NO_READING && npy_read_value((const uint8_t *)"abcd", 4, '<', 'i', 4, 1, said) == NPY_NO_READING);
    IS(memcmp(said, before, sizeof before) == 0);
}

/* Two items of `a` |b1, `b` >i2 twice and `c` |S1, the second with a bool of 2, after 3 bytes. */
static void values_at_places(void) {
    const char text[] = "{'descr': [('a', '|b1'), ('b', '>i2', (2,)), ('c', '|S1')], 'fortran_order': False, 'shape': (2, )}", data[] = "xyz\1\0\1\xff\xfez\2\0\3\0\4y";
    const uint8_t *file = (const uint8_t *)data;
    const size_t length = sizeof data - 1;
    uint64_t index[2] = {0, 0}, path[2] = {0, 1}, *said = now.said;
    mark();
    IS(npy_read_text((const uint8_t *)text, sizeof text - 1, now.table, 5 * NPY_ENTRY, now.names, 3, now.shape, 1, said) == 0 && said[NPY_TEXT_ENTRIES] == 5 && length == 15);
#define MIXED now.table, 5 * NPY_ENTRY, now.names, 3, now.shape, 1
    IS(npy_element_value(file, length, 3, MIXED, 0, index, 1, path, 1, said) == 0 && said[NPY_VALUE_KIND] == NPY_IS_BOOL && said[NPY_VALUE_FIRST] == 1 && said[NPY_VALUE_SECOND] == 0 && said[NPY_VALUE_UNITS] == 0);
    path[0] = 1;
    IS(npy_element_value(file, length, 3, MIXED, 0, index, 1, path, 2, said) == 0 && said[NPY_VALUE_KIND] == NPY_IS_SIGNED && said[NPY_VALUE_FIRST] == UINT64_MAX - 1 && said[NPY_VALUE_SECOND] == 0);
    memset(said, 9, sizeof now.said);
    marks = now;
    IS(npy_element_value(file, length, 3, MIXED, 2, index, 1, path, 2, said) == NPY_NO_READING && npy_element_value(file, length, 3, now.table, 5 * NPY_ENTRY - 1, now.names, 3, now.shape, 1, 0, index, 1, path, 2, said) == NPY_NO_READING);
    IS(npy_element_value(file, length - 1, 3, MIXED, 0, index, 1, path, 2, said) == NPY_SHORT_FILE && npy_element_value(file, length, 3, MIXED, 0, index, 2, path, 2, said) == NPY_NOWHERE);
    path[0] = 2, index[0] = 1;
    IS(npy_element_value(file, length, 3, MIXED, 0, index, 1, path, 1, said) == NPY_NO_VALUE && npy_element_value(file, length, 3, MIXED, 0, index, 1, path, 2, said) == NPY_NOWHERE);
    path[0] = 0;
    IS(npy_element_value(file, length, 3, MIXED, 0, index, 1, path, 1, said) == NPY_BOOL_BYTE && npy_element_value(file, length, 3, MIXED, 0, index, 1, path, 2, said) == NPY_NOWHERE);
    IS(npy_element_value(file, length - 1, 3, MIXED, 0, index, 1, path, 1, said) == NPY_SHORT_FILE && untouched());
}

static uint8_t type_read(const char *text, uint64_t type[4]) { return npy_type_read((const uint8_t *)text, strlen(text), type); }

static void types(void) {
    const uint64_t date[4] = {'<', 'M', 8, 10};
    uint64_t type[4] = {1, 2, 3, 4}, before[4] = {1, 2, 3, 4}, count[1] = {7};
    IS(type_read("", type) == NPY_SYNTAX && type_read("<i18446744073709551616", type) == NPY_LARGE_NUMBER && type_read("|i4", type) == NPY_TYPE_ORDER && type_read("<i3", type) == NPY_TYPE_SIZE && type_read("<M8", type) == NPY_UNITS);
    IS(memcmp(type, before, sizeof type) == 0);
    IS(type_read("<M8[ns]", type) == 0 && memcmp(type, date, sizeof type) == 0);
    mark();
    IS(npy_type_print('<', 'M', 8, 10, now.out, 7, count) == 0 && count[0] == 7 && memcmp(now.out, "<M8[ns]", 7) == 0 && now.out[7] == 0xA5);
    marks = now, count[0] = 8;
    IS(npy_type_print('<', 'M', 8, 10, now.out, 6, count) == NPY_OUTPUT_ROOM && npy_type_print('<', 'M', 8, 0, now.out, 7, count) == NPY_NO_READING && untouched() && count[0] == 8);
}

int main(void) {
    reading();
    feeding_bytes();
    feeding_refused();
    feeding_ends();
    feeding_numbers();
    records();
    shapes();
    places();
    elements();
    values();
    values_at_places();
    types();
    printf("%d asked, %d wrong\n", asked, wrong);
    return wrong != 0;
}
