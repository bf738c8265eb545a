/* Headers, type strings, places, string elements and values of NPY files, from C.
 *
 * Every function takes any bytes, numbers and rooms and has a proved, complete contract (crates/npy). It returns
 *     NPY_OK, 0                       and has written its values, or
 *     a refusal's number, 1 to 32,    and has left all that it was lent as it was.
 * npy_feed and npy_feed_end, which take a header in parts, return NPY_BUFFER, 36, too, and npy_feed NPY_MORE, 255. A caller keeps a feeder and a text buffer for them from call to call: their
 * comments say what they write.
 * docs/RULES.md says when each refusal is given, and which one where several apply.
 *
 * A room is a pointer and a count of its elements; room beyond what was needed is left as it was. No function allocates, keeps a pointer, or
 * reads or writes outside the rooms. The pointers of one call must not overlap where one of them is written to, and must not be null or misaligned,
 * also where the count is 0; a bool is 0 or 1: that is the caller's part, which no proof can see.
 *
 * Link with target/staticlib/libnpy.a, which `bench/archive` proves and writes, for x86-64. No name of this header is in
 * NumPy's own C headers (compared with NumPy 1.24.2).
 *
 * A record is what a header says: a dtype table, the names of its fields end to end, a shape and an order.
 *     table    NPY_ENTRY numbers for each entry, depth first, an entry before those below it: enum npy_entry. The outermost entry has parent 0 and is no array
 *     order    NPY_ORDER_C or NPY_ORDER_FORTRAN; another number is refused with NPY_NO_READING
 *     type     four numbers: the byte of its order ('<', '>' or '|'), the byte of its letter, its size (0 for 'O'), its units (0 for none, then 1 to 13
 *              for Y M W D h m s ms us ns ps fs as); numbers that no type string gives are refused with NPY_NO_READING
 */
#ifndef NPY_H
#define NPY_H
#include <stdbool.h>
#include <stddef.h>
#include <stdint.h>

#define NPY_ENTRY 9            /* numbers of a table entry */
#define NPY_MOST_ENTRIES 512   /* entries of an accepted record */
#define NPY_MOST_NAMES 65536   /* name bytes of an accepted record */
#define NPY_MOST_RANK 32       /* dimensions of an accepted record, and of each sub-shape */
#define NPY_MOST_TEXT 131072   /* bytes of the longest text of a header */
#define NPY_MOST_HEADER 131084 /* bytes of the longest header: 12 and a text of NPY_MOST_TEXT */
#define NPY_FEEDER 20          /* numbers of a feeder */
#define NPY_MORE 255           /* npy_feed: need more */

/* What a function returns. The comments are also what `./npy-list --help` prints. */
enum npy_refusal {
    NPY_OK = 0,               /* not refused */
    NPY_NOT_NPY = 1,          /* under 8 bytes, or the first six are not those of an NPY file */
    NPY_OTHER_VERSION = 2,    /* a version other than 1.0, 2.0 and 3.0 */
    NPY_INCOMPLETE = 3,       /* the file ends inside its length field or its header text */
    NPY_LONG_TEXT = 4,        /* header text of over 131,072 bytes */
    NPY_NOT_UTF8 = 5,         /* header text that is not UTF-8 */
    NPY_FAULT = 6,            /* header text that is not one Python literal of the accepted kind */
    NPY_DEPTH = 7,            /* a bracket that is allowed in its place would be the 33rd open */
    NPY_NOT_DICT = 8,         /* the header is not a dict, or one of its keys is not a string */
    NPY_NO_KEY = 9,           /* 'fortran_order', 'shape' or 'descr' is missing */
    NPY_NOT_BOOLEAN = 10,     /* 'fortran_order' is neither True nor False */
    NPY_NOT_SHAPE = 11,       /* a shape is not a list or tuple of integers from 0 up */
    NPY_LARGE_DIMENSION = 12, /* a dimension is over 2^64-1 */
    NPY_DIMENSIONS = 13,      /* a shape or sub-shape has over 32 dimensions */
    NPY_FORM = 14,            /* 'descr' or one of its fields has the wrong form */
    NPY_SYNTAX = 15,          /* type string: wrong syntax */
    NPY_LARGE_NUMBER = 16,    /* type string: the size is over 2^64-1 */
    NPY_TYPE_ORDER = 17,      /* type string: '|' where the type needs a byte order */
    NPY_TYPE_SIZE = 18,       /* type string: a size that the letter does not have */
    NPY_UNITS = 19,           /* type string: units missing on m or M, or given on another letter */
    NPY_ENTRIES = 20,         /* over 512 table entries, or over 65,536 bytes of field names */
    NPY_SIZE = 21,            /* no object (O), and a type, sub-array or record of over 2^64-1 bytes */
    NPY_SHAPE = 22,           /* the item count or a stride is over 2^64-1 */
    NPY_ROOM = 23,            /* the room for the table, names, shape, strides or element is too small; or the text is not all held */
    NPY_HAS_OBJECT = 24,      /* a place is asked for, and the type contains an object (O) */
    NPY_SHORT_FILE = 25,      /* the file ends before its data does */
    NPY_NOWHERE = 26,         /* index or path names no element, or none of the kind asked for */
    NPY_NO_READING = 27,      /* the caller's record, type or order is none that a header could give; numbers that are no feeder's; or a run whose value is asked is not as long as its type */
    NPY_OUTPUT_ROOM = 28,     /* the room for the output is too small */
    NPY_SCALAR = 29,          /* a U element, or a value to be written to one, has a number that is no Unicode scalar value */
    NPY_MISFIT = 30,          /* the value does not fit the element's size */
    NPY_NO_VALUE = 31,        /* the element has a type without values: S, U, V, a float of 16 bytes, a complex of 32; by itself also O */
    NPY_BOOL_BYTE = 32,       /* the byte of a bool is above 1 */
    NPY_BUFFER = 36           /* the lent text buffer is shorter than the text that the header names */
};

enum npy_order { NPY_ORDER_C = 0, NPY_ORDER_FORTRAN = 1 };

/* The numbers of a table entry. */
enum npy_entry {
    NPY_ENTRY_PARENT = 0,     /* the number of the entry that it belongs to, an array level's the level or record around it; 0 for the outermost */
    NPY_ENTRY_KIND = 1,       /* enum npy_kind */
    NPY_ENTRY_ORDER = 2,      /* the byte of a plain type's order, else 0 */
    NPY_ENTRY_LETTER = 3,     /* the byte of a plain type's letter, else 0 */
    NPY_ENTRY_NUMBER = 4,     /* a plain type's size as its type string has it (0 for 'O'), an array level's length, how many fields a record has */
    NPY_ENTRY_UNITS = 5,      /* a plain type's units, else 0 */
    NPY_ENTRY_EXTENT = 6,     /* how many entries it and all below it are */
    NPY_ENTRY_BYTES = 7,      /* its bytes, 0 for an 'O', and 2^64-1 where they are over that */
    NPY_ENTRY_NAME = 8    /* the length of its name in bytes, 0 where it is no field */
};
enum npy_kind { NPY_KIND_PLAIN = 0, NPY_KIND_ARRAY = 1, NPY_KIND_RECORD = 2 };

/* A feeder: all zeros, `npy_feeder f = {{0}};`, is one that has taken nothing. Its numbers:
 *     0 to 11     the bytes before the text; of each number the lowest byte counts
 *     12          how many bytes were taken
 *     13          what it says: 0 need more, 255 a header, else the refusal's number
 *     14 to 19    the values of a header that it says (enum npy_read_said), else 0 */
typedef struct npy_feeder { uint64_t numbers[NPY_FEEDER]; } npy_feeder;

/* The values of npy_read, npy_read_held, npy_feed and npy_feed_end: `said`. */
enum npy_read_said {
    NPY_READ_VERSION = 0,     /* 1, 2 or 3 */
    NPY_READ_ORDER = 1,
    NPY_READ_RANK = 2,        /* dimensions of the shape */
    NPY_READ_ENTRIES = 3,     /* entries of the table, NPY_ENTRY numbers each */
    NPY_READ_NAMES = 4,       /* bytes of the names */
    NPY_READ_START = 5,       /* where the data starts: how many bytes of the file come before it */
    NPY_READ_SAID = 6         /* how many there are */
};

/* Those of npy_read_text. */
enum npy_text_said { NPY_TEXT_ORDER = 0, NPY_TEXT_RANK = 1, NPY_TEXT_ENTRIES = 2, NPY_TEXT_NAMES = 3, NPY_TEXT_SAID = 4 };

/* Those of npy_check. */
enum npy_check_said {
    NPY_CHECK_RANK = 0,
    NPY_CHECK_ENTRIES = 1,
    NPY_CHECK_SIZED = 2,      /* 1 where there is an item size, 0 with an 'O' */
    NPY_CHECK_ITEM = 3,       /* the item size in bytes, 0 with an 'O' */
    NPY_CHECK_COUNT = 4,      /* the item count */
    NPY_CHECK_SAID = 5        /* how many there are */
};

/* The values of npy_place: `run`. The last four are the type. */
enum npy_run {
    NPY_RUN_FIRST = 0,        /* where its first byte is: how many bytes of the file come before it */
    NPY_RUN_BYTES = 1,        /* how many bytes */
    NPY_RUN_ORDER = 2,
    NPY_RUN_LETTER = 3,
    NPY_RUN_SIZE = 4,
    NPY_RUN_UNITS = 5,
    NPY_RUN = 6               /* how many there are */
};

/* The values of npy_element_value and npy_read_value: `said`. A number that a kind does not use is 0. */
enum npy_value_said {
    NPY_VALUE_KIND = 0,       /* enum npy_value_kind */
    NPY_VALUE_FIRST = 1,      /* the value, as enum npy_value_kind says; of a pair the real part */
    NPY_VALUE_SECOND = 2,     /* of a pair the imaginary part */
    NPY_VALUE_UNITS = 3,      /* of a time its units, 1 to 13 */
    NPY_VALUE_SAID = 4        /* how many there are */
};
enum npy_value_kind {
    NPY_IS_BOOL = 0,          /* 0 or 1 */
    NPY_IS_SIGNED = 1,        /* two's complement in 64 bits: (int64_t)said[NPY_VALUE_FIRST] */
    NPY_IS_UNSIGNED = 2,
    NPY_IS_SINGLE = 3,        /* the 32 bits of a float; of a half float ('f2') those of the float of the same number, an infinity stays
                               * one, and a NaN has its sign and its ten bits at the top of the fraction */
    NPY_IS_DOUBLE = 4,        /* the 64 bits of a double */
    NPY_IS_SINGLE_PAIR = 5,   /* the 32 bits of each part of a complex */
    NPY_IS_DOUBLE_PAIR = 6,   /* the 64 bits of each part */
    NPY_IS_TIME = 7           /* a count of units, as NPY_IS_SIGNED; NumPy's NaT is the smallest, -2^63 */
};

#ifdef __cplusplus
extern "C" {
#endif

/* ---- reading: 1 to 22, and 23 last, where a room is too small. Always enough: NPY_MOST_ENTRIES * NPY_ENTRY numbers for the table, NPY_MOST_NAMES bytes for the names,
 * NPY_MOST_RANK numbers for the shape. */

/* The header that a file begins with. Its record goes to the front of the three rooms.
 * said: enum npy_read_said. */
uint8_t npy_read(const uint8_t *file, size_t file_len, uint64_t *table, size_t table_len, uint8_t *names, size_t names_len,
                 uint64_t *shape, size_t shape_len, uint64_t said[NPY_READ_SAID]);

/* The same for a file of which the first file_len bytes are held. longer: whether the file has more bytes than these. Where the header ends past the held bytes, the result is
 * 23 if longer is true, right after 4, and else 3. With fewer bytes than the prefix has, 10 for version 1 and 12 for the others, it is 1, 2 or 3 as if the file ended there. */
uint8_t npy_read_held(const uint8_t *file, size_t file_len, bool longer, uint64_t *table, size_t table_len, uint8_t *names, size_t names_len,
                      uint64_t *shape, size_t shape_len, uint64_t said[NPY_READ_SAID]);

/* The record of a header's text, without its prefix and of any length, so never 4: 5 to 23. said: enum npy_text_said. */
uint8_t npy_read_text(const uint8_t *text, size_t text_len, uint64_t *table, size_t table_len, uint8_t *names, size_t names_len,
                      uint64_t *shape, size_t shape_len, uint64_t said[NPY_TEXT_SAID]);

/* ---- a header that arrives in parts. Each call is lent the feeder, the text buffer and the three rooms as the last call left them. However the header is cut, the outcome, said and
 * the rooms are those of npy_read for all of it, 36 excepted. NPY_MOST_TEXT bytes of text buffer are always enough: then there is no 36. */

/* The next part. Its bytes are taken up to the one with which the outcome comes, else all; used: how many. The outcome comes with byte 8 for 1 and 2, with the last byte of the length
 * field for 4 and then 36, and with the header's last byte for every other.
 *     NPY_MORE             it has not come. said and the three rooms are as they were
 *     NPY_OK               the header. said (enum npy_read_said) and the rooms are written as npy_read writes them
 *     1, 2, 4 to 23, 36    said and the three rooms are as they were
 * The text bytes taken so far are then at the front of the text buffer, whose remainder is as it was; 36 comes before any of them is taken. The feeder keeps the outcome: each later call
 * returns it again, with said written if it is NPY_OK, used 0, and all else as it was.
 *     NPY_NO_READING       numbers that are no feeder's: number 13 is none of 0, 255, 1 to 32, 36; or it is 255, and number 14 is not 1 to 3 or number 15 not 0 or 1. All that was lent is
 *                          as it was */
uint8_t npy_feed(npy_feeder *feeder, const uint8_t *part, size_t part_len, uint8_t *text, size_t text_len, uint64_t *table, size_t table_len, uint8_t *names, size_t names_len,
                 uint64_t *shape, size_t shape_len, uint64_t said[NPY_READ_SAID], uint64_t used[1]);

/* The end of the input. If the feeder needs more: 1 where it has taken fewer than 8 bytes, else 3; it keeps that outcome, and said is as it was. Else the outcome again, or
 * NPY_NO_READING, as npy_feed returns them. Never NPY_MORE. */
uint8_t npy_feed_end(npy_feeder *feeder, uint64_t said[NPY_READ_SAID]);

/* ---- a caller's record: 27, 13, 20, 21, 22 come first in every function that takes one (in npy_list after 2). */

/* Whether some reading gives the record, 7 and 4 aside, which only the writer asks. said: enum npy_check_said. */
uint8_t npy_check(const uint64_t *table, size_t table_len, const uint8_t *names, size_t names_len, const uint64_t *shape, size_t shape_len,
                  uint64_t order, uint64_t said[NPY_CHECK_SAID]);

/* The record's header, at the front of out: then 7, 4, 28. count: its length, a multiple of 64, at which the data of
 * a file then starts. NPY_MOST_HEADER bytes are always enough. */
uint8_t npy_write_header(const uint64_t *table, size_t table_len, const uint8_t *names, size_t names_len, const uint64_t *shape, size_t shape_len,
                         uint64_t order, uint8_t *out, size_t out_len, uint64_t count[1]);

/* The record's listing, at the front of out: 2 for a version other than 1, 2, 3, then the record's, then 28. count: its length. 172,484 bytes are always enough: 1,476 before
 * the table, 78 for each of NPY_MOST_ENTRIES entries, two for each of NPY_MOST_NAMES name bytes. */
uint8_t npy_list(uint64_t version, uint64_t start, const uint64_t *table, size_t table_len, const uint8_t *names, size_t names_len,
                 const uint64_t *shape, size_t shape_len, uint64_t order, uint8_t *out, size_t out_len, uint64_t count[1]);

/* ---- shapes: 22 where the count or a stride of the order is over 2^64-1. 13 is checked for records, and here by npy_item_number alone. */

uint8_t npy_count(const uint64_t *shape, size_t shape_len, uint64_t order, uint64_t count[1]);

/* The strides in items, at the front of out: 22, 23. count: the item count. shape_len numbers are enough. */
uint8_t npy_strides(const uint64_t *shape, size_t shape_len, uint64_t order, uint64_t *out, size_t out_len, uint64_t count[1]);

/* The number of the item that an index names: 13, 22, 26. */
uint8_t npy_item_number(const uint64_t *shape, size_t shape_len, uint64_t order, const uint64_t *index, size_t index_len, uint64_t item[1]);

/* ---- places: the record's refusals, then 24, 25, 26. */

/* The bytes that an index and a path name in a file of file_len bytes whose data starts at start. run: enum npy_run. */
uint8_t npy_place(uint64_t file_len, uint64_t start, const uint64_t *table, size_t table_len, const uint8_t *names, size_t names_len,
                  const uint64_t *shape, size_t shape_len, uint64_t order, const uint64_t *index, size_t index_len,
                  const uint64_t *path, size_t path_len, uint64_t run[NPY_RUN]);

/* The element S or V at a place, and the element U as code points, at the front of out: 26 for another type, then 29 (U), 23. count: how many bytes (S, V)
 * or code points (U) were written. As many as the size of the type are always enough. */
uint8_t npy_element_bytes(const uint8_t *file, size_t file_len, uint64_t start, const uint64_t *table, size_t table_len, const uint8_t *names,
                          size_t names_len, const uint64_t *shape, size_t shape_len, uint64_t order, const uint64_t *index, size_t index_len,
                          const uint64_t *path, size_t path_len, uint8_t *out, size_t out_len, uint64_t count[1]);
uint8_t npy_element_points(const uint8_t *file, size_t file_len, uint64_t start, const uint64_t *table, size_t table_len, const uint8_t *names,
                           size_t names_len, const uint64_t *shape, size_t shape_len, uint64_t order, const uint64_t *index, size_t index_len,
                           const uint64_t *path, size_t path_len, uint32_t *out, size_t out_len, uint64_t count[1]);

/* The value of the element at a place: then 31, 32. Either byte order. The bits of a float are those stored, a NaN's sign and payload too; an 'f2' has the bits
 * of the float that it becomes (NPY_IS_SINGLE). said: enum npy_value_said. */
uint8_t npy_element_value(const uint8_t *file, size_t file_len, uint64_t start, const uint64_t *table, size_t table_len, const uint8_t *names,
                          size_t names_len, const uint64_t *shape, size_t shape_len, uint64_t order, const uint64_t *index, size_t index_len,
                          const uint64_t *path, size_t path_len, uint64_t said[NPY_VALUE_SAID]);

/* ---- string elements and values by themselves: 27 for no type, and of a string element 26 for another type. */

/* Reading a string element from a run of bytes: then 29 (U), 23. The run is all that is read: size is not compared with run_len. count: how many bytes (S, V) or code points (U)
 * were written. run_len bytes, or run_len / 4 code points, are always enough. */
uint8_t npy_read_bytes(const uint8_t *run, size_t run_len, uint64_t order, uint64_t letter, uint64_t size, uint64_t units,
                       uint8_t *out, size_t out_len, uint64_t count[1]);
uint8_t npy_read_points(const uint8_t *run, size_t run_len, uint64_t order, uint64_t letter, uint64_t size, uint64_t units,
                        uint32_t *out, size_t out_len, uint64_t count[1]);

/* The value in a run of bytes: then 31, 27 where run_len is not the size, 32. said: enum npy_value_said. */
uint8_t npy_read_value(const uint8_t *run, size_t run_len, uint64_t order, uint64_t letter, uint64_t size, uint64_t units, uint64_t said[NPY_VALUE_SAID]);

/* Writing a string element: then 29 (U), 30, 28. count: how many bytes: size for S and V, 4 * size for U. */
uint8_t npy_write_bytes(uint64_t order, uint64_t letter, uint64_t size, uint64_t units, const uint8_t *value, size_t value_len,
                        uint8_t *out, size_t out_len, uint64_t count[1]);
uint8_t npy_write_points(uint64_t order, uint64_t letter, uint64_t size, uint64_t units, const uint32_t *value, size_t value_len,
                         uint8_t *out, size_t out_len, uint64_t count[1]);

/* ---- type strings. */

/* 15 to 19. type: its four numbers. */
uint8_t npy_type_read(const uint8_t *text, size_t text_len, uint64_t type[4]);

/* The type string, at the front of out: 27, 28. count: its length. 26 bytes are always enough. */
uint8_t npy_type_print(uint64_t order, uint64_t letter, uint64_t size, uint64_t units, uint8_t *out, size_t out_len, uint64_t count[1]);

#ifdef __cplusplus
}
#endif
#endif
