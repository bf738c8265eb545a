// A plain reader of NPY headers, by document 01's rules, and of values, by those of document 02's wish 1, to measure the proved ones against: the same question, the same answer, and the same lent rooms.
#ifndef PLAIN_H
#define PLAIN_H

#include <stdbool.h>
#include <stddef.h>
#include <stdint.h>

// 0, or document 01's refusal number. `said` becomes version, order (0 C, 1 Fortran), rank, entries, name bytes, data start. A refusal writes nothing.
uint8_t plain_read(const uint8_t *file, size_t file_len, uint64_t *table, size_t table_len, uint8_t *names, size_t names_len, uint64_t *shape, size_t shape_len, uint64_t said[6]);

// The same of a file's first bytes, the file being longer or not.
uint8_t plain_read_held(const uint8_t *file, size_t file_len, bool longer, uint64_t *table, size_t table_len, uint8_t *names, size_t names_len, uint64_t *shape, size_t shape_len,
                        uint64_t said[6]);

// The class of a byte by comparisons, as document 02's wish 8 lists them, from 0 on.
uint8_t plain_class(uint8_t b);

// The bits of the single float of the same number as a half float.
uint32_t plain_half(uint16_t half);

// The value in a run of bytes by the four numbers of its type, as npy_read_value returns it: 0, or 27, 31, 32. `said` becomes kind, first, second, units. A refusal writes nothing.
uint8_t plain_value(const uint8_t *run, size_t run_len, uint64_t order, uint64_t letter, uint64_t size, uint64_t units, uint64_t said[4]);

#endif
