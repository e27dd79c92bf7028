/* Hoglidra: gathers rows of Arrow columns by a nullable index column into lent buffers. */
#ifndef HOGLIDRA_H
#define HOGLIDRA_H

#include <stddef.h>
#include <stdint.h>

#ifdef __cplusplus
extern "C" {
#endif

/* What a column is made of, by the names of the Arrow Columnar Format. */
enum hoglidra_kind {
    HOGLIDRA_PRIMITIVE = 1,        /* width */
    HOGLIDRA_BOOLEAN = 2,          /* data_bit */
    HOGLIDRA_BYTES = 3,            /* offset_width; strings and binary data */
    HOGLIDRA_LIST = 4,             /* width, offset_width; the child has no nulls */
    HOGLIDRA_FIXED_SIZE_LIST = 5,  /* width, size in child elements; the child has no nulls */
    HOGLIDRA_FIXED_SIZE_BINARY = 6 /* size in bytes */
};

/* The number that a call returns, and the first of the four in the answer. */
enum hoglidra_number {
    HOGLIDRA_GATHERED = 0, /* total: data bytes written; nulls: null rows written */
    HOGLIDRA_KIND = 1,     /* unknown kind, or a used width that is not listed */
    HOGLIDRA_LIMIT = 2,    /* a used number, a buffer or the number of columns beyond its limit (below) */
    HOGLIDRA_SHORT = 3,    /* a source or index buffer shorter than needed; of several columns, also a buffer that ends past the body, or too few descriptions */
    HOGLIDRA_OFFSETS = 4,  /* place: the first offset that is negative, falling or past the data */
    HOGLIDRA_RANGE = 5,    /* place: the first valid index that names no row */
    HOGLIDRA_OVERFLOW = 6, /* place: the index at which a 4-byte offset overflows; total: bytes: the new total, lists: the total before it */
    HOGLIDRA_SPACE = 7,    /* place: 1 validity, 2 offsets, 3 data; total: the bytes that output needs */
    HOGLIDRA_ROWS = 8      /* the row counts of the columns differ */
};

/* The bytes of the answer, and the four numbers that they hold. */
#define HOGLIDRA_ANSWER_LEN 32

struct hoglidra_answer {
    uint64_t number, place, total, nulls;
};

/* Gathers. Column: rows of a kind, with the fields that the kind names above; a field or buffer that the kind does not use is ignored. width: 1, 2, 4, 8, 16
   or 32 bytes a value. offset_width: 4 or 8. data_bit and validity_bit: where the first bit stands in the first byte. A validity of length 0 means that
   every row is valid; its bit is then ignored. Index column: count row numbers, unsigned, index_width 1, 2, 4 or 8 bytes each, with a validity of its own.
   Offsets and row numbers are little-endian. Negative numbers of a signed index column are large unsigned ones: in 4 and 8 bytes the numbers of no row, so a
   valid one is refused with 5; in 1 and 2 bytes perhaps the number of a row.
   Limits: rows and count 1,048,576; size 65,536; bit offsets 7; each source or index buffer 16,777,216 bytes.

   The bytes that each source and index buffer needs; it may have more:
     data             kind 1: rows * width; 2: (data_bit + rows + 7) / 8; 5: rows * size * width; 6: rows * size;
                      kind 3: up to the last offset; 4: up to the last offset * width (with fewer, the offset is refused with 4 and not with 3)
     offsets          kinds 3 and 4: (rows + 1) * offset_width
     validity         (validity_bit + rows + 7) / 8, if it is there
     index_data       count * index_width
     index_validity   (index_validity_bit + count + 7) / 8, if it is there

   The bytes that each output needs; bytes past them are kept, and spare bits in the last byte of packed bits (validity, kind 2) become 0:
     out_validity     (count + 7) / 8
     out_offsets      kinds 3 and 4: (count + 1) * offset_width
     out_data         kind 1: count * width; 2: (count + 7) / 8; 5: count * size * width; 6: count * size;
                      kinds 3 and 4: the lengths of the valid rows that are taken; a call with less room answers HOGLIDRA_SPACE, and `total` says how much it is

   What lies under a null row of the output: zero bytes in kinds 1, 5 and 6, a zero bit in kind 2, nothing in kinds 3 and 4; whether its index is null, over whatever
   number, or the row that it names. So neither a number under a null index nor the bytes under a null row of the source can be told from the output.

   What the caller owes: each slice is a pointer and a length in bytes, and the pointer may be NULL only if the length is 0; the three outputs and the answer
   overlap nothing else. Nothing else is asked: every number, length and content is allowed, and what does not fit is refused before an output byte changes.
   Calls may run at once on different outputs and answers, also over the same sources: there is no global state.

   Numbers and lengths have 64 bits on every core, so that a call means the same on each; a size_t needs no cast. Where a pointer has fewer bits, no slice is
   longer than the core can address: a greater length names bytes that are not there. As the length of a source or index buffer that is used it is beyond the
   limit, and refused before a byte is read; an output must not be lent with it. A gather that needs more room than the core can address is refused with 7, and
   `total` says in full how much that is.

   The four numbers go over the first 32 bytes of the answer, 8 bytes each, little-endian; the number is also returned. An answer slice of fewer than 32 bytes
   gets 7, and nothing is written at all. The call uses less than 2,048 bytes of stack and no heap. It calls no other library, on any core
   (docs/FIRMWARE.md). */
uint64_t hoglidra_take(
    uint64_t kind, uint64_t width, uint64_t size, uint64_t offset_width, uint64_t rows, uint64_t data_bit, uint64_t validity_bit,
    const uint8_t *data, uint64_t data_len, const uint8_t *offsets, uint64_t offsets_len, const uint8_t *validity, uint64_t validity_len,
    uint64_t index_width, uint64_t count, uint64_t index_validity_bit,
    const uint8_t *index_data, uint64_t index_data_len, const uint8_t *index_validity, uint64_t index_validity_len,
    uint8_t *out_validity, uint64_t out_validity_len, uint8_t *out_offsets, uint64_t out_offsets_len, uint8_t *out_data, uint64_t out_data_len,
    uint8_t *answer, uint64_t answer_len);

/* A column of hoglidra_take_arrays: the fields of hoglidra_take, and of each buffer the byte of the body at which it starts and its length. 13 words of 64 bits,
   little-endian, as every core is that there is an archive for. */
struct hoglidra_column {
    uint64_t kind, width, size, offset_width, rows, data_bit, validity_bit;
    uint64_t data_start, data_len, offsets_start, offsets_len, validity_start, validity_len;
};

/* Makes a column of its 13 words, in the order above, which is that of hoglidra_take's arguments: struct hoglidra_column c = HOGLIDRA_COLUMN(..), also in a static
   table. A later version of this file that has more words gives those the values with which a call answers as it did. It expands in two steps, so that a macro may
   stand for several words, such as a start and a length. */
#define HOGLIDRA_COLUMN(...) HOGLIDRA_COLUMN_OF(__VA_ARGS__)
#define HOGLIDRA_COLUMN_OF(kind, width, size, offset_width, rows, data_bit, validity_bit, data_start, data_len, offsets_start, offsets_len, validity_start, \
    validity_len) \
    { kind, width, size, offset_width, rows, data_bit, validity_bit, data_start, data_len, offsets_start, offsets_len, validity_start, validity_len }

/* The most columns of a call. */
#define HOGLIDRA_MAX_COLUMNS 32

/* Gathers 1 to HOGLIDRA_MAX_COLUMNS columns of equal row counts by one index column: all of them, or nothing is written. What is not said here is as in
   hoglidra_take, of each column by itself.

   descriptions is `columns` records, the bytes of an array of struct hoglidra_column; bytes after them are not read. The buffers of all columns lie in body, and
   may overlap, so that columns can share one. Each that is not empty has to end within body, also where the bytes that it needs do; an empty one may start
   anywhere, and offsets that the kind does not use are ignored. Starts and body have no limit, so the lengths of body and descriptions have to be true ones.

   Each output has the bytes of the first column, then those of the second, and so on, without gaps, a column from a whole byte on: it needs the sum of what the
   columns need. hoglidra_find_column says where a column lies. In the answer total is the data bytes and nulls the null rows of all columns.

   Refusals, in this order: 2 (columns is not 1 to 32), 3 (fewer bytes than that many descriptions have), 8; then column by column 1 to 4, each number of the
   column and of the index column, 5 and 6, with the place and total of that column alone; and last 7, whose total is what all columns need of that output. */
uint64_t hoglidra_take_arrays(
    uint64_t columns, const uint8_t *descriptions, uint64_t descriptions_len, const uint8_t *body, uint64_t body_len,
    uint64_t index_width, uint64_t count, uint64_t index_validity_bit,
    const uint8_t *index_data, uint64_t index_data_len, const uint8_t *index_validity, uint64_t index_validity_len,
    uint8_t *out_validity, uint64_t out_validity_len, uint8_t *out_offsets, uint64_t out_offsets_len, uint8_t *out_data, uint64_t out_data_len,
    uint8_t *answer, uint64_t answer_len);

/* The four numbers of an answer. */
static inline struct hoglidra_answer hoglidra_read_answer(const uint8_t bytes[HOGLIDRA_ANSWER_LEN]) {
    uint64_t n[4] = { 0, 0, 0, 0 };
    for (int i = HOGLIDRA_ANSWER_LEN - 1; i >= 0; i--) n[i / 8] = n[i / 8] << 8 | bytes[i];
    struct hoglidra_answer answer = { n[0], n[1], n[2], n[3] };
    return answer;
}

/* Where a gathered column lies in the outputs of hoglidra_take_arrays: the byte at which it starts, and its length. */
struct hoglidra_outputs {
    uint64_t validity_start, validity_len, offsets_start, offsets_len, data_start, data_len;
};

/* Finds column k, from 0, of those that a call of hoglidra_take_arrays gathered (it returned 0), by as many indices as `count` says. out_offsets is the output: how
   much data a column of kind 3 or 4 has is its last offset there. */
static inline struct hoglidra_outputs hoglidra_find_column(const struct hoglidra_column *columns, uint64_t k, uint64_t count, const uint8_t *out_offsets) {
    struct hoglidra_outputs o = { 0, 0, 0, 0, 0, 0 };
    for (uint64_t i = 0; i <= k; i++) {
        const struct hoglidra_column *c = &columns[i];
        uint64_t last = 0;
        o.validity_start += o.validity_len;
        o.offsets_start += o.offsets_len;
        o.data_start += o.data_len;
        o.validity_len = (count + 7) / 8;
        o.offsets_len = c->kind == HOGLIDRA_BYTES || c->kind == HOGLIDRA_LIST ? (count + 1) * c->offset_width : 0;
        for (uint64_t b = 0; b < c->offset_width && o.offsets_len; b++) last = last << 8 | out_offsets[o.offsets_start + o.offsets_len - 1 - b];
        switch (c->kind) {
        case HOGLIDRA_PRIMITIVE: o.data_len = count * c->width; break;
        case HOGLIDRA_BOOLEAN: o.data_len = (count + 7) / 8; break;
        case HOGLIDRA_BYTES: o.data_len = last; break;
        case HOGLIDRA_LIST: o.data_len = last * c->width; break;
        case HOGLIDRA_FIXED_SIZE_LIST: o.data_len = count * c->size * c->width; break;
        default: o.data_len = count * c->size;
        }
    }
    return o;
}

#ifdef __cplusplus
}
#endif

#endif
