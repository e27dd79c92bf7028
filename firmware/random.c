/* random CASES [SEED]: random gathers, many of them damaged, through the archive, and a batch of columns for every fourth; a line for each thousand with a digest
   of every number returned, every answer and every output byte. The inputs depend on the seed alone, so two archives that agree print the same. Each buffer, and
   the body of a batch, ends just before a page that may not be touched. Numbers get bits above the 32nd now and then, which code that has lost them would take
   for fit ones. The last lines say how often each kind, and a batch, met each number; in 20,000 cases and more every one has to be met. */
#define _DEFAULT_SOURCE
#include "hoglidra.h"
#include <stdio.h>
#include <stdlib.h>
#include <string.h>
#include <sys/mman.h>

enum { PAGE = 4096, FILL = 0xEE, MOST = 60000, LONG = 16777217, RECORD = sizeof(struct hoglidra_column), RECORDS = 40, BODY = RECORDS * (MOST + 8 * 800 + 500) };
enum { DATA, OFFSETS, VALIDITY, INDICES, FILLED, OUT_VALIDITY, OUT_OFFSETS, OUT_DATA, ANSWER, SLICES };

static uint8_t *ends[SLICES], *long_end, *body_end, *records_end;
static uint64_t state, digest, met[9][8], met_batch[9], met_space[4];

static uint64_t next(void) {
    state ^= state >> 12, state ^= state << 25, state ^= state >> 27;
    return state * UINT64_C(2685821657736338717);
}

static uint64_t below(uint64_t n) {
    return n ? (next() >> 11) % n : 0;
}

static int one_in(uint64_t n) {
    return below(n) == 0;
}

static uint64_t high(uint64_t n) {
    return n | UINT64_C(1) << (32 + below(32));
}

static uint8_t *arena(size_t room) {
    room = (room + PAGE - 1) / PAGE * PAGE;
    uint8_t *map = mmap(NULL, room + PAGE, PROT_READ | PROT_WRITE, MAP_PRIVATE | MAP_ANONYMOUS, -1, 0);
    if (map == MAP_FAILED || mprotect(map + room, PAGE, PROT_NONE)) exit(2);
    return map + room;
}

static void put(uint8_t *at, uint64_t n, uint64_t width) {
    for (uint64_t i = 0; i < width; i++) at[i] = (uint8_t)(n >> 8 * i);
}

static void digest_bytes(const uint8_t *at, size_t len) {
    for (size_t i = 0; i < len; i++) digest = (digest ^ at[i]) * UINT64_C(1099511628211);
}

static uint8_t *random_bytes(uint8_t *end, size_t len) {
    for (size_t i = 0; i < len; i += 8) {
        uint64_t n = next();
        for (size_t k = i; k < len && k < i + 8; k++) end[k - len] = (uint8_t)n, n >>= 8;
    }
    return end - len;
}

struct call {
    uint64_t kind, width, size, offset_width, rows, data_bit, validity_bit, index_width, count, index_bit;
    const uint8_t *data;
    size_t len[SLICES];
};

/* Where each slice lies, the outputs and the answer filled. */
static void lend(const size_t len[SLICES], uint8_t *at[SLICES]) {
    for (int i = 0; i < SLICES; i++) at[i] = len[i] ? ends[i] - len[i] : NULL;
    for (int i = OUT_VALIDITY; i < SLICES; i++) if (at[i]) memset(at[i], FILL, len[i]);
}

/* Takes in what a call left. */
static struct hoglidra_answer left(uint64_t number, const size_t len[SLICES], uint8_t *const at[SLICES]) {
    uint8_t returned[8];
    put(returned, number, 8);
    digest_bytes(returned, 8);
    for (int i = OUT_VALIDITY; i < SLICES; i++) digest_bytes(at[i], len[i]);
    struct hoglidra_answer none = { number, 0, 0, 0 };
    return len[ANSWER] >= HOGLIDRA_ANSWER_LEN ? hoglidra_read_answer(at[ANSWER]) : none;
}

static struct hoglidra_answer run(const struct call *c) {
    uint8_t *at[SLICES];
    const size_t *l = c->len;
    lend(l, at);
    uint64_t number = hoglidra_take(c->kind, c->width, c->size, c->offset_width, c->rows, c->data_bit, c->validity_bit,
        l[DATA] ? c->data : NULL, l[DATA], at[OFFSETS], l[OFFSETS], at[VALIDITY], l[VALIDITY], c->index_width, c->count, c->index_bit,
        at[INDICES], l[INDICES], at[FILLED], l[FILLED], at[OUT_VALIDITY], l[OUT_VALIDITY], at[OUT_OFFSETS], l[OUT_OFFSETS], at[OUT_DATA], l[OUT_DATA],
        at[ANSWER], l[ANSWER]);
    met[c->kind <= 8 ? c->kind : 8][number & 7]++;
    return left(number, l, at);
}

/* Offsets of runs; the longest in entries. */
static uint64_t make_offsets(const struct call *c, uint64_t unit, uint64_t *entries) {
    uint64_t at = below(5), longest = 0, w = c->offset_width, most = one_in(4) ? 100 : 12;
    uint8_t *to = ends[OFFSETS] - (c->rows + 1) * w;
    put(to, at, w);
    for (uint64_t i = 1; i <= c->rows; i++) {
        uint64_t run = one_in(3) ? 0 : below(most);
        if ((at + run) * unit > MOST) run = 0;
        if (run > longest) longest = run;
        at += run;
        put(to + i * w, at, w);
    }
    *entries = at;
    if (one_in(10)) {
        uint64_t k = below(c->rows + 1), bad = one_in(3) ? at + 1 : one_in(2) ? next() : below(at + 2);
        put(to + k * w, one_in(4) ? high(at) : bad, w);
    }
    return longest;
}

static int has_offsets(const struct call *c) {
    return c->kind == 3 || c->kind == 4;
}

static uint64_t row_bytes(const struct call *c) {
    return c->kind == 1 ? c->width : c->kind == 5 ? c->width * c->size : c->size;
}

static void choose_kind(struct call *c) {
    static const uint64_t sizes[] = { 0, 1, 2, 3, 4, 5, 7, 8, 9, 12, 15, 16, 17, 24, 31, 32, 33, 64, 100 };
    c->kind = 1 + below(6), c->width = UINT64_C(1) << below(6), c->size = sizes[below(sizeof sizes / sizeof *sizes)], c->offset_width = one_in(2) ? 4 : 8;
}

/* Data and offsets of a table; the most bytes of a row. */
static uint64_t make_data(struct call *c) {
    uint64_t unit = c->kind == 3 ? 1 : c->width, row = row_bytes(c), entries = 0;
    int runs = has_offsets(c);
    if (runs) row = make_offsets(c, unit, &entries) * unit, c->len[OFFSETS] = (c->rows + 1) * c->offset_width;
    c->len[DATA] = runs ? entries * unit : c->kind == 2 ? (c->data_bit + c->rows + 7) / 8 : c->rows * row;
    if (one_in(4)) {
        uint64_t more = below(4);
        c->len[DATA] += more;
    }
    random_bytes(ends[DATA], c->len[DATA]);
    c->data = ends[DATA] - c->len[DATA];
    return row;
}

static void make_validity(struct call *c) {
    if (!one_in(3)) c->len[VALIDITY] = (c->validity_bit + c->rows + 7) / 8 + one_in(4), random_bytes(ends[VALIDITY], c->len[VALIDITY]);
}

static void make_indices(struct call *c) {
    if (!one_in(3)) c->len[FILLED] = (c->index_bit + c->count + 7) / 8 + one_in(4), random_bytes(ends[FILLED], c->len[FILLED]);
    c->len[INDICES] = c->count * c->index_width;
    uint64_t name = c->index_width == 1 && c->rows > 256 ? 256 : c->rows, wrong = one_in(8) ? below(c->count) : c->count, under = one_in(3);
    for (uint64_t i = 0; i < c->count; i++) {
        const uint8_t *bits = ends[FILLED] - c->len[FILLED];
        int valid = !c->len[FILLED] || bits[(c->index_bit + i) / 8] >> (c->index_bit + i) % 8 & 1;
        uint64_t n = !valid && under ? next() : below(name);
        if (i == wrong) n = one_in(3) ? c->rows : one_in(2) ? high(n) : next();
        put(ends[INDICES] - c->len[INDICES] + i * c->index_width, n, c->index_width);
    }
}

/* Now and then another number. */
static uint64_t damaged(uint64_t n) {
    static const uint64_t odd[] = { 0, 3, 7, 8, 9, 64, 65536, 65537, 1048576, 1048577, UINT64_C(4294967296), UINT64_C(9223372036854775808), UINT64_MAX };
    return one_in(2) ? high(n) : odd[below(sizeof odd / sizeof *odd)];
}

/* Just the room that a gather used, which is lent next, or a byte less or more in one output or the answer. */
static void lend_used(size_t len[SLICES], uint64_t validity, uint64_t offsets, uint64_t data) {
    len[OUT_VALIDITY] = validity, len[OUT_OFFSETS] = offsets, len[OUT_DATA] = data, len[ANSWER] = HOGLIDRA_ANSWER_LEN;
    size_t *l = &len[OUT_VALIDITY + below(4)];
    if (one_in(4)) {
        if (*l && one_in(2)) *l -= 1;
        else *l += 1;
    }
}

static void one_case(void) {
    struct call c;
    memset(&c, 0, sizeof c);
    choose_kind(&c);
    c.rows = one_in(4) ? below(700) : below(40), c.count = one_in(4) ? below(300) : below(40);
    c.data_bit = below(8), c.validity_bit = below(8), c.index_bit = below(8), c.index_width = UINT64_C(1) << below(4);
    uint64_t row = row_bytes(&c);
    int big = one_in(2000), over = !big && one_in(1000);
    if (!has_offsets(&c) && c.kind != 2 && c.rows * row > MOST) c.rows = MOST / row;
    if (big) c.kind = 1, c.width = row = 16, c.rows = 1048576, c.count = 40, c.index_width = 4;
    if (over) c.kind = one_in(2) ? 3 : 4, c.width = 1, c.rows = 1, c.offset_width = 4, c.count = 8000, c.index_width = 1;
    c.data = ends[DATA];
    if (over) {
        put(ends[OFFSETS] - 8, 0, 4), put(ends[OFFSETS] - 4, 1048576, 4);
        c.len[DATA] = 1048576, c.len[OFFSETS] = 8, c.data = long_end - 1048576, row = 1;
    } else if (big) {
        c.len[DATA] = LONG - one_in(2), c.data = long_end - c.len[DATA];
    } else {
        row = make_data(&c);
    }
    make_validity(&c);
    make_indices(&c);
    int runs = has_offsets(&c);
    /* damage of the description */
    uint64_t *const numbers[] = { &c.kind, &c.width, &c.size, &c.offset_width, &c.rows, &c.data_bit, &c.validity_bit, &c.index_width, &c.count, &c.index_bit };
    if (one_in(8)) {
        uint64_t *n = numbers[below(sizeof numbers / sizeof *numbers)];
        *n = damaged(*n);
    }
    if (one_in(16)) {
        int i = (int)below(OUT_VALIDITY);
        if (i == DATA && c.len[i]) c.len[i]--, c.data++;
        else if (c.len[i]) c.len[i] -= 1 + below(c.len[i]);
    }
    /* once with room enough for what was meant, then with that which was used */
    uint64_t count = c.count < 40000 ? c.count : 40000, width = c.offset_width <= 8 ? c.offset_width : 8;
    c.len[OUT_VALIDITY] = (count + 7) / 8 + below(3), c.len[OUT_OFFSETS] = (count + 1) * width + below(3), c.len[ANSWER] = HOGLIDRA_ANSWER_LEN + below(3);
    c.len[OUT_DATA] = (count <= 300 ? count * (c.kind == 2 ? 1 : row) : 1) + below(9);
    struct hoglidra_answer a = run(&c);
    if (a.number != HOGLIDRA_GATHERED) return;
    lend_used(c.len, (count + 7) / 8, runs ? (count + 1) * width : 0, a.total);
    run(&c);
}

/* A batch: the index column and the outputs of a call, and what the columns are said to be and lie in. */
struct batch {
    uint64_t columns;
    struct hoglidra_column records[RECORDS];
    const uint8_t *body;
    size_t records_len, body_len;
    struct call call;
};

static struct hoglidra_answer run_batch(const struct batch *b) {
    uint8_t *at[SLICES], *records = records_end - b->records_len;
    const struct call *c = &b->call;
    const size_t *l = c->len;
    lend(l, at);
    memcpy(records, b->records, b->records_len);
    uint64_t number = hoglidra_take_arrays(b->columns, b->records_len ? records : NULL, b->records_len, b->body_len ? b->body : NULL, b->body_len,
        c->index_width, c->count, c->index_bit, at[INDICES], l[INDICES], at[FILLED], l[FILLED],
        at[OUT_VALIDITY], l[OUT_VALIDITY], at[OUT_OFFSETS], l[OUT_OFFSETS], at[OUT_DATA], l[OUT_DATA], at[ANSWER], l[ANSWER]);
    struct hoglidra_answer a = left(number, l, at);
    met_batch[number < 9 ? number : 8]++;
    if (number == HOGLIDRA_SPACE) met_space[a.place & 3]++;
    return a;
}

/* Puts bytes into the body, sometimes after some that are nobody's; none may lie anywhere. */
static void place(uint8_t *body, size_t *end, const uint8_t *from, uint64_t len, uint64_t *start) {
    *end += one_in(3) ? below(9) : 0;
    memcpy(body + *end, from, len);
    *start = len || one_in(2) ? *end : next();
    *end += len;
}

/* Columns of the row count of the call: made each by itself, and their buffers put into the body. The most bytes that they give. */
static uint64_t make_columns(struct batch *b) {
    static uint8_t body[BODY];
    size_t end = 0;
    uint64_t bytes = 0;
    for (uint64_t k = 0; k < b->columns; k++) {
        struct hoglidra_column *r = &b->records[k];
        struct call c = b->call;
        choose_kind(&c);
        if (c.rows * row_bytes(&c) > MOST / 4) c.width = 4, c.size = 3;
        c.data_bit = below(8), c.validity_bit = below(8);
        uint64_t row = make_data(&c);
        make_validity(&c);
        bytes += c.count * (c.kind == 2 ? 1 : row);
        const struct hoglidra_column made = HOGLIDRA_COLUMN(c.kind, c.width, c.size, c.offset_width, c.rows, c.data_bit, c.validity_bit,
            0, c.len[DATA], 0, c.len[OFFSETS], 0, c.len[VALIDITY]);
        *r = made;
        place(body, &end, c.data, r->data_len, &r->data_start);
        place(body, &end, ends[OFFSETS] - r->offsets_len, r->offsets_len, &r->offsets_start);
        place(body, &end, ends[VALIDITY] - r->validity_len, r->validity_len, &r->validity_start);
        if (!has_offsets(&c) && one_in(4)) r->offsets_start = next(), r->offsets_len = next();
        if (k && one_in(16)) *r = b->records[below(k)];
    }
    b->body_len = end, b->body = body_end - end;
    memcpy(body_end - end, body, end);
    return bytes;
}

/* One row of 1,048,576 bytes, as each of the kinds 2, 3 and 4, so often that offsets of 4 bytes overflow and those of 8 do not. */
static uint64_t make_long_columns(struct batch *b) {
    for (uint64_t k = 0; k < b->columns; k++) {
        uint64_t kind = 2 + below(3), wide = one_in(2);
        const struct hoglidra_column made = HOGLIDRA_COLUMN(kind, 1, 0, wide ? 8 : 4, 1, 0, 0, 0, 1048576, wide ? 1048576 : 1048592, wide ? 16 : 8, 0, 0);
        b->records[k] = made;
    }
    put(long_end - 24, 0, 8), put(long_end - 16, 1048576, 8), put(long_end - 8, 0, 4), put(long_end - 4, 1048576, 4);
    b->body_len = 1048576 + 24, b->body = long_end - b->body_len;
    return 8;
}

/* Damage of a record, of the number of columns or of a length; and row counts that differ, and buffers that end past the body. */
static void damage(struct batch *b) {
    struct hoglidra_column *r = &b->records[below(b->columns)];
    uint64_t *const starts[] = { &r->data_start, &r->offsets_start, &r->validity_start }, *const lens[] = { &r->data_len, &r->offsets_len, &r->validity_len };
    uint64_t *const numbers[] = { &r->kind, &r->width, &r->size, &r->offset_width, &r->data_bit, &r->validity_bit, lens[0], lens[1], lens[2],
        &b->call.index_width, &b->call.count, &b->call.index_bit };
    uint64_t i = below(3);
    if (one_in(6)) {
        uint64_t *n = numbers[below(sizeof numbers / sizeof *numbers)];
        *n = damaged(*n);
    }
    if (one_in(6)) *starts[i] = one_in(3) ? next() : one_in(2) ? high(*starts[i]) : b->body_len - *lens[i] + below(2);
    if (one_in(12) && *lens[i]) *lens[i] -= 1;
    if (one_in(12) && b->body_len) b->body_len -= 1, b->body++;
    if (one_in(8)) r->rows = one_in(2) ? damaged(r->rows) : r->rows + 1;
    if (one_in(8)) b->columns = one_in(4) ? 0 : one_in(2) ? 33 + below(9) : high(b->columns);
    if (one_in(8) && b->records_len) b->records_len -= 1 + below(b->records_len);
    if (one_in(8) && b->call.len[INDICES]) b->call.len[INDICES] -= 1;
}

static void one_batch(void) {
    static struct batch b;
    memset(&b, 0, sizeof b);
    struct call *c = &b.call;
    int over = one_in(100);
    b.columns = one_in(8) ? 1 + below(HOGLIDRA_MAX_COLUMNS) : 1 + below(6);
    c->rows = one_in(8) ? below(300) : below(40), c->count = one_in(8) ? below(100) : below(40), c->index_bit = below(8), c->index_width = UINT64_C(2) << below(3);
    if (over) c->rows = 1, c->count = 8000, c->index_width = 2;
    uint64_t bytes = over ? make_long_columns(&b) : make_columns(&b), offsets = 0, columns = b.columns;
    make_indices(c);
    b.records_len = b.columns * RECORD + (one_in(3) ? below(2 * RECORD) : 0);
    if (one_in(2)) damage(&b);
    /* once with room enough for what was meant, then with that which was used */
    uint64_t count = c->count < 8000 ? c->count : 8000, validity = columns * ((count + 7) / 8);
    for (uint64_t k = 0; k < columns; k++) if (b.records[k].kind == 3 || b.records[k].kind == 4) offsets += (count + 1) * (b.records[k].offset_width == 4 ? 4 : 8);
    c->len[OUT_VALIDITY] = validity + below(3), c->len[OUT_OFFSETS] = offsets + below(3), c->len[ANSWER] = HOGLIDRA_ANSWER_LEN + below(3);
    c->len[OUT_DATA] = (count <= 100 ? bytes : 1) + below(9);
    struct hoglidra_answer a = run_batch(&b);
    if (a.number != HOGLIDRA_GATHERED) return;
    lend_used(c->len, validity, offsets, a.total);
    run_batch(&b);
}

int main(int argc, char **argv) {
    static const size_t rooms[SLICES] = { MOST + 64, 8 * 800, 1048576 / 8 + 64, 8 * 40000, 40000 / 8 + 64, 32 * 1000 + 64, 32 * 8 * 8001 + 64, 32 * 100 * 3300, 64 };
    long cases = argc > 1 ? atol(argv[1]) : 1000;
    state = argc > 2 ? strtoull(argv[2], NULL, 10) * 2 + 1 : 1;
    digest = UINT64_C(14695981039346656037);
    for (int i = 0; i < SLICES; i++) ends[i] = arena(rooms[i]);
    long_end = arena(LONG), body_end = arena(BODY), records_end = arena(RECORDS * RECORD);
    for (int i = 1; i <= LONG; i++) long_end[-i] = (uint8_t)(i * 2654435761u >> 24);
    for (long i = 1; i <= cases; i++) {
        one_case();
        if (i % 4 == 0) one_batch();
        if (i % 1000 == 0 || i == cases) printf("%ld %08lx%08lx\n", i, (unsigned long)(digest >> 32), (unsigned long)(digest & 0xFFFFFFFF));
    }
    int missed = 0;
    for (int k = 0; k <= 8; k++) {
        printf(k < 8 ? "kind %d:" : "kinds above 7:", k);
        for (int n = 0; n < 8; n++) {
            int can_be = k >= 1 && k <= 6 && (k == 3 || k == 4 || (n != HOGLIDRA_OFFSETS && n != HOGLIDRA_OVERFLOW));
            missed |= can_be && !met[k][n];
            printf(" %lu", (unsigned long)met[k][n]);
        }
        printf("\n");
    }
    printf("batches:");
    for (int n = 0; n < 9; n++) printf(" %lu", (unsigned long)met_batch[n]), missed |= !met_batch[n];
    printf("; space by place:");
    for (int n = 1; n < 4; n++) printf(" %lu", (unsigned long)met_space[n]), missed |= !met_space[n];
    printf("\n");
    if (missed && cases >= 20000) puts("a number was not met");
    return missed && cases >= 20000;
}
