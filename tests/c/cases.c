/* Runs the cases of the text files that are named, which crates/vectors runs too, through the archive as a C caller sees it; then the paper's trial 10, cases
   that are made here, among them what the range test may read, and an answer slice that is too short. Each buffer is allocated at its length, so that valgrind
   sees a byte read or written past it; outputs are lent with just the room needed and with more, and filled, so that a byte changed by a refusal shows. A case
   that passes refusals 1 to 3 is run once more with only the needed bytes of its source and index buffers there, so that valgrind sees a read of any other. A
   case of one column that is gathered is also run with other bytes below its nulls, none of which may show. A batch that is gathered is held against as many
   calls for a column each, and is run with a byte less than it needs of each output. The answers of take-kernels.txt are published ones, which the file keeps
   byte for byte; it is known by its name, and they are compared with zeros below nulls. Prints a line for each file; exits with 1 at the first difference. */
#include "hoglidra.h"
#include <stdio.h>
#include <stdlib.h>
#include <string.h>
#ifdef NVALGRIND /* a core that valgrind does not run on: there firmware/guard.c ends each buffer at a page that may not be touched */
#define VALGRIND_COUNT_ERRORS 0u
#define VALGRIND_MAKE_MEM_NOACCESS(at, len) ((void)(at), (void)(len))
#define VALGRIND_MAKE_MEM_DEFINED(at, len) ((void)(at), (void)(len))
#else
#include <valgrind/memcheck.h>
#endif

enum { MORE = 9, FILL = 0xEE, LINE = 8192, RECORD = sizeof(struct hoglidra_column), MAX = HOGLIDRA_MAX_COLUMNS };

enum { KIND, WIDTH, SIZE, OFFSET_WIDTH, ROWS, DATA_BIT, VALIDITY_BIT, INDEX_WIDTH, COUNT, INDEX_VALIDITY_BIT, NUMBERS };
enum { DATA, OFFSETS, VALIDITY, INDEX_DATA, INDEX_VALIDITY, INPUTS };
enum { OUT_VALIDITY, OUT_OFFSETS, OUT_DATA, OUTPUTS };

struct buffer { uint8_t *at; size_t len; };

/* A line: the column and the index column, and after '=' the answer and what the outputs hold then. */
struct gather {
    uint64_t numbers[NUMBERS], answer[4];
    struct buffer in[INPUTS], out[OUTPUTS];
};

/* A line of several columns. Numbers and buffers of the index column stand where they do in a gather. */
struct batch {
    uint64_t columns, numbers[NUMBERS], answer[4];
    struct buffer descriptions, body, in[INPUTS], out[OUTPUTS];
};

/* Outputs and an answer that are lent to a call: filled, and with so many bytes around each output that are not lent. */
struct lent {
    size_t around;
    struct buffer out[OUTPUTS];
    uint8_t answer[HOGLIDRA_ANSWER_LEN + MORE];
};

static const char *where;
static int line_number;

static void fail(const char *what) {
    printf("%s, line %d: %s\n", where, line_number, what);
    exit(1);
}

static const char *field(void) {
    const char *text = strtok(NULL, " \n");
    if (!text) fail("not a case");
    return text;
}

static uint64_t number(const char *text) {
    if (strspn(text, "0123456789") != strlen(text)) fail("not a case");
    return strtoull(text, NULL, 10);
}

static void read_numbers(uint64_t *numbers, int count) {
    for (int i = 0; i < count; i++) numbers[i] = number(field());
}

/* As many bytes as are asked for, filled; NULL for none. */
static uint8_t *filled(size_t len) {
    if (!len) return NULL;
    uint8_t *at = malloc(len);
    if (!at) fail("no memory");
    return memset(at, FILL, len);
}

static void read_bytes(struct buffer *b) {
    const char *text = field();
    size_t digits = strcmp(text, "-") ? strlen(text) : 0;
    if (digits % 2 || strspn(text, "0123456789abcdef") < digits) fail("not a case");
    b->len = digits / 2;
    b->at = filled(b->len);
    for (size_t i = 0; i < b->len; i++) {
        const char pair[3] = { text[2 * i], text[2 * i + 1], 0 };
        b->at[i] = (uint8_t)strtoul(pair, NULL, 16);
    }
}

static void read_mark(const char *mark) {
    if (strcmp(field(), mark)) fail("not a case");
}

/* The rest of a line, from the index column on. */
static void read_rest(uint64_t *numbers, struct buffer *in, uint64_t *answer, struct buffer *out) {
    read_numbers(numbers + INDEX_WIDTH, NUMBERS - INDEX_WIDTH);
    for (int i = INDEX_DATA; i < INPUTS; i++) read_bytes(&in[i]);
    read_mark("=");
    read_numbers(answer, 4);
    for (int i = 0; i < OUTPUTS; i++) read_bytes(&out[i]);
    if (strtok(NULL, " \n")) fail("not a case");
}

static void read_gather(const char *first, struct gather *g) {
    g->numbers[KIND] = number(first);
    read_numbers(g->numbers + WIDTH, INDEX_WIDTH - WIDTH);
    for (int i = DATA; i <= VALIDITY; i++) read_bytes(&g->in[i]);
    read_rest(g->numbers, g->in, g->answer, g->out);
}

/* Each record is written whole; the call gets as many bytes of them as the line says. */
static void read_batch(struct batch *b) {
    b->columns = number(field());
    b->descriptions.len = (size_t)number(field());
    b->descriptions.at = filled(b->descriptions.len);
    for (size_t at = 0; at < (b->descriptions.len + RECORD - 1) / RECORD * RECORD; at += 8) {
        if (at % RECORD == 0) read_mark("|");
        uint64_t word = number(field());
        for (size_t i = at; i < at + 8 && i < b->descriptions.len; i++) b->descriptions.at[i] = (uint8_t)(word >> 8 * (i - at));
    }
    read_mark("|");
    read_bytes(&b->body);
    read_rest(b->numbers, b->in, b->answer, b->out);
}

/* The call on outputs and an answer that are lent. */
static uint64_t call(const struct gather *g, const struct buffer out[OUTPUTS], uint8_t *answer, size_t answer_len) {
    const uint64_t *n = g->numbers;
    const struct buffer *in = g->in;
    unsigned errors = VALGRIND_COUNT_ERRORS;
    uint64_t returned = hoglidra_take(n[KIND], n[WIDTH], n[SIZE], n[OFFSET_WIDTH], n[ROWS], n[DATA_BIT], n[VALIDITY_BIT],
        in[DATA].at, in[DATA].len, in[OFFSETS].at, in[OFFSETS].len, in[VALIDITY].at, in[VALIDITY].len, n[INDEX_WIDTH], n[COUNT], n[INDEX_VALIDITY_BIT],
        in[INDEX_DATA].at, in[INDEX_DATA].len, in[INDEX_VALIDITY].at, in[INDEX_VALIDITY].len,
        out[OUT_VALIDITY].at, out[OUT_VALIDITY].len, out[OUT_OFFSETS].at, out[OUT_OFFSETS].len, out[OUT_DATA].at, out[OUT_DATA].len, answer, answer_len);
    if (VALGRIND_COUNT_ERRORS != errors) fail("valgrind objects to a byte that is read or written");
    return returned;
}

static uint64_t call_batch(const struct batch *b, const struct buffer out[OUTPUTS], uint8_t *answer, size_t answer_len) {
    const uint64_t *n = b->numbers;
    const struct buffer *in = b->in;
    unsigned errors = VALGRIND_COUNT_ERRORS;
    uint64_t returned = hoglidra_take_arrays(b->columns, b->descriptions.at, b->descriptions.len, b->body.at, b->body.len,
        n[INDEX_WIDTH], n[COUNT], n[INDEX_VALIDITY_BIT], in[INDEX_DATA].at, in[INDEX_DATA].len, in[INDEX_VALIDITY].at, in[INDEX_VALIDITY].len,
        out[OUT_VALIDITY].at, out[OUT_VALIDITY].len, out[OUT_OFFSETS].at, out[OUT_OFFSETS].len, out[OUT_DATA].at, out[OUT_DATA].len, answer, answer_len);
    if (VALGRIND_COUNT_ERRORS != errors) fail("valgrind objects to a byte that is read or written");
    return returned;
}

static void lend_outputs(struct lent *l, const size_t len[OUTPUTS], size_t around) {
    memset(l->answer, FILL, sizeof l->answer);
    l->around = around;
    for (int i = 0; i < OUTPUTS; i++) {
        uint8_t *at = filled(len[i] + 2 * around);
        l->out[i].len = len[i], l->out[i].at = at ? at + around : NULL;
    }
}

/* Holds what a call left against the answer and the bytes that it should give; all others are as they were. Takes the outputs back. */
static void expect(struct lent *l, uint64_t returned, const uint64_t want[4], const struct buffer out[OUTPUTS]) {
    static const char *const names[OUTPUTS] = { "the validity differs", "the offsets differ", "the data differs" };
    struct hoglidra_answer got = hoglidra_read_answer(l->answer);
    if (returned != want[0]) fail("the number returned differs");
    if (got.number != want[0] || got.place != want[1] || got.total != want[2] || got.nulls != want[3]) fail("the answer differs");
    for (int i = 0; i < MORE; i++) if (l->answer[HOGLIDRA_ANSWER_LEN + i] != FILL) fail("a byte after the answer differs");
    for (int i = 0; i < OUTPUTS; i++) {
        uint8_t *at = l->out[i].at ? l->out[i].at - l->around : NULL;
        for (size_t k = 0; k < l->out[i].len + 2 * l->around; k++) {
            int given = k >= l->around && k - l->around < out[i].len;
            if (at[k] != (given ? out[i].at[k - l->around] : FILL)) fail(names[i]);
        }
        free(at);
    }
}

static void run(const struct gather *g, size_t more) {
    struct lent l;
    const size_t len[OUTPUTS] = { g->out[OUT_VALIDITY].len + more, g->out[OUT_OFFSETS].len + more, g->out[OUT_DATA].len + more };
    lend_outputs(&l, len, 0);
    expect(&l, call(g, l.out, l.answer, sizeof l.answer), g->answer, g->out);
}

static void run_batch(const struct batch *b, size_t more, size_t around) {
    struct lent l;
    const size_t len[OUTPUTS] = { b->out[OUT_VALIDITY].len + more, b->out[OUT_OFFSETS].len + more, b->out[OUT_DATA].len + more };
    lend_outputs(&l, len, around);
    expect(&l, call_batch(b, l.out, l.answer, sizeof l.answer), b->answer, b->out);
}

static int has_offsets(const struct gather *g) {
    return g->numbers[KIND] == HOGLIDRA_BYTES || g->numbers[KIND] == HOGLIDRA_LIST;
}

/* Number i of a buffer. */
static uint64_t get(const struct buffer *b, uint64_t i, uint64_t width) {
    uint64_t n = 0;
    for (uint64_t k = width; k > 0; k--) n = n << 8 | b->at[i * width + k - 1];
    return n;
}

static void put(uint8_t *at, uint64_t n, uint64_t width) {
    for (uint64_t i = 0; i < width; i++) at[i] = (uint8_t)(n >> 8 * i);
}

static int is_valid(const struct buffer *validity, uint64_t bit, uint64_t i) {
    return !validity->len || (validity->at[(bit + i) / 8] >> (bit + i) % 8 & 1);
}

/* How many bytes a row takes in the data where all take as many, null or not. */
static uint64_t row_len(const struct gather *g) {
    const uint64_t *n = g->numbers;
    return n[KIND] == HOGLIDRA_PRIMITIVE ? n[WIDTH] : n[KIND] == HOGLIDRA_FIXED_SIZE_LIST ? n[SIZE] * n[WIDTH] : n[SIZE];
}

/* The last offset, in entries: the data is needed up to it. Where the offsets are refused no data is needed. */
static uint64_t last_offset(const struct gather *g) {
    return has_offsets(g) && g->answer[0] != HOGLIDRA_OFFSETS ? get(&g->in[OFFSETS], g->numbers[ROWS], g->numbers[OFFSET_WIDTH]) : 0;
}

/* How many bytes of each source and index buffer are needed, by the paper; of a buffer that the kind does not use, and of an absent validity, none. */
static void measure(const struct gather *g, size_t needed[INPUTS]) {
    const uint64_t *n = g->numbers, rows = n[ROWS];
    const size_t data[] = {
        [HOGLIDRA_PRIMITIVE] = rows * n[WIDTH],
        [HOGLIDRA_BOOLEAN] = (n[DATA_BIT] + rows + 7) / 8,
        [HOGLIDRA_BYTES] = last_offset(g),
        [HOGLIDRA_LIST] = last_offset(g) * n[WIDTH],
        [HOGLIDRA_FIXED_SIZE_LIST] = rows * n[SIZE] * n[WIDTH],
        [HOGLIDRA_FIXED_SIZE_BINARY] = rows * n[SIZE],
    };
    needed[DATA] = data[n[KIND]];
    needed[OFFSETS] = has_offsets(g) ? (rows + 1) * n[OFFSET_WIDTH] : 0;
    needed[VALIDITY] = g->in[VALIDITY].len ? (n[VALIDITY_BIT] + rows + 7) / 8 : 0;
    needed[INDEX_DATA] = n[COUNT] * n[INDEX_WIDTH];
    needed[INDEX_VALIDITY] = g->in[INDEX_VALIDITY].len ? (n[INDEX_VALIDITY_BIT] + n[COUNT] + 7) / 8 : 0;
}

/* The case with no other bytes there than the needed ones. The lengths stay as they are, since they are tested and count in refusal 4. */
static void run_needed(const struct gather *g) {
    struct gather cut = *g;
    size_t needed[INPUTS];
    measure(g, needed);
    for (int i = 0; i < INPUTS; i++) {
        cut.in[i].at = malloc(needed[i]);
        if (!cut.in[i].at) fail("no memory");
        for (size_t k = 0; k < needed[i]; k++) cut.in[i].at[k] = g->in[i].at[k];
    }
    run(&cut, 0);
    for (int i = 0; i < INPUTS; i++) free(cut.in[i].at);
}

/* Puts zeros below the null rows of what is gathered, and says whether anything else was there. A null row of variable length has no bytes: one that has some is a
   difference. */
static int zero_nulls(const struct gather *g) {
    const struct buffer *data = &g->out[OUT_DATA];
    const uint64_t count = g->numbers[COUNT], width = g->numbers[OFFSET_WIDTH], len = row_len(g), bytes = (count + 7) / 8;
    int other = 0;
    if (g->out[OUT_VALIDITY].len != bytes) fail("the validity has another length");
    if (has_offsets(g) && g->out[OUT_OFFSETS].len != (count + 1) * width) fail("the offsets have another length");
    if (!has_offsets(g) && data->len != (g->numbers[KIND] == HOGLIDRA_BOOLEAN ? bytes : count * len)) fail("the data has another length");
    for (uint64_t j = 0; j < count; j++) {
        if (is_valid(&g->out[OUT_VALIDITY], 0, j)) continue;
        if (has_offsets(g)) {
            if (get(&g->out[OUT_OFFSETS], j, width) != get(&g->out[OUT_OFFSETS], j + 1, width)) fail("a null row has bytes");
        } else if (g->numbers[KIND] == HOGLIDRA_BOOLEAN) {
            other |= data->at[j / 8] & 1 << j % 8;
            data->at[j / 8] &= (uint8_t)~(1 << j % 8);
        } else {
            for (uint64_t k = j * len; k < (j + 1) * len; k++) other |= data->at[k], data->at[k] = 0;
        }
    }
    return other != 0;
}

/* Changes every byte, or bit, below a null row of the column. */
static void change_rows(const struct gather *g) {
    const uint64_t *n = g->numbers, unit = n[KIND] == HOGLIDRA_LIST ? n[WIDTH] : 1;
    for (uint64_t r = 0; r < n[ROWS]; r++) {
        uint64_t from = r * row_len(g), to = from + row_len(g);
        if (is_valid(&g->in[VALIDITY], n[VALIDITY_BIT], r)) continue;
        if (n[KIND] == HOGLIDRA_BOOLEAN) {
            g->in[DATA].at[(n[DATA_BIT] + r) / 8] ^= (uint8_t)(1 << (n[DATA_BIT] + r) % 8);
            continue;
        }
        if (has_offsets(g)) from = get(&g->in[OFFSETS], r, n[OFFSET_WIDTH]) * unit, to = get(&g->in[OFFSETS], r + 1, n[OFFSET_WIDTH]) * unit;
        for (uint64_t k = from; k < to; k++) g->in[DATA].at[k] ^= 0xFF;
    }
}

/* Puts another number below every null index: by turns that of a row, which some index may name too, and the largest, which names none. */
static void change_indices(const struct gather *g) {
    const uint64_t *n = g->numbers;
    for (uint64_t j = 0; j < n[COUNT]; j++)
        if (!is_valid(&g->in[INDEX_VALIDITY], n[INDEX_VALIDITY_BIT], j))
            put(g->in[INDEX_DATA].at + j * n[INDEX_WIDTH], j % 2 && n[ROWS] ? j % n[ROWS] : UINT64_MAX, n[INDEX_WIDTH]);
}

static void run_all(const struct gather *g) {
    run(g, 0), run(g, MORE);
    if (g->answer[0] == HOGLIDRA_GATHERED || g->answer[0] >= HOGLIDRA_OFFSETS) run_needed(g);
    if (g->answer[0] == HOGLIDRA_GATHERED) change_rows(g), change_indices(g), run(g, 0);
}

/* Space that is short by a byte at each place: with what the other outputs need, and with nothing after it, since 7 goes by place. */
static void run_batch_short(const struct batch *b) {
    static const struct buffer none[OUTPUTS];
    for (int place = 0; place < OUTPUTS; place++)
        for (int rest = 0; rest < 2 && b->out[place].len; rest++) {
            struct lent l;
            size_t len[OUTPUTS];
            const uint64_t want[4] = { HOGLIDRA_SPACE, (uint64_t)place + 1, b->out[place].len, 0 };
            for (int i = 0; i < OUTPUTS; i++) len[i] = i > place && !rest ? 0 : b->out[i].len;
            len[place]--;
            lend_outputs(&l, len, 0);
            expect(&l, call_batch(b, l.out, l.answer, sizeof l.answer), want, none);
        }
}

/* A column of a batch by itself: its part of the body, and the same index column. */
static struct gather column_of(const struct batch *b, uint64_t k) {
    struct hoglidra_column c;
    memcpy(&c, b->descriptions.at + k * RECORD, RECORD);
    struct gather g = { .numbers = { c.kind, c.width, c.size, c.offset_width, c.rows, c.data_bit, c.validity_bit,
        b->numbers[INDEX_WIDTH], b->numbers[COUNT], b->numbers[INDEX_VALIDITY_BIT] } };
    const uint64_t starts[] = { c.data_start, c.offsets_start, c.validity_start }, lens[] = { c.data_len, has_offsets(&g) ? c.offsets_len : 0, c.validity_len };
    for (int i = DATA; i <= VALIDITY; i++) if (lens[i]) g.in[i].at = b->body.at + starts[i], g.in[i].len = (size_t)lens[i];
    for (int i = INDEX_DATA; i < INPUTS; i++) g.in[i] = b->in[i];
    return g;
}

/* What a batch gathers is what as many calls for a column each write, where the header says that the column lies; total and nulls are the sums. */
static void run_columns(const struct batch *b) {
    struct hoglidra_column columns[MAX];
    struct lent l;
    const size_t len[OUTPUTS] = { b->out[OUT_VALIDITY].len, b->out[OUT_OFFSETS].len, b->out[OUT_DATA].len };
    uint64_t ends[OUTPUTS] = { 0, 0, 0 }, total = 0, nulls = 0;
    memcpy(columns, b->descriptions.at, (size_t)b->columns * RECORD);
    lend_outputs(&l, len, 0);
    for (uint64_t k = 0; k < b->columns; k++) {
        struct gather g = column_of(b, k);
        struct hoglidra_outputs o = hoglidra_find_column(columns, k, b->numbers[COUNT], b->out[OUT_OFFSETS].at);
        const uint64_t starts[] = { o.validity_start, o.offsets_start, o.data_start }, lens[] = { o.validity_len, o.offsets_len, o.data_len };
        for (int i = 0; i < OUTPUTS; i++) {
            if (starts[i] != ends[i] || lens[i] > len[i] - ends[i]) fail("a column is found elsewhere");
            ends[i] += lens[i];
            if (lens[i]) g.out[i].at = l.out[i].at + starts[i], g.out[i].len = (size_t)lens[i];
        }
        if (call(&g, g.out, l.answer, HOGLIDRA_ANSWER_LEN) != HOGLIDRA_GATHERED) fail("a column by itself is refused");
        struct hoglidra_answer a = hoglidra_read_answer(l.answer);
        if (a.total != o.data_len) fail("a column's data is found to have another length");
        total += a.total, nulls += a.nulls;
    }
    const uint64_t sums[4] = { HOGLIDRA_GATHERED, 0, total, nulls };
    if (memcmp(sums, b->answer, sizeof sums)) fail("the sums of the columns differ");
    for (int i = 0; i < OUTPUTS; i++)
        if (ends[i] != len[i] || (len[i] && memcmp(l.out[i].at, b->out[i].at, len[i]))) fail("the columns by themselves differ");
    for (int i = 0; i < OUTPUTS; i++) free(l.out[i].at);
}

/* Goes through the needed bytes of the body: copies them into `to`, if it is there, and has valgrind allow them; says where the last of them ends. */
static size_t allow_needed(const struct batch *b, uint8_t *to) {
    size_t end = 0, needed[INPUTS];
    for (uint64_t k = 0; k < b->columns; k++) {
        struct gather g = column_of(b, k);
        measure(&g, needed);
        for (int i = DATA; i <= VALIDITY; i++) {
            if (!needed[i]) continue;
            size_t start = (size_t)(g.in[i].at - b->body.at);
            if (start + needed[i] > end) end = start + needed[i];
            if (!to) continue;
            VALGRIND_MAKE_MEM_DEFINED(to + start, needed[i]);
            memcpy(to + start, g.in[i].at, needed[i]);
        }
    }
    return end;
}

static uint8_t *copied(const uint8_t *at, size_t len) {
    uint8_t *to = malloc(len);
    if (!to) fail("no memory");
    for (size_t k = 0; k < len; k++) to[k] = at[k];
    return to;
}

/* The batch with no other bytes there than the needed ones, of the body too: it ends after the last of them, the others in it are filled, and valgrind sees a
   read of one. Where the row counts differ none is needed but the descriptions. The lengths stay. */
static void run_batch_needed(const struct batch *b) {
    struct batch cut = *b;
    int gathered = b->answer[0] == HOGLIDRA_GATHERED;
    size_t needed[INPUTS] = { 0 }, end = 0;
    if (gathered) {
        struct gather g = column_of(b, 0);
        measure(&g, needed), end = allow_needed(b, NULL);
    }
    cut.descriptions.at = copied(b->descriptions.at, (size_t)b->columns * RECORD);
    for (int i = INDEX_DATA; i < INPUTS; i++) cut.in[i].at = copied(b->in[i].at, needed[i]);
    cut.body.at = malloc(end);
    if (!cut.body.at) fail("no memory");
    memset(cut.body.at, FILL, end);
    VALGRIND_MAKE_MEM_NOACCESS(cut.body.at, end);
    if (gathered) allow_needed(b, cut.body.at);
    run_batch(&cut, 0, 0);
    free(cut.descriptions.at), free(cut.body.at);
    for (int i = INDEX_DATA; i < INPUTS; i++) free(cut.in[i].at);
}

static void run_whole_batch(const struct batch *b) {
    run_batch(b, 0, 0), run_batch(b, MORE, 0), run_batch(b, 0, MORE);
    if (b->answer[0] == HOGLIDRA_GATHERED) run_columns(b), run_batch_short(b);
    if (b->answer[0] == HOGLIDRA_GATHERED || b->answer[0] == HOGLIDRA_ROWS) run_batch_needed(b);
}

static void free_gather(struct gather *g) {
    for (int i = 0; i < INPUTS; i++) free(g->in[i].at);
    for (int i = 0; i < OUTPUTS; i++) free(g->out[i].at);
}

static void free_batch(struct batch *b) {
    free(b->descriptions.at), free(b->body.at);
    for (int i = INDEX_DATA; i < INPUTS; i++) free(b->in[i].at);
    for (int i = 0; i < OUTPUTS; i++) free(b->out[i].at);
}

static void run_line(char *line) {
    const char *first = strtok(line, " \n");
    struct gather g;
    struct batch b;
    if (first && !strcmp(first, "arrays")) read_batch(&b), run_whole_batch(&b), free_batch(&b);
    else if (first) read_gather(first, &g), run_all(&g), free_gather(&g);
}

/* A published answer, which has what the Rust leaves below nulls: zeros are compared there, and nothing else is changed. Counts by kind the answers that had other
   bytes. */
static void run_published_line(char *line, int zeroed[]) {
    const char *first = strtok(line, " \n");
    struct gather g;
    if (!first) fail("not a case");
    read_gather(first, &g);
    if (g.numbers[KIND] < HOGLIDRA_PRIMITIVE || g.numbers[KIND] > HOGLIDRA_FIXED_SIZE_BINARY) fail("not a case");
    if (g.answer[0] == HOGLIDRA_GATHERED) zeroed[g.numbers[KIND]] += zero_nulls(&g);
    run_all(&g);
    free_gather(&g);
}

static int is_published(const char *path) {
    const char *slash = strrchr(path, '/');
    return !strcmp(slash ? slash + 1 : path, "take-kernels.txt");
}

static void run_file(const char *path) {
    char line[LINE];
    int cases = 0, published = is_published(path), zeroed[HOGLIDRA_FIXED_SIZE_BINARY + 1] = { 0 };
    where = path, line_number = 0;
    FILE *file = fopen(path, "r");
    if (!file) fail("cannot be read");
    while (fgets(line, sizeof line, file)) {
        line_number++;
        if (line[0] == '#' || line[0] == '\n') continue;
        if (published) run_published_line(line, zeroed);
        else run_line(line);
        cases++;
    }
    fclose(file);
    printf("%s: %d cases\n", path, cases);
    if (published) printf("%s: zeros in place of bytes below nulls, in answers of kinds 1, 2, 5 and 6: %d, %d, %d, %d\n", path,
        zeroed[HOGLIDRA_PRIMITIVE], zeroed[HOGLIDRA_BOOLEAN], zeroed[HOGLIDRA_FIXED_SIZE_LIST], zeroed[HOGLIDRA_FIXED_SIZE_BINARY]);
}

static struct buffer lend(size_t len) {
    struct buffer b = { filled(len), len };
    return b;
}

/* Trial 10: one row of 65,536 bytes, 32,768 times index 0, and once less, with the data output too short. */
static void run_trial_10(void) {
    static uint8_t row[65536], zeros[32768], offsets[8] = { 0, 0, 0, 0, 0, 0, 1, 0 };
    static const struct { uint64_t kind, count, want[4]; } trials[] = {
        { HOGLIDRA_BYTES, 32768, { HOGLIDRA_OVERFLOW, 32767, 2147483648u, 0 } },
        { HOGLIDRA_LIST, 32768, { HOGLIDRA_OVERFLOW, 32767, 2147418112u, 0 } },
        { HOGLIDRA_BYTES, 32767, { HOGLIDRA_SPACE, 3, 2147418112u, 0 } },
    };
    where = "trial 10";
    for (line_number = 0; line_number < 3; line_number++) {
        uint64_t count = trials[line_number].count;
        struct gather g = {
            .numbers = { [KIND] = trials[line_number].kind, [WIDTH] = 1, [OFFSET_WIDTH] = 4, [ROWS] = 1, [INDEX_WIDTH] = 1, [COUNT] = count },
            .in = { [DATA] = { row, sizeof row }, [OFFSETS] = { offsets, sizeof offsets }, [INDEX_DATA] = { zeros, count } },
            .out = { lend(4096), lend(4 * 32769), lend(1) },
        };
        memcpy(g.answer, trials[line_number].want, sizeof g.answer);
        run_all(&g);
        for (int i = 0; i < OUTPUTS; i++) free(g.out[i].at);
    }
    puts("trial 10");
}

/* Trial 10 in a batch: with the row as a column of each sort that is named, the refusal is that of the first column that overflows, with its own place and total,
   and comes before any of the next column. One index fewer, the columns' data adds up to more than 2^32 bytes, which is refused for space alone. */
static void run_batch_10(void) {
    enum { BITS, TEXT, LONG_TEXT, ITEMS, UNKNOWN };
    static const struct hoglidra_column sorts[] = {
        [BITS] = HOGLIDRA_COLUMN(HOGLIDRA_BOOLEAN, 0, 0, 0, 1, 0, 0, 0, 65536, 0, 0, 0, 0),
        [TEXT] = HOGLIDRA_COLUMN(HOGLIDRA_BYTES, 0, 0, 4, 1, 0, 0, 0, 65536, 65536, 8, 0, 0),
        [LONG_TEXT] = HOGLIDRA_COLUMN(HOGLIDRA_BYTES, 0, 0, 8, 1, 0, 0, 0, 65536, 65544, 16, 0, 0),
        [ITEMS] = HOGLIDRA_COLUMN(HOGLIDRA_LIST, 1, 0, 4, 1, 0, 0, 0, 65536, 65536, 8, 0, 0),
        [UNKNOWN] = HOGLIDRA_COLUMN(9, 0, 0, 0, 1, 0, 0, 0, 0, 0, 0, 0, 0),
    };
    static uint8_t body[65560] = { [65542] = 1, [65554] = 1 }, zeros[65536];
    static const struct { uint64_t columns[3], count, want[4]; } trials[] = {
        { { BITS, TEXT, UNKNOWN }, 32768, { HOGLIDRA_OVERFLOW, 32767, 2147483648u, 0 } },
        { { BITS, ITEMS, UNKNOWN }, 32768, { HOGLIDRA_OVERFLOW, 32767, 2147418112u, 0 } },
        { { LONG_TEXT, LONG_TEXT, TEXT }, 32768, { HOGLIDRA_OVERFLOW, 32767, 2147483648u, 0 } },
        { { LONG_TEXT, BITS, UNKNOWN }, 32768, { HOGLIDRA_KIND, 0, 0, 0 } },
        { { LONG_TEXT, BITS, LONG_TEXT }, 32768, { HOGLIDRA_SPACE, 3, UINT64_C(4294971392), 0 } },
        { { TEXT, ITEMS, TEXT }, 32767, { HOGLIDRA_SPACE, 3, UINT64_C(6442254336), 0 } },
        { { TEXT, BITS, ITEMS }, 32767, { HOGLIDRA_SPACE, 3, UINT64_C(4294840320), 0 } },
    };
    where = "trial 10 in a batch";
    for (line_number = 0; line_number < (int)(sizeof trials / sizeof *trials); line_number++) {
        struct hoglidra_column columns[3];
        for (int k = 0; k < 3; k++) columns[k] = sorts[trials[line_number].columns[k]];
        struct batch b = {
            .columns = 3, .descriptions = { (uint8_t *)columns, sizeof columns }, .body = { body, sizeof body },
            .numbers = { [INDEX_WIDTH] = 2, [COUNT] = trials[line_number].count }, .in = { [INDEX_DATA] = { zeros, sizeof zeros } },
            .out = { lend(3 * 4096), lend(3 * 8 * 32769), lend(1) },
        };
        memcpy(b.answer, trials[line_number].want, sizeof b.answer);
        run_whole_batch(&b);
        for (int i = 0; i < OUTPUTS; i++) free(b.out[i].at);
    }
    puts("trial 10 in a batch");
}

/* Random numbers, the same at each run. */
static uint64_t below(uint64_t end) {
    static uint64_t state = 1;
    state = state * 6364136223846793005u + 1442695040888963407u;
    return (state >> 33) % end;
}

static struct buffer random_bytes(size_t len) {
    struct buffer b = lend(len);
    for (size_t k = 0; k < len; k++) b.at[k] = (uint8_t)below(256);
    return b;
}

/* None, or bytes that follow the needed ones. */
static size_t slack(void) {
    static const size_t lengths[] = { 0, 1, 7, 40 };
    return lengths[below(4)];
}

static uint64_t bit_offset(void) {
    return below(2) ? 0 : below(8);
}

/* Offsets of rows of few entries, the last of them so many; the first offset may exceed 0. */
static void make_offsets(struct gather *g, uint64_t last) {
    uint64_t rows = g->numbers[ROWS], width = g->numbers[OFFSET_WIDTH], at = below(3);
    for (uint64_t i = 0; i <= rows; i++) {
        put(g->in[OFFSETS].at + i * width, at, width);
        at += i + 1 == rows ? last : below(20);
    }
}

/* Some indices, the first of them that of the last row, some null over any number; all are null where there are no rows. */
static void make_indices(struct gather *g) {
    uint64_t rows = g->numbers[ROWS], bit = g->numbers[INDEX_VALIDITY_BIT], width = g->numbers[INDEX_WIDTH];
    uint8_t *validity = g->in[INDEX_VALIDITY].at;
    for (uint64_t j = 0; j < g->numbers[COUNT]; j++) {
        uint8_t mask = (uint8_t)(1 << (bit + j) % 8), *byte = validity ? validity + (bit + j) / 8 : NULL;
        if (byte && !rows) *byte &= (uint8_t)~mask;
        if (byte && rows && !j) *byte |= mask;
        if (!byte || *byte & mask) put(g->in[INDEX_DATA].at + j * width, j ? below(rows) : rows - 1, width);
    }
}

/* A column of some rows, of which the last has `last` entries where rows have lengths of their own, and an index column. */
static struct gather make(uint64_t kind, uint64_t width, uint64_t size, uint64_t offset_width, uint64_t rows, uint64_t index_width, uint64_t last) {
    struct gather g = { .numbers = { kind, width, size, offset_width, rows, bit_offset(), bit_offset(), index_width, 1 + below(17), bit_offset() } };
    size_t needed[INPUTS];
    int nullable = below(2) || !rows;
    g.in[OFFSETS] = random_bytes((rows + 1) * offset_width + slack());
    if (has_offsets(&g)) make_offsets(&g, last);
    g.in[VALIDITY].len = below(2), g.in[INDEX_VALIDITY].len = nullable;
    measure(&g, needed);
    g.in[DATA] = random_bytes(needed[DATA] + slack());
    if (g.in[VALIDITY].len) g.in[VALIDITY] = random_bytes(needed[VALIDITY] + slack());
    g.in[INDEX_DATA] = random_bytes(needed[INDEX_DATA] + slack());
    if (nullable) g.in[INDEX_VALIDITY] = random_bytes(needed[INDEX_VALIDITY] + slack());
    make_indices(&g);
    return g;
}

/* Takes over as the case's answer and outputs what a call gives that has all bytes; with the needed ones alone it has to give the same. */
static void run_made(struct gather *g) {
    uint8_t answer[HOGLIDRA_ANSWER_LEN];
    call(g, g->out, answer, sizeof answer);
    struct hoglidra_answer a = hoglidra_read_answer(answer);
    g->answer[0] = a.number, g->answer[1] = a.place, g->answer[2] = a.total, g->answer[3] = a.nulls;
    run_needed(g);
}

/* What is gathered is null where the index is, or the row that it names; and every null row is zeros, or has no bytes where rows have lengths of their own. */
static void check_nulls(const struct gather *g) {
    const uint64_t *n = g->numbers;
    for (uint64_t j = 0; j < n[COUNT]; j++) {
        int valid = is_valid(&g->in[INDEX_VALIDITY], n[INDEX_VALIDITY_BIT], j)
            && is_valid(&g->in[VALIDITY], n[VALIDITY_BIT], get(&g->in[INDEX_DATA], j, n[INDEX_WIDTH]));
        if (is_valid(&g->out[OUT_VALIDITY], 0, j) != valid) fail("the validity differs");
    }
    if (zero_nulls(g)) fail("a null row is not zeros");
}

/* Gathers a made case without room for the data, if there is any, and then with it; and once more with other bytes below its nulls. */
static void gather_made(struct gather *g) {
    uint64_t count = g->numbers[COUNT];
    g->out[OUT_VALIDITY] = lend((count + 7) / 8), g->out[OUT_OFFSETS] = lend(has_offsets(g) ? (count + 1) * g->numbers[OFFSET_WIDTH] : 0);
    run_made(g);
    if (g->answer[0] == HOGLIDRA_SPACE) g->out[OUT_DATA] = lend(g->answer[2]), run_made(g);
    if (g->answer[0] != HOGLIDRA_GATHERED) fail("it is refused");
    check_nulls(g);
    change_rows(g), change_indices(g), run(g, 0);
}

static const uint64_t widths[] = { 1, 2, 4, 8, 16, 32 }, sizes[] = { 0, 1, 2, 3, 4, 7, 8, 12, 15, 16, 17, 31, 32, 33, 64, 100 }, row_counts[] = { 0, 1, 2, 9 };

/* Every kind, width, size, offset width and index width, by no rows and by some. */
static void run_all_made(void) {
    where = "made", line_number = 0;
    for (uint64_t kind = HOGLIDRA_PRIMITIVE; kind <= HOGLIDRA_FIXED_SIZE_BINARY; kind++)
        for (int shape = 0; shape < 6 * 16 * 2; shape++)
            for (int turn = 0; turn < 4 * 4; turn++) {
                line_number++;
                uint64_t offset_width = shape % 2 ? 8 : 4, index_width = UINT64_C(1) << turn / 4;
                struct gather g = make(kind, widths[shape / 2 % 6], sizes[shape / 12], offset_width, row_counts[turn % 4], index_width, (uint64_t)line_number % 41);
                gather_made(&g);
                free_gather(&g);
            }
    printf("made: %d cases\n", line_number);
}

/* Appends bytes to a buffer that has room for them. */
static uint64_t append(struct buffer *to, const struct buffer *from) {
    uint64_t start = to->len;
    for (size_t k = 0; k < from->len; k++) to->at[to->len++] = from->at[k];
    return start;
}

/* A batch of made columns and what they give by themselves, also with other bytes below nulls. Their buffers lie in the body in random order, with bytes between
   them; buffers that are absent, and offsets that are not used, are said to lie anywhere. */
static void run_made_batch(uint64_t columns, uint64_t rows, uint64_t index_width) {
    struct gather made[MAX];
    struct hoglidra_column records[MAX];
    struct batch b = { .columns = columns, .descriptions = { (uint8_t *)records, (size_t)columns * RECORD } };
    uint64_t places[3 * MAX], starts[3 * MAX], lens[3 * MAX];
    size_t body = 0, out[OUTPUTS] = { 0, 0, 0 };
    for (uint64_t k = 0; k < columns; k++) {
        made[k] = make(1 + below(6), widths[below(6)], sizes[below(16)], below(2) ? 4 : 8, rows, index_width, below(41));
        struct gather *g = &made[k];
        for (int i = INDEX_WIDTH; i < NUMBERS; i++) g->numbers[i] = made[0].numbers[i];
        for (int i = INDEX_DATA; k && i < INPUTS; i++) free(g->in[i].at), g->in[i] = made[0].in[i];
        gather_made(g);
        for (int i = DATA; i <= VALIDITY; i++) body += g->in[i].len + 40, places[3 * k + (uint64_t)i] = 3 * k + (uint64_t)i;
        for (int i = 0; i < OUTPUTS; i++) out[i] += g->out[i].len;
        b.answer[2] += g->answer[2], b.answer[3] += g->answer[3];
    }
    b.body.at = filled(body);
    for (int i = 0; i < OUTPUTS; i++) b.out[i].at = filled(out[i]);
    for (uint64_t left = 3 * columns; left > 0; left--) {
        uint64_t n = below(left), at = places[n], i = at % 3;
        const struct gather *g = &made[at / 3];
        places[n] = places[left - 1];
        lens[at] = i == OFFSETS && !has_offsets(g) ? below(3) * 9999999 : g->in[i].len;
        starts[at] = i == OFFSETS && !has_offsets(g) ? UINT64_MAX - below(9) : lens[at] ? append(&b.body, &g->in[i]) : UINT64_MAX - below(9);
        b.body.len += slack();
    }
    for (uint64_t k = 0; k < columns; k++) {
        const uint64_t *n = made[k].numbers, *s = starts + 3 * k, *l = lens + 3 * k;
        const struct hoglidra_column c = HOGLIDRA_COLUMN(n[KIND], n[WIDTH], n[SIZE], n[OFFSET_WIDTH], n[ROWS], n[DATA_BIT], n[VALIDITY_BIT],
            s[DATA], l[DATA], s[OFFSETS], l[OFFSETS], s[VALIDITY], l[VALIDITY]);
        records[k] = c;
        for (int i = 0; i < OUTPUTS; i++) append(&b.out[i], &made[k].out[i]);
    }
    memcpy(b.numbers, made[0].numbers, sizeof b.numbers), memcpy(b.in, made[0].in, sizeof b.in);
    run_whole_batch(&b);
    for (uint64_t k = 0; k < columns; k++) {
        const struct gather g = column_of(&b, k);
        change_rows(&g), change_indices(&g);
    }
    run_batch(&b, 0, 0);
    for (uint64_t k = columns; k-- > 0;) {
        for (int i = INDEX_DATA; k && i < INPUTS; i++) made[k].in[i].at = NULL;
        free_gather(&made[k]);
    }
    free(b.body.at);
    for (int i = 0; i < OUTPUTS; i++) free(b.out[i].at);
}

static void run_made_batches(void) {
    where = "made batches", line_number = 0;
    for (uint64_t columns = 1; columns <= MAX; columns++)
        for (uint64_t turn = 0; turn < 4 * 3; turn++) line_number++, run_made_batch(columns, row_counts[turn % 4], UINT64_C(2) << turn / 4);
    printf("made batches: %d cases\n", line_number);
}

/* A column of bytes by `count` valid indices that name rows, save for the one at `place`, which is any number. Each buffer has the needed bytes and no more. */
static struct gather make_range(uint64_t rows, uint64_t index_width, uint64_t count, uint64_t place, uint64_t any) {
    struct gather g = { .numbers = { [KIND] = HOGLIDRA_PRIMITIVE, [WIDTH] = 1, [ROWS] = rows, [INDEX_WIDTH] = index_width, [COUNT] = count } };
    uint64_t named = index_width == 1 && rows > 256 ? 256 : index_width == 2 && rows > 65536 ? 65536 : rows;
    g.in[DATA] = lend(rows), g.in[INDEX_DATA] = lend(count * index_width);
    for (uint64_t r = 0; r < rows; r++) g.in[DATA].at[r] = (uint8_t)(r ^ r >> 8);
    for (uint64_t j = 0; j < count; j++) put(g.in[INDEX_DATA].at + j * index_width, j == place ? any : below(named), index_width);
    return g;
}

/* Says of a case of make_range that it is gathered, and what it gives: all of it is valid. */
static void want_rows(struct gather *g) {
    uint64_t count = g->numbers[COUNT];
    g->answer[2] = count;
    for (uint64_t j = 0; j < count; j++) {
        g->out[OUT_VALIDITY].at[j / 8] = (uint8_t)(j % 8 ? g->out[OUT_VALIDITY].at[j / 8] | 1 << j % 8 : 1);
        g->out[OUT_DATA].at[j] = g->in[DATA].at[get(&g->in[INDEX_DATA], j, g->numbers[INDEX_WIDTH])];
    }
}

/* Row counts about the first that an index width cannot hold. The last row, the row count itself and the largest number, where the width holds them, at both ends
   of the first 512 indices, after them, and as the last of all. */
static void run_ranges(void) {
    static const uint64_t rows[] = { 255, 256, 257, 65535, 65536, 65537 }, places[] = { 0, 511, 512, 599 };
    where = "ranges", line_number = 0;
    for (int turn = 0; turn < 6 * 2 * 4 * 3; turn++) {
        uint64_t n = rows[turn / 24], index_width = turn / 12 % 2 + 1, largest = (UINT64_C(1) << 8 * index_width) - 1, place = places[turn / 3 % 4];
        const uint64_t numbers[] = { n - 1, n, largest };
        uint64_t number = numbers[turn % 3];
        if (number > largest) continue;
        struct gather g = make_range(n, index_width, 600, place, number);
        g.out[OUT_VALIDITY] = lend(75), g.out[OUT_DATA] = lend(600);
        if (number < n) want_rows(&g);
        else g.answer[0] = HOGLIDRA_RANGE, g.answer[1] = place;
        line_number++;
        run_all(&g);
        free_gather(&g);
    }
    printf("ranges: %d cases\n", line_number);
}

/* The case with no more of its index numbers there than the first so many bytes: cut to them, so that firmware/guard.c sees a read of the next one too; and whole,
   with the others marked, so that valgrind sees a read of any. The length stays. */
static void run_numbers_there(const struct gather *g, size_t there) {
    const struct buffer *numbers = &g->in[INDEX_DATA];
    struct gather cut = *g;
    cut.in[INDEX_DATA].at = copied(numbers->at, there);
    run(&cut, 0);
    free(cut.in[INDEX_DATA].at);
    VALGRIND_MAKE_MEM_NOACCESS(numbers->at + there, numbers->len - there);
    run(g, 0);
    VALGRIND_MAKE_MEM_DEFINED(numbers->at + there, numbers->len - there);
}

/* What the range test reads of the numbers. Nothing else reads one here, for what is not refused by it is refused for space. By an index width that cannot hold
   the row count it reads none; else blocks of 512 in turn, and none after that of the first valid index outside, whatever lies outside under nulls before it. */
static void run_scans(void) {
    static const uint64_t places[] = { 0, 1, 511, 512, 700, 1023, 1024, 2000 };
    enum { BLOCK = 512, SCANNED = 2600 };
    where = "scans", line_number = 0;
    for (uint64_t index_width = 1; index_width <= 2; index_width++) {
        struct gather g = make_range(UINT64_C(1) << 8 * index_width, index_width, SCANNED, 0, UINT64_MAX);
        g.answer[0] = HOGLIDRA_SPACE, g.answer[1] = 1, g.answer[2] = (SCANNED + 7) / 8;
        line_number++;
        run_numbers_there(&g, 0);
        free_gather(&g);
    }
    for (uint64_t index_width = 1; index_width <= 8; index_width *= 2)
        for (int turn = 0; turn < 8 * 2; turn++) {
            uint64_t place = places[turn / 2];
            struct gather g = make_range(200, index_width, SCANNED, place, turn % 4 < 2 ? 200 : UINT64_MAX);
            if (turn % 2) {
                g.in[INDEX_VALIDITY] = lend((SCANNED + 7) / 8);
                memset(g.in[INDEX_VALIDITY].at, 0xFF, g.in[INDEX_VALIDITY].len);
                for (uint64_t j = 0; j < place; j += 1 + below(200)) {
                    g.in[INDEX_VALIDITY].at[j / 8] &= (uint8_t)~(1 << j % 8);
                    put(g.in[INDEX_DATA].at + j * index_width, UINT64_MAX, index_width);
                }
            }
            g.answer[0] = HOGLIDRA_RANGE, g.answer[1] = place;
            line_number++;
            run_numbers_there(&g, (place / BLOCK + 1) * BLOCK * index_width);
            free_gather(&g);
        }
    printf("scans: %d cases\n", line_number);
}

/* An answer of 31 bytes gets 7 before every other test, and nothing is written. */
static void run_short_answer(void) {
    uint8_t out[1] = { FILL }, answer[HOGLIDRA_ANSWER_LEN];
    where = "short answer";
    memset(answer, FILL, sizeof answer);
    if (hoglidra_take(9, 9, 9, 9, 9, 9, 9, NULL, 0, NULL, 0, NULL, 0, 9, 9, 9, NULL, 0, NULL, 0, NULL, 0, NULL, 0, out, 1, answer, 31) != HOGLIDRA_SPACE)
        fail("the number returned differs");
    if (hoglidra_take_arrays(99, NULL, 0, NULL, 0, 9, 9, 9, NULL, 0, NULL, 0, NULL, 0, NULL, 0, out, 1, answer, 31) != HOGLIDRA_SPACE)
        fail("the number returned differs");
    for (int i = 0; i < HOGLIDRA_ANSWER_LEN; i++) if (answer[i] != FILL || out[0] != FILL) fail("a byte was written");
    puts("short answer");
}

int main(int argc, char **argv) {
    for (int i = 1; i < argc; i++) run_file(argv[i]);
    run_trial_10();
    run_batch_10();
    run_all_made();
    run_made_batches();
    run_ranges();
    run_scans();
    run_short_answer();
    return 0;
}
