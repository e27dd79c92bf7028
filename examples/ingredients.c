/* An ingredient table of four Arrow columns, gathered for a recipe by one call, all columns or none, and printed from what was gathered. Then two recipes that are
   refused, of which nothing is written. */
#include "hoglidra.h"
#include <stdio.h>
#include <string.h>

enum { ROWS = 7, MAX_LINES = 8 };

/* The buffers of all columns, one after the other: the body. A column says where in it each of its buffers starts, and how long it is. wheat flour, butter, sugar,
   egg, praline, salt, "soy lecithin": names, "has an allergen", grams a piece (not known of the egg), EU allergen numbers. */
static const struct body {
    char names[49];
    uint8_t name_offsets[4 * (ROWS + 1)], has_allergen[1], grams[4 * ROWS], grams_known[1], allergens[7], allergen_offsets[4 * (ROWS + 1)];
} body = {
    "wheat flourbuttersugareggpralinesaltsoy lecithin",
    { 0,0,0,0, 11,0,0,0, 17,0,0,0, 22,0,0,0, 25,0,0,0, 32,0,0,0, 36,0,0,0, 48,0,0,0 },
    { 0x5B },
    { 244,1,0,0, 200,0,0,0, 250,0,0,0, 0,0,0,0, 120,0,0,0, 5,0,0,0, 2,0,0,0 },
    { 0x77 },
    { 1, 7, 3, 6, 7, 8, 6 },
    { 0,0,0,0, 1,0,0,0, 2,0,0,0, 2,0,0,0, 3,0,0,0, 6,0,0,0, 6,0,0,0, 7,0,0,0 },
};
#define EXTENT(buffer) offsetof(struct body, buffer), sizeof body.buffer
#define NONE 0, 0

/* kind, width, size, offset width, rows, bit offsets of data and validity; then data, offsets and validity. Without a validity every row is valid. */
enum { NAME, ALLERGEN, GRAMS, CONTAINS, COLUMNS };
static const struct hoglidra_column columns[COLUMNS] = {
    HOGLIDRA_COLUMN(HOGLIDRA_BYTES, 0, 0, 4, ROWS, 0, 0, EXTENT(names), EXTENT(name_offsets), NONE),
    HOGLIDRA_COLUMN(HOGLIDRA_BOOLEAN, 0, 0, 0, ROWS, 0, 0, EXTENT(has_allergen), NONE, NONE),
    HOGLIDRA_COLUMN(HOGLIDRA_PRIMITIVE, 4, 0, 0, ROWS, 0, 0, EXTENT(grams), NONE, EXTENT(grams_known)),
    HOGLIDRA_COLUMN(HOGLIDRA_LIST, 1, 0, 4, ROWS, 0, 0, EXTENT(allergens), EXTENT(allergen_offsets), NONE),
};

/* Room for what all columns give: a validity for each, offsets for the two that have them, and data. */
struct outputs {
    uint8_t validity[COLUMNS * ((MAX_LINES + 7) / 8)], offsets[2 * 4 * (MAX_LINES + 1)], data[256];
};

/* Gathers every column by a recipe: row numbers of two bytes, and a validity bit for each, 0 where the line is open. As much of out->data is lent as is said. */
static struct hoglidra_answer gather(const uint16_t *lines, uint64_t count, const uint8_t *filled, struct outputs *out, uint64_t data_len) {
    uint8_t answer[HOGLIDRA_ANSWER_LEN];
    hoglidra_take_arrays(COLUMNS, (const uint8_t *)columns, sizeof columns, (const uint8_t *)&body, sizeof body,
        2, count, 0, (const uint8_t *)lines, 2 * count, filled, (count + 7) / 8,
        out->validity, sizeof out->validity, out->offsets, sizeof out->offsets, out->data, data_len,
        answer, sizeof answer);
    return hoglidra_read_answer(answer);
}

/* A gathered column, which is a part of each output. */
struct gathered {
    const uint8_t *validity, *offsets, *data;
};

static struct gathered find(const struct outputs *out, uint64_t column, uint64_t count) {
    struct hoglidra_outputs at = hoglidra_find_column(columns, column, count, out->offsets);
    struct gathered g = { out->validity + at.validity_start, out->offsets + at.offsets_start, out->data + at.data_start };
    return g;
}

static int bit(const uint8_t *bits, uint64_t i) {
    return bits[i / 8] >> i % 8 & 1;
}

static uint32_t number(const uint8_t *bytes, uint64_t i) {
    const uint8_t *b = bytes + 4 * i;
    return b[0] | (uint32_t)b[1] << 8 | (uint32_t)b[2] << 16 | (uint32_t)b[3] << 24;
}

static const char *allergen_name(uint8_t code) {
    static const char *const known[] = { "?", "gluten", "crustaceans", "eggs", "fish", "peanuts", "soy", "milk", "nuts" };
    return known[code < sizeof known / sizeof *known ? code : 0];
}

static void print_line(const struct outputs *out, uint64_t count, uint64_t i) {
    struct gathered name = find(out, NAME, count), allergen = find(out, ALLERGEN, count), grams = find(out, GRAMS, count), contains = find(out, CONTAINS, count);
    if (!bit(name.validity, i)) {
        printf("%4d  (open)\n", (int)i + 1);
        return;
    }
    uint32_t from = number(name.offsets, i), to = number(name.offsets, i + 1);
    printf("%4d  %-12.*s  %-8s  ", (int)i + 1, (int)(to - from), (const char *)name.data + from, bit(allergen.data, i) ? "yes" : "no");
    if (bit(grams.validity, i)) printf("%5u ", (unsigned)number(grams.data, i));
    else printf("    - ");
    uint32_t first = number(contains.offsets, i), end = number(contains.offsets, i + 1);
    for (uint32_t k = first; k < end; k++) printf("%s %s", k > first ? "," : "", allergen_name(contains.data[k]));
    printf("\n");
}

/* Gathers into outputs that are filled with a pattern, and prints the refusal, and whether the pattern is whole. */
static void print_refusal(const char *what, const uint16_t *lines, uint64_t count, const uint8_t *filled, uint64_t data_len) {
    struct outputs pattern, lent;
    memset(&pattern, 0xEE, sizeof pattern);
    lent = pattern;
    struct hoglidra_answer a = gather(lines, count, filled, &lent, data_len);
    printf("%s: refused with %d at place %d, total %d; outputs %s.\n", what, (int)a.number, (int)a.place, (int)a.total,
        memcmp(&lent, &pattern, sizeof lent) ? "changed" : "unchanged");
}

int main(void) {
    const uint16_t lines[6] = { 0, 1, 0, 4, 3, 0 };
    const uint8_t filled[1] = { 0x1B }; /* lines 3 and 6 are open */
    struct outputs out;
    struct hoglidra_answer answer = gather(lines, 6, filled, &out, sizeof out.data);
    if (answer.number != HOGLIDRA_GATHERED) {
        printf("refused with %d at place %d\n", (int)answer.number, (int)answer.place);
        return 1;
    }
    printf("line  name          allergen  grams  contains\n");
    for (uint64_t i = 0; i < 6; i++) print_line(&out, 6, i);
    printf("%d columns, %d bytes of data, %d null rows\n\n", COLUMNS, (int)answer.total, (int)answer.nulls);

    const uint16_t wrong[3] = { 0, 7, 2 };
    const uint8_t all[1] = { 0x07 };
    print_refusal("A recipe whose second line names row 7 of 7 rows", wrong, 3, all, sizeof out.data);
    print_refusal("The first recipe, with a byte less for its data than it needs", lines, 6, filled, answer.total - 1);
    return 0;
}
