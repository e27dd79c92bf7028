/* How much stack a call uses: a gather of each kind, offset width and index width is run on a stack that was filled with a pattern, and what lies below the
   deepest byte that changed was never used; so is a batch of one column, and batches of all kinds. Fails above the number that include/hoglidra.h names. */
#define _XOPEN_SOURCE 700
#include "hoglidra.h"
#include <stdio.h>
#include <string.h>
#include <ucontext.h>

enum { STACK = 1 << 16, PATTERN = 0xA5, PROMISED = 2048 };

/* Two rows by three indices, the first of them null, of which one names row 1 at every index width. One row is empty and one has 100 bytes at both offset
   widths, and the size makes rows of kinds 5 and 6 as long, so that the loops over a row run. */
static const struct body {
    uint8_t data[256], offsets[24], validity[1];
} body = { { 0 }, { [8] = 100, [16] = 100 }, { 3 } };
static const uint8_t indices[24] = { [2] = 1, [4] = 1, [8] = 1 }, filled[1] = { 6 };
static uint8_t out_validity[32], out_offsets[32 * 32], out_data[32 * 512], answer[HOGLIDRA_ANSWER_LEN];

static uint8_t stack[STACK];
static ucontext_t outside, inside;
static uint64_t kind, offset_width, index_width, columns, number;

static void nothing(void) {
}

static void gather(void) {
    number = hoglidra_take(kind, 1, 100, offset_width, 2, 0, 0, body.data, sizeof body.data, body.offsets, sizeof body.offsets, body.validity, sizeof body.validity,
        index_width, 3, 0, indices, sizeof indices, filled, sizeof filled,
        out_validity, sizeof out_validity, out_offsets, sizeof out_offsets, out_data, sizeof out_data, answer, sizeof answer);
}

/* Columns of the kinds in their order, from `kind` on; the first again after the last. The descriptions are no part of the call's stack. */
static void gather_batch(void) {
    static struct hoglidra_column made[HOGLIDRA_MAX_COLUMNS];
    for (uint64_t k = 0; k < columns; k++) {
        const struct hoglidra_column c = HOGLIDRA_COLUMN(1 + (kind - 1 + k) % 6, 1, 100, offset_width, 2, 0, 0, offsetof(struct body, data), sizeof body.data,
            offsetof(struct body, offsets), sizeof body.offsets, offsetof(struct body, validity), sizeof body.validity);
        made[k] = c;
    }
    number = hoglidra_take_arrays(columns, (const uint8_t *)made, sizeof made, (const uint8_t *)&body, sizeof body,
        index_width, 3, 0, indices, sizeof indices, filled, sizeof filled,
        out_validity, sizeof out_validity, out_offsets, sizeof out_offsets, out_data, sizeof out_data, answer, sizeof answer);
}

/* The bytes of the stack that were used, a stack growing down. */
static int used_by(void (*f)(void)) {
    memset(stack, PATTERN, sizeof stack);
    getcontext(&inside);
    inside.uc_stack.ss_sp = stack;
    inside.uc_stack.ss_size = sizeof stack;
    inside.uc_link = &outside;
    makecontext(&inside, f, 0);
    swapcontext(&outside, &inside);
    int untouched = 0;
    while (untouched < STACK && stack[untouched] == PATTERN) untouched++;
    return STACK - untouched;
}

/* The most that the call uses over all kinds, offset widths and index widths from the first on; or more than was promised, if one is refused. */
static int most_of(void (*f)(void), uint64_t first_width) {
    int most = 0, idle = used_by(nothing);
    for (kind = HOGLIDRA_PRIMITIVE; kind <= HOGLIDRA_FIXED_SIZE_BINARY; kind++)
        for (offset_width = 4; offset_width <= 8; offset_width *= 2)
            for (index_width = first_width; index_width <= 8; index_width *= 2) {
                int used = used_by(f) - idle;
                if (number != HOGLIDRA_GATHERED) return printf("kind %d was refused with %d\n", (int)kind, (int)number), PROMISED;
                if (used > most) most = used;
            }
    return most;
}

int main(void) {
    static const uint64_t counts[] = { 1, 6, HOGLIDRA_MAX_COLUMNS };
    int take = most_of(gather, 1), take_arrays = 0;
    for (size_t i = 0; i < sizeof counts / sizeof *counts; i++) {
        columns = counts[i];
        int used = most_of(gather_batch, 2);
        if (used > take_arrays) take_arrays = used;
    }
    printf("stack of hoglidra_take: %d bytes at most\nstack of hoglidra_take_arrays: %d bytes at most\n", take, take_arrays);
    return take >= PROMISED || take_arrays >= PROMISED;
}
