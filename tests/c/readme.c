/* The README's examples, as they stand there, do what is said beside them. */
#include "hoglidra.h"
#include <stdio.h>
#include <string.h>

static int is_answer(const uint8_t *bytes, uint64_t total, uint64_t nulls) {
    struct hoglidra_answer a = hoglidra_read_answer(bytes);
    return a.number == HOGLIDRA_GATHERED && a.place == 0 && a.total == total && a.nulls == nulls;
}

int main(void) {
#include "readme.inc"
    static const uint8_t want[20] = { 0,0,0,0, 3,0,0,0, 5,0,0,0, 5,0,0,0, 5,0,0,0 };
    static const uint8_t all_want[12] = { 0,0,0,0, 3,0,0,0, 6,0,0,0 };
    int good = number == HOGLIDRA_GATHERED && is_answer(answer, 5, 2) && out_validity[0] == 0x03
        && !memcmp(out_offsets, want, sizeof want) && !memcmp(out_data, "xyzab", 5);
    int all_good = batch_number == HOGLIDRA_GATHERED && is_answer(batch_answer, 14, 0) && all_validity[0] == 0x03 && all_validity[1] == 0x03
        && !memcmp(all_offsets, all_want, sizeof all_want) && !memcmp(all_data, "twoone\2\0\0\0\1\0\0", 14) && second.data_start == 6 && second.data_len == 8;
    puts(good && all_good ? "the README's examples do what they say" : "the README's examples do not do what they say");
    return !(good && all_good);
}
