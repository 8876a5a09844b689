/*
 * What `make show` shows: the soundings P1 and P9 of document 01 taken through the C edge, as an
 * engine would. It also serves as a short example of calling the three functions.
 */
#include "soorqabiye.h"

#include <inttypes.h>
#include <stdio.h>
#include <stdlib.h>

#define KEY_BYTES 6
#define MOST_SHOWN 8

static void refused(const char *call, uint64_t number) {
    printf("%s answered %" PRIu64 "; see include/soorqabiye.h for what that means\n", call, number);
    exit(1);
}

/* keys one after another in 6 bytes each, lowest byte first, as model choice reads them */
static void put_keys(uint8_t *bytes, const uint64_t *keys, size_t n) {
    for (size_t i = 0; i < n; i++)
        for (size_t b = 0; b < KEY_BYTES; b++)
            bytes[KEY_BYTES * i + b] = (uint8_t)(keys[i] >> (8 * b));
}

/* the node that would be built over at most MOST_SHOWN keys: its model, then where each key goes */
static void show_node(const uint64_t *keys, size_t n) {
    uint8_t bytes[KEY_BYTES * MOST_SHOWN];
    put_keys(bytes, keys, n);
    struct soorqabiye_model m = soorqabiye_model_choice(bytes, KEY_BYTES * n);
    if (m.number != SOORQABIYE_DONE) refused("model choice", m.number);
    printf("  model: L %" PRIu64 " slots, T %" PRIu64 ", lo %" PRIu64 ", W %" PRIu64 "\n", m.l, m.t,
           m.lo, m.w);
    for (size_t i = 0; i < n; i++) {
        struct soorqabiye_slot s = soorqabiye_slot_choice(keys[i], m.lo, m.w, m.l);
        if (s.number != SOORQABIYE_DONE) refused("slot choice", s.number);
        printf("  key %" PRIu64 " goes to slot %" PRIu64 "\n", keys[i], s.slot);
    }
}

int main(void) {
    const uint64_t p1[] = {10, 20, 30, 40};
    printf("P1, a node over the keys 10, 20, 30, 40\n");
    show_node(p1, sizeof p1 / sizeof *p1);

    struct soorqabiye_key p9 = soorqabiye_pack(-150, 7);
    if (p9.number != SOORQABIYE_DONE) refused("key packing", p9.number);
    printf("P9, the sounding number 7 that dries 1.50 m (depth -150 cm)\n");
    printf("  key: %" PRIu64 "\n", p9.key);
    printf("A node over that key alone\n");
    show_node(&p9.key, 1);
    return 0;
}
