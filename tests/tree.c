/*
 * The tree that a load builds over a few soundings, read from the memory that the desk library leaves (docs/MEMORY.md), and the way of
 * one key through it: a line for each node, then for each slot that holds something, then for each step. tools/picture draws it.
 */
#include "soorqabiye_desk.h"

#include <inttypes.h>
#include <stdio.h>
#include <stdlib.h>

#define RECORDS 16
#define SLOTS 128
#define LENGTH(list) (sizeof(list) / sizeof *(list))
#define UNIT (UINT64_C(1) << 48)

static uint64_t nodes[SOORQABIYE_NODES_WORDS(RECORDS)];
static uint64_t slots[SOORQABIYE_SLOTS_WORDS(SLOTS)];
static uint64_t used[SOORQABIYE_USED_WORDS(RECORDS, SLOTS)];

static void show(uint64_t record) {
    const uint64_t *node = nodes + 8 * record;
    uint64_t l = node[2], start = node[3];
    printf("node %" PRIu64 " lo %" PRIu64 " w %" PRIu64 " l %" PRIu64 " start %" PRIu64 "\n", record,
           node[0], node[1], l, start);
    for (uint64_t j = 0; j < l; j++) {
        uint64_t word = slots[2 * (start + j)];
        if (word / UNIT == 1) printf("data %" PRIu64 " %" PRIu64 " key %" PRIu64 "\n", record, j, word % UNIT);
        if (word / UNIT == 2) printf("child %" PRIu64 " %" PRIu64 " node %" PRIu64 "\n", record, j, word % UNIT);
    }
    for (uint64_t j = 0; j < l; j++)
        if (slots[2 * (start + j)] / UNIT == 2) show(slots[2 * (start + j)] % UNIT);
}

static void follow(uint64_t record, uint64_t key) {
    for (;;) {
        const uint64_t *node = nodes + 8 * record;
        struct soorqabiye_slot s = soorqabiye_slot_choice(key, node[0], node[1], node[2]);
        if (s.number != SOORQABIYE_DONE) exit(1);
        printf("step %" PRIu64 " %" PRIu64 "\n", record, s.slot);
        uint64_t word = slots[2 * (node[3] + s.slot)];
        if (word / UNIT != 2) return;
        record = word % UNIT;
    }
}

int main(void) {
    const uint64_t keys[] = {1, 100, 101, 102, 10000, 20000};
    const uint64_t payloads[LENGTH(keys)] = {0};
    struct soorqabiye_loaded t = soorqabiye_load(LENGTH(keys), keys, LENGTH(keys), payloads, LENGTH(keys),
                                                 nodes, LENGTH(nodes), slots, LENGTH(slots), used, LENGTH(used));
    if (t.number != SOORQABIYE_DONE) {
        printf("load answered %" PRIu64 "\n", t.number);
        return 1;
    }
    show(t.handle.root);
    printf("key 10000\n");
    follow(t.handle.root, 10000);
    return 0;
}
