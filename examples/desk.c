/*
 * A small chart desk in C: a few soundings loaded, two more put in, one taken out, and a depth band listed, shoalest first. Every
 * call is looked at by its number before anything else of its answer is used.
 */
#include "soorqabiye_desk.h"

#include <inttypes.h>
#include <stdio.h>
#include <stdlib.h>

#define CAPACITY 64
#define RECORDS 64
#define SLOTS 512
#define ROOM 4

/* the lent memory: it stays ours, and only the calls write to it */
static uint64_t nodes[SOORQABIYE_NODES_WORDS(RECORDS)];
static uint64_t slots[SOORQABIYE_SLOTS_WORDS(SLOTS)];
static uint64_t used[SOORQABIYE_USED_WORDS(RECORDS, SLOTS)];
static uint64_t scratch[3][CAPACITY];

#define LENGTH(list) (sizeof(list) / sizeof *(list))
#define POOLS nodes, LENGTH(nodes), slots, LENGTH(slots), used, LENGTH(used)

static void stop(const char *call, uint64_t number) {
    printf("%s answered %" PRIu64 "; see include/soorqabiye_desk.h for what that means\n", call,
           number);
    exit(1);
}

/* the key of a sounding: its depth in centimetres, negative where it dries, and its number */
static uint64_t key_of(int64_t depth, uint64_t number) {
    struct soorqabiye_key k = soorqabiye_pack(depth, number);
    if (k.number != SOORQABIYE_DONE) stop("pack", k.number);
    return k.key;
}

static struct soorqabiye_handle put_in(struct soorqabiye_handle h, uint64_t key, uint64_t payload) {
    struct soorqabiye_inserted i = soorqabiye_insert(
        h, key, payload, POOLS, scratch[0], CAPACITY, scratch[1], CAPACITY, scratch[2], CAPACITY);
    if (i.number != SOORQABIYE_DONE) stop("insert", i.number);
    printf("put in: conflict %" PRIu64 ", tidying %" PRIu64 ", %" PRIu64 " held\n", i.conflict,
           i.tidying, i.handle.count);
    return i.handle;
}

/* all soundings from one depth to another, as many at a time as there is room for */
static void list_band(struct soorqabiye_handle h, int64_t from, int64_t to) {
    uint64_t keys[ROOM], payloads[ROOM];
    uint64_t u = key_of(from, 0), v = key_of(to, 268435455), more = 1;
    printf("from %" PRId64 " cm to %" PRId64 " cm:\n", from, to);
    while (more) {
        struct soorqabiye_listed l = soorqabiye_band(h, u, v, POOLS, keys, ROOM, payloads, ROOM);
        if (l.number != SOORQABIYE_DONE) stop("band", l.number);
        for (uint64_t i = 0; i < l.count; i++) {
            struct soorqabiye_sounding s = soorqabiye_unpack(keys[i]);
            printf("  depth %5" PRId64 " cm, number %" PRIu64 ", payload %" PRIu64 "\n", s.depth,
                   s.sounding, payloads[i]);
        }
        more = l.more;
        if (more) u = keys[l.count - 1] + 1;
    }
}

int main(void) {
    /* a load wants its keys rising: shoalest first */
    const uint64_t keys[] = {key_of(-150, 7), key_of(40, 1), key_of(320, 4), key_of(325, 2),
                             key_of(1180, 3)};
    const uint64_t payloads[] = {107, 101, 104, 102, 103};
    struct soorqabiye_loaded loaded =
        soorqabiye_load(CAPACITY, keys, LENGTH(keys), payloads, LENGTH(payloads), POOLS);
    if (loaded.number != SOORQABIYE_DONE) stop("load", loaded.number);
    struct soorqabiye_handle h = loaded.handle;
    printf("loaded: %" PRIu64 " held\n", h.count);

    h = put_in(h, key_of(322, 5), 105);
    h = put_in(h, key_of(2750, 6), 106);

    struct soorqabiye_looked at = soorqabiye_lookup(h, key_of(322, 5), POOLS);
    if (at.number != SOORQABIYE_DONE) stop("lookup", at.number);
    printf("looked up: payload %" PRIu64 " after %" PRIu64 " nodes\n", at.payload, at.visits);

    struct soorqabiye_changed out = soorqabiye_delete(h, key_of(40, 1), POOLS);
    if (out.number != SOORQABIYE_DONE) stop("delete", out.number);
    h = out.handle;
    printf("taken out: %" PRIu64 " held\n", h.count);

    list_band(h, -20000, 2000);
    return 0;
}
