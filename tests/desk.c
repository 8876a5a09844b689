/*
 * The desk interface tried from C, through its header: the soundings P4, P7 to P9, P11 and P12 of
 * document 01 and the session's example, every number that each call can answer, and what is
 * returned beside it. Calls that the library lacks are left out: those it has are named by
 * -DDESK_load and so on, or all of them by -DDESK_all. A check prints a line only when it fails.
 * The last line counts them; the exit status is 1 if any failed.
 */
#include "soorqabiye_desk.h"

#include <inttypes.h>
#include <stdio.h>
#include <string.h>

#define RECORDS 64
#define SLOTS 512
#define CAPACITY 100
#define KEY_END ((uint64_t)1 << 48)
#define DATA ((uint64_t)1 << 48)
#define NODE ((uint64_t)2 << 48)
#define JUNK UINT64_C(0xa5a5a5a5a5a5a5a5)

static unsigned passed, failed;

static void check(const char *what, int right) {
    if (right) {
        passed++;
    } else {
        failed++;
        printf("%s: wrong\n", what);
    }
}

#if defined(DESK_all) || defined(DESK_unpack)
static int sounding_is(uint64_t key, uint64_t number, int64_t depth, uint64_t sounding) {
    struct soorqabiye_sounding s = soorqabiye_unpack(key);
    return s.number == number && s.depth == depth && s.sounding == sounding;
}

static void try_unpack(void) {
    check("P9, unpacked", sounding_is(5328443801607, SOORQABIYE_DONE, -150, 7));
    check("key 0", sounding_is(0, SOORQABIYE_DONE, -20000, 0));
    check("last key", sounding_is(KEY_END - 1, SOORQABIYE_DONE, 1028575, 268435455));
    check("key 2^48", sounding_is(KEY_END, SOORQABIYE_RANGE, 0, 0));
    check("largest key", sounding_is(UINT64_MAX, SOORQABIYE_RANGE, 0, 0));
}
#else
static void try_unpack(void) {}
#endif

#if defined(DESK_all) || defined(DESK_load)

/* ---- a store and its loads ---- */

struct store {
    struct soorqabiye_handle handle;
    uint64_t nodes[SOORQABIYE_NODES_WORDS(RECORDS)];
    uint64_t slots[SOORQABIYE_SLOTS_WORDS(SLOTS)];
    uint64_t used[SOORQABIYE_USED_WORDS(RECORDS, SLOTS)];
};

#define POOLS(s, records, count) \
    (s)->nodes, SOORQABIYE_NODES_WORDS(records), (s)->slots, SOORQABIYE_SLOTS_WORDS(count), \
        (s)->used, SOORQABIYE_USED_WORDS(records, count)
#define ALL_POOLS(s) POOLS(s, RECORDS, SLOTS)

static const uint64_t p1[] = {10, 20, 30, 40};
static const uint64_t p4[] = {0, 100, 101, 102, 10000, 20000};
/* P4 with 1 for 0: the same shape, and every key a sounding's that has a number */
static const uint64_t six[] = {1, 100, 101, 102, 10000, 20000};
static const uint64_t payloads[] = {1, 2, 3, 4, 5, 6};

/* all words of the pools and the handle the same */
static int same_store(const struct store *a, const struct store *b) {
    return memcmp(a, b, sizeof *a) == 0;
}

static void fill(struct store *s) {
    memset(s, 0xa5, sizeof *s);
}

static struct soorqabiye_loaded load(struct store *s, const uint64_t *keys, size_t n) {
    struct soorqabiye_loaded l =
        soorqabiye_load(CAPACITY, keys, n, payloads, n, ALL_POOLS(s));
    s->handle = l.handle;
    return l;
}

static int handle_is(struct soorqabiye_handle h, uint64_t root, uint64_t count) {
    return h.root == root && h.count == count && h.capacity == CAPACITY && h.records == RECORDS &&
           h.slots == SLOTS;
}

static int no_handle(struct soorqabiye_handle h) {
    return h.root == 0 && h.count == 0 && h.capacity == 0 && h.records == 0 && h.slots == 0;
}

/* a load of six keys like P4's, the lowest being `low` */
static void try_six_keys(const uint64_t *keys, uint64_t low) {
    static struct store s;
    fill(&s);
    struct soorqabiye_loaded l = load(&s, keys, 6);
    check("six keys loaded", l.number == SOORQABIYE_DONE && l.place == 0 && handle_is(l.handle, 0, 6));
    const uint64_t records[4][8] = {{101, 2, 12, 0, 6, 6, 0, 0},
                                    {low, 101 - low, 4, 12, 2, 2, 0, 0},
                                    {10000, 10001, 4, 16, 2, 2, 0, 0},
                                    {0, 0, 0, 0, 0, 0, 0, 0}};
    check("six keys, records", memcmp(s.nodes, records, sizeof records) == 0);
    uint64_t slots[2 * 24] = {NODE + 1, 0, DATA + 101, 3};
    slots[2 * 6] = DATA + 102, slots[2 * 6 + 1] = 4;
    slots[2 * 11] = NODE + 2;
    slots[2 * 13] = DATA + low, slots[2 * 13 + 1] = 1;
    slots[2 * 14] = DATA + 100, slots[2 * 14 + 1] = 2;
    slots[2 * 17] = DATA + 10000, slots[2 * 17 + 1] = 5;
    slots[2 * 18] = DATA + 20000, slots[2 * 18 + 1] = 6;
    check("six keys, slots", memcmp(s.slots, slots, sizeof slots) == 0);
    check("six keys, map", s.used[0] == 7 && s.used[1] == 0xfffff && s.used[2] == 0);
}

static void refused_load(const char *what, uint64_t number, uint64_t place, size_t capacity,
                         const uint64_t *keys, size_t n, size_t n_payloads, size_t records,
                         size_t slots) {
    static struct store s, before;
    fill(&s);
    before = s;
    struct soorqabiye_loaded l =
        soorqabiye_load(capacity, keys, n, payloads, n_payloads, POOLS(&s, records, slots));
    check(what, l.number == number && l.place == place && no_handle(l.handle));
    check(what, same_store(&s, &before));
}

static void try_refused_loads(void) {
    const uint64_t twice[] = {4, 4}, high[] = {5, KEY_END}, both[] = {5, 5, KEY_END};
    refused_load("capacity 0", SOORQABIYE_SIZE, 0, 0, p1, 0, 0, RECORDS, SLOTS);
    refused_load("capacity 16,385", SOORQABIYE_SIZE, 0, 16385, p1, 4, 4, RECORDS, SLOTS);
    refused_load("no records", SOORQABIYE_SIZE, 0, 9, p1, 4, 4, 0, SLOTS);
    refused_load("3 slots", SOORQABIYE_SIZE, 0, 9, p1, 1, 1, RECORDS, 3);
    refused_load("payloads too few", SOORQABIYE_SIZE, 0, 9, p1, 4, 3, RECORDS, SLOTS);
    refused_load("7 before 4", SOORQABIYE_FULL, 0, 1, twice, 2, 2, RECORDS, SLOTS);
    refused_load("P11", SOORQABIYE_NOT_RISING, 1, 9, twice, 2, 2, RECORDS, SLOTS);
    refused_load("4 at the earlier place", SOORQABIYE_NOT_RISING, 1, 9, both, 3, 3, RECORDS, SLOTS);
    refused_load("2", SOORQABIYE_RANGE, 0, 9, high, 2, 2, RECORDS, SLOTS);
    refused_load("no room", SOORQABIYE_NO_ROOM, 0, 9, six, 6, 6, 2, SLOTS);
    refused_load("nothing into 63 slots", SOORQABIYE_NO_ROOM, 0, 9, p1, 0, 0, 1, 63);
}

static void try_load(void) {
    try_six_keys(p4, 0);
    try_six_keys(six, 1);   /* the words that docs/MEMORY.md prints; its map is for other sizes */
    try_refused_loads();
}
#else
static void try_load(void) {}
#endif

/* ---- one key: lookup, replace, delete ---- */

#if defined(DESK_all) || (defined(DESK_load) && defined(DESK_lookup))
static int looks(const struct store *s, uint64_t key, uint64_t number, uint64_t payload,
                 uint64_t visits) {
    struct soorqabiye_looked l = soorqabiye_lookup(s->handle, key, ALL_POOLS(s));
    return l.number == number && l.payload == payload && l.visits == visits;
}

static void try_lookup(void) {
    static struct store s, before;
    load(&s, six, 6);
    before = s;
    check("lookup in the root", looks(&s, 102, SOORQABIYE_DONE, 4, 1));
    check("lookup in a child", looks(&s, 100, SOORQABIYE_DONE, 2, 2));
    check("lookup of a key not held", looks(&s, 50, SOORQABIYE_NOT_HELD, 0, 2));
    check("lookup of key 2^48", looks(&s, KEY_END, SOORQABIYE_RANGE, 0, 0));
    s.handle.count = CAPACITY + 1;
    check("count above capacity", looks(&s, KEY_END, SOORQABIYE_SIZE, 0, 0));
    s.handle.count = 6, s.handle.slots--;
    check("slots not the handle's", looks(&s, 100, SOORQABIYE_SIZE, 0, 0));
    s.handle.slots++, s.handle.root = RECORDS;
    check("root outside", looks(&s, 100, SOORQABIYE_DAMAGE, 0, 0));
    s.handle.root = 0;
    check("lookup only reads", same_store(&s, &before));
}
#else
static void try_lookup(void) {}
#endif

#if defined(DESK_all) || (defined(DESK_load) && defined(DESK_replace))
static void try_replace(void) {
    static struct store s, want;
    load(&s, six, 6);
    want = s;
    want.slots[2 * 14 + 1] = JUNK;
    struct soorqabiye_changed c = soorqabiye_replace(s.handle, 100, JUNK, ALL_POOLS(&s));
    check("replaced", c.number == SOORQABIYE_DONE && c.visits == 0 && handle_is(c.handle, 0, 6));
    check("replaced, words", same_store(&s, &want));
    c = soorqabiye_replace(s.handle, 50, 1, ALL_POOLS(&s));
    check("not replaced", c.number == SOORQABIYE_NOT_HELD && c.visits == 2);
    check("handle given back", handle_is(c.handle, 0, 6) && same_store(&s, &want));
}
#else
static void try_replace(void) {}
#endif

#if defined(DESK_all) || (defined(DESK_load) && defined(DESK_delete))
static void try_delete(void) {
    static struct store s, want;
    load(&s, six, 6);
    want = s;
    want.slots[2 * 14] = want.slots[2 * 14 + 1] = 0;
    struct soorqabiye_changed c = soorqabiye_delete(s.handle, 100, ALL_POOLS(&s));
    check("deleted", c.number == SOORQABIYE_DONE && c.visits == 0 && handle_is(c.handle, 0, 5));
    check("deleted, words", same_store(&s, &want));
    c = soorqabiye_delete(s.handle, 100, ALL_POOLS(&s));
    check("not deleted", c.number == SOORQABIYE_NOT_HELD && c.visits == 2);
    s.handle.count = 0;
    c = soorqabiye_delete(s.handle, 101, ALL_POOLS(&s));
    check("count of 0", c.number == SOORQABIYE_DAMAGE && c.visits == 0);
    check("count of 0, handle", handle_is(c.handle, 0, 0));
}
#else
static void try_delete(void) {}
#endif

/* ---- band ---- */

#if defined(DESK_all) || (defined(DESK_load) && defined(DESK_band))
static void want_band(const char *what, const struct store *s, uint64_t u, uint64_t v, size_t room,
                      uint64_t number, uint64_t count, uint64_t more, uint64_t first) {
    uint64_t keys[8], values[8];
    memset(keys, 0xa5, sizeof keys);
    memset(values, 0xa5, sizeof values);
    struct soorqabiye_listed l =
        soorqabiye_band(s->handle, u, v, ALL_POOLS(s), keys, room, values, room);
    check(what, l.number == number && l.count == count && l.more == more);
    check(what, count == 0 || (keys[0] == six[first] && values[0] == payloads[first]));
    check(what, keys[count] == JUNK && values[count] == JUNK);
}

static void try_band(void) {
    static struct store s;
    load(&s, six, 0);
    want_band("P12", &s, 0, KEY_END - 1, 7, SOORQABIYE_DONE, 0, 0, 0);
    load(&s, six, 6);
    want_band("all", &s, 0, KEY_END - 1, 7, SOORQABIYE_DONE, 6, 0, 0);
    want_band("just enough", &s, 0, KEY_END - 1, 6, SOORQABIYE_DONE, 6, 0, 0);
    want_band("one less", &s, 0, KEY_END - 1, 5, SOORQABIYE_DONE, 5, 1, 0);
    want_band("no room", &s, 0, KEY_END - 1, 0, SOORQABIYE_DONE, 0, 1, 0);
    want_band("both ends held", &s, 101, 10000, 7, SOORQABIYE_DONE, 3, 0, 2);
    want_band("between keys", &s, 103, 9999, 7, SOORQABIYE_DONE, 0, 0, 0);
    want_band("reversed", &s, 2, 1, 7, SOORQABIYE_REVERSED, 0, 0, 0);
    want_band("out of range", &s, KEY_END, 1, 7, SOORQABIYE_RANGE, 0, 0, 0);
    s.nodes[8 + 1] = 0;
    want_band("a child's W of 0", &s, 0, KEY_END - 1, 7, SOORQABIYE_DAMAGE, 0, 0, 0);
    uint64_t one[1] = {JUNK};
    struct soorqabiye_listed l = soorqabiye_band(s.handle, 0, 1, ALL_POOLS(&s), one, 1, one, 0);
    check("unequal output", l.number == SOORQABIYE_SIZE && l.count == 0 && one[0] == JUNK);
}
#else
static void try_band(void) {}
#endif

/* ---- insert ---- */

#if defined(DESK_all) || (defined(DESK_load) && defined(DESK_insert))
static uint64_t scratch[3][CAPACITY];

static struct soorqabiye_inserted put(struct store *s, uint64_t key, uint64_t payload) {
    memset(scratch, 0xa5, sizeof scratch);
    struct soorqabiye_inserted i =
        soorqabiye_insert(s->handle, key, payload, ALL_POOLS(s), scratch[0], CAPACITY, scratch[1],
                          CAPACITY, scratch[2], CAPACITY);
    s->handle = i.handle;
    return i;
}

static int inserted(struct soorqabiye_inserted i, uint64_t conflict, uint64_t tidying) {
    return i.number == SOORQABIYE_DONE && i.conflict == conflict && i.tidying == tidying;
}

static int refused(struct soorqabiye_inserted i, uint64_t number) {
    return i.number == number && i.conflict == 0 && i.tidying == 0;
}

/* the first m places of each list zero, the others as they were */
static int scratch_is(size_t m) {
    for (size_t list = 0; list < 3; list++)
        for (size_t i = 0; i < CAPACITY; i++)
            if (scratch[list][i] != (i < m ? 0 : JUNK)) return 0;
    return 1;
}

static void try_plain_inserts(void) {
    static struct store s;
    load(&s, p1, 4);
    check("P7", inserted(put(&s, 25, 9), 0, SOORQABIYE_NOT_DUE) && handle_is(s.handle, 0, 5));
    check("P7, slot", s.slots[2 * 3] == DATA + 25 && s.slots[2 * 3 + 1] == 9 && scratch_is(0));
    load(&s, p1, 4);
    check("P8", inserted(put(&s, 5, 9), 1, SOORQABIYE_NOT_DUE) && scratch_is(0));
    check("P8, slot", s.slots[0] == NODE + 1 && s.slots[1] == 0);
    check("P8, counters", s.nodes[4] == 5 && s.nodes[5] == 4 && s.nodes[6] == 1);
    load(&s, p1, 0);
    check("session, 10", inserted(put(&s, 10, 1), 0, 0) && inserted(put(&s, 20, 2), 1, 0));
}

static void try_refused_inserts(void) {
    static struct store s, before;
    load(&s, six, 6);
    before = s;
    check("held", refused(put(&s, 100, 9), SOORQABIYE_HELD));
    check("key 2^48", refused(put(&s, KEY_END, 9), SOORQABIYE_RANGE));
    check("untouched", same_store(&s, &before) && scratch_is(0));
    s.handle.count = CAPACITY;
    check("full", refused(put(&s, 50, 9), SOORQABIYE_FULL));
    check("held in a full store", refused(put(&s, 100, 9), SOORQABIYE_HELD));
    s.handle = before.handle;
    s.handle.root = 3;
    check("root not used", refused(put(&s, 50, 9), SOORQABIYE_DAMAGE));
    s.handle = before.handle;
    memset(s.used, 0xff, sizeof s.used);
    check("no record left", refused(put(&s, 10001, 9), SOORQABIYE_NO_ROOM) && scratch_is(0));
    check("no record needed", inserted(put(&s, 105, 9), 0, SOORQABIYE_NOT_DUE));
    struct soorqabiye_inserted i =
        soorqabiye_insert(s.handle, 1, 1, ALL_POOLS(&s), scratch[0], CAPACITY, scratch[1],
                          CAPACITY - 1, scratch[2], CAPACITY);
    check("scratch unequal", refused(i, SOORQABIYE_SIZE));
}

/* the six keys with their root due, insert 2: the pair takes record 3 and slots 20 to 23, the new root record 4
   at slot 24, and everything before is let go */
static void try_tidying(void) {
    static struct store s;
    load(&s, six, 6);
    s.nodes[4] = 63, s.nodes[6] = 100;
    check("tidied", inserted(put(&s, 2, 9), 1, SOORQABIYE_TIDIED) && handle_is(s.handle, 4, 7));
    const uint64_t *root = s.nodes + 8 * 4;
    check("new root", root[3] == 24 && root[4] == 7 && root[5] == 7 && root[6] == 0);
    int zero = 1;
    for (size_t i = 0; i < 8 * 4; i++) zero = zero && s.nodes[i] == 0;
    for (size_t i = 0; i < 2 * 24; i++) zero = zero && s.slots[i] == 0;
    check("old nodes and the pair let go", zero && (s.used[0] & 0xf) == 0);
    check("scratch of a tidying", scratch_is(7));
}

/* the root is due, but all slots are marked */
static void try_put_off(void) {
    static struct store s;
    load(&s, six, 6);
    s.nodes[4] = 63, s.nodes[6] = 100;
    for (size_t word = 1; word < sizeof s.used / sizeof *s.used; word++) s.used[word] = UINT64_MAX;
    check("put off", inserted(put(&s, 103, 9), 0, SOORQABIYE_PUT_OFF) && handle_is(s.handle, 0, 7));
    check("scratch of what is put off", scratch_is(7) && s.nodes[4] == 64 && s.nodes[6] == 100);
    check("no mark set", s.used[0] == 7);
    check("stands", s.slots[2 * 16] == DATA + 103 && s.slots[2 * 16 + 1] == 9);
}

/* each key halves the distance to 0: a node more for each, until the path has 24 */
static void try_whole_tree(void) {
    static struct store s;
    load(&s, p1, 0);
    put(&s, 0, 0);
    uint64_t tidying = 0;
    size_t keys = 1;
    for (int bit = 41; bit > 0 && tidying == 0; bit--) {
        struct soorqabiye_inserted i = put(&s, (uint64_t)1 << bit, 1);
        check("halving", i.number == SOORQABIYE_DONE && i.conflict == 1);
        tidying = i.tidying;
        keys++;
    }
    check("whole tree", tidying == SOORQABIYE_WHOLE_TREE && keys == 25 && scratch_is(keys));
    check("whole tree, handle", s.handle.count == keys && s.handle.root != 0);
}

static void try_insert(void) {
    try_plain_inserts();
    try_refused_inserts();
    try_tidying();
    try_put_off();
    try_whole_tree();
}
#else
static void try_insert(void) {}
#endif

/* the lengths that docs/MEMORY.md prints */
static void try_lengths(void) {
    check("nodes", SOORQABIYE_NODES_WORDS(1) == 8 && SOORQABIYE_NODES_WORDS(16384) == 131072);
    check("slots", SOORQABIYE_SLOTS_WORDS(4) == 8 && SOORQABIYE_SLOTS_WORDS(131072) == 262144);
    check("used", SOORQABIYE_USED_WORDS(1, 4) == 1 && SOORQABIYE_USED_WORDS(256, 2048) == 36);
    check("used, largest", SOORQABIYE_USED_WORDS(16384, 131072) == 2304);
}

int main(void) {
    try_lengths();
    try_unpack();
    try_load();
    try_lookup();
    try_replace();
    try_delete();
    try_band();
    try_insert();
    printf("desk: %u passed, %u failed\n", passed, failed);
    return failed > 0;
}
