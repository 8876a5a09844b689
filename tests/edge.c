/*
 * The C edge tried from C: the soundings P1 to P6, P9 and P10 of document 01, every number that the
 * three functions can answer, the order of the refusals, and zeros beside them. A check prints a
 * line only when it fails. The last line counts them; the exit status is 1 if any failed.
 */
#include "soorqabiye.h"

#include <inttypes.h>
#include <stdio.h>
#include <stdlib.h>
#include <string.h>

#define KEY_BYTES 6
#define MOST_KEYS 16384
#define KEY_END ((uint64_t)1 << 48)

static unsigned passed, failed;

static void count(int right) {
    if (right) passed++;
    else failed++;
}

/* ---- what each function has to answer ---- */

static void want_key(const char *what, int64_t depth, uint64_t number, struct soorqabiye_key want) {
    struct soorqabiye_key got = soorqabiye_pack(depth, number);
    int right = got.number == want.number && got.key == want.key;
    count(right);
    if (!right)
        printf("%s: depth %" PRId64 " number %" PRIu64 ": answer %" PRIu64 " key %" PRIu64
               ", should be answer %" PRIu64 " key %" PRIu64 "\n",
               what, depth, number, got.number, got.key, want.number, want.key);
}

static void want_slot(const char *what, uint64_t key, uint64_t lo, uint64_t w, uint64_t l,
                      struct soorqabiye_slot want) {
    struct soorqabiye_slot got = soorqabiye_slot_choice(key, lo, w, l);
    int right = got.number == want.number && got.slot == want.slot;
    count(right);
    if (!right)
        printf("%s: key %" PRIu64 " lo %" PRIu64 " W %" PRIu64 " L %" PRIu64 ": answer %" PRIu64
               " slot %" PRIu64 ", should be answer %" PRIu64 " slot %" PRIu64 "\n",
               what, key, lo, w, l, got.number, got.slot, want.number, want.slot);
}

static void print_model(struct soorqabiye_model m) {
    printf("answer %" PRIu64 " place %" PRIu64 " L %" PRIu64 " T %" PRIu64 " lo %" PRIu64
           " W %" PRIu64, m.number, m.place, m.l, m.t, m.lo, m.w);
}

static int same_model(struct soorqabiye_model a, struct soorqabiye_model b) {
    return a.number == b.number && a.place == b.place && a.l == b.l && a.t == b.t && a.lo == b.lo &&
           a.w == b.w;
}

static void want_model(const char *what, const uint8_t *bytes, size_t length,
                       struct soorqabiye_model want) {
    struct soorqabiye_model got = soorqabiye_model_choice(bytes, length);
    int right = same_model(got, want);
    count(right);
    if (right) return;
    printf("%s: %zu bytes: ", what, length);
    print_model(got);
    printf(", should be ");
    print_model(want);
    printf("\n");
}

static const struct soorqabiye_key key_refused = {SOORQABIYE_RANGE, 0};
static const struct soorqabiye_slot slot_refused = {SOORQABIYE_RANGE, 0};
static const struct soorqabiye_slot slot_damage = {SOORQABIYE_DAMAGE, 0};
static const struct soorqabiye_model bad_length = {SOORQABIYE_SIZE, 0, 0, 0, 0, 0};

static struct soorqabiye_key key_is(uint64_t key) {
    return (struct soorqabiye_key){SOORQABIYE_DONE, key};
}

static struct soorqabiye_slot slot_is(uint64_t slot) {
    return (struct soorqabiye_slot){SOORQABIYE_DONE, slot};
}

static struct soorqabiye_model model_is(uint64_t l, uint64_t t, uint64_t lo, uint64_t w) {
    return (struct soorqabiye_model){SOORQABIYE_DONE, 0, l, t, lo, w};
}

static struct soorqabiye_model not_rising_at(uint64_t place) {
    return (struct soorqabiye_model){SOORQABIYE_NOT_RISING, place, 0, 0, 0, 0};
}

/* ---- key lists in bytes ---- */

static void put_key(uint8_t *bytes, size_t place, uint64_t key) {
    for (size_t i = 0; i < KEY_BYTES; i++)
        bytes[KEY_BYTES * place + i] = (uint8_t)(key >> (8 * i));
}

/* n keys from first on, step apart, in memory of exactly their length (one byte for none) */
static uint8_t *keys_by_step(size_t n, uint64_t first, uint64_t step) {
    uint8_t *bytes = malloc(n == 0 ? 1 : KEY_BYTES * n);
    if (bytes == NULL) {
        printf("no memory for %zu keys\n", n);
        exit(1);
    }
    for (size_t i = 0; i < n; i++) put_key(bytes, i, first + i * step);
    return bytes;
}

/* ---- the soundings of document 01 ---- */

#define MOST_IN_CASE 11

struct sounding_case {
    const char *name;
    size_t n;
    uint64_t keys[MOST_IN_CASE];
    uint64_t l, t, lo, w;
    uint64_t slots[MOST_IN_CASE];
};

static const struct sounding_case cases[] = {
    {"P1", 4, {10, 20, 30, 40}, 8, 1, 20, 11, {0, 1, 6, 7}},
    {"P2", 3, {5, 6, 7}, 6, 1, 6, 1, {0, 1, 5}},
    {"P3", 5, {1, 2, 3, 4, 1000}, 10, 1, 2, 3, {0, 1, 3, 6, 9}},
    {"P4", 6, {0, 100, 101, 102, 10000, 20000}, 12, 2, 101, 2, {0, 0, 1, 6, 11, 11}},
    {"P4 lower child", 2, {0, 100}, 4, 0, 0, 101, {1, 2}},
    {"P4 with 1 for 0", 6, {1, 100, 101, 102, 10000, 20000}, 12, 2, 101, 2, {0, 0, 1, 6, 11, 11}},
    {"its lower child", 2, {1, 100}, 4, 0, 1, 100, {1, 2}},
    {"P4 upper child", 2, {10000, 20000}, 4, 0, 10000, 10001, {1, 2}},
    {"P5", 2, {7, 8}, 4, 0, 7, 2, {1, 2}},
    {"P6", 2, {0, KEY_END - 1}, 4, 0, 0, KEY_END, {1, 2}},
    {"one key", 1, {5328443801607}, 4, 0, 5328443801607, 1, {1}},
    /* T 2 holds, 3 does not, 4 does: a search for T by halving ends at 4 */
    {"halving", 11, {0, 1, 2, 7, 8, 9, 10, 67, 68, 69, 70}, 22, 2, 2, 67,
     {0, 0, 1, 2, 2, 3, 3, 20, 20, 21, 21}},
};

static void try_case(const struct sounding_case *c) {
    uint8_t bytes[KEY_BYTES * MOST_IN_CASE];
    for (size_t i = 0; i < c->n; i++) put_key(bytes, i, c->keys[i]);
    want_model(c->name, bytes, KEY_BYTES * c->n, model_is(c->l, c->t, c->lo, c->w));
    for (size_t i = 0; i < c->n; i++)
        want_slot(c->name, c->keys[i], c->lo, c->w, c->l, slot_is(c->slots[i]));
}

static void try_soundings(void) {
    for (size_t i = 0; i < sizeof cases / sizeof *cases; i++) try_case(&cases[i]);
    want_key("P9", -150, 7, key_is(5328443801607));
    want_key("P10", -20001, 0, key_refused);
    want_key("P10", -20000, 0, key_is(0));
}

/* ---- key packing ---- */

static void try_pack(void) {
    want_key("deepest", 1028575, 268435455, key_is(KEY_END - 1));
    want_key("next depth", -19999, 0, key_is(268435456));
    want_key("last number", -20000, 268435455, key_is(268435455));
    want_key("too deep", 1028576, 0, key_refused);
    want_key("number too large", 0, 268435456, key_refused);
    want_key("both out of range", -20001, 268435456, key_refused);
    want_key("largest number", 0, UINT64_MAX, key_refused);
    want_key("least depth of all", INT64_MIN, 1, key_refused);
    want_key("greatest depth of all", INT64_MAX, 1, key_refused);
    want_key("depth of 2^32 is not depth 0", INT64_C(4294967296), 1, key_refused);
    want_key("number 2^32 is not number 0", 0, UINT64_C(4294967296), key_refused);
}

/* ---- slot choice ---- */

static void try_slots_of_extreme_models(void) {
    want_slot("lowest key of all", 0, 0, KEY_END, 4096, slot_is(1));
    want_slot("highest key of all", KEY_END - 1, 0, KEY_END, 4096, slot_is(4094));
    want_slot("empty root", KEY_END - 1, 0, KEY_END, 64, slot_is(62));
    want_slot("below lo", 9, 10, 1, 4, slot_is(0));
    want_slot("at lo", 10, 10, 1, 4, slot_is(1));
    want_slot("at lo + W", 11, 10, 1, 4, slot_is(3));
    want_slot("last below lo + W", 19, 10, 10, 4, slot_is(2));
    want_slot("lo at the top", KEY_END - 1, KEY_END - 1, 1, 5, slot_is(1));
    want_slot("below lo at the top", KEY_END - 2, KEY_END - 1, 1, 5, slot_is(0));
    /* the quotient is a hair below 657, which it becomes in floating point */
    want_slot("no rounding", 22590894172844, 0, KEY_END / 2, 4095, slot_is(657));
}

static void try_slot_refusals(void) {
    want_slot("key 2^48", KEY_END, 0, 1, 4, slot_refused);
    want_slot("largest key", UINT64_MAX, 0, 1, 4, slot_refused);
    want_slot("2 before 9, L", KEY_END, 0, 1, 3, slot_refused);
    want_slot("2 before 9, W", KEY_END, 0, 0, 4, slot_refused);
    want_slot("2 before 9, lo", KEY_END, KEY_END, 1, 4, slot_refused);

    const uint64_t bad_l[] = {0, 1, 2, 3, 4097, UINT64_C(4294967300), UINT64_MAX};
    for (size_t i = 0; i < sizeof bad_l / sizeof *bad_l; i++)
        want_slot("L out of range", 5, 0, 10, bad_l[i], slot_damage);

    want_slot("W of 0", 5, 5, 0, 4, slot_damage);
    want_slot("W above 2^48", 5, 0, KEY_END + 1, 4, slot_damage);
    want_slot("largest W", 5, 0, UINT64_MAX, 4, slot_damage);
    want_slot("lo of 2^48", 5, KEY_END, 1, 4, slot_damage);
    want_slot("lo + W one too large", 5, 1, KEY_END, 4, slot_damage);
    want_slot("lo + W wraps to 0", 5, UINT64_MAX, 1, 4, slot_damage);
    want_slot("lo + W wraps to 10", 5, 11, UINT64_MAX, 4, slot_damage);
    want_slot("lo + W wraps to 2^48", 5, UINT64_MAX, KEY_END + 1, 4, slot_damage);
    want_slot("lo + W wraps to 2^48, halves", 5, UINT64_C(1) << 63,
              (UINT64_C(1) << 63) + KEY_END, 4, slot_damage);
}

/* ---- model choice ---- */

static void try_nothing(void) {
    uint8_t *none = keys_by_step(0, 0, 0);
    want_model("no keys", none, 0, model_is(64, 0, 0, KEY_END));
    free(none);
}

/* 1 to 5 bytes more than whole keys; the list also falls, since 1 is answered before 4 */
static void try_bad_lengths(void) {
    for (size_t n = 0; n <= 4; n++)
        for (size_t more = 1; more < KEY_BYTES; more++) {
            uint8_t *bytes = keys_by_step(n + 1, 100, (uint64_t)0 - 1);
            want_model("odd length", bytes, KEY_BYTES * n + more, bad_length);
            free(bytes);
        }
}

static void try_long_lists(void) {
    uint8_t *bytes = keys_by_step(MOST_KEYS + 1, 0, 1);
    want_model("16,385 keys", bytes, KEY_BYTES * (MOST_KEYS + 1), bad_length);
    want_model("16,384 keys and a byte", bytes, KEY_BYTES * MOST_KEYS + 1, bad_length);
    put_key(bytes, 1, 0);
    want_model("16,385 keys that do not rise", bytes, KEY_BYTES * (MOST_KEYS + 1), bad_length);
    want_model("16,384 keys that do not rise", bytes, KEY_BYTES * MOST_KEYS, not_rising_at(1));
    free(bytes);
}

/* 0 to n - 1: four or five keys a slot once there are 4,096 slots, W = n - 2T */
static void try_consecutive(void) {
    uint8_t *bytes = keys_by_step(MOST_KEYS, 0, 1);
    want_model("2,047 in a row", bytes, KEY_BYTES * 2047, model_is(4094, 1, 1, 2045));
    want_model("2,048 in a row", bytes, KEY_BYTES * 2048, model_is(4096, 1, 1, 2046));
    want_model("2,049 in a row", bytes, KEY_BYTES * 2049, model_is(4096, 1, 1, 2047));
    want_model("16,384 in a row", bytes, KEY_BYTES * MOST_KEYS, model_is(4096, 4, 4, 16376));
    free(bytes);
}

static void try_falling(void) {
    for (size_t place = 1; place < 7; place++) {
        uint8_t *bytes = keys_by_step(7, KEY_END - 7, 1);
        put_key(bytes, place, KEY_END - 8 + place);
        want_model("a key twice", bytes, KEY_BYTES * 7, not_rising_at(place));
        put_key(bytes, place, 3);
        want_model("a key lower", bytes, KEY_BYTES * 7, not_rising_at(place));
        put_key(bytes, 6, 2);
        want_model("two faults", bytes, KEY_BYTES * 7, not_rising_at(place));
        free(bytes);
    }
    uint8_t twice[] = {4, 0, 0, 0, 0, 0, 4, 0, 0, 0, 0, 0};
    want_model("P11: 4, 4", twice, sizeof twice, not_rising_at(1));
}

/* lowest byte first: 1, 256 rises; read the other way round it would fall */
static void try_byte_order(void) {
    uint8_t bytes[] = {1, 0, 0, 0, 0, 0, 0, 1, 0, 0, 0, 0};
    want_model("1, 256", bytes, sizeof bytes, model_is(4, 0, 1, 256));
    uint8_t high[] = {0xff, 0xff, 0xff, 0xff, 0xff, 0x7f, 0, 0, 0, 0, 0, 0x80};
    want_model("2^47 - 1, 2^47", high, sizeof high, model_is(4, 0, ((uint64_t)1 << 47) - 1, 2));
}

/* the list is only read, and may begin at any address */
static void try_bytes_untouched(void) {
    uint8_t bytes[KEY_BYTES * 4 + 8], before[sizeof bytes];
    for (size_t start = 0; start < 8; start++) {
        memset(bytes, 0xa5, sizeof bytes);
        for (size_t i = 0; i < 4; i++) put_key(bytes + start, i, 10 * (i + 1));
        memcpy(before, bytes, sizeof bytes);
        want_model("P1 at any address", bytes + start, KEY_BYTES * 4, model_is(8, 1, 20, 11));
        count(memcmp(before, bytes, sizeof bytes) == 0);
        if (memcmp(before, bytes, sizeof bytes) != 0) printf("the lent bytes were changed\n");
    }
}

int main(void) {
    try_soundings();
    try_pack();
    try_slots_of_extreme_models();
    try_slot_refusals();
    try_nothing();
    try_bad_lengths();
    try_long_lists();
    try_consecutive();
    try_falling();
    try_byte_order();
    try_bytes_untouched();
    printf("edge: %u passed, %u failed\n", passed, failed);
    return failed > 0;
}
