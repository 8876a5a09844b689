/*
 * soorqabiye_desk.h: the Soorqabiye index itself, for C: an ordered map from keys to payloads, kept
 * in memory that the caller lends.
 *
 *   soorqabiye_unpack    a key taken apart into its sounding's depth and number
 *   soorqabiye_load      a map made from a rising list of keys
 *   soorqabiye_lookup    the payload of a key
 *   soorqabiye_replace   another payload for a key held
 *   soorqabiye_delete    a key taken out
 *   soorqabiye_band      the keys from u to v, in order
 *   soorqabiye_insert    a key put in
 *
 * They are in target/staticlib/libdesk.a, made by `make libs`:
 *
 *   gcc -std=c11 -Iinclude engine.c target/staticlib/libdesk.a
 *
 * The lent memory
 *   A map stands in three lists of 64-bit words, the pools, which stay the caller's:
 *
 *     nodes   8 words for each node record; 1 to 16,384 records
 *     slots   2 words for each slot; 4 to 131,072 slots
 *     used    the map of used places, one bit for each record and each slot:
 *             SOORQABIYE_USED_WORDS(records, slots) words
 *
 *   What each word holds is written in docs/MEMORY.md. A load makes the map and its handle,
 *   whatever the pools held before. Afterwards the pools belong to that handle, and to the handles
 *   that changing calls return in its place: the caller keeps the latest. Nothing else has to be
 *   kept, and two maps in two sets of pools know nothing of each other.
 *
 * Lists
 *   Every list is passed as a pointer and its length in words (keys and payloads: one word each).
 *   The pointer may not be NULL, not even where the length is 0, has to be aligned to 8 bytes and
 *   to point to as many words as the length says. No two lists of a call may share a word. A list
 *   declared const is only read.
 *
 * Answers
 *   Every answer is a struct of 64-bit words whose field `number` says what became of the call.
 *   0 is done. Any other number is a refusal: all lent memory is as before (but see the scratch of
 *   soorqabiye_insert), and the other fields are zero but for what the table names.
 *
 *   number  constant                meaning                                        returned besides
 *   0       SOORQABIYE_DONE         done                                           see each call
 *   1       SOORQABIYE_SIZE         a pool or the capacity outside its limits or
 *                                   not the handle's, the count above the
 *                                   capacity, scratch shorter than the capacity,
 *                                   or lists that have to be equally long are not
 *   2       SOORQABIYE_RANGE        a key of 2^48 or more
 *   3       SOORQABIYE_REVERSED     band with u above v
 *   4       SOORQABIYE_NOT_RISING   load list not strictly rising                  place
 *   5       SOORQABIYE_HELD         insert of a key that is held
 *   6       SOORQABIYE_NOT_HELD     lookup, replace or delete of a key not held    visits
 *   7       SOORQABIYE_FULL         insert at capacity, or a load list above it
 *   8       SOORQABIYE_NO_ROOM      no unused record or no long enough run of
 *                                   unused slots
 *   9       SOORQABIYE_DAMAGE       something read in the pools breaks a rule of
 *                                   docs/MEMORY.md
 *
 *   A call that is given a handle returns it when refused, in the field `handle` if it has one. A
 *   refused load makes no handle: its `handle` is all zeros, and a map that stood in the pools
 *   before stands there still under its own handle.
 *
 *   Words of any value may stand in the pools and in the handle. What breaks a rule is answered by
 *   a refusal, never by undefined behaviour.
 *
 * The functions allocate nothing, keep no pointer and always return. Calls that only read one set
 * of pools may run at once in several threads.
 */
#ifndef SOORQABIYE_DESK_H
#define SOORQABIYE_DESK_H

#include "soorqabiye.h"

#ifdef __cplusplus
extern "C" {
#endif

/* Words of each list for so many records and slots. */
#define SOORQABIYE_NODES_WORDS(records) (8 * (size_t)(records))
#define SOORQABIYE_SLOTS_WORDS(slots) (2 * (size_t)(slots))
#define SOORQABIYE_USED_WORDS(records, slots) (((size_t)(records) + (size_t)(slots) + 63) / 64)

/* What soorqabiye_insert says in `tidying`. */
#define SOORQABIYE_NOT_DUE 0    /* no node on the path was due */
#define SOORQABIYE_TIDIED 1     /* the due node nearest the root was built afresh */
#define SOORQABIYE_PUT_OFF 2    /* it was due, but without room or too deep; the key is in still */
#define SOORQABIYE_WHOLE_TREE 3 /* the path had 24 nodes, and the whole tree was built afresh */

/* Names a map in its pools. Passed and returned by value; no part of the pools. */
struct soorqabiye_handle {
    uint64_t root;     /* record of the root node */
    uint64_t count;    /* keys held, 0 to capacity */
    uint64_t capacity; /* keys that may be held, 1 to 16,384 */
    uint64_t records;  /* node records in the pools, 1 to 16,384 */
    uint64_t slots;    /* slots in the pools, 4 to 131,072 */
};

/* Answer of soorqabiye_unpack. */
struct soorqabiye_sounding {
    uint64_t number;   /* 0 or 2 */
    int64_t depth;     /* number 0: centimetres, negative where it dries; else 0 */
    uint64_t sounding; /* number 0: the sounding's number, 0 to 268,435,455; else 0 */
};

/* Answer of soorqabiye_load. */
struct soorqabiye_loaded {
    uint64_t number;                 /* 0, 1, 2, 4, 7 or 8 */
    uint64_t place;                  /* number 4: of the first key not above the one before it */
    struct soorqabiye_handle handle; /* number 0: the map's handle; else zeros */
};

/* Answer of soorqabiye_lookup. */
struct soorqabiye_looked {
    uint64_t number;  /* 0, 1, 2, 6 or 9 */
    uint64_t payload; /* number 0: the key's payload; else 0 */
    uint64_t visits;  /* number 0 or 6: nodes visited, 1 to 24; else 0 */
};

/* Answer of soorqabiye_replace and soorqabiye_delete. */
struct soorqabiye_changed {
    uint64_t number;                 /* 0, 1, 2, 6 or 9 */
    uint64_t visits;                 /* number 6: nodes visited, 1 to 24; else 0 */
    struct soorqabiye_handle handle; /* number 0: the next handle; else the one given */
};

/* Answer of soorqabiye_band. */
struct soorqabiye_listed {
    uint64_t number; /* 0, 1, 2, 3 or 9 */
    uint64_t count;  /* number 0: how many elements were listed; else 0 */
    uint64_t more;   /* number 0: 1 if the band has more than were listed, 0 if not; else 0 */
};

/* Answer of soorqabiye_insert. */
struct soorqabiye_inserted {
    uint64_t number;                 /* 0, 1, 2, 5, 7, 8 or 9 */
    uint64_t conflict;               /* number 0: 1 if the key's slot held another key; else 0 */
    uint64_t tidying;                /* number 0: one of the four above; else 0 */
    struct soorqabiye_handle handle; /* number 0: the next handle; else the one given */
};

/*
 * The sounding whose key this is: the other direction of soorqabiye_pack.
 *
 * Answers
 *   2   key is 2^48 or more
 *   0   depth and sounding are those of the key
 */
struct soorqabiye_sounding soorqabiye_unpack(uint64_t key);

/*
 * A map made from a list of keys with their payloads. The pools are taken as empty: whatever stands
 * in them is overwritten, and every word that the map does not use becomes zero.
 *
 *   capacity   keys that the map may ever hold: 1 to 16,384
 *   keys       strictly rising, each below 2^48; any number of them, 0 included
 *   payloads   any words, as many as keys
 *   nodes, slots, used   the pools; their lengths say how many records and slots there are
 *
 * Answers, the first that applies
 *   1   capacity, records or slots outside their limits; nodes_len no multiple of 8, slots_len no
 *       multiple of 2, or used_len not the words of the map; keys_len is not payloads_len
 *   7   more keys than the capacity
 *   2   a key is 2^48 or more          } whichever comes first in the list; of both at one place,
 *   4   a key is not above the one     } it is 2
 *       before it; place says where    }
 *   8   no room for the nodes of the map. A map of nothing takes 1 record and 64 slots.
 *   0   handle is the map's
 */
struct soorqabiye_loaded soorqabiye_load(size_t capacity, const uint64_t *keys, size_t keys_len,
                                         const uint64_t *payloads, size_t payloads_len,
                                         uint64_t *nodes, size_t nodes_len, uint64_t *slots,
                                         size_t slots_len, uint64_t *used, size_t used_len);

/*
 * The payload of a key.
 *
 * Answers, the first that applies
 *   1   the pools' sizes are outside the limits or not the handle's, the handle's capacity is
 *       outside its limits, or its count above its capacity
 *   2   key is 2^48 or more
 *   9   damage on the key's path
 *   6   the key is not held; visits is how many nodes were visited
 *   0   payload is the key's; visits is how many nodes were visited
 */
struct soorqabiye_looked soorqabiye_lookup(struct soorqabiye_handle handle, uint64_t key,
                                           const uint64_t *nodes, size_t nodes_len,
                                           const uint64_t *slots, size_t slots_len,
                                           const uint64_t *used, size_t used_len);

/*
 * Another payload for a key that is held. The handle stays the same.
 *
 * Answers, the first that applies
 *   1, 2, 9   as soorqabiye_lookup
 *   6   the key is not held; visits is how many nodes were visited
 *   0   the key's payload is the one given
 */
struct soorqabiye_changed soorqabiye_replace(struct soorqabiye_handle handle, uint64_t key,
                                             uint64_t payload, const uint64_t *nodes,
                                             size_t nodes_len, uint64_t *slots, size_t slots_len,
                                             const uint64_t *used, size_t used_len);

/*
 * A key taken out. Its slot becomes empty; nodes stay as they are.
 *
 * Answers, the first that applies
 *   1, 2, 9   as soorqabiye_lookup
 *   6   the key is not held; visits is how many nodes were visited
 *   9   the key is held although the handle's count is 0
 *   0   the key is out; handle has a count lower by one
 */
struct soorqabiye_changed soorqabiye_delete(struct soorqabiye_handle handle, uint64_t key,
                                            const uint64_t *nodes, size_t nodes_len,
                                            uint64_t *slots, size_t slots_len, const uint64_t *used,
                                            size_t used_len);

/*
 * The keys from u to v, both included, in order, with their payloads: as many as the output has
 * room for. Words of the output past those listed are untouched.
 *
 *   keys, payloads   the output: two lists equally long, of any length, 0 included
 *
 * To go on where the room ended, ask again from the last key listed + 1.
 *
 * Answers, the first that applies
 *   1   as soorqabiye_lookup, or keys_len is not payloads_len
 *   2   u or v is 2^48 or more
 *   3   u is above v
 *   9   damage met on the walk, keys read that do not rise and more nodes than there are records
 *       included
 *   0   count elements are listed; more says whether others remain
 */
struct soorqabiye_listed soorqabiye_band(struct soorqabiye_handle handle, uint64_t u, uint64_t v,
                                         const uint64_t *nodes, size_t nodes_len,
                                         const uint64_t *slots, size_t slots_len,
                                         const uint64_t *used, size_t used_len, uint64_t *keys,
                                         size_t keys_len, uint64_t *payloads, size_t payloads_len);

/*
 * A key put in with its payload. Now and then an insert also builds part of the tree afresh, which
 * `tidying` tells; the map is the same either way.
 *
 *   scratch_keys, scratch_payloads, scratch_places   work space: three lists equally long, each at
 *       least as long as the capacity. Their words need not be set before and mean nothing after.
 *       A rebuild over m keys, done, put off or refused with 8, leaves the first m words of each
 *       zero. All their other words, and in every other case all of them, are untouched; so they
 *       are by an 8 for the node over the two keys of a conflict.
 *
 * Answers, the first that applies
 *   1   as soorqabiye_lookup, or the three scratch lists are not equally long or shorter than the
 *       capacity
 *   2   key is 2^48 or more
 *   9   damage on the key's path
 *   5   the key is held
 *   7   the count is the capacity
 *   9   damage in the part of the tree that is to be rebuilt
 *   8   no room for the node over the two keys of a conflict, or for the whole tree built afresh
 *   0   the key is in; handle has a count higher by one, and may have another root
 */
struct soorqabiye_inserted soorqabiye_insert(
    struct soorqabiye_handle handle, uint64_t key, uint64_t payload, uint64_t *nodes,
    size_t nodes_len, uint64_t *slots, size_t slots_len, uint64_t *used, size_t used_len,
    uint64_t *scratch_keys, size_t scratch_keys_len, uint64_t *scratch_payloads,
    size_t scratch_payloads_len, uint64_t *scratch_places, size_t scratch_places_len);

#ifdef __cplusplus
}
#endif

/* Each struct is whole 64-bit words with nothing between them. */
#if defined(__cplusplus) && __cplusplus >= 201103L
#define SOORQABIYE_ASSERT static_assert
#elif defined(__STDC_VERSION__) && __STDC_VERSION__ >= 201112L
#define SOORQABIYE_ASSERT _Static_assert
#endif
#ifdef SOORQABIYE_ASSERT
SOORQABIYE_ASSERT(sizeof(struct soorqabiye_handle) == 40, "a handle of five words");
SOORQABIYE_ASSERT(sizeof(struct soorqabiye_sounding) == 24, "an answer of three words");
SOORQABIYE_ASSERT(sizeof(struct soorqabiye_loaded) == 56, "an answer of seven words");
SOORQABIYE_ASSERT(sizeof(struct soorqabiye_looked) == 24, "an answer of three words");
SOORQABIYE_ASSERT(sizeof(struct soorqabiye_changed) == 56, "an answer of seven words");
SOORQABIYE_ASSERT(sizeof(struct soorqabiye_listed) == 24, "an answer of three words");
SOORQABIYE_ASSERT(sizeof(struct soorqabiye_inserted) == 64, "an answer of eight words");
#undef SOORQABIYE_ASSERT
#endif

#endif
