/*
 * soorqabiye.h: the Soorqabiye index, for C. This file has the three leaf functions; the store's own
 * calls (load, lookup, band, insert, replace, delete, and unpacking of keys) stand in
 * soorqabiye_desk.h, each with its answers, and are included at the end.
 *
 *   soorqabiye_pack          a sounding's depth and number made into its key
 *   soorqabiye_slot_choice   the slot of a node that a key goes to
 *   soorqabiye_model_choice  the model of a node built over a list of keys
 *
 * They are in target/staticlib/libedge.a, made by `make libs`:
 *
 *   gcc -std=c11 -Iinclude engine.c target/staticlib/libedge.a
 *
 * All three are plain functions of their arguments. None writes to memory, keeps a pointer,
 * allocates or fails to return, so they may be called from several threads at once. Any number may
 * be passed: what is out of range is answered by a refusal, never by undefined behaviour.
 *
 * Every answer is a struct whose field `number` says what became of the call. 0 is done. Any other
 * number is a refusal, and then all other fields are zero, but for `place` beside number 4.
 *
 *   number  constant                meaning
 *   0       SOORQABIYE_DONE         done; the other fields hold the answer
 *   1       SOORQABIYE_SIZE         bad length of the key list
 *   2       SOORQABIYE_RANGE        key, depth or number of the sounding out of range
 *   4       SOORQABIYE_NOT_RISING   keys not strictly rising; `place` says where
 *   9       SOORQABIYE_DAMAGE       lo, W or L out of range
 *
 * A key is a whole number below 2^48 = 281,474,976,710,656.
 */
#ifndef SOORQABIYE_H
#define SOORQABIYE_H

#include <stddef.h>
#include <stdint.h>

#ifdef __cplusplus
extern "C" {
#endif

#define SOORQABIYE_DONE 0
#define SOORQABIYE_SIZE 1
#define SOORQABIYE_RANGE 2
#define SOORQABIYE_REVERSED 3 /* 3 and 5 to 8 are answered only in soorqabiye_desk.h */
#define SOORQABIYE_NOT_RISING 4
#define SOORQABIYE_HELD 5
#define SOORQABIYE_NOT_HELD 6
#define SOORQABIYE_FULL 7
#define SOORQABIYE_NO_ROOM 8
#define SOORQABIYE_DAMAGE 9

/* Answer of soorqabiye_pack. */
struct soorqabiye_key {
    uint64_t number; /* 0 or 2 */
    uint64_t key;    /* number 0: the key; else 0 */
};

/* Answer of soorqabiye_slot_choice. */
struct soorqabiye_slot {
    uint64_t number; /* 0, 2 or 9 */
    uint64_t slot;   /* number 0: the slot, 0 to L - 1; else 0 */
};

/* Answer of soorqabiye_model_choice. */
struct soorqabiye_model {
    uint64_t number; /* 0, 1 or 4 */
    uint64_t place;  /* number 4: place of the first key not above the one before it; else 0 */
    uint64_t l;      /* number 0: L, how many slots the node has, 4 to 4,096; else 0 */
    uint64_t t;      /* number 0: T; of three keys or more no slot gets more than T; else 0 */
    uint64_t lo;     /* number 0: lo, the key at which the spread begins; else 0 */
    uint64_t w;      /* number 0: W, the width of the spread, at least 1; else 0 */
};

/*
 * The key of a sounding: (depth + 20,000) x 2^28 + number. Keys rise with depth, and with the
 * number where depths are equal, so the shoalest sounding comes first.
 *
 *   depth    centimetres, negative where it dries: -20,000 to 1,028,575
 *   number   the sounding's number: 0 to 268,435,455
 *
 * Answers
 *   0   key is the sounding's key
 *   2   depth or number out of range
 */
struct soorqabiye_key soorqabiye_pack(int64_t depth, uint64_t number);

/*
 * The slot that a key goes to in a node with this lo, W and L:
 *
 *   slot 0                                    where key < lo
 *   slot L - 1                                where key >= lo + W
 *   slot 1 + floor((key - lo)(L - 2) / W)     otherwise
 *
 *   key   below 2^48
 *   lo    first key of the spread
 *   w     its width, in keys: at least 1, and lo + w at most 2^48
 *   l     number of slots: 4 to 4,096
 *
 * Answers, the first that applies
 *   2   key is 2^48 or more
 *   9   lo, w or l out of range (lo + w is taken without wrapping round)
 *   0   slot is the key's slot
 */
struct soorqabiye_slot soorqabiye_slot_choice(uint64_t key, uint64_t lo, uint64_t w, uint64_t l);

/*
 * The model of a node built over n strictly rising keys k[0] .. k[n-1]:
 *
 *   L is 2n, raised to 4 or lowered to 4,096
 *   T is 0 for one or two keys; for three or more it is the least T, from 1 to (n-1)/2 rounded
 *     down, for which no slot gets more than T of the keys
 *   lo = k[T], W = k[n-1-T] - k[T] + 1
 *   no keys at all: L 64, T 0, lo 0, W 2^48
 *
 *   keys     the keys one after another, each in 6 bytes, lowest byte first (little-endian), with
 *            no gaps; any alignment. It must point to `length` readable bytes and may not be NULL,
 *            not even when length is 0.
 *   length   in bytes, not in keys: 6n, for 0 to 16,384 keys (98,304 bytes)
 *
 * The bytes are only read.
 *
 * Answers, the first that applies
 *   1   length is no multiple of 6, or more than 16,384 keys
 *   4   the keys do not rise strictly; place, counted in keys from 0, is that of the first key that
 *       is not above the one before it (so at least 1)
 *   0   l, t, lo and w are the model
 *
 * Time grows with n times T. T stays small where keys are spread evenly and is n/3, rounded up, at
 * most.
 */
struct soorqabiye_model soorqabiye_model_choice(const uint8_t *keys, size_t length);

#ifdef __cplusplus
}
#endif


/* Each answer is whole 64-bit words with nothing between them, and size_t is one of them. */
#if defined(__cplusplus) && __cplusplus >= 201103L
#define SOORQABIYE_ASSERT static_assert
#elif defined(__STDC_VERSION__) && __STDC_VERSION__ >= 201112L
#define SOORQABIYE_ASSERT _Static_assert
#endif
#ifdef SOORQABIYE_ASSERT
SOORQABIYE_ASSERT(sizeof(struct soorqabiye_key) == 16, "an answer of two words");
SOORQABIYE_ASSERT(sizeof(struct soorqabiye_slot) == 16, "an answer of two words");
SOORQABIYE_ASSERT(sizeof(struct soorqabiye_model) == 48, "an answer of six words");
SOORQABIYE_ASSERT(sizeof(size_t) == 8, "the library is for 64-bit hosts");
#undef SOORQABIYE_ASSERT
#endif

/* the store's calls */
#include "soorqabiye_desk.h"

#endif
