/*
 * The calls of target/staticlib/librillarch.a, which `tools/build library` proves and builds.
 *
 * Every call ends on any bytes and any numbers, keeps no state of its own, allocates nothing, and may be made from any
 * thread as long as what it writes is lent to it alone. A slice is lent as a pointer and a count of its elements; a count of 0 is
 * allowed, and the pointer is then not read, but it must not be null. Slices that one call is lent must not overlap, unless both
 * are const. The result is a number of enum rillarch_number; on any but 0 nothing that was lent is changed. The first thing that a
 * call with an answer checks is that the answer has room: fewer elements are RILLARCH_SHORT. Elements past the answer stay as they
 * were.
 */
#ifndef RILLARCH_H
#define RILLARCH_H

#include <stdint.h>

#ifdef __cplusplus
extern "C" {
#endif

enum rillarch_number {
    RILLARCH_DONE = 0,
    RILLARCH_SHORT = 1,          /* too few bytes or words, to read or to write */
    RILLARCH_RESERVED_TYPE = 2,  /* reserved message type */
    RILLARCH_LENGTH_FIELD = 3,   /* length field below 34 */
    RILLARCH_ODD_TLV = 4,        /* odd TLV length */
    RILLARCH_NO_ANNOUNCE = 5,    /* another type than announce */
    RILLARCH_NO_PORT = 6,        /* port 0 or above the count */
    RILLARCH_OWN_PORT = 7,       /* own port identity */
    RILLARCH_NOT_ACCEPTABLE = 8, /* sender not acceptable */
    RILLARCH_OWN_CLOCK = 9,      /* own clock */
    RILLARCH_SEQUENCE = 10,      /* sequence */
    RILLARCH_STEPS = 11,         /* steps of 255 or more */
    RILLARCH_NINTH_MASTER = 12,  /* ninth master */
    RILLARCH_LONG_STEP = 13,     /* step of 2^62 or more */
    RILLARCH_OUT_OF_RANGE = 14,  /* port count, interval or list length out of range */
    RILLARCH_UNFIT = 15,         /* will not fit the wire; here also: a word above the most that its field holds */
    RILLARCH_UNSOUND = 16        /* unsound book */
};

/* The number of a recommended state; Stay is no recommendation. */
enum rillarch_state {
    RILLARCH_STAY = 0,
    RILLARCH_M1 = 1,
    RILLARCH_M2 = 2,
    RILLARCH_M3 = 3,
    RILLARCH_P1 = 4,
    RILLARCH_P2 = 5,
    RILLARCH_S1 = 6
};

/* The verdict on the left side of a comparison; Better and BetterByTopology rank above. */
enum rillarch_verdict {
    RILLARCH_BETTER = 0,
    RILLARCH_BETTER_BY_TOPOLOGY = 1,
    RILLARCH_ERROR_1 = 2,
    RILLARCH_ERROR_2 = 3,
    RILLARCH_WORSE_BY_TOPOLOGY = 4,
    RILLARCH_WORSE = 5
};

/*
 * Answers are words of 64 bits at fixed places. The structs below name these places: each has uint64_t members alone, so its
 * words are those of an array, as in `(uint64_t *)&decision, sizeof decision / 8`.
 */

/* How many messages a call put out, let age out and consumed: 3 words. */
struct rillarch_tallies {
    uint64_t evicted, aged_out, consumed;
};

/*
 * An announce with its header: 21 words, each the unsigned number that the field has on the wire. So correction, log_interval
 * and utc_offset are the bits of signed numbers: (int64_t), (int8_t) and (int16_t) of the word.
 */
struct rillarch_announce {
    uint64_t sdo_id, version_major, version_minor, domain;
    uint64_t flags; /* byte 6 times 256 plus byte 7; a reader leaves 0, a writer ignores, the bits that have no name */
    uint64_t correction, source_clock, source_port, sequence, log_interval;
    uint64_t seconds, nanoseconds, utc_offset;
    uint64_t priority_1, class_, accuracy, variance, priority_2;
    uint64_t grandmaster, steps_removed, time_source;
};

/* What a frame holds: 23 words. The TLVs are its bytes from tlv_start up to tlv_end. */
struct rillarch_frame {
    struct rillarch_announce announce;
    uint64_t tlv_start, tlv_end;
};

/* A decision: 180 words. Port k is ports[k - 1]; those past the count are zero. */
struct rillarch_decision {
    struct rillarch_tallies tallies;
    uint64_t count;
    struct {
        uint64_t state;
        struct rillarch_announce message; /* of M3, P1, P2 and S1 the message that the state rests on; else zero */
    } ports[8];
};

/* A message that a master offers, as far as the choice reads it, and a place, which it does not read: 12 words. */
struct rillarch_candidate {
    uint64_t priority_1, class_, accuracy, variance, priority_2;
    uint64_t grandmaster, steps_removed, sender, receiver_clock, receiver_port, age, place;
};

/* A candidate, if there is one: 13 words. Where found is 0 the others are zero. */
struct rillarch_found {
    uint64_t found;
    struct rillarch_candidate candidate;
};

/* An entry of a list of TLVs, if there is one: 5 words. The value is `length` bytes from `start` on; `next` is the place after it. */
struct rillarch_tlv {
    uint64_t found, type, start, length, next;
};

/* How many words a store must have. */
uint32_t rillarch_store_words(void);

/* SHORT where the store has too few words, UNSOUND where its book is unsound. */
uint32_t rillarch_check(const uint64_t *store, uint64_t store_words);

/*
 * Starts afresh: a port for each interval (units of 2^-16 ns), our own clock identity, and the acceptable masters: any where
 * `any` is not 0, else those of the list, of at most 16. SHORT, OUT_OF_RANGE.
 */
uint32_t rillarch_fresh_start(uint64_t *store, uint64_t store_words, uint64_t own_clock, uint8_t any, const uint64_t *listed, uint64_t listed_count, const uint64_t *intervals, uint64_t ports);

/* Registers the frame that a port received. The answer: rillarch_tallies. SHORT, UNSOUND, NO_PORT, what rillarch_read_frame refuses, OWN_PORT, NOT_ACCEPTABLE, OWN_CLOCK, SEQUENCE, STEPS, NINTH_MASTER. */
uint32_t rillarch_register(uint64_t *store, uint64_t store_words, uint16_t port, const uint8_t *frame, uint64_t frame_bytes, uint64_t *answer, uint64_t answer_words);

/* Makes every message older by a step (units of 2^-16 ns). The answer: rillarch_tallies. SHORT, UNSOUND, LONG_STEP. */
uint32_t rillarch_age(uint64_t *store, uint64_t store_words, uint64_t step, uint64_t *answer, uint64_t answer_words);

/* Decides for all ports, by our own data; bit k - 1 of `listening` is set if port k listens. The answer: rillarch_decision. SHORT, UNSOUND. */
uint32_t rillarch_decide(uint64_t *store, uint64_t store_words, uint8_t priority_1, uint8_t class_, uint8_t accuracy, uint16_t variance, uint8_t priority_2, uint8_t listening, uint64_t *answer, uint64_t answer_words);

/* The candidate at a place of the book's candidates, from 0: port 1 first, in a port the last master first. The answer: rillarch_found. SHORT, UNSOUND. */
uint32_t rillarch_candidate(const uint64_t *store, uint64_t store_words, uint64_t place, uint64_t *answer, uint64_t answer_words);

/* The verdict on the left of two candidates, 12 words each. The answer: one word, of enum rillarch_verdict. SHORT, UNFIT. */
uint32_t rillarch_compare(const uint64_t *left, uint64_t left_words, const uint64_t *right, uint64_t right_words, uint64_t *answer, uint64_t answer_words);

/* The choice over a list of candidates, 12 words each, left to right, the last of equals. The answer: rillarch_found. SHORT also where the words are no whole candidates; UNFIT. */
uint32_t rillarch_choose(const uint64_t *candidates, uint64_t candidate_words, uint64_t *answer, uint64_t answer_words);

/* Reads a frame. The answer: rillarch_frame. SHORT, RESERVED_TYPE, LENGTH_FIELD, ODD_TLV, NO_ANNOUNCE. */
uint32_t rillarch_read_frame(const uint8_t *frame, uint64_t frame_bytes, uint64_t *answer, uint64_t answer_words);

/*
 * Writes an announce, 21 words, with its TLVs into a buffer: 64 bytes and those of the TLVs; byte 46 and later bytes stay as they
 * were. SHORT where there are fewer than 21 words, UNFIT, SHORT where the buffer is too short.
 */
uint32_t rillarch_write_announce(const uint64_t *announce, uint64_t announce_words, const uint8_t *tlvs, uint64_t tlv_bytes, uint8_t *buffer, uint64_t buffer_bytes);

/* The entry at a place of a list of TLVs, 0 or the `next` of another entry; later ones are not looked at. The answer: rillarch_tlv. SHORT, ODD_TLV. */
uint32_t rillarch_tlv_entry(const uint8_t *tlvs, uint64_t tlv_bytes, uint64_t place, uint64_t *answer, uint64_t answer_words);

#ifdef __cplusplus
}
#endif

#endif
