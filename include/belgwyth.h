/*
 * Belgwyth: what a load of light-cue calls does to a claims table, as a listing; what a dance show does to a frame table; and loads that
 * are worked out from a seed.
 *
 * Link with the static library that `tools/build.sh belgwyth` writes:
 *
 *     gcc -O2 -Iinclude -o player player.c target/staticlib/libbelgwyth.a
 *
 * or, for one call alone, with that of `tools/build.sh listing`, `tools/build.sh frame_listing` or `tools/build.sh generator`.
 *
 * Every call is reentrant: it keeps no state between calls, has no static data that is written, takes no memory but its stack, and may run
 * in several threads at once on different buffers. Of the C library it wants memcpy, memmove and memset, nothing else. x86-64 under Linux
 * is what was tried.
 */
#ifndef BELGWYTH_H
#define BELGWYTH_H

#include <stddef.h>
#include <stdint.h>

#ifdef __cplusplus
extern "C" {
#endif

/* The numbers of refusals, as they stand in a listing and are answered. docs/FORMAT.md says when each is given. */
enum belgwyth_number {
    BELGWYTH_DARK = 1,         /* neither group nor unit in the claim; no group in a new rig */
    BELGWYTH_OFF_RIG = 2,      /* a group outside the rig */
    BELGWYTH_LENGTH = 3,       /* length 0 or over 3,600,000 */
    BELGWYTH_BACKWARD = 4,     /* clock below the table's clock */
    BELGWYTH_LATE = 5,         /* clock over 1,000,000,000,000 */
    BELGWYTH_FULL = 6,         /* no place left, or only such as are kept for other desks */
    BELGWYTH_TICKETLESS = 7,   /* 65,535 tickets are issued */
    BELGWYTH_UNKNOWN = 8,      /* ticket not pending */
    BELGWYTH_NOT_YET_ON = 9,   /* release of a waiting claim */
    BELGWYTH_ALREADY_ON = 10,  /* withdrawal of an on claim */
    BELGWYTH_EDITION = 11,     /* first byte of a load names no known edition */
    BELGWYTH_SHORT = 12,       /* the load is empty or ends inside a record */
    BELGWYTH_MISFIT = 13,      /* record length wrong for its kind, a kind its edition lacks, a rig or a desk out of place */
    BELGWYTH_OVERLONG = 14,    /* load over 65,536 bytes */
    BELGWYTH_NO_SPACE = 15,    /* the lent buffer is shorter than the output */
    BELGWYTH_SPOTS = 16,       /* more units in the claim than the pool has */
    BELGWYTH_STRANGER = 17,    /* a desk that is not declared, or outside 1 to 8 */
    BELGWYTH_OVER = 18,        /* the desk has as many claims pending as its limit */
    BELGWYTH_OVERBOOKED = 19,  /* a declaration that asks for too much, or of a desk that is declared */
    BELGWYTH_COUNT = 20,       /* a workload of no claims, or of over 1,000 */
    BELGWYTH_GRACE = 21        /* a grace over 60,000, or set after an accepted claim */
};

/* Bytes of stack that suffice for each call: measured (tests/stack.c), not proved. */
#define BELGWYTH_LISTING_STACK 32768
#define BELGWYTH_BEAT_STACK 8192
#define BELGWYTH_WORKLOAD_STACK 36864

/*
 * A load's first byte is its edition: 1; 2, with a pool of followspots in its rig and units of them in its claims; or 3, with a desk in
 * its claims too, records that declare a desk, and records that set the grace, the time that a cue past its promised end is expected to
 * need from the clock on. One of any other edition is listed as `stop 11 0`. A load is at most this long; a longer one is listed as
 * `stop 14 0`.
 */
#define BELGWYTH_LOAD_MAX 65536

/*
 * Writes the listing of a load, of any of these editions, to the start of `out`.
 *
 * Answers the count of bytes written, a stop line included; the bytes of `out` after them keep their contents. If the listing is
 * longer than `out_length`, answers BELGWYTH_NO_SPACE and no byte of `out` differs: no listing is that short, the header alone has 24
 * bytes. Every input is taken: what is wrong with a load is told in its listing. Reads `load[0 .. load_length]` and writes
 * `out[0 .. out_length]`, nothing else. Neither pointer may be null, not even where its length is 0, and the two ranges must not overlap.
 *
 * A refused record has its number, 1 to 10, 16 to 19 or 21, in its line, and the listing goes on; a load that is refused (11 to 14), a
 * rig that is (1) and a desk that is declared after an accepted claim (13) end it with `stop NUMBER RECORD`. A load of n bytes, up to
 * BELGWYTH_LOAD_MAX, has a listing of at most 71 + 129 * (n / 6) bytes, any load one of at most 1,409,009.
 */
size_t belgwyth_listing(const uint8_t *load, size_t load_length, uint8_t *out, size_t out_length);

/* The answer to a dance show with a wrong line. No listing is empty: the header alone is 33 bytes. */
#define BELGWYTH_WRONG_LINE 0

/*
 * Writes the listing of a dance show, a text with a line for each call, to the start of `out`.
 *
 * Answers the count of bytes written; the bytes of `out` after them keep their contents. If a line of the text is wrong, answers
 * BELGWYTH_WRONG_LINE (the program `beat` says which, and why), or else BELGWYTH_NO_SPACE if the listing is longer than `out_length`;
 * then no byte of `out` differs. A show of n calls has a listing of at most 42 + 129 * n bytes. Text and buffer as above.
 */
size_t belgwyth_beat(const uint8_t *text, size_t text_length, uint8_t *out, size_t out_length);

/* The greatest count of claims in a workload, and the bytes of the longest one. */
#define BELGWYTH_WORKLOAD_MAX_COUNT 1000
#define BELGWYTH_WORKLOAD_MAX 36012

/*
 * Writes the workload of a seed and a count, a load of edition 1 that is the same wherever it is made, to the start of `out`.
 *
 * Answers the load's length; the bytes of `out` after it keep their contents. For a count outside 1 to 1,000 answers BELGWYTH_COUNT, or
 * else BELGWYTH_NO_SPACE if the load is longer than `out_length`; then no byte of `out` differs. No workload is as short as a number: each
 * has at least 35 bytes. The load has exactly `count` claims on a rig of all 64 groups, with a release after about every other one, in at
 * most 12 + 36 * count bytes. Buffer as above.
 */
size_t belgwyth_workload(uint32_t seed, uint32_t count, uint8_t *out, size_t out_length);

#ifdef __cplusplus
}
#endif

#endif
