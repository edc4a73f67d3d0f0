/* Boardmarten: a reference monitor for a finite net of sites, as C calls of the proved library.
 *
 * A slice passes as a pointer and its length in bytes. A pointer is not null, even where its length is 0, and no slice that a call writes
 * overlaps another slice of that call. No call keeps a pointer, allocates, or has state of its own: everything is in the bytes lent to it.
 * A call that does not answer 0 has changed no lent byte.
 *
 * Net memory is 65,536 bytes. It holds a net exactly if loading some accepted image leaves it so: the image's bytes, then zeros. */
#ifndef BOARDMARTEN_H
#define BOARDMARTEN_H

#if !defined(BOARDMARTEN_NO_HEADERS) && defined(__has_include)
#if !__has_include(<stdint.h>) || !__has_include(<stddef.h>)
#define BOARDMARTEN_NO_HEADERS
#endif
#endif

#ifdef BOARDMARTEN_NO_HEADERS
typedef __UINT8_TYPE__ uint8_t;
typedef __UINT32_TYPE__ uint32_t;
typedef __UINT64_TYPE__ uint64_t;
typedef __SIZE_TYPE__ size_t;
#else
#include <stddef.h>
#include <stdint.h>
#endif

#ifdef __cplusplus
extern "C" {
#endif

/* Sizes in bytes, and the most steps of one run. */
enum {
    BOARDMARTEN_MEMORY_BYTES = 65536,
    BOARDMARTEN_IMAGE_LEAST = 44,
    BOARDMARTEN_IMAGE_MOST = 51244,
    BOARDMARTEN_STEPS_MOST = 4096
};

/* The numbers given back. */
enum {
    BOARDMARTEN_GRANTED = 0,   /* the step was done; also a check, load, run or save that succeeded */
    BOARDMARTEN_DONE = 1,      /* the site's program is at its end */
    BOARDMARTEN_DENIED = 2,    /* the mandatory rules and both policies, gathered, do not grant */
    BOARDMARTEN_NOMATCH = 3,   /* no row at the target fits a take or read */
    BOARDMARTEN_NOPLACE = 4,   /* the target's value is no site's name */
    BOARDMARTEN_NOSITE = 5,    /* the site number is not below the number of sites */
    BOARDMARTEN_NONET = 6,     /* memory holds no net */
    BOARDMARTEN_LONG = 7,      /* over 4,096 steps, or fewer answer bytes than steps */
    BOARDMARTEN_SIZE = 10,     /* the image has under 44 or over 51,244 bytes */
    BOARDMARTEN_EDITION = 11,  /* the image's edition is not 1 */
    BOARDMARTEN_CONTENTS = 12, /* entry count, kinds, record limits, offsets or end */
    BOARDMARTEN_SITE = 13,     /* 13 to 17: the first bad record of that kind */
    BOARDMARTEN_NODE = 14,
    BOARDMARTEN_ASPECT = 15,
    BOARDMARTEN_ACTION = 16,
    BOARDMARTEN_ROW = 17,
    BOARDMARTEN_STATE = 18, /* the first site whose position or variables do not go with its program */
    BOARDMARTEN_SMALL = 19, /* memory is not 65,536 bytes */
    BOARDMARTEN_ROOM = 20   /* the output is too short */
};

/* Says whether load would accept an image.
 * Reads image[0..n); writes nothing.
 * Returns number + 256 * record. Numbers, in order: 10 SIZE, 11 EDITION, 12 CONTENTS, 13 SITE, 14 NODE, 15 ASPECT, 16 ACTION, 17 ROW,
 * 18 STATE, 0 accepted. 13 to 17 carry the number of the first bad record of that kind, 18 that of the site, counted from 0 over the whole
 * body; the others carry 0. */
uint32_t boardmarten_check(const uint8_t *image, size_t n);

/* Puts the net of an accepted image into net memory.
 * Reads image[0..n); writes memory[0..m) if it returns 0.
 * Returns number + 256 * record. Numbers, in order: 19 SMALL (m is not 65,536), then those of check. */
uint32_t boardmarten_load(const uint8_t *image, size_t n, uint8_t *memory, size_t m);

/* Writes the image of the net that memory holds: loading it gives this memory again.
 * Reads memory[0..m); writes out[0..length) if the number is 0, and leaves the bytes beyond.
 * Returns number + 256 * length. Numbers, in order: 6 NONET, 20 ROOM (k is less than the image's length), 0; the length is 0 unless the
 * number is 0. */
uint64_t boardmarten_save(const uint8_t *memory, size_t m, uint8_t *out, size_t k);

/* Tries the next action of one site; site numbers count from 0 in order of name.
 * Reads memory[0..m); writes it if the answer is 0.
 * Returns the answer, in order: 6 NONET, 5 NOSITE, 1 DONE, 4 NOPLACE, 2 DENIED, 3 NOMATCH, 0 GRANTED. */
uint32_t boardmarten_step(uint8_t *memory, size_t m, uint64_t site);

/* Does n steps in order; each byte of steps is a site number.
 * Reads memory[0..m) and steps[0..n); if it returns 0, writes memory as the granted steps do and one step answer each (0 to 5) to
 * answers[0..n), and leaves the answer bytes beyond.
 * Returns, in order: 7 LONG (n over 4,096, or k less than n), 6 NONET, 0. */
uint32_t boardmarten_run(uint8_t *memory, size_t m, const uint8_t *steps, size_t n, uint8_t *answers, size_t k);

/* Says which part of an accepted image is the body of a kind: 1 sites, 2 nodes, 3 aspects, 4 actions, 5 rows.
 * Reads image[0..n); writes nothing.
 * Returns start + 2^32 * length in bytes of the image; 0 for the empty part: no records, check refuses the image, or no such kind. */
uint64_t boardmarten_body(const uint8_t *image, size_t n, uint32_t kind);

#ifdef __cplusplus
}
#endif

#endif
