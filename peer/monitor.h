/* An independent monitor in C11: the same six calls and packed results as the proved library (include/boardmarten.h says what each reads,
 * writes and returns), with an inside of net memory of its own. */
#ifndef PEER_MONITOR_H
#define PEER_MONITOR_H

#include "libc.h"

/* The numbers given back. */
enum {
    GRANTED = 0,
    DONE = 1,
    DENIED = 2,
    NOMATCH = 3,
    NOPLACE = 4,
    NOSITE = 5,
    NONET = 6,
    LONG = 7,
    SIZE = 10,
    EDITION = 11,
    CONTENTS = 12,
    SITE = 13,
    NODE = 14,
    ASPECT = 15,
    ACTION = 16,
    ROW = 17,
    STATE = 18,
    SMALL = 19,
    ROOM = 20
};

/* Says whether an image is accepted: number + 256 * record. */
uint32_t peer_check(const uint8_t *image, size_t n);

/* Puts the net of an accepted image into memory: number + 256 * record. */
uint32_t peer_load(const uint8_t *image, size_t n, uint8_t *memory, size_t m);

/* Writes the image of the net in memory: number + 256 * length. */
uint64_t peer_save(const uint8_t *memory, size_t m, uint8_t *out, size_t k);

/* Tries the next action of one site: the answer. */
uint32_t peer_step(uint8_t *memory, size_t m, uint64_t site);

/* Does n steps and gives an answer to each: the number. */
uint32_t peer_run(uint8_t *memory, size_t m, const uint8_t *steps, size_t n, uint8_t *answers, size_t k);

/* Says where the body of a kind stands in an accepted image: start + 2^32 * length, 0 for the empty part. */
uint64_t peer_body(const uint8_t *image, size_t n, uint32_t kind);

#endif
