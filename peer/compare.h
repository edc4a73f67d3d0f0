/* Every call made twice, on the proved library and on the oracle, with everything compared: the number given back, every byte of what was lent, the
 * bytes around it, and that a call which is refused or not granted has changed nothing. */
#ifndef PEER_COMPARE_H
#define PEER_COMPARE_H

#include "libc.h"

/* The memory buffer is longer than net memory, so that too much can be lent. */
enum { BUFFER_BYTES = 65600 };

/* Each gives what both sides gave; a difference is printed, counted, and the oracle's side is taken. Memory is kept from call to call, and its first
 * m bytes are lent. */
uint32_t both_check(const uint8_t *image, size_t n);
uint32_t both_load(const uint8_t *image, size_t n, size_t m);
uint64_t both_save(size_t m, size_t k);
uint32_t both_step(size_t m, uint64_t site);
uint32_t both_run(size_t m, const uint8_t *steps, size_t n, size_t k);
uint64_t both_body(const uint8_t *image, size_t n, uint32_t kind);

/* The memory buffer as it is, what it was before the last call, and the answers and output that the last call gave. */
const uint8_t *memory_now(void);
const uint8_t *memory_before(void);
const uint8_t *answers_now(void);
const uint8_t *output_now(void);

/* Sets the whole memory buffer, or one byte of it. */
void set_memory(const uint8_t *bytes);
void poke_memory(size_t at, uint8_t byte);

/* Says where calls come from, for the report of a difference: what is being tried and the seed that makes it again. */
void begin(const char *what, uint64_t seed);

/* Has a crash inside of a call reported as a difference, which ends the run. */
void watch_for_crashes(void);

/* Holds a number to what the paper says. */
void expect(const char *what, uint64_t got, uint64_t wanted);

/* Notes that something has happened that must happen in a full run. */
void note(unsigned event);

/* How many calls and expectations were fine, and how many were not. */
uint64_t passed(void);
uint64_t failed(void);

/* Prints how often each number came back and each event happened; gives how many never did. */
unsigned print_counts(void);

/* The events. */
enum {
    ROW_ADDED,
    ROW_TAKEN,
    ROW_READ,
    ROW_DROPPED,
    ROW_DROPPED_UNCOUNTED,
    SELF_STEP,
    TARGET_BY_VARIABLE,
    DAMAGE_ACCEPTED,
    SMALLEST_IMAGE,
    LARGEST_IMAGE,
    MEMORY_CHANGED_HOLDS,
    EVENTS
};

#endif
