/* The independent monitor on net memory in the proved library's layout. Each call carries the net over into the monitor's own memory, makes the
 * monitor's call there, and carries the net back. */
#include "oracle.h"
#include "monitor.h"
#include "records.h"

enum { LAST_COUNT_AT = 38, LAST_OFFSET_AT = 40 };

/* The length that the image at the front of memory states: where its last body begins, and that body's rows. */
static uint64_t stated_length(const uint8_t *memory)
{
    return read_long(memory + LAST_OFFSET_AT) + (uint64_t)limits[ROWS].bytes * read_word(memory + LAST_COUNT_AT);
}

/* Whether all bytes from a place on are 0. */
static bool zero_from(const uint8_t *memory, size_t at)
{
    uint8_t any = 0;
    for (; at < MEMORY_BYTES; at++)
        any |= memory[at];
    return any == 0;
}

/* Whether an image, as long as its header states, may stand at the front of memory, with zeros behind it. */
static bool may_hold(const uint8_t *memory, size_t m)
{
    if (m != MEMORY_BYTES)
        return false;
    uint64_t n = stated_length(memory);
    return n >= HEADER_BYTES && n <= IMAGE_MOST && zero_from(memory, n);
}

/* Carries the net in memory over into the monitor's own memory; if there is none, that is all zeros and holds none either. */
static bool carry_in(const uint8_t *memory, size_t m, uint8_t *own)
{
    memset(own, 0, MEMORY_BYTES);
    return may_hold(memory, m) && peer_load(memory, stated_length(memory), own, MEMORY_BYTES) == 0;
}

/* Carries the net in the monitor's own memory back: its image, then zeros. */
static void carry_out(const uint8_t *own, uint8_t *memory)
{
    size_t n = peer_save(own, MEMORY_BYTES, memory, MEMORY_BYTES) / 256;
    memset(memory + n, 0, MEMORY_BYTES - n);
}

uint32_t oracle_check(const uint8_t *image, size_t n)
{
    return peer_check(image, n);
}

uint64_t oracle_body(const uint8_t *image, size_t n, uint32_t kind)
{
    return peer_body(image, n, kind);
}

uint32_t oracle_load(const uint8_t *image, size_t n, uint8_t *memory, size_t m)
{
    if (m != MEMORY_BYTES)
        return SMALL;
    uint8_t own[MEMORY_BYTES];
    uint32_t number = peer_load(image, n, own, sizeof own);
    if (number == 0)
        carry_out(own, memory);
    return number;
}

uint64_t oracle_save(const uint8_t *memory, size_t m, uint8_t *out, size_t k)
{
    uint8_t own[MEMORY_BYTES];
    carry_in(memory, m, own);
    return peer_save(own, sizeof own, out, k);
}

uint32_t oracle_step(uint8_t *memory, size_t m, uint64_t site)
{
    uint8_t own[MEMORY_BYTES];
    bool held = carry_in(memory, m, own);
    uint32_t answer = peer_step(own, sizeof own, site);
    if (held)
        carry_out(own, memory);
    return answer;
}

uint32_t oracle_run(uint8_t *memory, size_t m, const uint8_t *steps, size_t n, uint8_t *answers, size_t k)
{
    uint8_t own[MEMORY_BYTES];
    bool held = carry_in(memory, m, own);
    uint32_t number = peer_run(own, sizeof own, steps, n, answers, k);
    if (held)
        carry_out(own, memory);
    return number;
}
