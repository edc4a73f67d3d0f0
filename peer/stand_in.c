/* The library's calls answered by the oracle: it takes the library's place when the programs here are themselves under test (NO_LIB=1). */
#include "boardmarten.h"
#include "oracle.h"

uint32_t boardmarten_check(const uint8_t *image, size_t n)
{
    return oracle_check(image, n);
}

uint32_t boardmarten_load(const uint8_t *image, size_t n, uint8_t *memory, size_t m)
{
    return oracle_load(image, n, memory, m);
}

uint64_t boardmarten_save(const uint8_t *memory, size_t m, uint8_t *out, size_t k)
{
    return oracle_save(memory, m, out, k);
}

uint32_t boardmarten_step(uint8_t *memory, size_t m, uint64_t site)
{
    return oracle_step(memory, m, site);
}

uint32_t boardmarten_run(uint8_t *memory, size_t m, const uint8_t *steps, size_t n, uint8_t *answers, size_t k)
{
    return oracle_run(memory, m, steps, n, answers, k);
}

uint64_t boardmarten_body(const uint8_t *image, size_t n, uint32_t kind)
{
    return oracle_body(image, n, kind);
}
