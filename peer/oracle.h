/* The independent monitor on net memory in the proved library's layout: the image's bytes, then zeros up to 65,536. With it every answer and
 * every byte of memory can be compared. Results are packed as in include/boardmarten.h. */
#ifndef PEER_ORACLE_H
#define PEER_ORACLE_H

#include "libc.h"

/* The six calls; check and body see no memory and are the monitor's own. */
uint32_t oracle_check(const uint8_t *image, size_t n);
uint32_t oracle_load(const uint8_t *image, size_t n, uint8_t *memory, size_t m);
uint64_t oracle_save(const uint8_t *memory, size_t m, uint8_t *out, size_t k);
uint32_t oracle_step(uint8_t *memory, size_t m, uint64_t site);
uint32_t oracle_run(uint8_t *memory, size_t m, const uint8_t *steps, size_t n, uint8_t *answers, size_t k);
uint64_t oracle_body(const uint8_t *image, size_t n, uint32_t kind);

#endif
