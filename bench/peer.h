/* What the library is measured against: the same calls in plain C, and work out over GMP's mpz.
 * A peer gives the same answers as the library, refusals included; bench.c compares them before it measures. */
#ifndef PEER_H
#define PEER_H

#include <stddef.h>
#include <stdint.h>

/* Work out over GMP, exact and rounded up once. Call peer_start first. */
void peer_start(void);
uint32_t peer_work_out(const uint8_t *case_bytes, size_t case_len, uint64_t figures[4]);

/* File and worst in plain C. File takes the refusals and the figures of a case from csorvelin_work_out, so that
 * peer and library differ in the test of the trailer, the scan and the writing only. */
uint32_t peer_file(uint8_t *archive, size_t size, uint64_t *used, const uint8_t *case_bytes,
                   size_t case_len, uint64_t *number);
uint32_t peer_worst(const uint8_t *archive, size_t size, uint64_t used, uint64_t compartment,
                    uint64_t *number);

/* Load and export in plain C. */
uint32_t peer_load(uint64_t figure, uint8_t load[8]);
uint32_t peer_export(const uint8_t *archive, size_t size, uint64_t used, uint64_t number,
                     uint8_t loads[32]);

/* No peer, but what one would write at first: a cast rounds to nearest, so what it gives may be below the figure. */
uint32_t cast_load(uint64_t figure, uint8_t load[8]);

#endif
