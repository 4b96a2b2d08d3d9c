/* File, worst, load and export in plain C, for a little-endian machine: a field is read at once. */
#include <stdbool.h>
#include <string.h>

#include "csorvelin.h"
#include "peer.h"

static inline uint32_t read32(const uint8_t *p)
{
    uint32_t x;
    memcpy(&x, p, sizeof x);
    return x;
}

static inline uint64_t read64(const uint8_t *p)
{
    uint64_t x;
    memcpy(&x, p, sizeof x);
    return x;
}

/* Whether used length and trailer are not those of an archive; otherwise *n is the number of records. */
static bool is_broken(const uint8_t *archive, size_t size, uint64_t used, uint64_t *n)
{
    if (used > size || used < CSORVELIN_TRAILER_SIZE)
        return true;
    const uint8_t *trailer = archive + used - CSORVELIN_TRAILER_SIZE;
    *n = read32(trailer + 8);
    return *n > CSORVELIN_MOST_RECORDS || used != CSORVELIN_USED_LENGTH(*n)
           || read64(trailer) != CSORVELIN_RECORD_SIZE * *n || read32(trailer + 12) != 1;
}

static bool is_held(const uint8_t *archive, uint64_t n, const uint8_t *case_bytes)
{
    uint32_t head = read32(case_bytes);
    uint64_t dossier = read64(case_bytes + 8);
    const uint8_t *end = archive + CSORVELIN_RECORD_SIZE * n;
    for (const uint8_t *record = archive; record < end; record += CSORVELIN_RECORD_SIZE)
        if (read64(record + 8) == dossier && read32(record) == head)
            return true;
    return false;
}

uint32_t peer_file(uint8_t *archive, size_t size, uint64_t *used, const uint8_t *case_bytes,
                   size_t case_len, uint64_t *number)
{
    uint64_t figures[4], n;
    *number = 0;
    uint32_t refusal = csorvelin_work_out(case_bytes, case_len, figures);
    if (refusal)
        return refusal;
    if (is_broken(archive, size, *used, &n))
        return CSORVELIN_BROKEN;
    if (is_held(archive, n, case_bytes))
        return CSORVELIN_HELD;
    if (size - *used < CSORVELIN_RECORD_SIZE || n == CSORVELIN_MOST_RECORDS)
        return CSORVELIN_NO_SPACE;
    uint8_t *record = archive + CSORVELIN_RECORD_SIZE * n;
    uint64_t distance = CSORVELIN_RECORD_SIZE * (n + 1);
    uint32_t count_and_edition[2] = {(uint32_t)(n + 1), 1};
    memcpy(record, case_bytes, CSORVELIN_CASE_SIZE);
    memcpy(record + 64, figures, 32);
    memcpy(record + 96, &distance, 8);
    memcpy(record + 104, count_and_edition, 8);
    *number = n;
    *used += CSORVELIN_RECORD_SIZE;
    return 0;
}

uint32_t peer_worst(const uint8_t *archive, size_t size, uint64_t used, uint64_t compartment,
                    uint64_t *number)
{
    uint64_t n, best = 0, top = 0;
    *number = 0;
    if (compartment < 1 || compartment > 4)
        return CSORVELIN_COMPARTMENT_UNKNOWN;
    if (is_broken(archive, size, used, &n))
        return CSORVELIN_BROKEN;
    if (n == 0)
        return CSORVELIN_NO_RECORD;
    const uint8_t *figure = archive + 56 + 8 * compartment;
    for (uint64_t k = 0; k < n; k++, figure += CSORVELIN_RECORD_SIZE) {
        uint64_t x = read64(figure);
        if (x > top) {
            top = x;
            best = k;
        }
    }
    *number = best;
    return 0;
}

/* The pattern of the smallest binary64 that is not below a figure, in whole numbers. */
static inline uint64_t load_pattern(uint64_t figure)
{
    if (figure == 0)
        return 0;
    uint64_t zeros = (uint64_t)__builtin_clzll(figure);
    uint64_t shifted = figure << zeros;
    /* 53 digits, rounded up; the first one, and a carry out of them, go into the exponent */
    uint64_t digits = (shifted >> 11) + ((shifted & 0x7ff) != 0);
    return ((1085 - zeros) << 52) + digits;
}

uint32_t peer_load(uint64_t figure, uint8_t load[8])
{
    uint64_t pattern = load_pattern(figure);
    memcpy(load, &pattern, sizeof pattern);
    return 0;
}

uint32_t cast_load(uint64_t figure, uint8_t load[8])
{
    double nearest = (double)figure;
    memcpy(load, &nearest, sizeof nearest);
    return 0;
}

uint32_t peer_export(const uint8_t *archive, size_t size, uint64_t used, uint64_t number,
                     uint8_t loads[32])
{
    uint64_t n;
    bool broken = is_broken(archive, size, used, &n);
    if (broken || number >= n) {
        memset(loads, 0, CSORVELIN_LOADS_SIZE);
        return broken ? CSORVELIN_BROKEN : CSORVELIN_NO_RECORD;
    }
    const uint8_t *figures = archive + CSORVELIN_RECORD_SIZE * number + CSORVELIN_CASE_SIZE;
    /* one by one: gcc keeps a loop here, whose jumps take longer */
    peer_load(read64(figures), loads);
    peer_load(read64(figures + 8), loads + 8);
    peer_load(read64(figures + 16), loads + 16);
    peer_load(read64(figures + 24), loads + 24);
    return 0;
}
