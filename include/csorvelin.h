/*
 * csorvelin.h: daily emissions of preservatives from 64-byte cases, and the
 * archive that holds cases and figures. docs/FORMAT.md has the byte formats.
 *
 * Every call is total: for any bytes and any numbers it returns 0 and a result,
 * or the number of one refusal, and it always comes back. Every output has a
 * defined value after every call. A refused call changes no byte of the
 * archive. These statements are proved of the library (crates/csorvelin).
 *
 * Rules for the caller. They are the caller's part; the library cannot test them.
 *   - No pointer is null, not even beside a length of 0. A pointer to bytes
 *     points to at least as many readable bytes as the length beside it says
 *     (writable, too, for an archive that is not const).
 *   - What a call writes (a non-const archive, figures, load, loads, *used,
 *     *number, *start, *length) overlaps nothing else that is passed to the
 *     same call. So a case that stands in the archive is copied out before it
 *     is filed, and loads are not written into the archive they are read from.
 *   - uint64_t outputs are aligned as the compiler aligns a uint64_t. Bytes
 *     need no alignment.
 *   - A length is at most PTRDIFF_MAX.
 *   - Calls on one archive are made one after another. The library keeps no
 *     state, allocates nothing and needs no initialisation; calls on different
 *     archives may run at the same time, and so may calls that only read one.
 *
 * Widths: refusals are uint32_t; figures, used lengths, record numbers, offsets
 * and compartments are uint64_t; lengths of memory are size_t; a load is eight
 * bytes. In cases, records, trailers and loads every number of more than one
 * byte is little-endian, whatever the machine; the numbers in this interface
 * are in the machine's own order.
 */
#ifndef CSORVELIN_H
#define CSORVELIN_H

#include <stddef.h>
#include <stdint.h>

#ifdef __cplusplus
extern "C" {
#endif

/* The version of library, header and command. It stands here and nowhere else. */
#define CSORVELIN_VERSION "1.3.0"

/* Sizes in bytes. */
#define CSORVELIN_CASE_SIZE 64
#define CSORVELIN_RECORD_SIZE 96
#define CSORVELIN_TRAILER_SIZE 16
#define CSORVELIN_LOAD_SIZE 8
#define CSORVELIN_LOADS_SIZE 32 /* the four loads of a record */

/* The most records that an archive may hold. */
#define CSORVELIN_MOST_RECORDS 1000000

/* The used length of an archive of n records, and so the least buffer for them. */
#define CSORVELIN_USED_LENGTH(n) \
    ((uint64_t)CSORVELIN_RECORD_SIZE * (uint64_t)(n) + CSORVELIN_TRAILER_SIZE)

/* Compartments, in the order of the figures. The figure of compartment m is
 * figures[m - 1]. */
#define CSORVELIN_STP 1           /* sewage treatment plant */
#define CSORVELIN_SURFACE_WATER 2 /* by separated rain sewer */
#define CSORVELIN_AIR 3
#define CSORVELIN_SOIL 4

/* Refusals. A call returns the first one of its own list that holds. */
#define CSORVELIN_ACCEPTED 0
/* from the case, in the order in which work out and file look for them */
#define CSORVELIN_CASE_SIZE_WRONG 1      /* the case is not 64 bytes */
#define CSORVELIN_KIND_UNKNOWN 2         /* the kind is not 1 to 8 */
#define CSORVELIN_ROW_UNKNOWN 3          /* the kind has no such row */
#define CSORVELIN_ROUTE_NOT_ALLOWED 4    /* the route is neither 1 nor, where kind and row allow it, 2 */
#define CSORVELIN_USER_NOT_ALLOWED 5     /* the user is not one that the kind allows */
#define CSORVELIN_NO_USAGE 31            /* kind 8: the polymer has no usage for the process that the user names */
#define CSORVELIN_COUNT_NOT_ALLOWED 6    /* the count T is outside the range of kind and row */
#define CSORVELIN_DOSSIER_ZERO 7         /* the dossier number is 0 */
#define CSORVELIN_NOT_A_NUMBER 8         /* a quantity has its sign bit set, or is infinite or no number */
#define CSORVELIN_UNLISTED_NOT_ZERO 9    /* a quantity that the kind does not have is not eight zero bytes */
#define CSORVELIN_OVER_LIMIT 10          /* a quantity is over its limit */
#define CSORVELIN_FRACTIONS_OVER_ONE 11  /* kinds 5 and 8: the fractions to the compartments add up to over 1 */
/* from the compartment: worst */
#define CSORVELIN_COMPARTMENT_UNKNOWN 12 /* the compartment is not 1 to 4 */
/* from the archive: 21 in every call that is given a used length */
#define CSORVELIN_BROKEN 21    /* used length and trailer are not those of an archive, or lie beyond the buffer */
#define CSORVELIN_HELD 22      /* file: a record of the same filing is there already */
#define CSORVELIN_NO_SPACE 23  /* file: under 96 bytes are free, or 1,000,000 records are there; empty: under 16 bytes */
#define CSORVELIN_NO_RECORD 24 /* show, export: the number is not below the number of records; worst: there is no record */

/*
 * Work out: the four figures of a case, in whole micrograms per day: sewage
 * treatment plant, surface water, air, soil. Each is the exact value of its
 * equation rounded up once.
 * Refusals, in this order: 1 to 5, 31, 6 to 11. Beside a refusal the four
 * figures are 0 and count as no result.
 */
uint32_t csorvelin_work_out(const uint8_t *case_bytes, size_t case_len,
                            uint64_t figures[4]);

/*
 * Empty: makes the first 16 bytes of the buffer an archive of no record,
 * whatever stood there. *used is set to 16, the used length; what it held
 * before is not looked at.
 * Refusal: 23. Beside it *used is 0.
 */
uint32_t csorvelin_empty(uint8_t *archive, size_t size, uint64_t *used);

/*
 * File: works the case out and adds it with its figures as the last record.
 * size is the size of the whole buffer; *used goes in as the used length of
 * the archive in it and comes out as the new one. *number is set to the number
 * of the new record, from 0. The new record and the new trailer are written,
 * and no other byte.
 * Refusals, in this order: 1 to 5, 31, 6 to 11, 21, 22, 23. Beside a refusal
 * *used is as given and *number is 0.
 */
uint32_t csorvelin_file(uint8_t *archive, size_t size, uint64_t *used,
                        const uint8_t *case_bytes, size_t case_len,
                        uint64_t *number);

/*
 * Show: where the record of a number, counted from 0, stands: its bytes are
 * archive[*start] to archive[*start + *length - 1]. *length is 96.
 * Refusals, in this order: 21, 24. Beside a refusal both are 0.
 */
uint32_t csorvelin_show(const uint8_t *archive, size_t size, uint64_t used,
                        uint64_t number, uint64_t *start, uint64_t *length);

/*
 * Worst: the number of the record with the highest figure in a compartment,
 * the first filed among equals.
 * Refusals, in this order: 12, 21, 24. Beside a refusal *number is 0.
 */
uint32_t csorvelin_worst(const uint8_t *archive, size_t size, uint64_t used,
                         uint64_t compartment, uint64_t *number);

/*
 * Load: a figure in the form that a fate model reads: the smallest binary64
 * that is not below it, as eight bytes, the lowest first. A figure up to 2^53
 * is its own load, and that of 0 is eight zero bytes; above 2^53 a load may be
 * higher than its figure, by at most one part in 2^52 of the figure. No load
 * is infinite: the highest is 2^64. A cast to double is not the same: it
 * rounds to nearest, and so comes out below many a figure.
 * Refusals: none; every figure has a load, and 0 is returned.
 */
uint32_t csorvelin_load(uint64_t figure, uint8_t load[8]);

/*
 * Export: the loads of the four figures of the record of a number, counted
 * from 0. The load of compartment m is loads[8 * m - 8] to loads[8 * m - 1].
 * The figures are taken as they stand there, whatever they are; the case
 * beside them is not looked at.
 * Refusals, in this order: 21, 24. Beside a refusal the 32 bytes are 0 and
 * count as no result. A record of four zero figures gives the same bytes: only
 * the returned number tells the two apart.
 */
uint32_t csorvelin_export(const uint8_t *archive, size_t size, uint64_t used,
                          uint64_t number, uint8_t loads[32]);

#ifdef __cplusplus
}
#endif

#endif
