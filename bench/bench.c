/* Times of the library beside its peers, on the same inputs in the same run. Medians of rounds in turn:
 * library, peer, library, peer. Processor time, so that other programs on the machine disturb less.
 * Prints a table for docs/PERFORMANCE.md.
 * WITH_GMP says that the peer for work out is linked. */
#define _POSIX_C_SOURCE 199309L
#include <inttypes.h>
#include <stdbool.h>
#include <stdio.h>
#include <stdlib.h>
#include <string.h>
#include <time.h>

#include "csorvelin.h"
#include "peer.h"

/* ---- measuring */

enum { ROUNDS = 101, SCAN_ROUNDS = 31 };

static double now_ns(void)
{
    struct timespec t;
    clock_gettime(CLOCK_PROCESS_CPUTIME_ID, &t);
    return (double)t.tv_sec * 1e9 + (double)t.tv_nsec;
}

static int compare(const void *x, const void *y)
{
    double a = *(const double *)x, b = *(const double *)y;
    return (a > b) - (a < b);
}

static double median(double *times, size_t n)
{
    qsort(times, n, sizeof *times, compare);
    return times[n / 2];
}

static void fail(const char *what)
{
    fprintf(stderr, "bench: the answers differ: %s\n", what);
    exit(1);
}

/* ---- inputs: a fixed sequence of random numbers (splitmix64) */

static uint64_t seed;

static uint64_t random64(void)
{
    uint64_t z = seed += UINT64_C(0x9e3779b97f4a7c15);
    z = (z ^ z >> 30) * UINT64_C(0xbf58476d1ce4e5b9);
    z = (z ^ z >> 27) * UINT64_C(0x94d049bb133111eb);
    return z ^ z >> 31;
}

/* from 1/4 of the limit to 3/4 of it, every bit of the significand random */
static double typical(double limit)
{
    return limit * (0.25 + (double)(random64() >> 11) * 0x1p-54);
}

static void put_case(uint8_t *bytes, uint8_t kind, uint8_t row, uint8_t user, uint32_t count,
                     uint64_t dossier, const double quantities[6])
{
    bytes[0] = kind;
    bytes[1] = row;
    bytes[2] = 1;
    bytes[3] = user;
    memcpy(bytes + 4, &count, 4);
    memcpy(bytes + 8, &dossier, 8);
    memcpy(bytes + 16, quantities, 48);
}

static void report(const char *call, const char *input, double library, double peer)
{
    const char *unit = "ns";
    double scale = 1;
    if (library > 20000) {
        unit = "us";
        scale = 1000;
    }
    int digits = library < 10 || scale != 1;
    printf("| %s | %s | %.*f %s | %.*f %s | %.2f |\n", call, input, digits, library / scale, unit,
           digits, peer / scale, unit, library / peer);
    fflush(stdout);
}

/* ---- work out */

#ifdef WITH_GMP

struct input {
    const char *name;
    uint8_t kind, row, user;
    uint32_t count;
    double limits[6];
};

static const struct input inputs[] = {
    {"kind 1, row 0", 1, 0, 0, 3650, {100, 100, 1, 1000}},
    {"kind 1, row 3", 1, 3, 0, 0, {100, 100, 1}},
    {"kind 2, row 0", 2, 0, 0, 3650, {1, 0, 1, 1000, 100, 5000}},
    {"kind 2, row 3", 2, 3, 0, 0, {1, 0, 1}},
    {"kind 3, row 0", 3, 0, 1, 3, {1, 0, 0, 1000, 100, 5000}},
    {"kind 3, row 3", 3, 3, 1, 0, {1}},
    {"kind 4, row 1", 4, 1, 0, 0, {1000000, 1, 1}},
    {"kind 5, row 0", 5, 0, 0, 250, {1000000, 1, 0.4, 0.4, 0.4}},
    {"kind 6, row 0", 6, 0, 0, 0, {1, 1, 0, 10000, 100, 1}},
    {"kind 6, row 1", 6, 1, 0, 0, {1, 1}},
    {"kind 7, row 1", 7, 1, 0, 0, {1, 1, 5, 1, 1}},
    {"kind 8, row 1", 8, 1, 2, 250, {1, 0.6, 0.6}},
};

enum { CASES = 256, PASSES = 8, KINDS = sizeof inputs / sizeof *inputs };
static uint8_t cases[CASES][CSORVELIN_CASE_SIZE];

typedef uint32_t work_out(const uint8_t *case_bytes, size_t case_len, uint64_t figures[4]);

static void make_cases(const struct input *in, bool smallest)
{
    for (int i = 0; i < CASES; i++) {
        double q[6];
        for (int j = 0; j < 6; j++)
            q[j] = in->limits[j] == 0 ? 0 : smallest ? 0x1p-1074 : typical(in->limits[j]);
        put_case(cases[i], in->kind, in->row, in->user, in->count, (uint64_t)i + 1, q);
    }
}

static void agree(const uint8_t *bytes, size_t length)
{
    uint64_t ours[4] = {1, 2, 3, 4}, theirs[4] = {5, 6, 7, 8};
    if (csorvelin_work_out(bytes, length, ours) != peer_work_out(bytes, length, theirs)
        || memcmp(ours, theirs, sizeof ours) != 0)
        fail("work out");
}

/* Damaged cases too: refusals must agree, and are not left out by either. */
static void agree_on_all(void)
{
    uint8_t bytes[CSORVELIN_CASE_SIZE];
    for (int i = 0; i < CASES; i++) {
        agree(cases[i], CSORVELIN_CASE_SIZE);
        agree(cases[i], CSORVELIN_CASE_SIZE - 1);
        for (int j = 0; j < CSORVELIN_CASE_SIZE; j++) {
            memcpy(bytes, cases[i], sizeof bytes);
            bytes[j] ^= (uint8_t)(1 << random64() % 8);
            agree(bytes, sizeof bytes);
        }
    }
}

/* Kind 8 over its whole table, and beside it. */
static void agree_on_usages(void)
{
    uint8_t bytes[CSORVELIN_CASE_SIZE];
    for (uint8_t row = 0; row <= 19; row++)
        for (uint8_t user = 0; user <= 4; user++) {
            put_case(bytes, 8, row, user, 250, 7, (const double[6]){typical(1), typical(0.6), typical(0.6)});
            agree(bytes, sizeof bytes);
        }
}

static double time_of_call(work_out *f)
{
    uint64_t figures[4];
    double before = now_ns();
    for (int pass = 0; pass < PASSES; pass++)
        for (int i = 0; i < CASES; i++)
            f(cases[i], CSORVELIN_CASE_SIZE, figures);
    return (now_ns() - before) / (PASSES * CASES);
}

static void bench_work_out(void)
{
    double library[ROUNDS], peer[ROUNDS];
    peer_start();
    agree_on_usages();
    for (int smallest = 0; smallest <= 1; smallest++)
        for (int k = 0; k < KINDS; k++) {
            make_cases(&inputs[k], smallest);
            agree_on_all();
            for (int r = 0; r < ROUNDS; r++) {
                library[r] = time_of_call(csorvelin_work_out);
                peer[r] = time_of_call(peer_work_out);
            }
            report(smallest ? "work out, smallest quantities" : "work out", inputs[k].name,
                   median(library, ROUNDS), median(peer, ROUNDS));
        }
}

#endif

/* ---- file and worst */

static uint8_t *archive;
static size_t size;

/* n records with dossier numbers from 1, laid out directly; returns the used length */
static uint64_t fill(uint64_t n)
{
    for (uint64_t k = 0; k < n; k++) {
        uint8_t *record = archive + CSORVELIN_RECORD_SIZE * k;
        uint64_t figures[4];
        put_case(record, 4, 1, 0, 0, k + 1, (const double[6]){typical(1000000), typical(1), typical(1)});
        if (csorvelin_work_out(record, CSORVELIN_CASE_SIZE, figures) != 0)
            fail("a case of the archive is refused");
        memcpy(record + CSORVELIN_CASE_SIZE, figures, sizeof figures);
    }
    uint64_t distance = CSORVELIN_RECORD_SIZE * n;
    uint32_t count_and_edition[2] = {(uint32_t)n, 1};
    memcpy(archive + distance, &distance, 8);
    memcpy(archive + distance + 8, count_and_edition, 8);
    return CSORVELIN_USED_LENGTH(n);
}

typedef uint32_t file(uint8_t *archive, size_t size, uint64_t *used, const uint8_t *case_bytes,
                      size_t case_len, uint64_t *number);
typedef uint32_t worst(const uint8_t *archive, size_t size, uint64_t used, uint64_t compartment,
                       uint64_t *number);

/* Files a case that is not held behind n records, then puts the trailer back. */
static double time_of_file(file *f, uint64_t used, const uint8_t *case_bytes, int times)
{
    uint8_t trailer[CSORVELIN_TRAILER_SIZE];
    uint64_t n = (used - CSORVELIN_TRAILER_SIZE) / CSORVELIN_RECORD_SIZE;
    memcpy(trailer, archive + used - sizeof trailer, sizeof trailer);
    double before = now_ns();
    for (int i = 0; i < times; i++) {
        uint64_t after = used, number;
        if (f(archive, size, &after, case_bytes, CSORVELIN_CASE_SIZE, &number) != 0 || number != n
            || after != used + CSORVELIN_RECORD_SIZE)
            fail("file");
        memcpy(archive + used - sizeof trailer, trailer, sizeof trailer);
    }
    return (now_ns() - before) / times;
}

static double time_of_worst(worst *f, uint64_t used, uint64_t *number, int times)
{
    double before = now_ns();
    for (int i = 0; i < times; i++)
        if (f(archive, size, used, CSORVELIN_STP, number) != 0)
            fail("worst");
    return (now_ns() - before) / times;
}

static void bench_scans(uint64_t records)
{
    double library[SCAN_ROUNDS], peer[SCAN_ROUNDS];
    uint8_t fresh[CSORVELIN_CASE_SIZE];
    char input[64];
    int times = records < 10000 ? 100 : 1;
    snprintf(input, sizeof input, "%" PRIu64 " records", records);

    /* the filing that makes it so many records */
    uint64_t used = fill(records - 1);
    put_case(fresh, 4, 1, 0, 0, UINT64_MAX, (const double[6]){typical(1000000), typical(1), typical(1)});
    for (int r = 0; r < SCAN_ROUNDS; r++) {
        library[r] = time_of_file(csorvelin_file, used, fresh, times);
        peer[r] = time_of_file(peer_file, used, fresh, times);
    }
    report("file", input, median(library, SCAN_ROUNDS), median(peer, SCAN_ROUNDS));

    used = fill(records);
    for (int r = 0; r < SCAN_ROUNDS; r++) {
        uint64_t ours, theirs;
        library[r] = time_of_worst(csorvelin_worst, used, &ours, times);
        peer[r] = time_of_worst(peer_worst, used, &theirs, times);
        if (ours != theirs)
            fail("worst");
    }
    report("worst", input, median(library, SCAN_ROUNDS), median(peer, SCAN_ROUNDS));
}

/* ---- load and export */

enum { FIGURES = 1024, LOAD_PASSES = 32 };
static uint64_t to_load[FIGURES];

typedef uint32_t load(uint64_t figure, uint8_t bytes[8]);
typedef uint32_t export(const uint8_t *archive, size_t size, uint64_t used, uint64_t number,
                        uint8_t loads[32]);

/* of so many bits, the first one 1 and the others random */
static uint64_t random_figure(int bits)
{
    return (random64() | UINT64_C(1) << 63) >> (64 - bits);
}

static void agree_on_load(uint64_t figure)
{
    uint8_t ours[CSORVELIN_LOAD_SIZE], theirs[CSORVELIN_LOAD_SIZE];
    memset(ours, 1, sizeof ours);
    memset(theirs, 2, sizeof theirs);
    if (csorvelin_load(figure, ours) != peer_load(figure, theirs)
        || memcmp(ours, theirs, sizeof ours) != 0)
        fail("load");
}

/* What lies around each power of 2, where a carry goes into the exponent, and random figures of each length. Below 2^0
 * come 0 and the last before 2^64. */
static void agree_on_loads(void)
{
    for (int k = 0; k < 64; k++)
        for (uint64_t d = 0; d <= 5000; d++) {
            agree_on_load((UINT64_C(1) << k) + d);
            agree_on_load((UINT64_C(1) << k) - d);
            agree_on_load(random_figure(k + 1));
        }
    for (int i = 0; i < FIGURES; i++)
        agree_on_load(to_load[i]);
}

/* On how many figures a cast is below: it gives a whole number, so that casting back is exact. */
static int cast_below(void)
{
    int below = 0;
    for (int i = 0; i < FIGURES; i++) {
        double nearest;
        uint8_t bytes[CSORVELIN_LOAD_SIZE];
        cast_load(to_load[i], bytes);
        memcpy(&nearest, bytes, sizeof nearest);
        below += nearest < 0x1p64 && (uint64_t)nearest < to_load[i];
    }
    return below;
}

static double time_of_load(load *f)
{
    uint8_t bytes[CSORVELIN_LOAD_SIZE];
    double before = now_ns();
    for (int pass = 0; pass < LOAD_PASSES; pass++)
        for (int i = 0; i < FIGURES; i++)
            f(to_load[i], bytes);
    return (now_ns() - before) / (LOAD_PASSES * FIGURES);
}

static void bench_load(void)
{
    double library[ROUNDS], peer[ROUNDS];
    char input[2][64];
    seed = 2; /* with and without GMP the same figures */
    for (int i = 0; i < FIGURES; i++)
        to_load[i] = random_figure(1 + i % 64);
    agree_on_loads();
    snprintf(input[0], sizeof input[0], "%d figures of 1 to 64 bits", FIGURES);
    snprintf(input[1], sizeof input[1], "the same; the cast is below %d of them", cast_below());
    for (int r = 0; r < ROUNDS; r++) {
        library[r] = time_of_load(csorvelin_load);
        peer[r] = time_of_load(peer_load);
    }
    report("load", input[0], median(library, ROUNDS), median(peer, ROUNDS));
    for (int r = 0; r < ROUNDS; r++) {
        library[r] = time_of_load(csorvelin_load);
        peer[r] = time_of_load(cast_load);
    }
    report("load, beside a cast", input[1], median(library, ROUNDS), median(peer, ROUNDS));
}

static void put_random_figures(uint64_t records)
{
    for (uint64_t k = 0; k < records; k++)
        for (int i = 0; i < 4; i++) {
            uint64_t figure = random_figure(1 + (int)(random64() % 64));
            memcpy(archive + CSORVELIN_RECORD_SIZE * k + CSORVELIN_CASE_SIZE + 8 * i, &figure, 8);
        }
}

static void agree_on_export(size_t length, uint64_t used, uint64_t number)
{
    uint8_t ours[CSORVELIN_LOADS_SIZE], theirs[CSORVELIN_LOADS_SIZE];
    memset(ours, 1, sizeof ours);
    memset(theirs, 2, sizeof theirs);
    if (csorvelin_export(archive, length, used, number, ours)
            != peer_export(archive, length, used, number, theirs)
        || memcmp(ours, theirs, sizeof ours) != 0)
        fail("export");
}

/* Right and damaged archives of few records: every used length and every size around theirs, and each bit of the trailer. */
static void agree_on_exports(void)
{
    for (uint64_t n = 0; n <= 3; n++) {
        uint64_t used = fill(n);
        const uint64_t numbers[] = {0, n - 1, n, n + (UINT64_C(1) << 32), UINT64_MAX};
        put_random_figures(n);
        for (size_t i = 0; i < sizeof numbers / sizeof *numbers; i++) {
            for (uint64_t length = 0; length <= used + CSORVELIN_RECORD_SIZE; length++) {
                agree_on_export(size, length, numbers[i]);
                agree_on_export((size_t)length, used, numbers[i]);
            }
            agree_on_export(size, UINT64_MAX, numbers[i]);
            for (int bit = 0; bit < 8 * CSORVELIN_TRAILER_SIZE; bit++) {
                uint8_t *at = archive + used - CSORVELIN_TRAILER_SIZE + bit / 8;
                *at ^= (uint8_t)(1 << bit % 8);
                agree_on_export(size, used, numbers[i]);
                *at ^= (uint8_t)(1 << bit % 8);
            }
        }
    }
}

static double time_of_export(export *f, uint64_t used, uint64_t records)
{
    uint8_t loads[CSORVELIN_LOADS_SIZE];
    double before = now_ns();
    for (int pass = 0; pass < LOAD_PASSES; pass++)
        for (uint64_t k = 0; k < records; k++)
            if (f(archive, size, used, k, loads) != 0)
                fail("export");
    return (now_ns() - before) / (double)(LOAD_PASSES * records);
}

static void measure_export(const char *input, uint64_t records)
{
    double library[ROUNDS], peer[ROUNDS];
    uint64_t used = CSORVELIN_USED_LENGTH(records);
    for (uint64_t k = 0; k < records; k++)
        agree_on_export(size, used, k);
    for (int r = 0; r < ROUNDS; r++) {
        library[r] = time_of_export(csorvelin_export, used, records);
        peer[r] = time_of_export(peer_export, used, records);
    }
    report("export", input, median(library, ROUNDS), median(peer, ROUNDS));
}

/* Each of 1000 records in turn. */
static void bench_export(void)
{
    agree_on_exports();
    fill(1000);
    measure_export("a figure and three zeros", 1000);
    put_random_figures(1000);
    measure_export("four figures of 1 to 64 bits", 1000);
}

int main(void)
{
    printf("| call | input | library | peer | ratio |\n|---|---|---|---|---|\n");
    seed = 1;
#ifdef WITH_GMP
    bench_work_out();
#endif
    size = CSORVELIN_USED_LENGTH(CSORVELIN_MOST_RECORDS);
    archive = malloc(size);
    if (!archive) {
        fprintf(stderr, "bench: no memory for an archive of %zu bytes\n", size);
        return 1;
    }
    memset(archive, 0, size);
    bench_scans(1000);
    bench_scans(100000);
    bench_scans(CSORVELIN_MOST_RECORDS);
    bench_load();
    bench_export();
    free(archive);
    return 0;
}
