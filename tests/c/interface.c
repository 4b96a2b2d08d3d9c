/* Calls every function of csorvelin.h and prints what each gives, and each
 * constant beside what the library itself has. The output is compared with
 * interface.expected, whose figures are exact values rounded up, and whose
 * loads are the least patterns whose exact values are not below the figure. */
#include <inttypes.h>
#include <stdbool.h>
#include <stdio.h>
#include <stdlib.h>
#include <string.h>

#include "csorvelin.h"

struct inputs {
    uint8_t kind, row, route, user;
    uint32_t count;
    uint64_t dossier;
    double quantities[6];
};

static void put_little_endian(uint8_t *to, uint64_t x, int width)
{
    for (int i = 0; i < width; i++)
        to[i] = (uint8_t)(x >> (8 * i));
}

static uint64_t get_little_endian(const uint8_t *from, int width)
{
    uint64_t x = 0;
    for (int i = width; i-- > 0;)
        x = x << 8 | from[i];
    return x;
}

static uint64_t pattern_of(double x)
{
    uint64_t pattern;
    memcpy(&pattern, &x, sizeof pattern);
    return pattern;
}

static double double_of(uint64_t pattern)
{
    double x;
    memcpy(&x, &pattern, sizeof x);
    return x;
}

static void make_case(uint8_t bytes[CSORVELIN_CASE_SIZE], const struct inputs *in)
{
    bytes[0] = in->kind;
    bytes[1] = in->row;
    bytes[2] = in->route;
    bytes[3] = in->user;
    put_little_endian(bytes + 4, in->count, 4);
    put_little_endian(bytes + 8, in->dossier, 8);
    for (int i = 0; i < 6; i++)
        put_little_endian(bytes + 16 + 8 * i, pattern_of(in->quantities[i]), 8);
}

/* The pencil cases, then plastics: LDPE in a partially open process. */
static const struct inputs pencil[] = {
    {4, 1, 1, 0, 0, 7, {100, 0, 1}},
    {2, 3, 1, 0, 0, 7, {1.0 / 64, 0, 1}},
    {3, 3, 1, 1, 0, 7, {1.0 / 64}},
    {3, 7, 1, 2, 0, 7, {1.0 / 64}},
    {1, 4, 1, 0, 0, 7, {1.0 / 1024, 1.0 / 512, 1}},
    {6, 1, 1, 0, 0, 7, {1.0 / 64, 0.5}},
    {7, 1, 1, 0, 0, 7, {1.0 / 32, 0.25, 1, 0, 1}},
    {5, 0, 1, 0, 250, 7, {16, 0.125, 0.5, 0.25, 0.125}},
    {5, 0, 1, 0, 250, 7, {16, 0.125, 0.75, 0.25, 0x1p-52}},
    {5, 0, 1, 0, 250, 7, {16, 0.125, 0.75, 0.25, 0x1p-54}},
    {4, 1, 1, 0, 0, 7, {100, 1, 1}},
    {8, 1, 1, 2, 250, 7, {0.5, 0.25, 0.125}},
};
static const char *const pencil_names[] = {"P1", "P2", "P3", "P4", "P5", "P6", "P7", "P8", "P9",
                                           "P9 with e 2^-54", "P10", "plastics"};
static const struct inputs *const plastics = &pencil[11];

/* A constant's name and value. */
#define NAMED(constant) #constant, constant

/* A case for each refusal from its fields, right but for that. */
static const struct {
    const char *name;
    uint32_t refusal;
    struct inputs in;
} refused[] = {
    {NAMED(CSORVELIN_KIND_UNKNOWN), {9, 1, 1, 0, 0, 7, {100, 0, 1}}},
    {NAMED(CSORVELIN_ROW_UNKNOWN), {4, 2, 1, 0, 0, 7, {100, 0, 1}}},
    {NAMED(CSORVELIN_ROUTE_NOT_ALLOWED), {2, 2, 2, 0, 0, 7, {1, 0, 1}}},
    {NAMED(CSORVELIN_USER_NOT_ALLOWED), {4, 1, 1, 1, 0, 7, {100, 0, 1}}},
    {NAMED(CSORVELIN_NO_USAGE), {8, 1, 1, 1, 250, 7, {0.5, 0.25, 0.125}}},
    {NAMED(CSORVELIN_COUNT_NOT_ALLOWED), {1, 0, 1, 0, 30, 7, {1, 1, 1, 1}}},
    {NAMED(CSORVELIN_DOSSIER_ZERO), {4, 1, 1, 0, 0, 0, {100, 0, 1}}},
    {NAMED(CSORVELIN_NOT_A_NUMBER), {4, 1, 1, 0, 0, 7, {100, -0.0, 1}}},
    {NAMED(CSORVELIN_UNLISTED_NOT_ZERO), {4, 1, 1, 0, 0, 7, {100, 0, 1, 1}}},
    {NAMED(CSORVELIN_OVER_LIMIT), {4, 1, 1, 0, 0, 7, {1000001, 0, 1}}},
    {NAMED(CSORVELIN_FRACTIONS_OVER_ONE), {5, 0, 1, 0, 250, 7, {16, 1, 1, 0x1p-52, 0}}},
    {NAMED(CSORVELIN_FRACTIONS_OVER_ONE), {8, 1, 1, 2, 250, 7, {0.5, 1, 0x1p-52}}},
};

static void print_worked(const char *name, const uint8_t *bytes, size_t length)
{
    uint64_t f[4] = {99, 99, 99, 99};
    uint32_t refusal = csorvelin_work_out(bytes, length, f);
    printf("%s: refusal %" PRIu32 ", figures %" PRIu64 " %" PRIu64 " %" PRIu64 " %" PRIu64 "\n",
           name, refusal, f[0], f[1], f[2], f[3]);
}

static void work_out_all(void)
{
    uint8_t bytes[CSORVELIN_CASE_SIZE];
    for (size_t i = 0; i < sizeof pencil / sizeof *pencil; i++) {
        make_case(bytes, &pencil[i]);
        print_worked(pencil_names[i], bytes, sizeof bytes);
    }
    make_case(bytes, &pencil[0]);
    print_worked("63 bytes", bytes, sizeof bytes - 1);
    for (size_t i = 0; i < sizeof refused / sizeof *refused; i++) {
        make_case(bytes, &refused[i].in);
        print_worked("refused", bytes, sizeof bytes);
    }
}

/* A buffer and a place for loads with guard bytes on both sides, and a copy of
 * it all to compare with. Neither begins at a multiple of 4, since bytes need
 * no alignment. */
enum { GUARD = 9, SIZE = CSORVELIN_RECORD_SIZE * 3 + CSORVELIN_TRAILER_SIZE, LOADS = SIZE + GUARD };
static _Alignas(8) uint8_t memory[GUARD + LOADS + CSORVELIN_LOADS_SIZE + GUARD];
static uint8_t copy[sizeof memory];
static uint8_t *const archive = memory + GUARD;
static uint8_t *const loads = memory + GUARD + LOADS;

/* Offsets are counted from the archive's first byte. */
static const char *outside(size_t from, size_t to)
{
    bool same = memcmp(memory, copy, GUARD + from) == 0
                && memcmp(archive + to, copy + GUARD + to, sizeof memory - GUARD - to) == 0;
    memcpy(copy, memory, sizeof memory);
    return same ? "rest unchanged" : "REST CHANGED";
}

static uint64_t file(size_t size, uint64_t used, const struct inputs *in)
{
    uint8_t bytes[CSORVELIN_CASE_SIZE];
    uint64_t before = used, number = 99;
    make_case(bytes, in);
    uint32_t refusal = csorvelin_file(archive, size, &used, bytes, sizeof bytes, &number);
    size_t from = refusal ? 0 : (size_t)before - CSORVELIN_TRAILER_SIZE;
    printf("file: refusal %" PRIu32 ", number %" PRIu64 ", used %" PRIu64 ", %s\n", refusal,
           number, used, outside(from, refusal ? 0 : (size_t)used));
    return used;
}

static void empty(size_t size)
{
    uint64_t used = 99;
    uint32_t refusal = csorvelin_empty(archive, size, &used);
    printf("empty: refusal %" PRIu32 ", used %" PRIu64 ", %s\n", refusal, used,
           outside(0, refusal ? 0 : CSORVELIN_TRAILER_SIZE));
}

static void show(uint64_t used, uint64_t number)
{
    uint64_t start = 99, length = 99;
    uint32_t refusal = csorvelin_show(archive, SIZE, used, number, &start, &length);
    printf("show: refusal %" PRIu32 ", start %" PRIu64 ", length %" PRIu64, refusal, start, length);
    if (length == CSORVELIN_RECORD_SIZE)
        printf(", kind %d, dossier %" PRIu64 ", stp %" PRIu64, archive[start],
               get_little_endian(archive + start + 8, 8), get_little_endian(archive + start + 64, 8));
    printf(", %s\n", outside(0, 0));
}

static void worst(uint64_t used, uint64_t compartment)
{
    uint64_t number = 99;
    uint32_t refusal = csorvelin_worst(archive, SIZE, used, compartment, &number);
    printf("worst: refusal %" PRIu32 ", number %" PRIu64 ", %s\n", refusal, number, outside(0, 0));
}

static void mark_loads(void)
{
    memset(loads, 0xa5, CSORVELIN_LOADS_SIZE);
    memcpy(copy, memory, sizeof memory);
}

/* Each load by its bytes, then each as the number that it is. */
static void print_loads(size_t size)
{
    printf(", bytes");
    for (size_t i = 0; i < size; i++)
        printf("%s%02x", i % CSORVELIN_LOAD_SIZE == 0 ? " " : "", loads[i]);
    printf(", read back");
    for (size_t i = 0; i < size; i += CSORVELIN_LOAD_SIZE)
        printf(" %.0f", double_of(get_little_endian(loads + i, 8)));
    printf(", %s\n", outside(LOADS, LOADS + size));
}

static void load(uint64_t figure)
{
    mark_loads();
    uint32_t refusal = csorvelin_load(figure, loads);
    printf("load of %" PRIu64 ": refusal %" PRIu32, figure, refusal);
    print_loads(CSORVELIN_LOAD_SIZE);
}

static void export(size_t size, uint64_t used, uint64_t number)
{
    mark_loads();
    uint32_t refusal = csorvelin_export(archive, size, used, number, loads);
    printf("export: refusal %" PRIu32, refusal);
    print_loads(CSORVELIN_LOADS_SIZE);
}

#define POWER(k) (UINT64_C(1) << (k))

/* Figures that are doubles, that lie between two, and whose carry goes into the
 * exponent; 0x0123456789abcdef shows the order of the bytes. */
static const uint64_t figures_to_load[] = {
    0, 1, 2, 3, 76923077,
    POWER(53) - 1, POWER(53), POWER(53) + 1, POWER(53) + 2, POWER(53) + 3,
    POWER(54) - 1, POWER(54), POWER(54) + 1, POWER(54) + 2, POWER(54) + 4,
    UINT64_C(0x0123456789abcdef), UINT64_C(1000000000000000000), UINT64_C(1000000000000000001),
    POWER(63) - 1, POWER(63), POWER(63) + 1,
    UINT64_MAX - 4095, UINT64_MAX - 4094, UINT64_MAX - 2047, UINT64_MAX - 2046, UINT64_MAX,
};

static void load_all(void)
{
    for (size_t i = 0; i < sizeof figures_to_load / sizeof *figures_to_load; i++)
        load(figures_to_load[i]);
}

/* Figures from outside, beside bytes that are no case. */
static void overwrite(uint64_t number, const uint64_t figures[4])
{
    uint8_t *record = archive + CSORVELIN_RECORD_SIZE * number;
    memset(record, 0xff, CSORVELIN_CASE_SIZE);
    for (int i = 0; i < 4; i++)
        put_little_endian(record + CSORVELIN_CASE_SIZE + 8 * i, figures[i], 8);
}

static void print_trailer(uint64_t used)
{
    const uint8_t *trailer = archive + used - CSORVELIN_TRAILER_SIZE;
    printf("trailer: distance %" PRIu64 ", records %" PRIu64 ", edition %" PRIu64 "\n",
           get_little_endian(trailer, 8), get_little_endian(trailer + 8, 4),
           get_little_endian(trailer + 12, 4));
}

static void compare(const char *name, uint64_t constant, uint64_t answer)
{
    printf("%s is %" PRIu64 ", the library has %" PRIu64 "%s\n", name, constant, answer,
           constant == answer ? "" : ": NOT THE SAME");
}

#define COMPARE(constant, answer) compare(#constant, constant, answer)

/* A case for each compartment, with a figure in that one alone. */
static const struct {
    const char *name;
    uint64_t compartment;
    struct inputs in;
} alone[] = {
    {NAMED(CSORVELIN_STP), {5, 0, 1, 0, 250, 1, {16, 0.125, 1, 0, 0}}},
    {NAMED(CSORVELIN_SURFACE_WATER), {2, 3, 2, 0, 0, 2, {1.0 / 64, 0, 1}}},
    {NAMED(CSORVELIN_AIR), {5, 0, 1, 0, 250, 3, {16, 0.125, 0, 1, 0}}},
    {NAMED(CSORVELIN_SOIL), {5, 0, 1, 0, 250, 4, {16, 0.125, 0, 0, 1}}},
};

/* Room for these, whatever the header says. */
static uint8_t room[1024];

static uint32_t worked(const struct inputs *in, uint64_t figures[4])
{
    uint8_t bytes[CSORVELIN_CASE_SIZE];
    make_case(bytes, in);
    return csorvelin_work_out(bytes, sizeof bytes, figures);
}

static uint32_t filed(size_t size, uint64_t *used, const struct inputs *in)
{
    uint8_t bytes[CSORVELIN_CASE_SIZE];
    uint64_t number;
    make_case(bytes, in);
    return csorvelin_file(room, size, used, bytes, sizeof bytes, &number);
}

/* The one length that is not refused as 0 is; were there more, their sum. */
static uint64_t case_size(void)
{
    static const uint8_t bytes[256];
    uint64_t figures[4], sum = 0;
    uint32_t none = csorvelin_work_out(bytes, 0, figures);
    for (size_t length = 0; length <= sizeof bytes; length++)
        if (csorvelin_work_out(bytes, length, figures) != none)
            sum += length;
    return sum;
}

/* How many bytes of the room are 0, which was filled with another before. */
static uint64_t zeros_written(void)
{
    uint64_t count = 0;
    for (size_t i = 0; i < sizeof room; i++)
        count += room[i] == 0;
    return count;
}

/* The one compartment in which a record is the worst and its case has a
 * figure; were there more, their sum. */
static uint64_t compartment_of(uint64_t used, uint64_t record, const struct inputs *in)
{
    uint64_t figures[4], number, sum = 0;
    worked(in, figures);
    for (uint64_t m = 1; m <= 4; m++)
        if (csorvelin_worst(room, sizeof room, used, m, &number) == 0 && number == record
            && figures[m - 1] != 0)
            sum += m;
    return sum;
}

/* The most records that a trailer may name, by halving. */
static uint64_t most_records(void)
{
    uint64_t low = 0, high = 1 << 20, start, length;
    size_t size = (size_t)CSORVELIN_USED_LENGTH(high);
    uint8_t *large = calloc(size, 1); /* pages that nobody writes take no memory */
    while (large != NULL && high - low > 1) {
        uint64_t n = (low + high) / 2, used = CSORVELIN_USED_LENGTH(n);
        uint8_t *trailer = large + used - CSORVELIN_TRAILER_SIZE;
        put_little_endian(trailer, CSORVELIN_RECORD_SIZE * n, 8);
        put_little_endian(trailer + 8, n, 4);
        put_little_endian(trailer + 12, 1, 4);
        if (csorvelin_show(large, size, used, n - 1, &start, &length) == 0)
            low = n;
        else
            high = n;
    }
    free(large);
    return low;
}

/* Each constant of the header, and what the library gives in its place. */
static void compare_constants(void)
{
    static const uint8_t zeros[64];
    uint64_t figures[4], used, number, start, length;
    unsigned version[3];
    char more;
    int parts = sscanf(CSORVELIN_VERSION, "%u.%u.%u%c", &version[0], &version[1], &version[2], &more);
    printf("CSORVELIN_VERSION is %s\n", parts == 3 ? "three numbers" : "NOT THREE NUMBERS");

    COMPARE(CSORVELIN_CASE_SIZE, case_size());
    COMPARE(CSORVELIN_ACCEPTED, worked(&pencil[0], figures));
    COMPARE(CSORVELIN_CASE_SIZE_WRONG, csorvelin_work_out(zeros, 1, figures));
    for (size_t i = 0; i < sizeof refused / sizeof *refused; i++)
        compare(refused[i].name, refused[i].refusal, worked(&refused[i].in, figures));

    memset(room, 0xa5, sizeof room);
    COMPARE(CSORVELIN_ACCEPTED, csorvelin_load(0, room));
    COMPARE(CSORVELIN_LOAD_SIZE, zeros_written());
    memset(room, 0xa5, sizeof room);
    COMPARE(CSORVELIN_BROKEN, csorvelin_export(zeros, sizeof zeros, sizeof zeros, 0, room));
    COMPARE(CSORVELIN_LOADS_SIZE, zeros_written());

    COMPARE(CSORVELIN_NO_SPACE, csorvelin_empty(room, 0, &used));
    csorvelin_empty(room, sizeof room, &used);
    COMPARE(CSORVELIN_TRAILER_SIZE, used);
    COMPARE(CSORVELIN_USED_LENGTH(0), used);
    COMPARE(CSORVELIN_BROKEN, csorvelin_show(zeros, sizeof zeros, used, 0, &start, &length));
    COMPARE(CSORVELIN_NO_RECORD, csorvelin_show(room, sizeof room, used, 0, &start, &length));
    COMPARE(CSORVELIN_NO_RECORD, csorvelin_export(room, sizeof room, used, 0, loads));
    COMPARE(CSORVELIN_NO_SPACE, filed((size_t)used, &used, &alone[0].in));
    for (size_t i = 0; i < sizeof alone / sizeof *alone; i++)
        filed(sizeof room, &used, &alone[i].in);
    COMPARE(CSORVELIN_USED_LENGTH(1 + 3), used);
    COMPARE(CSORVELIN_HELD, filed(sizeof room, &used, &alone[0].in));
    csorvelin_show(room, sizeof room, used, 3, &start, &length);
    COMPARE(CSORVELIN_RECORD_SIZE, length);
    COMPARE(CSORVELIN_RECORD_SIZE, start / 3);
    COMPARE(CSORVELIN_COMPARTMENT_UNKNOWN, csorvelin_worst(room, sizeof room, used, 5, &number));
    for (size_t i = 0; i < sizeof alone / sizeof *alone; i++)
        compare(alone[i].name, alone[i].compartment, compartment_of(used, i, &alone[i].in));
    COMPARE(CSORVELIN_MOST_RECORDS, most_records());
}

int main(void)
{
    compare_constants();
    work_out_all();

    memset(memory, 0xa5, sizeof memory);
    memcpy(copy, memory, sizeof memory);
    load_all();

    show(CSORVELIN_USED_LENGTH(0), 0);
    export(SIZE, CSORVELIN_USED_LENGTH(0), 0);
    empty(15);
    empty(SIZE);
    uint64_t used = CSORVELIN_USED_LENGTH(0);
    print_trailer(used);
    show(used, 0);
    worst(used, CSORVELIN_STP);
    export(SIZE, used, 0);

    used = file(SIZE, used, &pencil[0]);
    show(used, 0);
    used = file(SIZE, used, &pencil[0]);
    used = file(SIZE, used, &refused[0].in);
    used = file(SIZE, used, &pencil[6]);
    used = file(SIZE - 1, used, &pencil[7]);
    used = file(SIZE, used, &pencil[7]);
    used = file(SIZE, used, &pencil[1]);
    print_trailer(used);

    show(used, 2);
    show(used, 3);
    show(used, UINT64_MAX);
    worst(used, CSORVELIN_STP);
    worst(used, CSORVELIN_SURFACE_WATER);
    worst(used, CSORVELIN_SOIL);
    worst(used, 0);
    worst(used, UINT64_MAX);
    worst(used - 1, CSORVELIN_STP);
    show(UINT64_MAX, 0);
    file(SIZE, UINT64_MAX, &pencil[1]);

    for (uint64_t number = 0; number < 3; number++)
        export(SIZE, used, number);
    export(SIZE, used, 3);
    export(SIZE, used, POWER(32));
    export(SIZE, used, UINT64_MAX);
    export(SIZE, used - 1, 0);
    export(SIZE, used + 1, 3);
    export(SIZE, 0, 0);
    export(SIZE, UINT64_MAX, UINT64_MAX);
    export((size_t)used - 1, used, 0);
    overwrite(0, (const uint64_t[4]){UINT64_MAX, POWER(53) + 1, UINT64_C(0x0123456789abcdef), 1});
    overwrite(1, (const uint64_t[4]){0, 0, 0, 0});
    for (uint64_t number = 0; number < 3; number++)
        export(SIZE, used, number);
    overwrite(2, (const uint64_t[4]){0, POWER(63) + 1, UINT64_MAX - 2047, UINT64_MAX - 2046});
    export(SIZE, used, 2);
    empty(SIZE);

    used = file(SIZE, CSORVELIN_USED_LENGTH(0), plastics);
    show(used, 0);
    export(SIZE, used, 0);
    used = file(SIZE, used, plastics);
    /* without a usage, and T is 0 */
    file(SIZE, used, &(const struct inputs){8, 1, 1, 1, 0, 7, {0.5, 0.25, 0.125}});
    return 0;
}
