/* Work out over GMP's mpz: the same decoding and refusals, exact products, rounded up once at the end.
 * The numbers are kept between calls, so that no call allocates; folded constants are made once. */
#include <gmp.h>
#include <stdbool.h>
#include <string.h>

#include "peer.h"

enum { CASE_SIZE = 64, QUANTITIES = 6 };

/* ---- what each kind allows */

struct range {
    uint32_t from, to;
};

struct kind {
    struct range rows, users;
    struct range own_count, row_count; /* in row 0, in the others */
    double own_limits[QUANTITIES];     /* row 0; 0 for an unlisted quantity */
    double row_limits[QUANTITIES];
};

static const struct kind kinds[9] = {
    [1] = {{0, 7}, {0, 0}, {31, 36500}, {0, 0}, {100, 100, 1, 1000}, {100, 100, 1}},
    [2] = {{0, 7}, {0, 0}, {31, 36500}, {0, 0}, {1, 0, 1, 1000, 100, 5000}, {1, 0, 1}},
    [3] = {{0, 7}, {1, 2}, {1, 100}, {0, 0}, {1, 0, 0, 1000, 100, 5000}, {1}},
    [4] = {{0, 1}, {0, 0}, {1, 366}, {0, 0}, {1000000, 1, 1}, {1000000, 1, 1}},
    [5] = {{0, 0}, {0, 0}, {1, 366}, {0, 0}, {1000000, 1, 1, 1, 1}, {0}},
    [6] = {{0, 5}, {0, 0}, {0, 0}, {0, 0}, {1, 1, 0, 10000, 100, 1}, {1, 1}},
    [7] = {{0, 1}, {0, 0}, {1, 100}, {0, 0}, {1, 1, 5, 1, 1}, {1, 1, 5, 1, 1}},
    [8] = {{1, 18}, {1, 3}, {0, 0}, {1, 366}, {0}, {1, 1, 1}},
};

/* Tonnes per year of a polymer by process, 1 to 3; 0 where there is no usage. */
static const uint16_t usages[19][4] = {
    [1] = {0, 0, 23100, 528}, [2] = {0, 0, 2070, 2130},  [3] = {0, 0, 8880, 1610},
    [4] = {0, 988, 0, 2010},  [5] = {0, 744, 3990, 341}, [6] = {0, 605, 389, 623},
    [7] = {0, 0, 0, 2790},    [8] = {0, 78, 0, 428},     [9] = {0, 176, 0, 814},
    [10] = {0, 39, 0, 181},   [11] = {0, 55, 207, 28},   [12] = {0, 0, 52, 84},
    [13] = {0, 0, 62, 69},    [14] = {0, 0, 0, 804},     [15] = {0, 575, 0, 206},
    [16] = {0, 0, 0, 121},    [17] = {0, 0, 0, 469},     [18] = {0, 0, 0, 80},
};

static inline bool within(struct range r, uint32_t x)
{
    return r.from <= x && x <= r.to;
}

/* ---- decoding */

struct decoded {
    uint8_t kind, row, route, user;
    uint32_t count;
    uint64_t patterns[QUANTITIES];
    double values[QUANTITIES];
};

static uint32_t refusal_of_quantities(const struct decoded *c)
{
    const double *limits = c->row ? kinds[c->kind].row_limits : kinds[c->kind].own_limits;
    /* Without a sign bit and below infinity, patterns are at most this. */
    const uint64_t largest = UINT64_C(0x7fefffffffffffff);
    bool not_number = false, not_zero = false, over = false;
    for (int i = 0; i < QUANTITIES; i++) {
        not_number |= c->patterns[i] > largest;
        not_zero |= limits[i] == 0 && c->patterns[i] != 0;
        over |= limits[i] != 0 && !(c->values[i] <= limits[i]);
    }
    if (not_number)
        return 8;
    if (not_zero)
        return 9;
    if (over)
        return 10;
    if (c->kind == 5 && !(c->values[2] + c->values[3] + c->values[4] <= 1))
        return 11;
    if (c->kind == 8 && !(c->values[1] + c->values[2] <= 1))
        return 11;
    return 0;
}

static uint32_t decode(struct decoded *c, const uint8_t *bytes, size_t length)
{
    uint64_t dossier;
    if (length != CASE_SIZE)
        return 1;
    c->kind = bytes[0];
    c->row = bytes[1];
    c->route = bytes[2];
    c->user = bytes[3];
    memcpy(&c->count, bytes + 4, 4);
    memcpy(&dossier, bytes + 8, 8);
    memcpy(c->patterns, bytes + 16, sizeof c->patterns);
    memcpy(c->values, bytes + 16, sizeof c->values);
    if (c->kind < 1 || c->kind > 8)
        return 2;
    const struct kind *k = &kinds[c->kind];
    if (!within(k->rows, c->row))
        return 3;
    bool outdoors = c->kind <= 3 && (c->row == 0 || c->row >= 3);
    if (c->route != 1 && !(c->route == 2 && outdoors))
        return 4;
    if (!within(k->users, c->user))
        return 5;
    if (c->kind == 8 && usages[c->row][c->user] == 0)
        return 31;
    if (!within(c->row ? k->row_count : k->own_count, c->count))
        return 6;
    if (dossier == 0)
        return 7;
    return refusal_of_quantities(c);
}

/* ---- constants: all the numbers of a row's equation, in micrograms, as one fraction */

struct constant {
    unsigned long upper, lower;
};

static struct constant measured[8], unknown[8], application[8], hygiene[6];

static struct constant reduced(unsigned long upper, unsigned long lower)
{
    unsigned long a = upper, b = lower;
    while (b) {
        unsigned long r = a % b;
        a = b;
        b = r;
    }
    return (struct constant){upper / a, lower / a};
}

/* ---- chains of factors: a number over 2^depth */

static mpz_t chain, branch;
static unsigned long depth;

struct dyadic {
    unsigned long significand, depth;
};

static inline struct dyadic split(uint64_t pattern)
{
    const uint64_t hidden = UINT64_C(1) << 52;
    uint64_t field = pattern >> 52, fraction = pattern & (hidden - 1);
    if (field)
        return (struct dyadic){fraction | hidden, 1075 - field};
    return (struct dyadic){fraction, fraction ? 1074 : 0};
}

static inline void times(uint64_t pattern)
{
    struct dyadic q = split(pattern);
    mpz_mul_ui(chain, chain, q.significand);
    depth += q.depth;
}

static inline void start(uint64_t pattern)
{
    struct dyadic q = split(pattern);
    mpz_set_ui(chain, q.significand);
    depth = q.depth;
}

/* 1 - x */
static inline void start_remainder(uint64_t pattern)
{
    struct dyadic q = split(pattern);
    mpz_set_ui(chain, 0);
    mpz_setbit(chain, q.depth);
    mpz_sub_ui(chain, chain, q.significand);
    depth = q.depth;
}

/* x + y */
static inline void start_sum(uint64_t x, uint64_t y)
{
    struct dyadic p = split(x), q = split(y);
    if (p.depth > q.depth) {
        struct dyadic swap = p;
        p = q;
        q = swap;
    }
    mpz_set_ui(chain, p.significand);
    mpz_mul_2exp(chain, chain, q.depth - p.depth);
    mpz_add_ui(chain, chain, q.significand);
    depth = q.depth;
}

/* The number over 2^down * d, rounded up: rounding up twice is rounding up once. */
static inline uint64_t rounded_up(mpz_t number, unsigned long down, unsigned long d)
{
    mpz_cdiv_q_2exp(number, number, down);
    if (d != 1)
        mpz_cdiv_q_ui(number, number, d);
    return mpz_get_ui(number);
}

static inline uint64_t finished(struct constant k)
{
    mpz_mul_ui(chain, chain, k.upper);
    return rounded_up(chain, depth, k.lower);
}

/* ---- the equations */

static uint64_t measured_up(const struct decoded *c)
{
    const uint64_t *p = c->patterns;
    start_sum(p[0], p[1]);
    times(p[2]);
    if (c->row)
        return finished(measured[c->row]);
    times(p[3]);
    return finished((struct constant){4000000000000, c->count});
}

static uint64_t unknown_up(const struct decoded *c)
{
    const uint64_t *p = c->patterns;
    start(p[0]);
    times(p[2]);
    if (c->row)
        return finished(unknown[c->row]);
    times(p[3]);
    times(p[4]);
    times(p[5]);
    return finished((struct constant){4000000000, c->count});
}

static uint64_t application_up(const struct decoded *c)
{
    const uint64_t *p = c->patterns;
    unsigned long lost = c->user == 1 ? 3 : 5;
    start(p[0]);
    if (c->row)
        return finished((struct constant){application[c->row].upper * lost, 1});
    times(p[3]);
    times(p[4]);
    times(p[5]);
    return finished((struct constant){10000 * lost * c->count, 1});
}

static uint64_t sanitary_up(const struct decoded *c)
{
    const uint64_t *p = c->patterns;
    start_remainder(p[1]);
    times(p[0]);
    times(p[2]);
    return finished((struct constant){200000000, c->row ? 260 : c->count});
}

static void formulation_up(const struct decoded *c, uint64_t figures[4])
{
    const uint64_t *p = c->patterns;
    start(p[0]);
    times(p[1]);
    mpz_mul_ui(chain, chain, 1000000000000);
    for (int i = 0; i < 3; i++) {
        struct dyadic q = split(p[2 + i]);
        mpz_mul_ui(branch, chain, q.significand);
        figures[i ? i + 1 : 0] = rounded_up(branch, depth + q.depth, c->count);
    }
}

static uint64_t hygiene_up(const struct decoded *c)
{
    const uint64_t *p = c->patterns;
    start(p[0]);
    times(p[1]);
    if (c->row)
        return finished(hygiene[c->row]);
    times(p[3]);
    times(p[4]);
    times(p[5]);
    return finished((struct constant){10000000000, 1});
}

static uint64_t toilets_up(const struct decoded *c)
{
    const uint64_t *p = c->patterns;
    start_remainder(p[3]);
    times(p[0]);
    times(p[1]);
    times(p[2]);
    times(p[4]);
    return finished((struct constant){2000000000000 * (c->row ? 1 : c->count), 3});
}

static void plastics_up(const struct decoded *c, uint64_t figures[4])
{
    const uint64_t *p = c->patterns;
    start(p[0]);
    mpz_mul_ui(chain, chain, 1000000000000 * usages[c->row][c->user]);
    for (int i = 0; i < 2; i++) {
        struct dyadic q = split(p[2 - i]); /* c to water, b to air */
        mpz_mul_ui(branch, chain, q.significand);
        figures[2 * i] = rounded_up(branch, depth + q.depth, c->count);
    }
}

uint32_t peer_work_out(const uint8_t *case_bytes, size_t case_len, uint64_t figures[4])
{
    struct decoded c;
    memset(figures, 0, 4 * sizeof *figures);
    uint32_t refusal = decode(&c, case_bytes, case_len);
    if (refusal)
        return refusal;
    uint64_t *water = &figures[c.route - 1];
    switch (c.kind) {
    case 1: *water = measured_up(&c); break;
    case 2: *water = unknown_up(&c); break;
    case 3: *water = application_up(&c); break;
    case 4: *water = sanitary_up(&c); break;
    case 5: formulation_up(&c, figures); break;
    case 6: *water = hygiene_up(&c); break;
    case 7: *water = toilets_up(&c); break;
    case 8: plastics_up(&c, figures); break;
    }
    return 0;
}

void peer_start(void)
{
    /* life, area and volume in hundredths, density, houses per day */
    static const struct {
        unsigned long life, area, volume, density, houses;
    } cities[8] = {
        [1] = {3650, 24, 42, 1900, 1},      [2] = {3650, 12, 588, 1000, 1},
        [3] = {1825, 12500, 25, 1400, 3},   [4] = {1825, 557, 25, 1400, 3},
        [5] = {9125, 12500, 400, 1000, 1},  [6] = {1825, 31, 588, 1000, 3},
        [7] = {9125, 3500, 280, 1900, 1},
    };
    /* grams in tenths, uses and share in hundredths */
    static const struct {
        unsigned long grams, uses, share;
    } uses[6] = {[1] = {120, 71, 10}, [2] = {30, 200, 20}, [3] = {5, 100, 80},
                 [4] = {8, 200, 10}, [5] = {100, 300, 5}};
    for (int r = 1; r <= 7; r++) {
        unsigned long paint = cities[r].area * cities[r].volume * cities[r].density;
        measured[r] = reduced(40000000000 * cities[r].area, cities[r].life);
        unknown[r] = reduced(400000 * paint, cities[r].life);
        application[r] = (struct constant){paint * cities[r].houses, 1};
    }
    for (int r = 1; r <= 5; r++)
        hygiene[r] = (struct constant){100000 * uses[r].grams * uses[r].uses * uses[r].share, 1};
    mpz_init2(chain, 4096);
    mpz_init2(branch, 4096);
}
