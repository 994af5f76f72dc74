/* The tuned rival: how far a checker can be pushed by hand. Its quick pass is vector code for SSE2, four
   numbers at a time, with passes of their own for days of 23, 24 and 25 periods. */
#include "judge.h"

#define INLINE static inline __attribute__((always_inline))

/* -------------------------------------------------- the quick pass, four numbers at a time */

typedef uint8_t bytes __attribute__((vector_size(16)));
typedef uint16_t words __attribute__((vector_size(16)));
typedef uint32_t four __attribute__((vector_size(16)));
typedef int32_t signed_four __attribute__((vector_size(16)));
typedef uint64_t two __attribute__((vector_size(16)));

#ifdef __clang__
#define EVEN_PRODUCTS(a, b) (((two)(a) & 0xffffffff) * ((two)(b) & 0xffffffff))
#define GREATER_BYTES(a, b) ((four)__builtin_elementwise_max((bytes)(a), (bytes)(b)))
#else
#define EVEN_PRODUCTS(a, b) ((two)__builtin_ia32_pmuludq128((signed_four)(a), (signed_four)(b)))
typedef char chars __attribute__((vector_size(16)));
#define GREATER_BYTES(a, b) ((four)__builtin_ia32_pmaxub128((chars)(a), (chars)(b)))
#endif

INLINE four load4(const uint8_t *p) { four v; memcpy(&v, p, 16); return v; }
INLINE four above(four a, four b) { return (four)((signed_four)a > (signed_four)b); }
INLINE four odd(four v) { return __builtin_shufflevector(v, v, 1, 1, 3, 3); }
INLINE uint64_t sum2(two v) { return v[0] + v[1]; }
INLINE uint64_t sum4(four v) { return (uint64_t)v[0] + v[1] + v[2] + v[3]; }

/* The first n of four numbers, or all, and zeros behind them. */
INLINE four load_up_to_4(const uint8_t *p, size_t n)
{
    four v = {0};
    if (n >= 4) return load4(p);
    if (n == 1) memcpy(&v, p, 4);
    if (n == 2) memcpy(&v, p, 8);
    if (n == 3) memcpy(&v, p, 12);
    return v;
}

/* All ones where a number is not from least to most: one signed comparison after a shift of the range. */
INLINE four outside(four v, uint32_t least, uint32_t most)
{
    return above(v + (0x80000000 - least), (four){0} + (0x80000000 + (most - least)));
}

/* The first n of four pairs of numbers, or all, apart; gives all ones where one is outside. */
INLINE four load_pairs(const uint8_t *p, size_t n, uint32_t least, uint32_t most, four *first, four *second)
{
    four a = load_up_to_4(p, 2 * n), b = {0};
    if (n > 2) b = load_up_to_4(p + 16, 2 * n - 4);
    *first = __builtin_shufflevector(a, b, 0, 2, 4, 6);
    *second = __builtin_shufflevector(a, b, 1, 3, 5, 7);
    return outside(a, least, most) | outside(b, least, most);
}

/* The tables of both sides have the sells' half, then the buys'. */
struct tables {
    union { uint32_t cell[2 * CELLS]; four at[2 * CELLS / 4]; } price; /* the buys' half is inverted */
    union { uint32_t cell[2 * CELLS]; four at[2 * CELLS / 4]; } volume;
    four raised[CELLS / 4], raised_odd[CELLS / 4];                     /* price + MOST, its odd numbers */
};

/* What the walk gathers. A clearing is in doubt at any bit in `some` or `some_word`, any sign in `sign` or
   `sign_word`, any byte of a step's head beyond its limit. */
struct walk {
    four some, sign;
    uint64_t some_word, sign_word;
    uint64_t surplus[2], shortfall;  /* of what blocks sell and what they buy; of what is left */
};

struct step_walk {
    four sign, heads;
    two surplus, buys;               /* the surplus of all steps, of the buys among them */
};

INLINE void start_cells(struct tables *t, size_t at, four price)
{
    t->price.at[at] = price;
    t->price.at[at + CELLS / 4] = ~price;
    t->volume.at[at] = t->volume.at[at + CELLS / 4] = (four){0};
    t->raised[at] = price + MOST;
    t->raised_odd[at] = odd(price + MOST);
}

/* Periods, zone codes and prices; every cell of the tables gets its start, those of no zone or period too. */
INLINE void walk_prices(const struct files *f, size_t h, struct tables *t, struct walk *w)
{
    four least[WIDTH / 4], most[WIDTH / 4];
    for (size_t i = 0; i < h; i += 4) {
        const uint8_t *row = f->rows[PERIOD_ROWS] + 8 * i;
        w->some |= load_pairs(row, h - i, -MOST, MOST, &least[i / 4], &most[i / 4]);
        w->some |= above(least[i / 4], most[i / 4]);
    }
    uint32_t before = 0;
    for (size_t z = 0; z < ZONES; z++) {
        size_t i = 0;
        if (z < f->count[ZONE_ROWS]) {
            uint32_t code = load16(f->rows[ZONE_ROWS] + 2 * z);
            w->some_word |= code <= before;
            before = code;
            for (; i < h; i += 4) {
                four price = load_up_to_4(f->rows[PRICES] + 4 * (z * h + i), h - i);
                w->some |= above(least[i / 4], price) | above(price, most[i / 4]);
                start_cells(t, (z * WIDTH + i) / 4, price);
            }
        }
        for (; i < WIDTH; i += 4) start_cells(t, (z * WIDTH + i) / 4, (four){0});
    }
}

/* Lines and flows: what a flow leaves free each way is never below 0, and is 0 towards the dearer end. */
INLINE void walk_lines(const struct files *f, size_t h, const struct tables *t, four *leaving, struct walk *w)
{
    size_t zones = f->count[ZONE_ROWS];
    for (size_t l = 0; l < f->count[LINE_ROWS]; l++) {
        const uint8_t *row = f->rows[LINE_ROWS] + l * (2 + 8 * h), *flows = f->rows[FLOWS] + 4 * l * h;
        size_t from = row[0] % ZONES * (WIDTH / 4), to = row[1] % ZONES * (WIDTH / 4);
        w->some_word |= (row[0] >= zones) | (row[1] >= zones) | (row[0] == row[1]);
        for (size_t i = 0; i < h; i += 4) {
            four ahead, behind, flow = load_up_to_4(flows + 4 * i, h - i);
            four here = t->price.at[from + i / 4], there = t->price.at[to + i / 4];
            w->some |= load_pairs(row + 2 + 8 * i, h - i, 0, MOST, &ahead, &behind);
            ahead -= flow;
            behind += flow;
            w->some |= (above(there, here) & ahead) | (above(here, there) & behind);
            w->sign |= ahead | behind;
            leaving[from + i / 4] += flow;
            leaving[to + i / 4] -= flow;
        }
    }
}

/* Four steps: three vectors of rows, one of accepted volumes. */
INLINE void walk_4_steps(const uint8_t *rows, const uint8_t *volumes, struct tables *t, struct step_walk *w)
{
    four a = load4(rows), b = load4(rows + 16), c = load4(rows + 32), volume = load4(volumes);
    four low = __builtin_shufflevector(a, b, 1, 2, 4, 5), high = __builtin_shufflevector(b, c, 2, 3, 5, 6);
    four head = __builtin_shufflevector(a, high, 0, 3, 4, 6);
    four limit = __builtin_shufflevector(low, high, 0, 2, 5, 7);
    four quantity = __builtin_shufflevector(low, c, 1, 3, 4, 7);
    w->heads = GREATER_BYTES(w->heads, head);
    w->sign |= outside(limit, -MOST, MOST) | outside(quantity, 1, MOST);

    /* zone + 256 * period, times 2^13 + 1, has the cell in its upper byte; the side follows it */
    words cell = (words)(((four)((words)head * (words){0x2001, 1, 0x2001, 1, 0x2001, 1, 0x2001, 1}) >> 8)
                         & (2 * CELLS - 1));
    const uint32_t *prices = t->price.cell;
    four price = {prices[cell[0]], prices[cell[2]], prices[cell[4]], prices[cell[6]]};
    t->volume.cell[cell[0]] += load32(volumes);
    t->volume.cell[cell[2]] += load32(volumes + 4);
    t->volume.cell[cell[4]] += load32(volumes + 8);
    t->volume.cell[cell[6]] += load32(volumes + 12);

    /* a sell gains price - limit, a buy limit - price: ~price - ~limit */
    four buy = above(head, (four){0} + 0xffff);
    four gain = price - (limit ^ buy);
    four least = quantity & above(gain, (four){0}), most = quantity & ~above((four){0}, gain);
    w->sign |= above(least, volume) | (most - volume);

    four bought = volume & buy;
    w->surplus += EVEN_PRODUCTS(gain, volume) + EVEN_PRODUCTS(odd(gain), odd(volume));
    w->buys += EVEN_PRODUCTS(gain, bought) + EVEN_PRODUCTS(odd(gain), odd(bought));
}

/* All steps. The last few are filled up with sells at the price that take nothing. */
static __attribute__((noinline)) struct step_walk walk_steps(const struct files *f, struct tables *t)
{
    struct step_walk w = {0};
    const uint8_t *rows = f->rows[STEP_ROWS], *volumes = f->rows[VOLUMES];
    size_t count = f->count[STEP_ROWS], left = count % 8;
    for (const uint8_t *end = volumes + 4 * (count - left); volumes != end; rows += 8 * STEP, volumes += 32) {
        walk_4_steps(rows, volumes, t, &w);
        walk_4_steps(rows + 4 * STEP, volumes + 16, t, &w);
    }
    if (left) {
        const uint32_t fill = t->price.cell[0];
        uint32_t row[8][3], volume[8] = {0};
        for (size_t i = 0; i < 8; i++) row[i][0] = 0, row[i][1] = fill, row[i][2] = 1;
        memcpy(row, rows, left * STEP);
        memcpy(volume, volumes, left * 4);
        for (size_t i = 0; i < 8; i += 4)
            walk_4_steps((const uint8_t *)(row + i), (const uint8_t *)(volume + i), t, &w);
    }
    return w;
}

/* What a ratio below FULL takes of each of four quantities, rounded down. The ratio is given in 2^32nds and
   rounded up by at most one of them, which for a quantity up to MOST adds less than a thousandth. */
INLINE four parts_of(four quantity, two share)
{
    return (four)(EVEN_PRODUCTS(quantity, share) >> 32
                  | (EVEN_PRODUCTS(odd(quantity), share) & 0xffffffff00000000));
}

/* Blocks: the worth of a block is taken at raised prices and set against its raised limit. The surpluses are
   gathered in thousandths, which for the most and greatest blocks stays below 2^63. */
INLINE void walk_blocks(const struct files *f, size_t h, struct tables *t, struct walk *w)
{
    const uint64_t beyond = beyond_heads(BLOCK_UPPER, (f->count[ZONE_ROWS] - 1) | 1 << 8 | FULL << 16);
    uint64_t heads = 0, surplus[2] = {0, 0}, shortfall = 0, exact = 0;
    four rounded = {0};
    for (size_t k = 0; k < f->count[BLOCK_ROWS]; k++) {
        const uint8_t *row = f->rows[BLOCK_ROWS] + k * (8 + 4 * h), *quantities = row + 8;
        uint64_t raised = load64(row) + RAISE, limit = raised >> 32, ratio = load16(f->rows[RATIOS] + 2 * k);
        size_t zone = raised % ZONES * (WIDTH / 4), side = raised / 256 % 2, least = load16(row + 2);
        four quantity = {0};
        two worth = {0};
        for (size_t i = 0; i < h; i += 4) {
            four q = load_up_to_4(quantities + 4 * i, h - i);
            w->some |= outside(q, 0, MOST);
            quantity += q;
            worth += EVEN_PRODUCTS(q, t->raised[zone + i / 4]);
            worth += EVEN_PRODUCTS(odd(q), t->raised_odd[zone + i / 4]);
        }
        uint64_t whole = quantity[0] + quantity[1] + quantity[2] + quantity[3];
        uint64_t gain = side ? whole * limit - sum2(worth) : sum2(worth) - whole * limit;
        heads |= raised | (raised + beyond);
        w->sign_word |= weigh(whole, gain, ratio, surplus + side, &shortfall);
        four *volume = t->volume.at + side * (CELLS / 4) + zone;
        if (ratio == FULL) {
            for (size_t i = 0; i < h; i += 4) volume[i / 4] += load_up_to_4(quantities + 4 * i, h - i);
        } else if (ratio) {
            const two share = (two){0} + (uint32_t)((ratio << 32) / FULL + 1);
            for (size_t i = 0; i < h; i += 4) {
                four parts = parts_of(load_up_to_4(quantities + 4 * i, h - i), share);
                volume[i / 4] += parts;
                rounded += parts;
            }
            w->sign_word |= ratio - (least ? least : FULL);
            exact += whole * ratio;
        }
    }
    w->some_word |= (heads & BLOCK_UPPER) | (exact - sum4(rounded) * FULL);
    w->surplus[0] = surplus[0] / FULL;
    w->surplus[1] = surplus[1] / FULL;
    w->shortfall = shortfall / FULL;
}

/* The whole pass: whether the clearing is accepted, and then its totals. */
INLINE int walk_all(const struct files *f, size_t h, four *leaving, uint64_t *totals)
{
    struct tables t;
    struct walk w = {0};
    walk_prices(f, h, &t, &w);
    walk_lines(f, h, &t, leaving, &w);
    struct step_walk steps = walk_steps(f, &t);
    walk_blocks(f, h, &t, &w);

    /* balance; the nets are lifted beyond 16 flows to be unsigned */
    enum { LIFT = 1 << 24 };
    four bought = {0}, raised = {0};
    two worth = {0};
    for (size_t z = 0; z < f->count[ZONE_ROWS]; z++)
        for (size_t i = 0; i < h; i += 4) {
            size_t at = (z * WIDTH + i) / 4;
            four net = leaving[at], demand = t.volume.at[at + CELLS / 4];
            w.some |= t.volume.at[at] - demand - net;
            bought += demand;
            raised += t.raised[at];
            net += LIFT;
            worth += EVEN_PRODUCTS(net, t.raised[at]) + EVEN_PRODUCTS(odd(net), t.raised_odd[at]);
        }
    totals[1] = sum2(steps.buys) + w.surplus[1];
    totals[2] = sum2(steps.surplus - steps.buys) + w.surplus[0];
    totals[3] = sum4(raised) * LIFT - sum2(worth);
    totals[0] = totals[1] + totals[2] + totals[3];
    totals[4] = sum4(bought);
    totals[5] = w.shortfall;

    uint32_t zone = (uint32_t)f->count[ZONE_ROWS] - 1, step = zone | (uint32_t)(h - 1) << 8 | 1 << 16;
    bytes far_steps = (bytes)steps.heads > (bytes)((four){0} + step);
    two doubt = (two)(w.some | (w.sign | steps.sign) >> 31 | (four)far_steps);
    return !(doubt[0] | doubt[1] | w.some_word | w.sign_word >> 63);
}

/* Days have 24 hours, or 23 or 25 at a clock change: those get a pass of their own. */
static int quick(const struct files *f, uint32_t *leaving, uint64_t *totals)
{
    four *fours = (four *)leaving;
    switch (f->count[PERIOD_ROWS]) {
    case 23: return walk_all(f, 23, fours, totals);
    case 24: return walk_all(f, 24, fours, totals);
    case 25: return walk_all(f, 25, fours, totals);
    default: return walk_all(f, f->count[PERIOD_ROWS], fours, totals);
    }
}

uint8_t tuned_check(const uint8_t *day, size_t day_length, const uint8_t *clearing, size_t clearing_length,
                    uint8_t *room, size_t room_length, size_t *place, size_t places)
{
    const struct rest day_rest = {day, day_length}, clearing_rest = {clearing, clearing_length};
    return check_by(quick, day_rest, clearing_rest, room, room_length, place, places);
}
