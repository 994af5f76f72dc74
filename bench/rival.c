/* The rival: a checker in portable C, written for speed and to be kept. Its quick pass walks the rows once,
   joins all tests without a branch and gathers sums and nets on the way. Rows with a number for each period
   are copied into rows of WIDTH numbers with zeros behind, so that loops over periods run in whole steps of
   four and the compiler can take several periods at once. */
#include "judge.h"

/* The tables of both sides have the sells' half, then the buys'. A step gains (limit ^ flip) + shift: that is
   price - limit for a sell, limit - price for a buy. Prices raised by MOST are unsigned. */
struct tables {
    uint32_t price[CELLS];
    uint64_t even[CELLS / 2], odd[CELLS / 2]; /* the raised prices of even and of odd periods */
    uint32_t flip[2 * CELLS], shift[2 * CELLS], volume[2 * CELLS];
    uint64_t surplus[2 * CELLS];
};

/* What the walk gathers. A clearing is in doubt at any bit in `some`, any sign in `sign` or `sign_word`. */
struct walk {
    uint64_t some, sign_word;
    uint32_t sign;
    uint64_t surplus[2], shortfall; /* of what blocks sell and what they buy; of what is left */
};

/* All ones if a is above b, as signed numbers, else 0. */
static inline uint32_t above(uint32_t a, uint32_t b) { return (int32_t)a > (int32_t)b ? 0xffffffff : 0; }

/* A row of numbers, two of them at a time as the halves of a word. */
struct row {
    uint64_t upper, sum, worth; /* upper bits if one is beyond MOST; both halves' sums; times raised prices */
};

static inline struct row walk_row(const uint32_t *numbers, size_t fours, const uint64_t *even,
                                  const uint64_t *odd)
{
    const uint64_t beyond = 0x7fffffff - MOST;
    struct row row = {0, 0, 0};
    for (size_t i = 0; i < 2 * fours; i++) {
        uint64_t pair = load64((const uint8_t *)(numbers + 2 * i));
        row.upper |= pair | (pair + (beyond << 32 | beyond));
        row.sum += pair;
        row.worth += (uint64_t)(uint32_t)pair * (uint32_t)even[i] + (pair >> 32) * (uint32_t)odd[i];
    }
    return row;
}

/* The start of the tables for one zone. */
static inline void start_cells(struct tables *t, size_t cells, const uint32_t *price)
{
    for (size_t i = 0; i < WIDTH; i++) {
        size_t sell = cells + i, buy = CELLS + sell;
        t->price[sell] = price[i];
        t->shift[sell] = price[i] + 1;
        t->shift[buy] = -price[i];
        t->flip[sell] = 0xffffffff;
        t->flip[buy] = 0;
        t->volume[sell] = t->volume[buy] = 0;
        t->surplus[sell] = t->surplus[buy] = 0;
    }
    for (size_t i = 0; i < WIDTH / 2; i++) {
        t->even[cells / 2 + i] = price[2 * i] + MOST;
        t->odd[cells / 2 + i] = price[2 * i + 1] + MOST;
    }
}

/* Periods, zone codes and prices; every cell of the tables gets its start, those of no zone or period too. */
static inline void walk_prices(const struct files *f, struct tables *t, struct walk *w)
{
    size_t h = f->count[PERIOD_ROWS];
    uint32_t bounds[2 * WIDTH] = {0}, least[WIDTH], most[WIDTH], some = 0, before = 0;
    memcpy(bounds, f->rows[PERIOD_ROWS], 8 * h);
    for (size_t i = 0; i < WIDTH; i++) {
        least[i] = bounds[2 * i];
        most[i] = bounds[2 * i + 1];
        some |= above(least[i], most[i]) | above((uint32_t)-MOST, least[i]) | above(most[i], MOST);
    }
    for (size_t z = 0; z < ZONES; z++) {
        uint32_t price[WIDTH] = {0};
        if (z < f->count[ZONE_ROWS]) {
            uint32_t code = load16(f->rows[ZONE_ROWS] + 2 * z);
            some |= code <= before;
            before = code;
            memcpy(price, f->rows[PRICES] + 4 * z * h, 4 * h);
            for (size_t i = 0; i < WIDTH; i++) some |= above(least[i], price[i]) | above(price[i], most[i]);
        }
        start_cells(t, z * WIDTH, price);
    }
    w->some |= some;
}

/* Lines and flows: what a flow leaves free each way is never below 0, and is 0 towards the dearer end. */
static inline void walk_lines(const struct files *f, const struct tables *t, uint32_t *leaving,
                              struct walk *w)
{
    size_t h = f->count[PERIOD_ROWS], zones = f->count[ZONE_ROWS];
    uint32_t capacity[2 * WIDTH] = {0}, flow[WIDTH] = {0}, some = 0, sign = 0;
    for (size_t l = 0; l < f->count[LINE_ROWS]; l++) {
        const uint8_t *row = f->rows[LINE_ROWS] + l * (2 + 8 * h);
        size_t from = row[0] % ZONES * WIDTH, to = row[1] % ZONES * WIDTH;
        some |= (row[0] >= zones) | (row[1] >= zones) | (row[0] == row[1]);
        memcpy(capacity, row + 2, 8 * h);
        memcpy(flow, f->rows[FLOWS] + 4 * l * h, 4 * h);
        for (size_t i = 0; i < WIDTH; i++) {
            uint32_t ahead = capacity[2 * i], behind = capacity[2 * i + 1];
            uint32_t here = t->price[from + i], there = t->price[to + i];
            sign |= ahead | behind | (MOST - ahead) | (MOST - behind);
            ahead -= flow[i];
            behind += flow[i];
            sign |= ahead | behind;
            some |= (above(there, here) & ahead) | (above(here, there) & behind);
        }
        for (size_t i = 0; i < WIDTH; i++) leaving[from + i] += flow[i];
        for (size_t i = 0; i < WIDTH; i++) leaving[to + i] -= flow[i];
    }
    w->some |= some;
    w->sign |= sign;
}

/* What the walk over the steps gathers beside the tables. */
struct step_walk {
    uint64_t upper, sign, some;
    uint32_t most; /* the greatest quantity less 1 */
};

/* One step. Its volume has to be 0 where it gains less than nothing, and to leave no rest where it gains. */
static inline void walk_step(const uint8_t *row, const uint8_t *volume_row, uint64_t beyond, struct tables *t,
                             struct step_walk *w)
{
    uint64_t word = load64(row), raised = word + RAISE;
    uint64_t quantity = load32(row + 8), volume = load32(volume_row), rest = quantity - volume;
    uint32_t less = (uint32_t)quantity - 1;
    w->upper |= raised | (raised + beyond);
    w->most = less > w->most ? less : w->most;
    w->sign |= rest;

    /* times 2^28 + 2^15 the head has its side, zone and period in the uppermost bits; the last 1 changes
       nothing there and keeps it one multiplication */
    size_t cell = (uint32_t)word * 0x10008001 >> 23;
    uint32_t gain = (load32(row + 4) ^ t->flip[cell]) + t->shift[cell];
    uint64_t zero = (int32_t)gain < 0 ? volume : rest;
    w->some |= zero * gain;
    t->volume[cell] += (uint32_t)volume;
    t->surplus[cell] += volume * gain;
}

/* All steps, two at a time. */
static inline void walk_steps(const struct files *f, struct tables *t, struct walk *w)
{
    const uint64_t most = (f->count[ZONE_ROWS] - 1) | (f->count[PERIOD_ROWS] - 1) << 8 | 1 << 16;
    const uint64_t beyond = beyond_heads(STEP_UPPER, most);
    const uint8_t *row = f->rows[STEP_ROWS], *volume = f->rows[VOLUMES];
    const uint8_t *last = volume + 8 * (f->count[STEP_ROWS] / 2);
    struct step_walk s = {0, 0, 0, 0};
    for (; volume != last; row += 2 * STEP, volume += 8) {
        walk_step(row, volume, beyond, t, &s);
        walk_step(row + STEP, volume + 4, beyond, t, &s);
    }
    if (f->count[STEP_ROWS] % 2) walk_step(row, volume, beyond, t, &s);
    w->sign_word |= s.sign;
    w->some |= s.some | (s.most >= MOST) | (s.upper & STEP_UPPER);
}

/* Adds to a row of volumes what a ratio below FULL takes of the quantities, rounded down, and gives both
   halves' sums of that. The ratio is taken in 2^32nds and rounded up by at most one of them, which for a
   quantity up to MOST adds less than a thousandth. */
static inline uint64_t add_parts(uint32_t *volume, const uint32_t *quantities, size_t fours, uint64_t ratio)
{
    const uint32_t share = (uint32_t)((ratio << 32) / FULL + 1);
    uint64_t sums = 0;
    for (size_t i = 0; i < 2 * fours; i++) {
        uint64_t pair = load64((const uint8_t *)(quantities + 2 * i));
        uint64_t even = (uint64_t)(uint32_t)pair * share, odd = (pair >> 32) * share;
        uint64_t parts = even >> 32 | (odd & 0xffffffff00000000);
        uint64_t volumes = load64((const uint8_t *)(volume + 2 * i)) + parts;
        memcpy(volume + 2 * i, &volumes, 8);
        sums += parts;
    }
    return sums;
}

/* Blocks: the worth of a block is taken at raised prices and set against its raised limit. The surpluses are
   gathered in thousandths, which for the most and greatest blocks stays below 2^63. */
static inline void walk_blocks(const struct files *f, struct tables *t, struct walk *w)
{
    const uint64_t beyond = beyond_heads(BLOCK_UPPER, (f->count[ZONE_ROWS] - 1) | 1 << 8 | FULL << 16);
    size_t h = f->count[PERIOD_ROWS], fours = (h + 3) / 4;
    uint32_t quantities[WIDTH] = {0};
    uint64_t upper = 0, heads = 0, surplus[2] = {0, 0}, shortfall = 0;
    for (size_t k = 0; k < f->count[BLOCK_ROWS]; k++) {
        const uint8_t *row = f->rows[BLOCK_ROWS] + k * (8 + 4 * h);
        uint64_t raised = load64(row) + RAISE, ratio = load16(f->rows[RATIOS] + 2 * k);
        size_t cells = raised % ZONES * WIDTH, side = raised / 256 % 2, least = load16(row + 2);
        memcpy(quantities, row + 8, 4 * h);
        struct row q = walk_row(quantities, fours, t->even + cells / 2, t->odd + cells / 2);
        uint64_t whole = (uint32_t)q.sum + (q.sum >> 32), asked = whole * (raised >> 32);
        uint64_t gain = side ? asked - q.worth : q.worth - asked;
        upper |= q.upper;
        heads |= raised | (raised + beyond);
        w->sign_word |= weigh(whole, gain, ratio, surplus + side, &shortfall);
        uint32_t *volume = t->volume + side * CELLS + cells;
        if (ratio == FULL) {
            for (size_t i = 0; i < WIDTH; i++) volume[i] += quantities[i];
        } else if (ratio) {
            uint64_t sums = add_parts(volume, quantities, fours, ratio);
            w->sign_word |= ratio - (least ? least : FULL);
            w->some |= whole * ratio - ((uint32_t)sums + (sums >> 32)) * FULL;
        }
    }
    w->some |= (upper & 0x8000000080000000) | (heads & BLOCK_UPPER);
    w->surplus[0] += surplus[0] / FULL;
    w->surplus[1] += surplus[1] / FULL;
    w->shortfall += shortfall / FULL;
}

/* Balance, and the totals; the nets are lifted beyond 16 flows to be unsigned. */
static inline void walk_balance(const struct files *f, const struct tables *t, const uint32_t *leaving,
                                struct walk *w, uint64_t *totals)
{
    enum { LIFT = 1 << 24 };
    const size_t fours = (f->count[PERIOD_ROWS] + 3) / 4;
    uint32_t some = 0, bought = 0, lifted[CELLS];
    uint64_t worth = 0, raised = 0;
    for (size_t i = 0; i < CELLS; i++) {
        uint32_t net = leaving[i], demand = t->volume[CELLS + i];
        some |= t->volume[i] - demand - net;
        bought += demand;
        lifted[i] = net + LIFT;
        w->surplus[0] += t->surplus[i];
        w->surplus[1] += t->surplus[CELLS + i];
    }
    for (size_t i = 0; i < CELLS; i += WIDTH) {
        for (size_t j = i / 2; j < i / 2 + 2 * fours; j++) raised += t->even[j] + t->odd[j];
        worth += walk_row(lifted + i, fours, t->even + i / 2, t->odd + i / 2).worth;
    }
    w->some |= some;
    totals[1] = w->surplus[1];
    totals[2] = w->surplus[0];
    totals[3] = raised * LIFT - worth;
    totals[0] = totals[1] + totals[2] + totals[3];
    totals[4] = bought;
    totals[5] = w->shortfall;
}

static int quick(const struct files *f, uint32_t *leaving, uint64_t *totals)
{
    struct tables t;
    struct walk w = {0};
    walk_prices(f, &t, &w);
    walk_lines(f, &t, leaving, &w);
    walk_steps(f, &t, &w);
    walk_blocks(f, &t, &w);
    walk_balance(f, &t, leaving, &w, totals);
    return !(w.some | w.sign >> 31 | w.sign_word >> 63);
}

uint8_t rival_check(const uint8_t *day, size_t day_length, const uint8_t *clearing, size_t clearing_length,
                    uint8_t *room, size_t room_length, size_t *place, size_t places)
{
    const struct rest day_rest = {day, day_length}, clearing_rest = {clearing, clearing_length};
    return check_by(quick, day_rest, clearing_rest, room, room_length, place, places);
}
