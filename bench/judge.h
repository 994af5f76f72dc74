/* What the rivals share: opening the sections, the ordered judge, and the check around a quick pass.

   A check opens all sections and runs the quick pass, which reads every row once and says whether the
   clearing is accepted. At any doubt the ordered judge decides: it goes through the rules in order and names
   the fault, or finds none and counts the totals itself. A quick pass may lean on facts that hold for every
   accepted clearing:
   - a price between floor and ceiling, a flow within its capacities and a volume within its quantity are in
     range when those bounds are, so they need no range test of their own;
   - an accepted step gains at least nothing, so its surplus is a product of unsigned numbers;
   - what is accepted of a block gains its ratio of the whole block's surplus, and what is left the rest;
   - volumes rounded down have the sum of the exact ones only if all of them are whole;
   - in balance the nets are the flows leaving less those entering and sum to 0, so the rent is minus the
     sum of price times net, and the order value is both surpluses and the rent. */
#ifndef JUDGE_H
#define JUDGE_H

#include <stddef.h>
#include <stdint.h>
#include <string.h>

enum { MOST = 1000000, PERIODS = 25, ZONES = 8, LINES = 16, STEPS = 2000, BLOCKS = 100 };
enum { FULL = 1000 }; /* the ratio of a whole block, in thousandths */
enum { STEP = 12, TOTALS = 6, HEAD = 2 + 8 * TOTALS + 2, PLACE = 3 };

/* A cell is zone times 32 plus period. */
enum { WIDTH = 32, CELLS = ZONES * WIDTH };

static inline uint32_t load16(const uint8_t *p) { uint16_t v; memcpy(&v, p, 2); return v; }
static inline uint32_t load32(const uint8_t *p) { uint32_t v; memcpy(&v, p, 4); return v; }
static inline uint64_t load64(const uint8_t *p) { uint64_t v; memcpy(&v, p, 8); return v; }
static inline int64_t signed32(const uint8_t *p) { int32_t v; memcpy(&v, p, 4); return v; }

/* -------------------------------------------------- the files and their sections */

enum { PERIOD_ROWS, ZONE_ROWS, LINE_ROWS, STEP_ROWS, BLOCK_ROWS, PRICES, FLOWS, VOLUMES, RATIOS, SECTIONS };

struct files {
    size_t count[SECTIONS];
    const uint8_t *rows[SECTIONS];
};

struct rest {
    const uint8_t *at;
    size_t length;
};

/* How long a row of section s is; the periods are counted before the first row whose length they decide. */
static inline size_t row_length(const struct files *f, int s)
{
    switch (s) {
    case PERIOD_ROWS: return 8;
    case ZONE_ROWS: return 2;
    case LINE_ROWS: return 2 + 8 * f->count[PERIOD_ROWS];
    case STEP_ROWS: return STEP;
    case BLOCK_ROWS: return 8 + 4 * f->count[PERIOD_ROWS];
    case RATIOS: return 2;
    default: return 4;
    }
}

/* Opens a section: its count, the count's limits, room for all rows. `cut` is 1 in the day file and 5 in the
   clearing file; the other refusals of a file follow it. Gives 0 or the refusal. */
static inline int open_section(struct files *f, int s, struct rest *rest, size_t least, size_t most, int cut)
{
    if (rest->length < 2) return cut;
    size_t count = load16(rest->at);
    if (count < least || count > most) return cut + 1;
    size_t length = count * row_length(f, s);
    if (rest->length - 2 < length) return cut;
    f->count[s] = count;
    f->rows[s] = rest->at + 2;
    rest->at += 2 + length;
    rest->length -= 2 + length;
    return 0;
}

/* Opens section s of the nine, all before it being open. */
static inline int open_next(struct files *f, int s, struct rest *day, struct rest *clearing)
{
    const size_t *n = f->count, h = s > PERIOD_ROWS ? n[PERIOD_ROWS] : 0;
    switch (s) {
    case PERIOD_ROWS: return open_section(f, s, day, 1, PERIODS, 1);
    case ZONE_ROWS: return open_section(f, s, day, 1, ZONES, 1);
    case LINE_ROWS: return open_section(f, s, day, 0, LINES, 1);
    case STEP_ROWS: return open_section(f, s, day, 0, STEPS, 1);
    case BLOCK_ROWS: return open_section(f, s, day, 0, BLOCKS, 1);
    case PRICES: return open_section(f, s, clearing, n[ZONE_ROWS] * h, n[ZONE_ROWS] * h, 5);
    case FLOWS: return open_section(f, s, clearing, n[LINE_ROWS] * h, n[LINE_ROWS] * h, 5);
    case VOLUMES: return open_section(f, s, clearing, n[STEP_ROWS], n[STEP_ROWS], 5);
    default: return open_section(f, s, clearing, n[BLOCK_ROWS], n[BLOCK_ROWS], 5);
    }
}

/* What a block adds to the totals of a quick pass, in thousandths. The top bit of what it gives is set at a
   doubt: no quantity, a ratio beyond the most, accepted and not in the money. */
static inline uint64_t weigh(uint64_t whole, uint64_t gain, uint64_t ratio, uint64_t *surplus, uint64_t *shortfall)
{
    *shortfall += (gain >> 63 ? 0 : gain) * (FULL - ratio);
    *surplus += gain * ratio;
    return (whole - 1) | (FULL - ratio) | (ratio ? gain : 0);
}

/* -------------------------------------------------- the ordered judge: the reading */

static const uint8_t *row_at(const struct files *f, int s, size_t r)
{
    return f->rows[s] + row_length(f, s) * r;
}

static int64_t price_at(const struct files *f, size_t zone, size_t period)
{
    return signed32(row_at(f, PRICES, zone * f->count[PERIOD_ROWS] + period));
}

static int in_range(int64_t v, int64_t least, int64_t most) { return least <= v && v <= most; }

static int is_price(const uint8_t *p) { return in_range(signed32(p), -MOST, MOST); }

/* How many fields a row of section s has; spare bytes are fields too. */
static size_t fields_in(const struct files *f, int s)
{
    size_t h = f->count[PERIOD_ROWS];
    switch (s) {
    case PERIOD_ROWS: return 2;
    case LINE_ROWS: return 2 + 2 * h;
    case STEP_ROWS: return 6;
    case BLOCK_ROWS: return 4 + h;
    default: return 1;
    }
}

/* Whether a field of a line is in range, by itself and against the fields before it, which hold. */
static int line_field_holds(const uint8_t *row, size_t zones, size_t field)
{
    switch (field) {
    case 0: return row[0] < zones;
    case 1: return row[1] < zones && row[1] != row[0];
    default: return load32(row + 2 + 4 * (field - 2)) <= MOST;
    }
}

/* Likewise for a step. */
static int step_field_holds(const uint8_t *row, size_t zones, size_t h, size_t field)
{
    switch (field) {
    case 0: return row[0] < zones;
    case 1: return row[1] < h;
    case 2: return row[2] <= 1;
    case 3: return row[3] == 0;
    case 4: return is_price(row + 4);
    default: return in_range(load32(row + 8), 1, MOST);
    }
}

static int any_above_0(const uint8_t *numbers, size_t n)
{
    for (size_t i = 0; i < n; i++)
        if (load32(numbers + 4 * i)) return 1;
    return 0;
}

/* Likewise for a block. Its last quantity also answers for a block that has none. */
static int block_field_holds(const uint8_t *row, size_t zones, size_t h, size_t field)
{
    switch (field) {
    case 0: return row[0] < zones;
    case 1: return row[1] <= 1;
    case 2: return load16(row + 2) <= FULL;
    case 3: return is_price(row + 4);
    default:
        return load32(row + 8 + 4 * (field - 4)) <= MOST && (field < 3 + h || any_above_0(row + 8, h));
    }
}

/* Whether a field of row r of section s is in range, by itself and against the fields before it and the row
   before, which hold. */
static int field_holds(const struct files *f, int s, size_t r, size_t field)
{
    const size_t *n = f->count;
    const uint8_t *row = row_at(f, s, r);
    switch (s) {
    case PERIOD_ROWS: return is_price(row + 4 * field) && signed32(row) <= signed32(row + 4 * field);
    case ZONE_ROWS: return load16(row) > (r ? load16(row - 2) : 0);
    case LINE_ROWS: return line_field_holds(row, n[ZONE_ROWS], field);
    case STEP_ROWS: return step_field_holds(row, n[ZONE_ROWS], n[PERIOD_ROWS], field);
    case BLOCK_ROWS: return block_field_holds(row, n[ZONE_ROWS], n[PERIOD_ROWS], field);
    case VOLUMES: return load32(row) <= MOST;
    case RATIOS: return load16(row) <= FULL;
    default: return is_price(row);
    }
}

static uint8_t refuse(size_t *place, int number, size_t first, size_t second, size_t third)
{
    place[0] = first;
    place[1] = second;
    place[2] = third;
    return (uint8_t)number;
}

/* Refusals 1 to 8: section by section, the rows of each, field by field, before the next is opened. */
static uint8_t judge_reading(struct files *f, struct rest day, struct rest clearing, size_t *place)
{
    for (int s = 0; s < SECTIONS; s++) {
        size_t section = (size_t)(s < PRICES ? s + 1 : s - PRICES + 1);
        if (s == PRICES && day.length) return refuse(place, 4, 0, 0, 0);
        int fault = open_next(f, s, &day, &clearing);
        if (fault) return refuse(place, fault, section, 0, 0);
        for (size_t r = 0; r < f->count[s]; r++)
            for (size_t i = 0; i < fields_in(f, s); i++)
                if (!field_holds(f, s, r, i)) return refuse(place, s < PRICES ? 3 : 7, section, r, i);
    }
    return refuse(place, clearing.length ? 8 : 0, 0, 0, 0);
}

/* -------------------------------------------------- the ordered judge: the rules */

/* A block's ratio, and the least that it may have if it is above 0. */
static uint32_t ratio_of(const struct files *f, size_t k) { return load16(row_at(f, RATIOS, k)); }

static uint32_t least_ratio(const struct files *f, size_t k)
{
    uint32_t least = load16(row_at(f, BLOCK_ROWS, k) + 2);
    return least ? least : FULL;
}

/* A block's accepted volume in a period, in thousandths. */
static uint32_t thousandths(const struct files *f, size_t k, size_t i)
{
    return load32(row_at(f, BLOCK_ROWS, k) + 8 + 4 * i) * ratio_of(f, k);
}

/* The surplus of a whole block. */
static int64_t block_gain(const struct files *f, size_t k)
{
    const uint8_t *row = row_at(f, BLOCK_ROWS, k);
    int64_t gain = 0;
    for (size_t i = 0; i < f->count[PERIOD_ROWS]; i++)
        gain += (int64_t)load32(row + 8 + 4 * i) * (price_at(f, row[0], i) - signed32(row + 4));
    return row[1] ? -gain : gain;
}

/* Supply less demand and less what leaves, for each zone and period. */
static void gather_imbalance(const struct files *f, int64_t imbalance[ZONES][PERIODS])
{
    size_t h = f->count[PERIOD_ROWS];
    for (size_t r = 0; r < f->count[STEP_ROWS]; r++) {
        const uint8_t *row = row_at(f, STEP_ROWS, r);
        int64_t volume = load32(row_at(f, VOLUMES, r));
        imbalance[row[0]][row[1]] += row[2] ? -volume : volume;
    }
    for (size_t i = 0; i < h; i++) {
        for (size_t k = 0; k < f->count[BLOCK_ROWS]; k++) {
            const uint8_t *row = row_at(f, BLOCK_ROWS, k);
            int64_t volume = thousandths(f, k, i) / FULL;
            imbalance[row[0]][i] += row[1] ? -volume : volume;
        }
        for (size_t l = 0; l < f->count[LINE_ROWS]; l++) {
            const uint8_t *row = row_at(f, LINE_ROWS, l);
            int64_t flow = signed32(row_at(f, FLOWS, l * h + i));
            imbalance[row[0]][i] -= flow;
            imbalance[row[1]][i] += flow;
        }
    }
}

/* Whether rule 12 or 16 holds on a line in a period. */
static int line_holds(const struct files *f, int rule, size_t l, size_t i)
{
    const uint8_t *row = row_at(f, LINE_ROWS, l);
    int64_t forward = load32(row + 2 + 8 * i), back = load32(row + 6 + 8 * i);
    int64_t flow = signed32(row_at(f, FLOWS, l * f->count[PERIOD_ROWS] + i));
    int64_t dearer = price_at(f, row[1], i) - price_at(f, row[0], i);
    if (rule == 12) return in_range(flow, -back, forward);
    return dearer == 0 || flow == (dearer > 0 ? forward : -back);
}

/* Whether rule 13 or 15 holds for a step. */
static int step_holds(const struct files *f, int rule, size_t r)
{
    const uint8_t *row = row_at(f, STEP_ROWS, r);
    uint32_t quantity = load32(row + 8), volume = load32(row_at(f, VOLUMES, r));
    int64_t gain = price_at(f, row[0], row[1]) - signed32(row + 4);
    if (rule == 13) return volume <= quantity;
    return gain == 0 || volume == ((gain > 0) == (row[2] == 0) ? quantity : 0);
}

/* Whether rule 20, 21 or 17 holds for a block, 21 in a period. */
static int block_holds(const struct files *f, int rule, size_t k, size_t i)
{
    if (rule == 21) return thousandths(f, k, i) % FULL == 0;
    if (ratio_of(f, k) == 0) return 1;
    return rule == 20 ? ratio_of(f, k) >= least_ratio(f, k) : block_gain(f, k) >= 0;
}

static int rule_holds(const struct files *f, int rule, size_t r, size_t i, int64_t imbalance[ZONES][PERIODS])
{
    const uint8_t *bounds = row_at(f, PERIOD_ROWS, i);
    switch (rule) {
    case 11: return in_range(price_at(f, r, i), signed32(bounds), signed32(bounds + 4));
    case 14: return imbalance[r][i] == 0;
    case 12: case 16: return line_holds(f, rule, r, i);
    case 13: case 15: return step_holds(f, rule, r);
    default: return block_holds(f, rule, r, i);
    }
}

/* Refusals 11 to 17, 20 and 21: rule by rule in this order, each over all its places, which are the rows of
   a section, or those in each period. */
static uint8_t judge_rules(const struct files *f, size_t *place)
{
    static const struct { int rule, over, by_period; } order[] = {
        {11, ZONE_ROWS, 1}, {12, LINE_ROWS, 1}, {13, STEP_ROWS, 0}, {20, BLOCK_ROWS, 0}, {21, BLOCK_ROWS, 1},
        {14, ZONE_ROWS, 1}, {15, STEP_ROWS, 0}, {16, LINE_ROWS, 1}, {17, BLOCK_ROWS, 0}};
    int64_t imbalance[ZONES][PERIODS] = {{0}};
    gather_imbalance(f, imbalance);
    for (size_t n = 0; n < sizeof order / sizeof *order; n++) {
        int rule = order[n].rule;
        size_t periods = order[n].by_period ? f->count[PERIOD_ROWS] : 1;
        for (size_t r = 0; r < f->count[order[n].over]; r++)
            for (size_t i = 0; i < periods; i++)
                if (!rule_holds(f, rule, r, i, imbalance)) return refuse(place, rule, r, i, 0);
    }
    return refuse(place, 0, 0, 0, 0);
}

/* -------------------------------------------------- the ordered judge: the totals */

/* The totals in the statement's order. */
enum { VALUE, BUYERS, SELLERS, RENT, TRADED, SHORTFALL };

/* Counts a volume that an order has accepted in a period; a step's row and a block's begin with the zone and
   have the limit at the same place. */
static void count_volume(const struct files *f, const uint8_t *row, size_t period, int buys, int64_t volume,
                         uint64_t *totals)
{
    int64_t limit = signed32(row + 4), price = price_at(f, row[0], period);
    totals[VALUE] += (buys ? limit : -limit) * volume;
    totals[buys ? BUYERS : SELLERS] += (buys ? limit - price : price - limit) * volume;
    totals[TRADED] += buys ? volume : 0;
}

/* Counts the totals of an accepted clearing, and for each cell what leaves. */
static void count_totals(const struct files *f, uint32_t *leaving, uint64_t *totals)
{
    size_t h = f->count[PERIOD_ROWS];
    memset(leaving, 0, CELLS * sizeof *leaving);
    memset(totals, 0, TOTALS * sizeof *totals);
    for (size_t r = 0; r < f->count[STEP_ROWS]; r++) {
        const uint8_t *row = row_at(f, STEP_ROWS, r);
        count_volume(f, row, row[1], row[2], load32(row_at(f, VOLUMES, r)), totals);
    }
    for (size_t k = 0; k < f->count[BLOCK_ROWS]; k++) {
        const uint8_t *row = row_at(f, BLOCK_ROWS, k);
        int64_t left = block_gain(f, k) * (FULL - (int64_t)ratio_of(f, k)) / FULL;
        for (size_t i = 0; i < h; i++) count_volume(f, row, i, row[1], thousandths(f, k, i) / FULL, totals);
        totals[SHORTFALL] += left > 0 ? left : 0;
    }
    for (size_t l = 0; l < f->count[LINE_ROWS]; l++)
        for (size_t i = 0; i < h; i++) {
            const uint8_t *row = row_at(f, LINE_ROWS, l);
            int64_t flow = signed32(row_at(f, FLOWS, l * h + i));
            totals[RENT] += flow * (price_at(f, row[1], i) - price_at(f, row[0], i));
            leaving[row[0] * WIDTH + i] += (uint32_t)flow;
            leaving[row[1] * WIDTH + i] -= (uint32_t)flow;
        }
}

/* -------------------------------------------------- for quick passes */

/* A head, which is the four bytes before a limit, and the limit are tested as one word: RAISE is added to it
   and then what beyond_heads gives for the greatest head. All is in range if neither sum has an upper bit, of
   a field of the head or of the limit. A step's head has four bytes, a block's two and the least ratio. */
#define RAISE ((uint64_t)MOST << 32)
#define STEP_UPPER 0x8000000080808080
#define BLOCK_UPPER 0x8000000080008080

static inline uint64_t beyond_heads(uint64_t upper, uint64_t most)
{
    return ((uint64_t)(0x7fffffff - 2 * MOST) << 32) | ((uint32_t)~upper - most);
}

/* -------------------------------------------------- the check */

/* Opens all sections at once, their rows unread: whether both files have the right lengths and counts. */
static inline int open_all(struct files *f, struct rest day, struct rest clearing)
{
    for (int s = 0; s < SECTIONS; s++)
        if (open_next(f, s, &day, &clearing)) return 0;
    return day.length == 0 && clearing.length == 0;
}

/* A quick pass: whether the clearing is accepted, and then the totals, and for each cell the flows leaving
   less those entering, which it adds to zeros. If it says no, what it leaves in both is of no account. */
typedef int quick_pass(const struct files *f, uint32_t *leaving, uint64_t *totals);

/* The nets of a clearing in balance are what leaves. */
static inline void write_statement(const struct files *f, const uint32_t *leaving, const uint64_t *totals,
                                   uint8_t *room)
{
    size_t h = f->count[PERIOD_ROWS];
    const uint16_t counts[2] = {TOTALS, (uint16_t)f->count[PRICES]};
    memcpy(room, &counts[0], 2);
    memcpy(room + 2, totals, 8 * TOTALS);
    memcpy(room + HEAD - 2, &counts[1], 2);
    for (size_t z = 0; z < f->count[ZONE_ROWS]; z++)
        memcpy(room + HEAD + 4 * z * h, leaving + z * WIDTH, 4 * h);
}

/* Judges a clearing file against a day file: 0 accepted, 1 to 8, 11 to 18, 20 and 21 refused, with the three
   numbers of the place; the third is the field of refusals 3 and 7, else 0. On acceptance the statement
   stands at the front of the room; a refusal leaves the room as it was. `places` is the length of `place` and
   must be PLACE, else the answer is 255 and nothing changes. */
static inline uint8_t check_by(quick_pass *quick, struct rest day, struct rest clearing, uint8_t *room,
                               size_t room_length, size_t *place, size_t places)
{
    if (places != PLACE) return 255;
    struct files f;
    _Alignas(16) uint32_t leaving[CELLS] = {0}; /* aligned as vectors are */
    uint64_t totals[TOTALS];
    if (!open_all(&f, day, clearing) || !quick(&f, leaving, totals)) {
        uint8_t fault = judge_reading(&f, day, clearing, place);
        if (!fault) fault = judge_rules(&f, place);
        if (fault) return fault;
        count_totals(&f, leaving, totals);
    }
    if (room_length < HEAD + 4 * f.count[PRICES]) return refuse(place, 18, 0, 0, 0);
    write_statement(&f, leaving, totals, room);
    return refuse(place, 0, 0, 0, 0);
}

#endif
