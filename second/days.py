"""The maker of days: accepted clearings by construction.

Prices come first, flows and acceptances follow from them, then steps at the money balance each zone and
period. Every number is drawn from a generator of our own, so that a seed gives the same days everywhere.
"""
from math import gcd
from struct import calcsize, pack

from judge import BUY, MOST, SELL, WHOLE, shares

WORD = 2 ** 64 - 1


class Draw:
    """Numbers drawn from a seed (splitmix64)."""

    def __init__(self, seed):
        self.state = seed & WORD

    def word(self):
        """The next 64 bits."""
        self.state = (self.state + 0x9E3779B97F4A7C15) & WORD
        mixed = self.state
        mixed = ((mixed ^ (mixed >> 30)) * 0xBF58476D1CE4E5B9) & WORD
        mixed = ((mixed ^ (mixed >> 27)) * 0x94D049BB133111EB) & WORD
        return mixed ^ (mixed >> 31)

    def below(self, count):
        """A number from 0 to count - 1."""
        return self.word() % count

    def between(self, least, most):
        """A number from least to most, both allowed."""
        return least + self.word() % (most - least + 1)

    def pick(self, values):
        """One of the values."""
        return values[self.word() % len(values)]

    def shuffle(self, values):
        """Put the values in another order."""
        for last in range(len(values) - 1, 0, -1):
            other = self.below(last + 1)
            values[last], values[other] = values[other], values[last]

    def bytes(self, count):
        """So many bytes."""
        return b"".join(pack("<Q", self.word()) for _ in range(count // 8 + 1))[:count]


class Case:
    """A day with a clearing, as rows and as two files.

    bounds: (floor, ceiling); lines: (from, to, (forward, back, forward, back ..)); steps: (zone, period,
    side, price, quantity); blocks: (zone, side, least ratio, price, quantities); prices and flows: all
    periods of zone or line 0 first. counts, sizes and starts tell of each section of each file how many rows
    it has, of how many bytes, and where its count lies.
    """

    def __init__(self, bounds, codes, lines=(), steps=(), blocks=(),
                 prices=(), flows=(), volumes=(), ratios=()):
        self.bounds, self.codes, self.lines, self.steps, self.blocks = bounds, codes, lines, steps, blocks
        self.prices, self.flows, self.volumes, self.ratios = prices, flows, volumes, ratios
        self.periods, self.zones = len(bounds), len(codes)
        day = (("<ii", bounds), ("<H", [(code,) for code in codes]),
               ("<BB%dI" % (2 * self.periods), [(*line[:2], *line[2]) for line in lines]),
               ("<BBBxiI", steps),
               ("<BBHi%dI" % self.periods, [(*block[:4], *block[4]) for block in blocks]))
        clearing = tuple((form, [(value,) for value in values]) for form, values in (
            ("<i", prices), ("<i", flows), ("<I", volumes), ("<H", ratios)))
        self.counts, self.sizes, self.starts, self.files = [], [], [], []
        for sections in (day, clearing):
            file, starts = b"", []
            for form, rows in sections:
                starts.append(len(file))
                file += pack("<H", len(rows)) + b"".join(pack(form, *row) for row in rows)
            self.files.append(file)
            self.starts.append(starts + [len(file)])
            self.counts.append([len(rows) for _, rows in sections])
            self.sizes.append([calcsize(form) for form, _ in sections])

    def price(self, zone, period):
        """The stated price of a zone and period."""
        return self.prices[zone * self.periods + period]

    def rise(self, line, period):
        """How much dearer a line's "to" is than its "from"."""
        source, target, _ = self.lines[line]
        return self.price(target, period) - self.price(source, period)

    def gain(self, row):
        """How far a step is in the money."""
        zone, period, side, limit, _ = self.steps[row]
        return (self.price(zone, period) - limit) * (1 if side == SELL else -1)

    def last_paying(self, block):
        """The last limit at which a block still pays at the stated prices."""
        zone, side, _, _, quantities = self.blocks[block]
        return last_paying(side, quantities, self.prices[zone * self.periods:])


def last_paying(side, quantities, prices):
    """The last limit at which these quantities still pay at these prices."""
    worth, whole = sum(quantity * price for quantity, price in zip(quantities, prices)), sum(quantities)
    return worth // whole if side == SELL else -(-worth // whole)


def unit_of(ratio):
    """The least quantity of which a ratio makes a whole volume."""
    return WHOLE // gcd(WHOLE, ratio)


def clip(price):
    """The nearest value in the range of prices."""
    return max(-MOST, min(MOST, price))


BOUNDS = {
    "usual": lambda draw: (-50000, 300000),
    "ends": lambda draw: (-MOST, MOST),
    "narrow": lambda draw: ordered(draw.between(-5000, 5000), draw.between(0, 3)),
    "negative": lambda draw: ordered(draw.between(-9000, -300), draw.below(300)),
    "zero": lambda draw: (-draw.below(500), draw.below(500)),
    "around zero": lambda draw: (-draw.below(500), draw.below(500)),
    "pinned": lambda draw: ordered(draw.pick((-MOST, MOST, 0, draw.between(-MOST, MOST))), 0),
    "any": lambda draw: ordered(draw.between(-MOST, MOST), draw.below(MOST)),
}
KINDS = tuple(BOUNDS)


def ordered(floor, width):
    """A floor and a ceiling so far above it."""
    return floor, clip(floor + width)


def draw_prices(draw, kind, floor, ceiling, zones, equal):
    """The prices of all zones in one period: equal, one apart, at the ends or anywhere."""
    middle = draw.between(floor, ceiling)
    pool = [middle, middle, min(ceiling, middle + 1), max(floor, middle - 1), floor, ceiling,
            draw.between(floor, ceiling), 0 if floor <= 0 <= ceiling else middle]
    if kind == "zero":
        pool = [0]
    if equal or draw.below(4) == 0:
        pool = [draw.pick(pool)]
    return [draw.pick(pool) for _ in range(zones)]


def draw_lines(draw, count, zones, periods, big):
    """Lines with capacities from zero to a big one; some join the same zones as the one before."""
    lines = []
    for _ in range(count if zones > 1 else 0):
        source = draw.below(zones)
        target = (source + 1 + draw.below(zones - 1)) % zones
        if lines and draw.below(3) == 0:
            source, target = draw.pick((lines[-1][:2], lines[-1][1::-1]))
        lines.append((source, target, tuple(
            draw.pick((0, 0, 1, draw.between(2, 500), draw.between(2, 500), draw.between(2, big), big))
            for _ in range(2 * periods))))
    return lines


def draw_flow(draw, rise, forward, back):
    """A flow that the line rule allows."""
    if rise:
        return forward if rise > 0 else -back
    return draw.pick((forward, -back, 0, draw.between(-back, forward), draw.between(-back, forward)))


def draw_ratio(draw, split):
    """A block's ratio: 0, 1,000 or, if blocks may be split, one between."""
    part = draw.pick((1, 2, 125, 250, 255, 256, 500, 500, 768, 999, 10 * draw.between(1, 99),
                      draw.between(1, 999)))
    return draw.pick((0, WHOLE, part, part) if split else (0, WHOLE))


def draw_least(draw, ratio):
    """A least ratio that a ratio does not miss."""
    if 0 < ratio < WHOLE:
        return draw.pick((1, ratio, max(1, ratio - 1), draw.between(1, ratio)))
    return draw.pick((0, 0, 1, 2, 255, 256, 500, 999, WHOLE, draw.between(1, WHOLE)))


def draw_block(draw, zones, periods, prices, ratio, split):
    """A block that pays if any of it is accepted, often just so. Its volumes are whole at its ratio; those of
    a block that may be split are often whole at any ratio."""
    zone, side, least = draw.below(zones), draw.below(2), draw_least(draw, ratio) if split else 0
    own = prices[zone * periods:(zone + 1) * periods]
    unit = draw.pick((unit_of(ratio), unit_of(ratio), WHOLE)) if split else 1
    for _ in range(4 if periods < 5 else 1):
        quantities = [unit * draw.pick((0, 1, draw.between(1, 9), draw.between(1, max(1, 400 // unit))))
                      for _ in range(periods)]
        if not any(quantities):
            quantities[draw.below(periods)] = unit * draw.between(1, max(1, 50 // unit))
        if sum(q * p for q, p in zip(quantities, own)) % sum(quantities) == 0:
            break
    limit = last_paying(side, quantities, own)
    if ratio:
        better = draw.pick((0, 0, 0 if ratio == WHOLE else 1 + draw.below(5000), 1, draw.below(5000)))
        limit += better if side == BUY else -better
    else:
        limit += draw.pick((0, 1, -1, draw.between(-9000, 9000), draw.between(-MOST, MOST)))
    return zone, side, least, clip(limit), tuple(quantities)


def draw_step(draw, zones, periods, prices, empty=False):
    """A step at, near or far from its zone's price, and an accepted volume that the step rule allows."""
    zone, period, side = draw.below(zones), draw.below(periods), draw.below(2)
    price = prices[zone * periods + period]
    quantity = draw.pick((1, draw.between(1, 20), draw.between(1, 2000), draw.between(1, 2000)))
    out = 1 if side == SELL else -1                         # the way out of the money
    away = draw.pick((0, 0, 1, -1, draw.between(1, 6000), -draw.between(1, 6000), 2 * MOST, -2 * MOST))
    limit = clip(price + out * (abs(away) if empty else away))
    gain = (price - limit) * out
    if gain == 0 and not empty:
        return (zone, period, side, limit, quantity), draw.pick((0, quantity, draw.below(quantity + 1)))
    return (zone, period, side, limit, quantity), quantity if gain > 0 else 0


def balance(draw, case, rows):
    """Steps at the money, or a little in it and full, that balance each zone and period."""
    wants = [0] * (case.zones * case.periods)
    for line, (source, target, _) in enumerate(case.lines):
        for period in range(case.periods):
            flow = case.flows[line * case.periods + period]
            wants[source * case.periods + period] += flow
            wants[target * case.periods + period] -= flow
    for (zone, period, side, _, _), volume in rows:
        wants[zone * case.periods + period] += volume if side == BUY else -volume
    for (zone, side, _, _, quantities), ratio in zip(case.blocks, case.ratios):
        for period, volume in enumerate(shares(quantities, ratio)):
            wants[zone * case.periods + period] += volume if side == BUY else -volume
    for cell, want in enumerate(wants):
        side, left, price = (SELL, want, case.prices[cell]) if want > 0 else (BUY, -want, case.prices[cell])
        while left:
            volume = min(left, MOST)
            more = min(MOST, volume + draw.pick((0, 1, draw.between(1, 300), draw.between(1, 3000), MOST)))
            step = cell // case.periods, cell % case.periods, side, price, more
            if draw.below(5) == 0:
                better = draw.below(300)
                step = step[:3] + (clip(price + (better if side == BUY else -better)), volume)
            rows.append((step, volume))
            left -= volume


def draw_codes(draw, zones):
    """Ascending zone codes, some of them at the ends of their range."""
    if draw.below(4) == 0:
        low = draw.below(zones + 1)
        return list(range(1, low + 1)) + list(range(65536 - zones + low, 65536))
    codes = []
    while len(codes) < zones:
        code = draw.between(1, 65535)
        if code not in codes:
            codes.append(code)
    return sorted(codes)


def make(draw, periods, zones, lines, steps, blocks, kind=None, big=MOST, total=0, idle=False, split=None):
    """A day with an accepted clearing: so many steps drawn freely, then those that balance, then empty ones
    up to a total. An idle day has equal prices, no flows and only rejected blocks, so nothing to balance. Its
    blocks may be split or not, three days in four if it is not said; where not, each least ratio is 0."""
    bounds, columns, split = [], [], draw.below(4) > 0 if split is None else split
    for _ in range(periods):
        sort = kind or draw.pick(KINDS)
        bounds.append(BOUNDS[sort](draw))
        columns.append(draw_prices(draw, sort, *bounds[-1], zones, idle))
    prices = [columns[period][zone] for zone in range(zones) for period in range(periods)]
    lines = draw_lines(draw, lines, zones, periods, big)
    flows = []
    for source, target, both in lines:
        for period in range(periods):
            rise = columns[period][target] - columns[period][source]
            flows.append(0 if idle else draw_flow(draw, rise, *both[2 * period:2 * period + 2]))
    ratios = [0 if idle else draw_ratio(draw, split) for _ in range(blocks)]
    blocks = [draw_block(draw, zones, periods, prices, ratio, split) for ratio in ratios]
    rows = [draw_step(draw, zones, periods, prices) for _ in range(steps)]
    codes = draw_codes(draw, zones)
    balance(draw, Case(bounds, codes, lines, (), blocks, prices, flows, (), ratios), rows)
    rows += [draw_step(draw, zones, periods, prices, empty=True) for _ in range(total - len(rows))]
    draw.shuffle(rows)
    return Case(bounds, codes, lines, [step for step, _ in rows], blocks,
                prices, flows, [volume for _, volume in rows], ratios)


def small(draw):
    """A day of a few rows."""
    zones = draw.pick((1, 2, 2, 3, 3, 4))
    return make(draw, draw.pick((1, 1, 2, 2, 3)), zones, draw.pick((0, 1, 1, 2, 2, 3, 4)),
                draw.pick((0, 1, 2, 3, 4, 6)), draw.pick((0, 0, 1, 1, 2, 2, 3, 4)),
                kind=draw.pick(KINDS + (None,) * 8), idle=draw.below(12) == 0)


def medium(draw):
    """A day of many rows."""
    return make(draw, draw.between(3, 12), draw.between(2, 8), draw.between(0, 8), draw.between(0, 60),
                draw.between(0, 15), big=draw.pick((500, 20000, MOST)))


def maximal(draw):
    """A day with the greatest number of rows in every section."""
    case = make(draw, 25, 8, 16, 1800, 100, big=20000, total=2000, split=True)
    if [len(file) for file in case.files] != [38258, 10608]:
        raise AssertionError("a maximal day has another size")
    return case


def extreme():
    """A maximal day with every price, flow, volume, quantity and capacity at an end of its range. Two blocks
    that offset each other have one ratio: 0, 1,000, 1, 999 or 500, whole at 1,000,000 as any would be."""
    cells = [(zone, period) for zone in range(8) for period in range(25)]
    prices = [MOST if (zone + period) % 2 == 0 else -MOST for zone, period in cells]
    ends = [(even, odd) for even in (0, 2, 4, 6) for odd in (1, 3, 5, 7)]
    ends = [(even, odd) if even % 4 else (odd, even) for even, odd in ends]
    steps = []
    for (zone, period), price in zip(cells, prices):    # a dear cell takes in four lines
        sells = 3 if price > 0 else 7
        steps += [(zone, period, SELL, -MOST, MOST)] * sells
        steps += [(zone, period, BUY, MOST, MOST)] * (10 - sells)
    blocks = [(pair * 5 % 8, side, (WHOLE, 0, 1, 2, 500)[pair % 5], MOST if side == BUY else -MOST,
               (MOST,) * 25) for pair in range(50) for side in (SELL, BUY)]
    return Case([(-MOST, MOST)] * 25, [1, 2, 255, 256, 32767, 32768, 65534, 65535],
                [(source, target, (MOST,) * 50) for source, target in ends], steps, blocks, prices,
                [prices[target * 25 + period] for _, target in ends for period in range(25)],
                [MOST] * 2000, [(0, WHOLE, 1, 999, 500)[block // 2 % 5] for block in range(100)])


def special_days(draw):
    """Days that lack something or hold one kind of price only."""
    yield one_zone([2000])
    for kind in KINDS:
        yield make(draw, 3, 3, 3, 6, 3, kind=kind)
        yield make(draw, 1, 2, 2, 4, 1, kind=kind)
    for periods, zones, lines, steps, blocks in (
            (1, 1, 0, 5, 2), (1, 5, 4, 6, 2), (4, 1, 0, 8, 3), (2, 3, 0, 6, 2), (2, 3, 4, 6, 0),
            (3, 2, 5, 0, 2), (25, 1, 0, 4, 1), (1, 8, 16, 4, 0), (25, 2, 1, 3, 0), (1, 2, 16, 0, 0)):
        yield make(draw, periods, zones, lines, steps, blocks)
        yield make(draw, periods, zones, lines, 0, blocks, idle=True)


def day_a():
    """Day A with clearing A of the paper."""
    return Case([(-50000, 300000)], [10, 20], [(0, 1, (500, 200))],
                [(0, 0, SELL, 2000, 1000), (0, 0, BUY, 3000, 400), (1, 0, SELL, 5000, 800),
                 (1, 0, BUY, 9000, 700)],
                [(1, SELL, 0, 4500, (300,))], [2000, 5000], [500], [900, 400, 200, 700], [0])


def one_zone(prices, steps=(), volumes=(), blocks=(), ratios=()):
    """One zone with a period for each price, no lines."""
    return Case([(-50000, 300000)] * len(prices), [10], (), steps, blocks, prices, (), volumes, ratios)
