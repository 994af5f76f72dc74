"""The second opinion: the rule paper said again in Python.

judge(day, clearing, room) judges two byte strings for a room of so many bytes; opinion(day, clearing) is
what a program says of two files; report(answer) is what it prints. reading(day, clearing) is the verdict on
the reading of two files alone; look_up(day, section) gives back the rows of a section.
"""
from collections import namedtuple
from struct import calcsize, iter_unpack, pack, unpack_from

MOST = 1000000             # the end of the ranges of prices, flows, volumes, quantities and capacities
WHOLE = 1000               # a ratio is in thousandths; this one takes a whole block
FILE_MOST = 65536          # a program reads this much of a file and no more
SELL, BUY = 0, 1
DAY_LIMITS = ((1, 25), (1, 8), (0, 16), (0, 2000), (0, 100))
TOTALS = ("order value", "buyers", "sellers", "rent", "traded", "shortfall")

Verdict = namedtuple("Verdict", "number first second third", defaults=(0, 0, 0))     # a number and a place
Day = namedtuple("Day", "bounds codes lines steps blocks ends")
Clearing = namedtuple("Clearing", "prices flows volumes ratios")
Answer = namedtuple("Answer", "verdict totals codes nets statement")
ACCEPTED = Verdict(0)


class Refusal(Exception):
    """A verdict that is not "accepted"."""

    def __init__(self, *verdict):
        Exception.__init__(self, *verdict)
        self.verdict = Verdict(*verdict)


def is_price(value):
    """Whether a value is in the range of prices, which is that of flows too."""
    return -MOST <= value <= MOST


def section(file, ends, form, limits, cut_off, miscounted):
    """The rows of the section that starts where the one before it ended: count, its limits, room for all
    rows. ends begins with 0 and gets the end of each section."""
    number, start = len(ends), ends[-1] + 2
    if len(file) < start:
        raise Refusal(cut_off, number)
    count = unpack_from("<H", file, start - 2)[0]
    if not limits[0] <= count <= limits[1]:
        raise Refusal(miscounted, number)
    end = start + count * calcsize(form)
    if len(file) < end:
        raise Refusal(cut_off, number)
    ends.append(end)
    return list(iter_unpack(form, file[start:end]))


def keep_ranges(number, section_number, row, good):
    """Refuse a row by its first field that is not good. good tells of each field, in row order, whether it is
    in its range by itself and against the fields before it and the row before."""
    if False in good:
        raise Refusal(number, section_number, row, good.index(False))


def read_day(file):
    """The day file's rows, or the first fault of its reading."""
    ends = [0]
    bounds = section(file, ends, "<ii", DAY_LIMITS[0], 1, 2)
    for row, (floor, ceiling) in enumerate(bounds):
        keep_ranges(3, 1, row, [is_price(floor), is_price(ceiling) and floor <= ceiling])
    periods = len(bounds)

    codes = [code for code, in section(file, ends, "<H", DAY_LIMITS[1], 1, 2)]
    for row, code in enumerate(codes):
        keep_ranges(3, 2, row, [code >= 1 and (row == 0 or code > codes[row - 1])])
    zones = len(codes)

    rows = section(file, ends, "<BB%dI" % (2 * periods), DAY_LIMITS[2], 1, 2)
    for row, (source, target, *capacities) in enumerate(rows):
        keep_ranges(3, 3, row, [source < zones, target < zones and target != source]
                    + [capacity <= MOST for capacity in capacities])
    lines = [(row[0], row[1], row[2::2], row[3::2]) for row in rows]

    rows = section(file, ends, "<BBBBiI", DAY_LIMITS[3], 1, 2)
    for row, (zone, period, side, spare, limit, quantity) in enumerate(rows):
        keep_ranges(3, 4, row, [zone < zones, period < periods, side <= 1, spare == 0, is_price(limit),
                                1 <= quantity <= MOST])
    steps = [(zone, period, side, limit, quantity) for zone, period, side, _, limit, quantity in rows]

    rows = section(file, ends, "<BBHi%dI" % periods, DAY_LIMITS[4], 1, 2)
    for row, (zone, side, least, limit, *quantities) in enumerate(rows):
        good = [zone < zones, side <= 1, least <= WHOLE, is_price(limit)]
        good += [quantity <= MOST for quantity in quantities]
        good[-1] = good[-1] and any(quantities)     # the last field of a block with no quantity
        keep_ranges(3, 5, row, good)
    blocks = [(*row[:4], row[4:]) for row in rows]
    if ends[-1] != len(file):
        raise Refusal(4)
    return Day(bounds, codes, lines, steps, blocks, ends)


def read_clearing(file, day):
    """The clearing file's rows for a day that reads without fault, or the first fault of their reading."""
    periods = len(day.bounds)
    sections = (("<i", len(day.codes) * periods, is_price),
                ("<i", len(day.lines) * periods, is_price),
                ("<I", len(day.steps), lambda volume: volume <= MOST),
                ("<H", len(day.blocks), lambda ratio: ratio <= WHOLE))
    read, ends = [], [0]
    for number, (form, count, in_range) in enumerate(sections, 1):
        values = [value for value, in section(file, ends, form, (count, count), 5, 6)]
        for row, value in enumerate(values):
            keep_ranges(7, number, row, [in_range(value)])
        read.append(values)
    if ends[-1] != len(file):
        raise Refusal(8)
    return Clearing(*read)


def reading(day_file, clearing_file):
    """The verdict on two files of which nothing is asked but that they read without fault."""
    try:
        read_clearing(clearing_file, read_day(day_file))
    except Refusal as refusal:
        return refusal.verdict
    return ACCEPTED


def look_up(day_file, number):
    """The verdict on the look-up of a section, and its rows as a part of the day file, empty if refused."""
    if not 1 <= number <= len(DAY_LIMITS):
        return Verdict(19), b""
    try:
        ends = read_day(day_file).ends
    except Refusal as refusal:
        return refusal.verdict, b""
    return ACCEPTED, day_file[ends[number - 1] + 2:ends[number]]


def keep_rules(day, clearing):
    """The net positions of a clearing that keeps all rules, or the first broken rule at its first place."""
    bounds, codes, lines, steps, blocks, _ = day
    prices, flows, volumes, ratios = clearing
    periods = len(bounds)
    cells = [(zone, period) for zone in range(len(codes)) for period in range(periods)]
    spans = [(line, period) for line in range(len(lines)) for period in range(periods)]

    for (zone, period), price in zip(cells, prices):
        if not bounds[period][0] <= price <= bounds[period][1]:
            raise Refusal(11, zone, period)

    for (line, period), flow in zip(spans, flows):
        if flow > lines[line][2][period] or flow < -lines[line][3][period]:
            raise Refusal(12, line, period)

    for row, (step, volume) in enumerate(zip(steps, volumes)):
        if volume > step[4]:
            raise Refusal(13, row)

    for row, (block, ratio) in enumerate(zip(blocks, ratios)):
        if 0 < ratio < (block[2] or WHOLE):         # a least ratio of 0 stands for 1,000
            raise Refusal(20, row)

    for row, (block, ratio) in enumerate(zip(blocks, ratios)):
        for period, quantity in enumerate(block[4]):
            if quantity * ratio % WHOLE != 0:
                raise Refusal(21, row, period)

    nets = [0] * len(cells)
    for (zone, period, side, _, _), volume in zip(steps, volumes):
        nets[zone * periods + period] += volume if side == SELL else -volume
    for (zone, side, _, _, quantities), ratio in zip(blocks, ratios):
        for period, volume in enumerate(shares(quantities, ratio)):
            nets[zone * periods + period] += volume if side == SELL else -volume
    leaving = [0] * len(cells)
    for (line, period), flow in zip(spans, flows):
        leaving[lines[line][0] * periods + period] += flow
        leaving[lines[line][1] * periods + period] -= flow
    for (zone, period), net, out in zip(cells, nets, leaving):
        if net != out:
            raise Refusal(14, zone, period)

    for row, ((zone, period, side, limit, quantity), volume) in enumerate(zip(steps, volumes)):
        price = prices[zone * periods + period]
        gain = price - limit if side == SELL else limit - price
        if (gain > 0 and volume != quantity) or (gain < 0 and volume != 0):
            raise Refusal(15, row)

    for (line, period), flow in zip(spans, flows):
        source, target, forward, back = lines[line]
        rise = prices[target * periods + period] - prices[source * periods + period]
        if (rise > 0 and flow != forward[period]) or (rise < 0 and flow != -back[period]):
            raise Refusal(16, line, period)

    for row, (block, ratio) in enumerate(zip(blocks, ratios)):
        if ratio > 0 and block_gain(day, clearing, block, block[4]) < 0:
            raise Refusal(17, row)
    return nets


def shares(quantities, ratio):
    """The volumes accepted of a block's quantities at a ratio that makes them whole."""
    return [quantity * ratio // WHOLE for quantity in quantities]


def block_gain(day, clearing, block, volumes):
    """The surplus of so much of a block in each period at the stated prices, signed, over all periods."""
    zone, side, _, limit, _ = block
    own = clearing.prices[zone * len(day.bounds):]
    worth = sum(volume * price for volume, price in zip(volumes, own))
    return worth - limit * sum(volumes) if side == SELL else limit * sum(volumes) - worth


def totals_of(day, clearing):
    """The six totals of an accepted clearing."""
    periods, prices = len(day.bounds), clearing.prices
    value, buyers, sellers, rent, traded, shortfall = 0, 0, 0, 0, 0, 0
    orders = [(zone, period, side, limit, volume)
              for (zone, period, side, limit, _), volume in zip(day.steps, clearing.volumes)]
    for block, ratio in zip(day.blocks, clearing.ratios):
        zone, side, _, limit, quantities = block
        accepted = shares(quantities, ratio)
        orders += [(zone, period, side, limit, volume) for period, volume in enumerate(accepted)]
        left = [quantity - volume for quantity, volume in zip(quantities, accepted)]
        shortfall += max(0, block_gain(day, clearing, block, left))
    for zone, period, side, limit, volume in orders:
        price = prices[zone * periods + period]
        if side == BUY:
            value += limit * volume
            buyers += (limit - price) * volume
            traded += volume
        else:
            value -= limit * volume
            sellers += (price - limit) * volume
    for line, (source, target, _, _) in enumerate(day.lines):
        for period in range(periods):
            rise = prices[target * periods + period] - prices[source * periods + period]
            rent += clearing.flows[line * periods + period] * rise
    return value, buyers, sellers, rent, traded, shortfall


def judge(day_file, clearing_file, room):
    """The answer on any two byte strings, for a room of so many bytes."""
    try:
        day = read_day(day_file)
        clearing = read_clearing(clearing_file, day)
        nets = keep_rules(day, clearing)
        if room < 2 + 6 * 8 + 2 + 4 * len(nets):
            raise Refusal(18)
    except Refusal as refusal:
        return Answer(refusal.verdict, None, None, None, None)
    totals = totals_of(day, clearing)
    value, buyers, sellers, rent, _, shortfall = totals
    if value != buyers + sellers + rent or rent < 0 or shortfall < 0:
        raise AssertionError("the totals of an accepted clearing disagree")
    statement = pack("<H6qH%di" % len(nets), 6, *totals, len(nets), *nets)
    return Answer(ACCEPTED, totals, day.codes, nets, statement)


def opinion(day_file, clearing_file, room=FILE_MOST):
    """What a program says of two files: it reads no more than so much of each; its own room suffices."""
    return judge(day_file[:FILE_MOST], clearing_file[:FILE_MOST], room)


def report(answer):
    """The text that a program prints of an answer."""
    lines = ["verdict %d %d %d %d" % answer.verdict]
    if answer.verdict == ACCEPTED:
        periods = len(answer.nets) // len(answer.codes)
        lines += ["%s %d" % total for total in zip(TOTALS, answer.totals)]
        lines += ["net %d %d %d" % (answer.codes[cell // periods], cell % periods, net)
                  for cell, net in enumerate(answer.nets)]
    return "".join(line + "\n" for line in lines)
