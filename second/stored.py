"""python3 second/stored.py [FOLDER]            writes the stored sets of pairs below FOLDER
python3 second/stored.py --maximal FOLDER    writes one accepted maximal day into FOLDER

FOLDER is the repository's root if none is given.
"""
import os
import sys
from functools import partial
from itertools import combinations, combinations_with_replacement, product
from struct import iter_unpack, pack

from days import Case, Draw, day_a, extreme, make, maximal, medium, one_zone, small, special_days
from faults import (BALANCED, DAMAGE, FIELDS, NAMES, ONE_EACH, READING, RULES, TWICE, Change, altered,
                    bad_value, beyond, both, count_put, counts, cut_at, cuts, drawn, ends_of, joined, judged,
                    limit_unpaid, one_byte_blocks, overlong, rest_broken, row_faults, twice, two_faults)
from judge import ACCEPTED, BUY, MOST, SELL, WHOLE, Verdict, look_up, opinion, reading, report

ROOT = os.path.dirname(os.path.dirname(os.path.abspath(__file__)))
SECTIONS = [(0, section) for section in range(1, 6)] + [(1, section) for section in range(1, 5)]
ROW_FIELDS = (2, 1, 52, 6, 29)                # of each day section, where there are 25 periods
NUMBERS = [0, 1, 2, 3, 4, 5, 6, 7, 8, 11, 12, 13, 14, 15, 16, 17, 20, 21]
SAMPLE = """verdict 0 0 0 0
order value 4700000
buyers 3200000
sellers 0
rent 1500000
traded 1100
shortfall 150000
net 10 0 500
net 20 0 -500
"""
C8 = [("ratio", 0, WHOLE), ("flow", 0, 400), ("volume", 0, 800), ("volume", 2, 0), ("price", 1, 2000)]
CASES = (                                     # C1 to C11 of the paper: edits of day A and the verdict
    ([], ACCEPTED),
    ([("flow", 0, 499), ("volume", 0, 899), ("volume", 2, 201)], Verdict(16)),
    ([("volume", 2, 199)], Verdict(14, 1)),
    ([("volume", 0, 1001)], Verdict(13)),
    ([("flow", 0, 501)], Verdict(12)),
    ([("price", 0, -50001)], Verdict(11)),
    ([("price", 0, -50000)], Verdict(15)),
    (C8, Verdict(17)),
    (C8 + [("price", 1, 4500)], Verdict(16)),
    ([("flow", 0, 501), ("volume", 0, 1001)], Verdict(12)),
    ([("block quantity", 0, 200), ("block price", 0, 5000), ("ratio", 0, WHOLE), ("volume", 2, 0)], ACCEPTED))
BLOCKS = (              # quantities, prices; then side, least ratio, limit, ratio, number, shortfall
    ((100, 300), (6000, 3200), [
        (SELL, 0, 4000, 1000, 17, 0), (SELL, 0, 3901, 1000, 17, 0), (SELL, 0, 3900, 1000, 0, 0),
        (SELL, 0, 4000, 0, 0, 0), (SELL, 0, 3899, 0, 0, 400), (BUY, 0, 4000, 1000, 0, 0),
        (BUY, 0, 3900, 1000, 0, 0), (BUY, 0, 3899, 1000, 17, 0), (BUY, 0, 4000, 0, 0, 40000),
        (SELL, 1, 3899, 500, 0, 200), (SELL, 1, 3899, 250, 0, 300), (SELL, 10, 3899, 10, 0, 396),
        (SELL, 990, 3899, 990, 0, 4), (SELL, 1, 3899, 1000, 0, 0), (SELL, 1, 3899, 0, 0, 400),
        (SELL, 1, 3900, 500, 0, 0), (SELL, 1, 3901, 500, 17, 0), (SELL, 1, 3901, 10, 17, 0),
        (BUY, 1, 4000, 500, 0, 20000), (BUY, 750, 4000, 750, 0, 10000), (BUY, 1, 3900, 10, 0, 0),
        (BUY, 1, 3899, 990, 17, 0)]),
    ((1, 2), (3999, 4000), [(SELL, 0, 4000, 1000, 17, 0), (SELL, 0, 3999, 1000, 0, 0)]),
    ((1, 2), (4001, 4000), [
        (SELL, 0, 4000, 1000, 0, 0), (BUY, 0, 4000, 1000, 17, 0), (BUY, 0, 4001, 1000, 0, 0)]),
    ((1, 2), (-4001, -4000), [(SELL, 0, -4000, 1000, 17, 0)]),
    ((1, 2), (-3999, -4000), [(BUY, 0, -4000, 1000, 17, 0)]),
    ((1, 2), (-1, 0), [(SELL, 0, 0, 1000, 17, 0)]),
    ((1, 2), (1, 0), [(BUY, 0, 0, 1000, 17, 0)]),
    ((2, 4), (3999, 4000), [(SELL, 1, 4000, 500, 17, 0)]),
    ((2, 4), (4001, 4000), [(SELL, 1, 4000, 500, 0, 1)]),
    ((1000, 2000), (4001, 4000), [
        (SELL, 1, 4000, 1, 0, 999), (SELL, 1, 4000, 999, 0, 1), (BUY, 1, 4000, 1, 17, 0)]),
    ((2, 4), (-3900, -4010), [(SELL, 1, -4000, 500, 0, 80)]),
    ((2, 4), (-3990, -4006), [(SELL, 1, -4000, 500, 17, 0)]),
    ((2, 4), (-4100, -3990), [(BUY, 1, -4000, 500, 0, 80)]),
    ((2, 4), (-4010, -3994), [(BUY, 1, -4000, 500, 17, 0)]),
    ((2, 4), (-2, 1), [(SELL, 1, 0, 500, 0, 0)]),
    ((0, 4), (300, -1), [(BUY, 1, 0, 250, 0, 3)]))
SEVERAL = (             # one day's blocks at a price of 4,000: side, least, limit, quantity, ratio, shortfall
    (SELL, 1, 3999, 4, 500, 2), (SELL, 0, 4100, 10, 0, 0), (BUY, 1, 4050, 10, 200, 400),
    (BUY, 500, 4050, 2, 500, 50), (SELL, 1, 3900, 5, 200, 400), (BUY, 0, 3000, 10, 0, 0),
    (SELL, 0, 3000, 10, 1000, 0))
RATIOS = (              # number and place; of each block, all sell at the price, least, quantities, ratio
    ((0,), (0, (1,), 0), (0, (1,), 1000), (1000, (1,), 0), (1000, (1,), 1000), (1, (1,), 0), (1, (1,), 1000)),
    ((0,), (1, (1000,), 1), (1, (1000,), 999), (999, (1000,), 999), (500, (2,), 500), (499, (2,), 500)),
    ((0,), (8, (125,), 8), (255, (1000,), 256), (256, (125,), 256), (232, (125,), 232), (1, (125,), 1000)),
    ((0,), (1, (2, 0, 998), 500)), ((0,), (1, (0, 2, 0), 500)), ((0,), (3, (1000, 3000, 999000), 3)),
    ((20,), (0, (1000,), 1)), ((20,), (0, (1000,), 999)), ((20,), (0, (2,), 500)), ((20,), (0, (1,), 256)),
    ((20,), (1000, (1000,), 999)), ((20,), (1000, (1000,), 232)), ((20,), (500, (1000,), 499)),
    ((20,), (501, (2,), 500)), ((20,), (999, (1000,), 998)), ((20,), (2, (1000,), 1)),
    ((20,), (256, (1000,), 255)), ((20,), (256, (1000,), 1)), ((20,), (768, (1000,), 232)),
    ((20, 1), (0, (2,), 1000), (0, (2,), 500), (600, (2,), 500)),
    ((20, 2), (1, (2,), 500), (500, (2,), 500), (501, (2,), 500)), ((20, 1), (0, (2,), 0), (0, (2,), 500)),
    ((20, 1), (1, (1,), 500), (0, (2,), 500)), ((20,), (0, (2,), 500), (1, (1,), 500)), ((20,), (0, (1,), 1)),
    ((20, 2), (1, (1, 2), 500), (1, (2, 1), 500), (501, (1, 1), 500)),
    ((21,), (1, (1,), 1)), ((21,), (1, (1,), 500)), ((21,), (1, (1,), 999)), ((21,), (999, (1,), 999)),
    ((21,), (1, (999,), 1)), ((21,), (1, (1001,), 1)), ((21,), (1, (500,), 1)), ((21,), (1, (125,), 4)),
    ((21,), (1, (1, 999), 500)), ((21,), (1, (999, 1), 500)), ((21, 0, 1), (1, (2, 999), 500)),
    ((21, 0, 1), (1, (2, 1, 1), 500)), ((21, 0, 2), (1, (2, 2, 1), 500)), ((21, 0, 1), (1, (0, 1), 500)),
    ((21,), (1, (999999, 1000000), 1)), ((21, 0, 1), (1, (1000000, 999999), 1)), ((21,), (1, (333, 667), 3)),
    ((21,), (1, (1,), 500), (1, (1,), 500)), ((21, 1), (1, (2, 2), 500), (1, (1, 2), 500)),
    ((21, 0, 1), (1, (2, 1), 500), (1, (1, 2), 500)), ((21, 1), (0, (1,), 1000), (1, (1,), 500)),
    ((21, 1), (0, (1,), 0), (1, (3,), 250), (1, (1,), 250)))
ORDER = (               # edits of a day of two blocks, at half, with the verdict of each, in the rules' order
    (("step quantity", 1, 1), Verdict(13, 1)), (("block least", 1, 501), Verdict(20, 1)),
    (("block quantity", 0, 1, 0), Verdict(21)), (("volume", 0, 1), Verdict(14)),
    (("step price", 0, 3999), Verdict(15)), (("block price", 1, 4001), Verdict(17, 1)))
CORNERS = (             # blocks, periods, block rows and periods to break
    (100, 25, (0, 50, 99), (0, 12, 24)), (100, 1, (1, 49, 98), (0,)), (1, 25, (0,), range(25)),
    (3, 3, (0, 1, 2), (0, 1, 2)))
STEPS = (                                     # side, limit, price, volume of 300, number
    (SELL, -100, -50, 300, 0), (SELL, -100, -50, 0, 15), (SELL, -100, -50, 299, 15), (SELL, -50, -100, 1, 15),
    (BUY, -100, -50, 0, 0), (BUY, -100, -50, 300, 15), (BUY, -50, -100, 299, 15), (SELL, -1, 1, 0, 15),
    (SELL, 2000, 2000, 299, 0), (BUY, 2000, 2000, 1, 0), (SELL, 0, 0, 150, 0))
LINES = (                                     # forward, back, price "from", price "to", flow, number
    (500, 200, 2000, 5000, 500, 0), (500, 200, 2000, 5000, -200, 16), (500, 200, 5000, 2000, 500, 16),
    (500, 200, 5000, 2000, -200, 0), (200, 200, -5000, -2000, -200, 16), (200, 200, -2000, -5000, -200, 0),
    (500, 200, 5000, 2000, 0, 16), (500, 200, 2000, 2000, 123, 0), (500, 0, 5000, 2000, 0, 0))


def blocks_alone(prices, blocks, ratios):
    """One zone with blocks, and for each period a sell and a buy step at the price that take up what is
    accepted of them all, rounded down where it is not whole."""
    steps = [(0, period, side, price, MOST) for period, price in enumerate(prices) for side in (SELL, BUY)]
    volumes = [sum(ratio * block[4][period] for block, ratio in zip(blocks, ratios) if block[1] != side)
               // WHOLE for _, period, side, _, _ in steps]
    return one_zone(prices, steps, volumes, blocks, ratios)


def trade_errors():
    """The errors that this trade has made: cases with their verdict and shortfall."""
    for quantities, prices, rows in BLOCKS:
        for side, least, limit, ratio, number, shortfall in rows:
            case = blocks_alone(prices, [(0, side, least, limit, quantities)], [ratio])
            yield case, Verdict(number), shortfall
    blocks = [(0, side, least, limit, (quantity,)) for side, least, limit, quantity, _, _ in SEVERAL]
    yield (blocks_alone((4000,), blocks, [row[4] for row in SEVERAL]), ACCEPTED,
           sum(row[5] for row in SEVERAL))
    for side, limit, price, volume, number in STEPS:
        steps = [(0, 0, 1 - side, price, 500), (0, 0, side, limit, 300)]
        yield one_zone([price], steps, [volume, volume]), Verdict(number, 1 if number else 0), 0
    for forward, back, low, high, flow, number in LINES:
        steps = [(zone, 0, side, (low, high)[zone], 1000) for zone in (0, 1) for side in (SELL, BUY)]
        case = Case([(-50000, 300000)], [10, 20], [(0, 1, (forward, back))], steps, (), [low, high], [flow],
                    [300 + flow, 300, 300, 300 + flow])
        yield case, Verdict(number), 0


def paper_pairs():
    """What the paper shows: day A first, C2 to C12, then the errors of the trade."""
    for edits, verdict in CASES:
        yield altered(day_a(), edits), verdict
    yield one_zone([2000]).files, ACCEPTED
    for case, verdict, shortfall in trade_errors():
        answer = opinion(*case.files)
        if answer.verdict == ACCEPTED and answer.totals[5] != shortfall:
            raise AssertionError("a shortfall is %d and should be %d" % (answer.totals[5], shortfall))
        yield case.files, verdict


def ratio_pairs():
    """Ratios allowed, missing the least and making no whole volumes, known by hand."""
    for verdict, *rows in RATIOS:
        blocks = [(0, SELL, least, 4000, quantities) for least, quantities, _ in rows]
        case = blocks_alone((4000,) * len(rows[0][1]), blocks, [ratio for _, _, ratio in rows])
        yield case, Change([], Verdict(*verdict))
        yield case, one_byte_blocks(case, None)
    case = blocks_alone((4000,), [(0, SELL, 1, 4000, (2,))] * 2, [500, 500])
    for count in range(len(ORDER) + 1):
        for chosen in combinations(ORDER, count):
            yield case, Change([edit for edit, _ in chosen], chosen[0][1] if chosen else ACCEPTED)
    for count, periods, rows, columns in CORNERS:
        yield from corners(even_blocks(count, periods), rows, columns)


def even_blocks(count, periods):
    """A day of blocks at the price, each with its ratio as its least, of which any makes whole volumes."""
    ratios = [999 - 9 * row for row in range(count)]
    blocks = [(0, row % 2, ratio, 4000, (WHOLE,) * periods) for row, ratio in enumerate(ratios)]
    return blocks_alone((4000,) * periods, blocks, ratios)


def corners(case, rows, columns):
    """20 at each of the rows and 21 at each of the rows and periods; then two at once: 20 in the last row
    with 20 and with 21 in the first, 21 in the first row's last period with 21 in the last row's first."""
    missed = [Change([("ratio", row, case.ratios[row] - 1)], Verdict(20, row)) for row in rows]
    broken = [Change([("block quantity", row, WHOLE - 1, period)], Verdict(21, row, period))
              for row in rows for period in columns]
    for change in (Change([], ACCEPTED), one_byte_blocks(case, None), *missed, *broken):
        yield case, change
    for one, two in ((missed[-1], missed[0]), (missed[-1], broken[0]),
                     (broken[-len(columns)], broken[len(columns) - 1])):
        yield case, both(one, two)


def changes_by_table(case):
    """Every field beyond its range in the first, middle, last row and in two; every wrong count and cut."""
    for name in NAMES:
        count = case.counts[FIELDS[name].file][FIELDS[name].section - 1]
        for value in beyond(case, name):
            for row in (0, count // 2, count - 1):
                yield bad_value(name, row, value, (row + value) % case.periods if FIELDS[name].per else 0)
            yield both(bad_value(name, count // 2, value), bad_value(name, count - 1, value))
    for file, section in SECTIONS:
        for value in counts(case, file, section):
            yield count_put(case, file, section, value)
        for length in cuts(case, file, section, case.counts[file][section - 1] // 2):
            yield cut_at(case, file, length)


def turned(changes, turn):
    """One of the changes, another one at each turn."""
    return changes[turn % len(changes)]


def faulty_rows(case):
    """The faults of the first, the middle and the last row of each section, with the row's number."""
    for file, section in SECTIONS:
        count = case.counts[file][section - 1]
        for row in sorted({0, count // 2, count - 1}):
            yield row, row_faults(case, file, section, row)


def faults_alone(case, few=False):
    """Each fault of a row in every way; a few: in one way."""
    for row, faults in faulty_rows(case):
        for turn, ways in enumerate(faults, row):
            yield from [turned(ways, turn)] if few else ways


def faults_in_one_row(case, few=False):
    """Every two faults of a row, the first in row order named; a few: in a section's first row those side by
    side, in others the first one with each other."""
    for row, faults in faulty_rows(case):
        pairs = combinations(faults, 2)
        if few:
            pairs = product(faults[:1], faults[1:]) if row else zip(faults, faults[1:])
        for turn, (one, two) in enumerate(pairs, row):
            yield both(turned(one, turn), turned(two, turn // 2))


def faults_in_two_rows(case):
    """Two bad rows of a section, the earlier one named though its fault does not stand further left; and the
    last row of a section with the first of the next."""
    for file, section in SECTIONS:
        late = case.counts[file][section - 1] - 1
        early = max(0, (late - 1) // 2)             # not the row before, which a code's fault may alter
        rows = [row_faults(case, file, section, row) for row in (early, late)]
        for turn, (one, two) in enumerate(product(*rows)):
            if early < late and one[0].verdict.third >= two[0].verdict.third:
                yield both(turned(two, turn), turned(one, turn // 2))
    for one, two in zip(last_faults(case), SECTIONS[1:]):
        yield both(one, row_faults(case, *two, 0)[0][0])


def last_faults(case, which=-1):
    """Of each section the last row's first fault (0) or last (-1)."""
    for file, section in SECTIONS:
        yield row_faults(case, file, section, case.counts[file][section - 1] - 1)[which][0]


def fields_by_table(table):
    """Days of one, of three and of 25 periods: the faults of each field, alone and two at once; the last
    field of the last row where there are many."""
    short = faults_alone, faults_in_one_row, faults_in_two_rows
    long = partial(faults_alone, few=True), partial(faults_in_one_row, few=True)
    for case, kinds in ((make(Draw(4), 1, 4, 3, 4, 3), short), (table, short),
                        (make(Draw(5), 25, 2, 2, 2, 2, idle=True), long),
                        (make(Draw(6), 25, 8, 16, 2, 100, idle=True), (last_faults,))):
        for kind in kinds:
            for change in kind(case):
                yield altered(case, change.edits), change.verdict


def range_ends(cases):
    """For each end of each field's range an accepted pair in which the field holds it."""
    for name in NAMES:
        for which in (0, 1):
            held = [(altered(case, [(name, row, ends_of(case, name)[which])]), case) for case in cases
                    for row in range(case.counts[FIELDS[name].file][FIELDS[name].section - 1])]
            held = [(files, case) for files, case in held if opinion(*files).verdict == ACCEPTED]
            new = [files for files, case in held if files != tuple(case.files)]
            yield (new or [files for files, _ in held])[-1], ACCEPTED


def two_at_once(draw, cases):
    """Every two kinds of faults at once, known by construction if they can be apart, and each kind twice."""
    for one, two in [*combinations_with_replacement(READING + RULES, 2), *product(RULES, RULES)]:
        for _ in range(20):
            files, verdict = drawn(draw, cases, [lambda *at: joined(at[0], one(*at), two(*at))])
            if verdict is not None:
                break
        yield files, verdict
    for kind in TWICE:
        for _ in range(6):
            yield drawn(draw, cases, [lambda *at: twice(*at, kind)])


def largest(draw):
    """Maximal days and their near misses."""
    full, mixed = extreme(), maximal(draw)
    yield tuple(mixed.files), ACCEPTED
    for edits, verdict in (([], ACCEPTED), ([("volume", 1999, MOST - 1)], Verdict(14, 7, 24)),
                           ([("ratio", row, WHOLE) for row in range(100)], ACCEPTED),
                           ([("ratio", row, 0) for row in range(100)], ACCEPTED),
                           ([("ratio", 99, 499)], Verdict(20, 99)),
                           ([("block quantity", 99, MOST - 1, 24)], Verdict(21, 99, 24)),
                           ([("step spare", 1999, 1)], Verdict(3, 4, 1999, 3))):
        yield altered(full, edits), verdict
    yield drawn(draw, [mixed], [limit_unpaid])


def archive_pairs():
    """The pairs of the archive with their verdicts, those known by construction; each pair once."""
    draw = Draw(1)
    yield from paper_pairs()
    for case, change in ratio_pairs():
        yield altered(case, change.edits), change.verdict
    table = make(Draw(3), 3, 3, 3, 6, 3)
    for change in changes_by_table(table):
        yield altered(table, change.edits), change.verdict
    cases = list(special_days(draw)) + [small(draw) for _ in range(220)] + [medium(draw) for _ in range(25)]
    for case in cases:
        yield tuple(case.files), ACCEPTED
    yield from range_ends(cases[:80])
    yield from two_at_once(draw, cases)
    for kind in READING + RULES + BALANCED + DAMAGE + (two_faults,) * 6:
        for _ in range(24):
            yield drawn(draw, cases, [kind])
    for first in range(len(ONE_EACH)):
        for _ in range(3):
            yield drawn(draw, cases[-25:], [partial(rest_broken, first=first)])
    yield from largest(draw)
    for file in (0, 1, 0, 1):
        yield drawn(draw, cases, [partial(overlong, file=file)])
    yield from fields_by_table(table)


def room_records():
    """The pairs and rooms of the rooms' set with their verdicts."""
    draw = Draw(2)
    day, clearing = day_a().files
    for files, verdict in paper_pairs():
        yield files, len(opinion(*files).statement or bytes(60)), verdict
    yield (day[:-1], clearing), 60, Verdict(1, 5)
    yield (b"", b""), 60, Verdict(1, 1)
    yield (day + b"\0", clearing), 60, Verdict(4)
    for room in (0, 1, 51, 52, 59, 60, 61, 100):
        yield (day, clearing), room, ACCEPTED if room >= 60 else Verdict(18)
    long = make(draw, 25, 8, 0, 2, 0)
    for room in (0, 851, 852, 853):
        yield long.files, room, ACCEPTED if room >= 852 else Verdict(18)
    cases, missing = [small(draw) for _ in range(40)], NUMBERS[1:]
    while missing:
        case = draw.pick(cases)
        files, verdict = drawn(draw, [case], READING + RULES)
        if verdict is not None and verdict.number in missing:
            missing.remove(verdict.number)
            yield files, len(opinion(*case.files).statement), verdict
    yield altered(day_a(), CASES[7][0]), 0, Verdict(17)
    halves = even_blocks(3, 2)
    for room in (0, 59, 60, 61):
        yield halves.files, room, ACCEPTED if room >= 60 else Verdict(18)
    for case, change in corners(halves, (0, 1, 2), (0, 1)):
        if change.verdict.number >= 20:
            yield altered(case, change.edits), 0, change.verdict
    for case in (day_a(), halves, one_zone([2000])):
        change = one_byte_blocks(case, None)
        yield altered(case, change.edits), 60, change.verdict
    for case, which in ((day_a(), 0), (make(draw, 3, 2, 2, 2, 2), -1)):
        for change in last_faults(case, which):
            yield altered(case, change.edits), len(opinion(*case.files).statement), change.verdict


def reading_cases(case, edits):
    """What is read of day A and clearing A: a name, two files, and the verdict if it is known by
    construction."""
    day, clearing = case.files
    yield "day A and clearing A", (day, clearing), ACCEPTED
    yield "day A without its last byte", (day[:-1], clearing), Verdict(1, 5)
    yield "two empty files", (b"", b""), Verdict(1, 1)
    yield "day A with one byte more", (day + b"\0", clearing), Verdict(4)
    yield "clearing A with one byte more", (day, clearing + b"\0"), Verdict(8)
    yield "clearing A with one byte a block", (day, clearing[:-1]), Verdict(5, 4)
    names = "day", "clearing"
    for file, name in enumerate(names):
        for length in range(len(case.files[file])):
            change = cut_at(case, file, length)
            yield "%s cut to %d" % (name, length), altered(case, change.edits), change.verdict
    for file, at, value in iter_unpack("BBB", edits):
        flip = "flip", file, (at, case.files[file][at] ^ value)
        yield "%s byte %d is %d" % (names[file], at, value), altered(case, [flip]), None


def tally(name, verdicts, sizes):
    """Print how many pairs and bytes a set has, and of each number how many and at how many places."""
    numbers = sorted({verdict.number for verdict in verdicts})
    if not set(NUMBERS) <= set(numbers):
        raise AssertionError("the set %s does not reach every number" % name)
    counts = []
    for number in numbers:
        places = [verdict[1:] for verdict in verdicts if verdict.number == number]
        counts.append("%d: %d at %d" % (number, len(places), len(set(places))))
    print("%s: %d pairs, %d bytes, %d printed; number: pairs at places %s"
          % (name, len(verdicts), *sizes, ", ".join(counts)))


def check_fields(verdicts):
    """Every field of a day's rows is named by 3, each section of the clearing by 7, and no field by others."""
    fields = {(section, field) for section, count in enumerate(ROW_FIELDS, 1) for field in range(count)}
    if {(verdict.first, verdict.third) for verdict in verdicts if verdict.number == 3} != fields:
        raise AssertionError("the set does not reach every field of the day file")
    if {verdict.first for verdict in verdicts if verdict.number == 7} != {1, 2, 3, 4}:
        raise AssertionError("the set does not reach every section of the clearing file")
    if any(verdict.third for verdict in verdicts if verdict.number != 3):
        raise AssertionError("a field is named that is not a day's")


def check_ratios(verdicts):
    """20 is met in the first, the middle and the last of 100 blocks, 21 there too in the first, the middle
    and the last of 25 periods."""
    _, _, rows, columns = CORNERS[0]
    if not {Verdict(20, row) for row in rows} <= set(verdicts):
        raise AssertionError("the set does not reach 20 in every corner")
    if not {Verdict(21, row, period) for row in rows for period in columns} <= set(verdicts):
        raise AssertionError("the set does not reach 21 in every corner")


def stored(name):
    """The bytes of a file below the folder crates of this repository."""
    with open(os.path.join(ROOT, "crates", *name.split("/")), "rb") as file:
        return file.read()


def write(folder, name, data):
    """Write a file below a folder."""
    path = os.path.join(folder, *name.split("/"))
    os.makedirs(os.path.dirname(path), exist_ok=True)
    with open(path, "wb") as file:
        file.write(data)


def write_archive(folder):
    """Write the archive's set."""
    framed, text, verdicts = {}, [], []
    for files, verdict in archive_pairs():
        frame = pack("<II", *map(len, files)) + files[0] + files[1]
        if frame not in framed:
            answer = judged(files, verdict)
            framed[frame] = None
            text.append(report(answer))
            verdicts.append(answer.verdict)
    if text[0] != SAMPLE:
        raise AssertionError("the sample day is reported otherwise")
    stdin, stdout = b"".join(framed), "".join(text).encode()
    check_fields(verdicts)
    check_ratios(verdicts)
    write(folder, "crates/archive/stdin", stdin)
    write(folder, "crates/archive/stdout", stdout)
    tally("archive", verdicts, (len(stdin), len(stdout)))


def write_rooms(folder):
    """Write the rooms' set."""
    pairs, text, verdicts = [], [], []
    for files, room, verdict in room_records():
        answer = judged(files, verdict, room)
        statement = answer.statement or b""
        pairs.append(pack("<HHH", *map(len, files), room) + files[0] + files[1])
        text.append(report(answer) + "room " + (statement + b"\xaa" * (room - len(statement))).hex() + "\n")
        verdicts.append(answer.verdict)
    pairs, stdout = b"".join(pairs), "".join(text).encode()
    write(folder, "crates/rooms/data/pairs", pairs)
    write(folder, "crates/rooms/stdout", stdout)
    tally("rooms", verdicts, (len(pairs), len(stdout)))


def write_readings(folder):
    """Write what is printed of the reading of day A and clearing A."""
    case, lines = day_a(), []
    day, clearing = case.files
    if (day, clearing) != (stored("readings/data/day_a"), stored("readings/data/clearing_a")):
        raise AssertionError("the stored day A or clearing A is another")
    for name, files, known in reading_cases(case, stored("readings/data/edits")):
        verdict = reading(*files)
        if known not in (None, verdict):
            raise AssertionError("%s: the verdict is %s and should be %s" % (name, verdict, known))
        lines.append("%s %d %d %d %d" % (name, *verdict))
    for name, file in (("day A", day), ("day A without its last byte", day[:-1])):
        for section in range(7):
            verdict, part = look_up(file, section)
            words = "refused %d %d %d %d part of" % verdict, len(part), part.hex()
            lines.append(("%s section %d %s %d %s" % (name, section, *words)).rstrip())
    stdout = "".join(line + "\n" for line in lines).encode()
    write(folder, "crates/readings/stdout", stdout)
    print("readings: %d lines, %d bytes printed" % (len(lines), len(stdout)))


def main(words):
    """Write what the words of the command ask for."""
    if words[:1] == ["--maximal"] and len(words) == 2:
        case = maximal(Draw(1))
        judged(case.files, ACCEPTED)
        write(words[1], "day.bin", case.files[0])
        write(words[1], "clearing.bin", case.files[1])
    elif len(words) < 2 and words != ["--maximal"]:
        folder = words[0] if words else ROOT
        write_archive(folder)
        write_rooms(folder)
        write_readings(folder)
    else:
        sys.exit(__doc__)


if __name__ == "__main__":
    main(sys.argv[1:])
