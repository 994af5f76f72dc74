"""Near misses and damage: changes to the files of an accepted case.

A change is a list of edits with the verdict that it must bring, or None where the judge has to say it. An
edit puts a value into a field of a row, or alters a whole file: (field, row, value, period) for a field with
a value for each period, else (field, row, value); ("count", (file, section), value); ("cut", file, length);
("tail", file, bytes); ("flip", file, (position, mask)); ("whole", file, bytes). File 0 is the day, 1 the
clearing. Each kind of change is a function of a case and a generator; it raises NoPlace where the case, or
what was drawn, has no place for it.
"""
from collections import namedtuple
from functools import partial, reduce
from math import gcd
from struct import pack_into

from days import clip, unit_of
from judge import ACCEPTED, DAY_LIMITS, FILE_MOST, MOST, SELL, WHOLE, Verdict, opinion, shares

Change = namedtuple("Change", "edits verdict")
Field = namedtuple("Field", "file section number at per form least most")

FORMS = {"<B": (0, 255), "<H": (0, 65535), "<i": (-2 ** 31, 2 ** 31 - 1), "<I": (0, 2 ** 32 - 1)}
FIELDS = {              # file, section, number, offset, fields of 4 bytes to the next period's, form, range
    "floor": Field(0, 1, 0, 0, 0, "<i", -MOST, MOST),
    "ceiling": Field(0, 1, 1, 4, 0, "<i", -MOST, MOST),
    "code": Field(0, 2, 0, 0, 0, "<H", 1, 65535),
    "from": Field(0, 3, 0, 0, 0, "<B", 0, "zones"),
    "to": Field(0, 3, 1, 1, 0, "<B", 0, "zones"),
    "forward": Field(0, 3, 2, 2, 2, "<I", 0, MOST),
    "back": Field(0, 3, 3, 6, 2, "<I", 0, MOST),
    "step zone": Field(0, 4, 0, 0, 0, "<B", 0, "zones"),
    "step period": Field(0, 4, 1, 1, 0, "<B", 0, "periods"),
    "step side": Field(0, 4, 2, 2, 0, "<B", 0, 1),
    "step spare": Field(0, 4, 3, 3, 0, "<B", 0, 0),
    "step price": Field(0, 4, 4, 4, 0, "<i", -MOST, MOST),
    "step quantity": Field(0, 4, 5, 8, 0, "<I", 1, MOST),
    "block zone": Field(0, 5, 0, 0, 0, "<B", 0, "zones"),
    "block side": Field(0, 5, 1, 1, 0, "<B", 0, 1),
    "block least": Field(0, 5, 2, 2, 0, "<H", 0, WHOLE),
    "block price": Field(0, 5, 3, 4, 0, "<i", -MOST, MOST),
    "block quantity": Field(0, 5, 4, 8, 1, "<I", 0, MOST),
    "price": Field(1, 1, 0, 0, 0, "<i", -MOST, MOST),
    "flow": Field(1, 2, 0, 0, 0, "<i", -MOST, MOST),
    "volume": Field(1, 3, 0, 0, 0, "<I", 0, MOST),
    "ratio": Field(1, 4, 0, 0, 0, "<H", 0, WHOLE),
}
NAMES = tuple(FIELDS)
RULE_ORDER = 11, 12, 13, 20, 21, 14, 15, 16, 17


class NoPlace(Exception):
    """The case has no place for a change."""


def need(holds):
    """Go on only if it holds."""
    if not holds:
        raise NoPlace


def altered(case, edits):
    """The two files of a case after the edits, those of single fields first."""
    files = [bytearray(file) for file in case.files]
    for name, where, value, *period in sorted(edits, key=lambda edit: edit[0] in ("cut", "tail")):
        if name == "cut":
            del files[where][value:]
        elif name == "tail":
            files[where] += value
        elif name == "whole":
            files[where][:] = value
        elif name == "flip":
            files[where][value[0]] ^= value[1]
        elif name == "count":
            pack_into("<H", files[where[0]], case.starts[where[0]][where[1] - 1], value)
        else:
            file, section, _, at, per, form, _, _ = FIELDS[name]
            row = case.starts[file][section - 1] + 2 + where * case.sizes[file][section - 1]
            pack_into(form, files[file], row + at + 4 * per * sum(period), value)
    return tuple(bytes(file) for file in files)


def judged(files, verdict, room=FILE_MOST):
    """The judge's answer on two files, which has the verdict that is known by construction."""
    answer = opinion(*files, room)
    if verdict is not None and answer.verdict != verdict:
        raise AssertionError("the verdict is %s and should be %s" % (answer.verdict, verdict))
    return answer


def ends_of(case, name):
    """The ends of a field's range."""
    field = FIELDS[name]
    most = {"zones": case.zones - 1, "periods": case.periods - 1}.get(field.most, field.most)
    return field.least, most


def beyond(case, name):
    """Values of a field outside its range: one beyond, the ends of its form, a lone high bit."""
    (least, most), (first, last) = ends_of(case, name), FORMS[FIELDS[name].form]
    return [value for value in (least - 1, most + 1, first, last, last // 2 + 1)
            if first <= value <= last and not least <= value <= most]


def spot(draw, count):
    """A row out of so many: the first, the middle, the last or any."""
    need(count)
    return draw.pick((0, count // 2, count - 1, draw.below(count)))


def other(draw, old, values, least, most):
    """One of the values that is not the old one and lies from least to most."""
    values = [value for value in values if value != old and least <= value <= most]
    need(values)
    return draw.pick(values)


def outside(draw, least, most):
    """A value outside two bounds, one beyond or at the end of the range."""
    value = draw.pick((least - 1, most + 1, -MOST, MOST))
    need(abs(value) <= MOST and not least <= value <= most)
    return value


# ---- reading: 1 to 8

def bad_value(name, row, value, period=0):
    """A field outside its range."""
    field = FIELDS[name]
    place = field.section, row, field.number + field.per * period
    return Change([(name, row, value, period)], Verdict(7 if field.file else 3, *place))


def out_of_range(case, draw):
    """Any field outside its range."""
    name = draw.pick(NAMES)
    row = spot(draw, case.counts[FIELDS[name].file][FIELDS[name].section - 1])
    period = spot(draw, case.periods) if FIELDS[name].per else 0
    return bad_value(name, row, draw.pick(beyond(case, name)), period)


def crossings(case, row):
    """Ways to put a floor above its ceiling, which the ceiling is blamed for; None for one that does not."""
    floor, ceiling = case.bounds[row]
    ways = ("floor", ceiling + 1), ("ceiling", floor - 1), ("floor", MOST), ("ceiling", -MOST)
    return [Change([(name, row, value)], Verdict(3, 1, row, 1))
            if abs(value) <= MOST and not floor <= value <= ceiling else None for name, value in ways]


def bounds_crossed(case, draw):
    """A floor above its ceiling."""
    change = draw.pick(crossings(case, spot(draw, case.periods)))
    need(change)
    return change


def repeats(case, row, lower=1):
    """Ways to put a code not above the one before it, by its own value, which may be a lower one, or by that
    of the one before; there are none for the first code."""
    ways = ()
    if row > 0:
        before, code = case.codes[row - 1:row + 1]
        ways = (row, before), (row, lower), (row - 1, code), (row - 1, 65535)
    return [Change([("code", at, value)], Verdict(3, 2, row, 0)) for at, value in ways]


def code_not_above(case, draw):
    """A code that is not above the one before it."""
    row = spot(draw, case.zones)
    need(row > 0)
    return draw.pick(repeats(case, row, draw.between(1, case.codes[row - 1])))


def loops(case, row):
    """Ways to let a line end where it starts, which its "to" is blamed for."""
    source, target, _ = case.lines[row]
    return [Change([edit], Verdict(3, 3, row, 1)) for edit in (("from", row, target), ("to", row, source))]


def same_ends(case, draw):
    """A line that ends where it starts."""
    return draw.pick(loops(case, spot(draw, len(case.lines))))


def emptied(case, row):
    """The way to leave a block no quantity above 0, which its last field is blamed for."""
    edits = [("block quantity", row, 0, period) for period in range(case.periods)]
    return [Change(edits, Verdict(3, 5, row, 3 + case.periods))]


def no_quantity(case, draw):
    """A block with no quantity above 0."""
    return emptied(case, spot(draw, len(case.blocks)))[0]


def row_faults(case, file, section, row):
    """What can be wrong with a row, as lists of changes: first the ways to break the rule between its fields
    or with the row before, if there are any, then of each field in row order its values outside its range."""
    ways = {(0, 1): crossings, (0, 2): repeats, (0, 3): loops, (0, 5): emptied}.get((file, section))
    between = [change for change in ways(case, row) if change] if ways else []
    alone = [[bad_value(name, row, value, period) for value in beyond(case, name)]
             for name, field in FIELDS.items() if (field.file, field.section) == (file, section)
             for period in range(case.periods if field.per else 1)]
    return ([between] if between else []) + sorted(alone, key=lambda changes: changes[0].verdict)


def counts(case, file, section):
    """Counts to put in the place of a section's own."""
    count, most = case.counts[file][section - 1], DAY_LIMITS[section - 1][1]
    values = (0, count - 1, count + 1, most, most + 1, count + 256, 32768, 65535)
    return [value for value in values if 0 <= value <= 65535 and value != count]


def count_put(case, file, section, value):
    """Another count: beyond its limits, not the one asked, without the bytes for its rows, or what follows is
    read as something else."""
    edits, (least, most) = [("count", (file, section), value)], DAY_LIMITS[section - 1]
    end = case.starts[0][section - 1] + 2 + value * case.sizes[0][section - 1]
    if file == 1:
        return Change(edits, Verdict(6, section))
    if not least <= value <= most:
        return Change(edits, Verdict(2, section))
    return Change(edits, Verdict(1, section) if end > len(case.files[0]) else None)


def count_wrong(case, draw):
    """Any other count."""
    file = draw.below(2)
    section = 1 + spot(draw, 5 - file)
    return count_put(case, file, section, draw.pick(counts(case, file, section)))


def cut_at(case, file, length):
    """A file cut off."""
    section = min(number for number, end in enumerate(case.starts[file]) if end > length)
    return Change([("cut", file, length)], Verdict(5 if file else 1, section))


def cuts(case, file, section, row):
    """Where a section can be cut: around and inside its count, inside and behind a row, before its end."""
    start, end = case.starts[file][section - 1:section + 1]
    size = case.sizes[file][section - 1]
    at = start + 2 + row * size
    lengths = (start, start + 1, start + 2, at + 1, at + size // 2, at + size, end - 1)
    return [length for length in lengths if start <= length < end]


def cut_off(case, draw):
    """A file cut off at any kind of place, to nothing too."""
    file = draw.below(2)
    section = 1 + spot(draw, 5 - file)
    row = spot(draw, case.counts[file][section - 1] + 1)
    return cut_at(case, file, draw.pick(cuts(case, file, section, row) + [0]))


def count_first(case, draw):
    """A wrong count with nothing behind it: the count is judged before the room for its rows."""
    change = count_wrong(case, draw)
    file, section = change.edits[0][1]
    need(change.verdict is not None and change.verdict[0] != 1)
    return Change(change.edits + [("cut", file, case.starts[file][section - 1] + 2)], change.verdict)


def room_first(case, draw):
    """A bad field in a section that is cut: the room for all rows is judged before the rows."""
    change = out_of_range(case, draw)
    number, section = change.verdict[:2]
    file = FIELDS[change.edits[0][0]].file
    end = case.starts[file][section] - 1
    return Change(change.edits + [("cut", file, end)], Verdict(number - 2, section))


def one_byte_blocks(case, _):
    """A clearing file with one byte a block, as it was when blocks were taken or left: its last section is
    cut off. Of a day with no blocks it is the same file."""
    rows = bytes(1 if ratio else 0 for ratio in case.ratios)
    edits = [("cut", 1, case.starts[1][3] + 2), ("tail", 1, rows)]
    return Change(edits, Verdict(5, 4) if rows else ACCEPTED)


def tail(case, draw):
    """Bytes after the last section: one or many, zeros or any."""
    file = draw.below(2)
    more = draw.pick((1, 1, 2, draw.between(3, 40)))
    return Change([("tail", file, draw.pick((bytes(more), draw.bytes(more))))], Verdict(8 if file else 4))


# ---- damage

def flipped(case, draw):
    """One to three bytes altered, anywhere."""
    edits = []
    for _ in range(draw.pick((1, 1, 2, 3))):
        file = draw.below(2)
        mask = draw.pick((1 << draw.below(8), draw.between(1, 255)))
        edits.append(("flip", file, (draw.below(len(case.files[file])), mask)))
    return Change(edits, None)


def replaced(case, draw):
    """A file that is empty, of random bytes or the other file."""
    file = draw.below(2)
    value = draw.pick((b"", draw.bytes(draw.below(100)), case.files[1 - file]))
    return Change([("whole", file, value)], None if value else Verdict(5 if file else 1, 1))


def overlong(case, draw, file=None):
    """A file as long as is read or longer: a good one with a tail, or random bytes behind a good start."""
    file = draw.below(2) if file is None else file
    length = FILE_MOST + draw.pick((0, 1, 2, draw.below(3000)))
    if draw.below(3):
        return Change([("tail", file, bytes(length - len(case.files[file])))], Verdict(8 if file else 4))
    start = draw.pick((b"", case.files[file][:draw.below(60)]))
    return Change([("whole", file, start + draw.bytes(length - len(start)))], None)


# ---- rules: 11 to 17, 20 and 21

def price_out(case, draw):
    """A price below its floor or above its ceiling."""
    zone, period = spot(draw, case.zones), spot(draw, case.periods)
    value = outside(draw, *case.bounds[period])
    return Change([("price", zone * case.periods + period, value)], Verdict(11, zone, period))


def bounds_inside(case, draw):
    """A floor above or a ceiling below a price."""
    zone, period = spot(draw, case.zones), spot(draw, case.periods)
    floor, ceiling = case.bounds[period]
    column = [case.price(each, period) for each in range(case.zones)]
    if draw.below(2):
        floor = column[zone] + 1
        edit = "floor", period, floor
    else:
        ceiling = column[zone] - 1
        edit = "ceiling", period, ceiling
    need(floor <= ceiling)
    first = min(each for each, price in enumerate(column) if not floor <= price <= ceiling)
    return Change([edit], Verdict(11, first, period))


def span(case, draw):
    """A line and period, the flow there and the capacities."""
    line, period = spot(draw, len(case.lines)), spot(draw, case.periods)
    forward, back = case.lines[line][2][2 * period:2 * period + 2]
    return line, period, case.flows[line * case.periods + period], forward, back


def flow_out(case, draw):
    """A flow beyond its capacity, one way or the other."""
    line, period, _, forward, back = span(case, draw)
    value = outside(draw, -back, forward)
    return Change([("flow", line * case.periods + period, value)], Verdict(12, line, period))


def capacity_short(case, draw):
    """A capacity one below the flow."""
    line, period, flow, _, _ = span(case, draw)
    need(flow)
    edit = "forward" if flow > 0 else "back", line, abs(flow) - 1, period
    return Change([edit], Verdict(12, line, period))


def quantity_passed(case, draw):
    """A volume above its step's quantity, by the volume or by the quantity."""
    row = spot(draw, len(case.steps))
    quantity, volume = case.steps[row][4], case.volumes[row]
    name, value = draw.pick((("volume", quantity + 1), ("volume", MOST), ("step quantity", volume - 1)))
    need(1 <= value <= MOST and (name == "step quantity" or value > quantity))
    return Change([(name, row, value)], Verdict(13, row))


def least_missed(case, draw):
    """A ratio above 0 and below the least, by the ratio or by the least; a least of 0 stands for 1,000."""
    row = spot(draw, len(case.blocks))
    least, ratio = case.blocks[row][2] or WHOLE, case.ratios[row]
    name, value = draw.pick((("ratio", least - 1), ("ratio", 1), ("ratio", draw.below(least)),
                             ("block least", min(WHOLE, ratio + 1)), ("block least", 0)))
    need(0 < value < least if name == "ratio" else 0 < ratio < (value or WHOLE))
    return Change([(name, row, value)], Verdict(20, row))


def share_broken(case, draw):
    """A volume not whole: one more or less of a quantity, or both in two periods so that the sum stays whole;
    or another ratio."""
    row, period = spot(draw, len(case.blocks)), spot(draw, case.periods)
    quantities, ratio = list(case.blocks[row][4]), case.ratios[row]
    moves = draw.pick(((), [(period, 1)], [(period, -1)], [(period, 1), (spot(draw, case.periods), -1)]))
    for at, more in moves:
        quantities[at] += more
    edits = [("block quantity", row, quantities[at], at) for at, _ in moves]
    if not moves:
        ratio = draw.pick((1, 500, 999, draw.between(1, 999)))
        edits = [("ratio", row, ratio), ("block least", row, draw.between(1, ratio))]
    broken = [at for at, quantity in enumerate(quantities) if quantity * ratio % WHOLE]
    need(broken and min(quantities) >= 0 and max(quantities) <= MOST)
    return Change(edits, Verdict(21, row, broken[0]))


def absorbed(case, spared, nets):
    """Edits of steps at the money, but the spared one, that move the net positions of cells by so much."""
    edits = []
    for zone, period, left in nets:
        for row, (step, volume) in enumerate(zip(case.steps, case.volumes)):
            if left and step[:2] == (zone, period) and row != spared and case.gain(row) == 0:
                sign = 1 if step[2] == SELL else -1
                new = max(0, min(step[4], volume + sign * left))
                left -= sign * (new - volume)
                edits += [("volume", row, new)] if new != volume else []
        need(left == 0)
    return edits


def flow_off(case, draw, settled=False):
    """Another flow inside its capacities: 14; with the steps to match wrong only between unequal prices."""
    line, period, flow, forward, back = span(case, draw)
    value = other(draw, flow, (flow - 1, flow + 1, -flow, 0, forward, -back), -back, forward)
    edit = "flow", line * case.periods + period, value
    source, target, _ = case.lines[line]
    if not settled:
        return Change([edit], Verdict(14, min(source, target), period))
    edits = absorbed(case, None, [(source, period, value - flow), (target, period, flow - value)])
    return Change(edits + [edit], Verdict(16, line, period) if case.rise(line, period) else ACCEPTED)


def volume_off(case, draw, settled=False):
    """Another volume up to its quantity: 14; with other steps to match wrong unless it is at the money."""
    row = spot(draw, len(case.steps))
    (zone, period, side, _, quantity), volume = case.steps[row], case.volumes[row]
    value = other(draw, volume, (volume - 1, volume + 1, 0, quantity), 0, quantity)
    edit = "volume", row, value
    if not settled:
        return Change([edit], Verdict(14, zone, period))
    edits = absorbed(case, row, [(zone, period, (volume - value) * (1 if side == SELL else -1))])
    return Change(edits + [edit], Verdict(15, row) if case.gain(row) else ACCEPTED)


def ratio_moved(case, draw, settled=False):
    """Another ratio that the least and the quantities allow: 14; with the steps to match wrong only if it is
    above 0 and the block does not pay."""
    row = spot(draw, len(case.blocks))
    (zone, side, least, limit, quantities), ratio = case.blocks[row], case.ratios[row]
    grain = unit_of(gcd(*quantities))               # ratios that make whole volumes are this far apart
    first = -(-(least or WHOLE) // grain) * grain
    values = [value for value in (first, WHOLE, ratio - grain, ratio + grain) if value >= first]
    value = other(draw, ratio, values + [0], 0, WHOLE)
    edit = "ratio", row, value
    if not settled:
        return Change([edit], Verdict(14, zone, first_above(quantities)))
    both_shares = zip(shares(quantities, ratio), shares(quantities, value))
    edits = absorbed(case, None, [(zone, period, old - new if side == SELL else new - old)
                                  for period, (old, new) in enumerate(both_shares)])
    best = case.last_paying(row)
    pays = value == 0 or (limit <= best if side == SELL else limit >= best)
    return Change(edits + [edit], ACCEPTED if pays else Verdict(17, row))


def first_above(values):
    """The first place of a value that is not 0."""
    return min(place for place, value in enumerate(values) if value)


def step_moved(case, draw):
    """An accepted step on the other side, in another zone or in another period."""
    row = spot(draw, len(case.steps))
    need(case.volumes[row])
    zone, period, side = case.steps[row][:3]
    name, old, value = draw.pick((("step side", side, 1 - side), ("step zone", zone, draw.below(case.zones)),
                                  ("step period", period, draw.below(case.periods))))
    need(value != old)
    place = {"step zone": (min(zone, value), period), "step period": (zone, min(period, value))}
    return Change([(name, row, value)], Verdict(14, *place.get(name, (zone, period))))


def block_moved(case, draw):
    """An accepted block on the other side, or with more in a period, the least that its ratio makes whole."""
    row, period = spot(draw, len(case.blocks)), spot(draw, case.periods)
    zone, side, _, _, quantities = case.blocks[row]
    more = quantities[period] + unit_of(case.ratios[row])
    need(case.ratios[row] and more <= MOST)
    if draw.below(2):
        return Change([("block side", row, 1 - side)], Verdict(14, zone, first_above(quantities)))
    return Change([("block quantity", row, more, period)], Verdict(14, zone, period))


def line_moved(case, draw):
    """A line that carries something from or to another zone."""
    row = spot(draw, len(case.lines))
    flows = case.flows[row * case.periods:(row + 1) * case.periods]
    end, zone = draw.below(2), draw.below(case.zones)
    need(zone not in case.lines[row][:2] and any(flows))
    edit = ("from", "to")[end], row, zone
    return Change([edit], Verdict(14, min(zone, case.lines[row][end]), first_above(flows)))


def limit_crossed(case, draw):
    """A step's limit on the wrong side of the price for what is accepted of it, or a quantity not filled."""
    row = spot(draw, len(case.steps))
    (zone, period, side, _, quantity), volume = case.steps[row], case.volumes[row]
    if case.gain(row) > 0 and quantity < MOST and draw.below(2):
        return Change([("step quantity", row, draw.pick((quantity + 1, MOST)))], Verdict(15, row))
    out = draw.pick((1, 1, draw.between(1, 4000)))
    if volume == 0 or (volume < quantity and draw.below(2)):
        out = -out                                          # into the money, and not full
    value = case.price(zone, period) + (out if side == SELL else -out)
    need(abs(value) <= MOST)
    return Change([("step price", row, value)], Verdict(15, row))


def capacity_left(case, draw):
    """A capacity that a line between unequal prices leaves unused."""
    line, period, _, forward, back = span(case, draw)
    rise = case.rise(line, period)
    name, old = ("forward", forward) if rise > 0 else ("back", back)
    need(rise and old < MOST)
    edit = name, line, draw.pick((old + 1, MOST)), period
    return Change([edit], Verdict(16, line, period))


def limit_unpaid(case, draw):
    """An accepted block's limit one or more beyond the last that pays."""
    row = spot(draw, len(case.blocks))
    need(case.ratios[row])
    more = draw.pick((1, 1, 1, draw.between(1, 3000)))
    value = case.last_paying(row) + (more if case.blocks[row][1] == SELL else -more)
    need(abs(value) <= MOST)
    return Change([("block price", row, value)], Verdict(17, row))


def price_moved(case, draw):
    """A price moved inside its bounds: 15, 16, 17 or accepted."""
    cell = spot(draw, len(case.prices))
    (floor, ceiling), price = case.bounds[cell % case.periods], case.prices[cell]
    value = other(draw, price, (price - 1, price + 1, -price, floor, ceiling), floor, ceiling)
    return Change([("price", cell, value)], None)


def left_alone(case, draw):
    """Another limit or quantity of a rejected block, or wider bounds: still accepted."""
    if draw.below(3) == 0:
        edit = draw.pick((("floor", -MOST), ("ceiling", MOST)))
        return Change([(edit[0], spot(draw, case.periods), edit[1])], ACCEPTED)
    row = spot(draw, len(case.blocks))
    need(not case.ratios[row])
    period = spot(draw, case.periods)
    edit = draw.pick((("block price", row, clip(draw.between(-2 * MOST, 2 * MOST))),
                      ("block quantity", row, draw.pick((1, MOST)), period)))
    return Change([edit], ACCEPTED)


def least_met(case, draw):
    """Another least ratio that the ratio does not miss: still accepted."""
    row = spot(draw, len(case.blocks))
    least, ratio = case.blocks[row][2], case.ratios[row]
    value = other(draw, least, (0, 1, ratio, WHOLE, draw.between(0, WHOLE)), 0, WHOLE)
    need(ratio == 0 or (value or WHOLE) <= ratio)
    return Change([("block least", row, value)], ACCEPTED)


# ---- two at once

READING = (out_of_range, bounds_crossed, code_not_above, same_ends, no_quantity, count_wrong,
           cut_off, one_byte_blocks, tail)
RULES = (price_out, bounds_inside, flow_out, capacity_short, quantity_passed, least_missed, share_broken,
         flow_off, volume_off, ratio_moved, step_moved, block_moved, line_moved, limit_crossed, capacity_left,
         limit_unpaid)
BALANCED = (*(partial(kind, settled=True) for kind in (flow_off, volume_off, ratio_moved)), left_alone,
            least_met)
ONE_EACH = (price_out, flow_out, quantity_passed, least_missed, share_broken, volume_off, limit_crossed,
            capacity_left, limit_unpaid)        # of each rule one kind, in the order of the rules


def touched(case, edit):
    """The thing that an edit belongs to: a period, the codes, a line, a step, a block or a file's shape."""
    name, where = edit[:2]
    if name == "count":
        return "shape", where[0]
    if name in ("cut", "tail"):
        return "shape", where
    file, section = FIELDS[name][:2]
    if file == 1:
        where = where % case.periods if section == 1 else where // case.periods if section == 2 else where
        section += section > 1
    return section, 0 if section == 2 else where


def order(verdict):
    """When a verdict is reached: day, clearing, rules; in a file section by section, row by row, field by
    field."""
    number, first, second, third = verdict
    if number == 0:
        return (3,)
    if number in (4, 8):
        return number // 8, 9
    if number < 8:
        stage = (number - 1) % 4
        return number // 5, first, (2, 1, 3)[stage], second, third
    return 2, RULE_ORDER.index(number), first, second


def both(one, two):
    """Two changes at once, the second on top of the first; the earlier one is named."""
    return Change(one.edits + two.edits, min(one.verdict, two.verdict, key=order))


def joined(case, one, two):
    """Two changes at once; of two that have nothing in common the earlier one is named."""
    things = [touched(case, edit) for edit in one.edits]
    shared = any(touched(case, edit) in things for edit in two.edits)
    if one.verdict is None or two.verdict is None:
        shared = True
    elif one.verdict.number == two.verdict.number == 14:    # in one period each can undo the other
        single = all(edit[0] in ("flow", "volume") for edit in one.edits + two.edits)
        shared = not single or one.verdict.second == two.verdict.second
    return Change(one.edits + two.edits, None) if shared else both(one, two)


def two_fields(case, draw):
    """Two faults in one row, of which the first in row order is named."""
    section = 1 + draw.below(5)
    faults = row_faults(case, 0, section, spot(draw, case.counts[0][section - 1]))
    one, two = draw.below(len(faults)), draw.below(len(faults))
    need(one != two)
    return both(draw.pick(faults[min(one, two)]), draw.pick(faults[max(one, two)]))


def two_faults(case, draw):
    """Changes of any two kinds at once."""
    kinds = [draw.pick(draw.pick((READING, RULES, RULES, BALANCED))) for _ in range(2)]
    return joined(case, *(kind(case, draw) for kind in kinds))


def twice(case, draw, kind=None):
    """A rule broken in two rows, or at two places of which one has the lesser zone, line or section and the
    other the lesser period or row."""
    kind = kind or draw.pick(TWICE)
    one, two = kind(case, draw), kind(case, draw)
    (number, row, period, _), (_, other_row, other_period, _) = one.verdict, two.verdict
    need((row - other_row) * (period - other_period) < 0 or (number in (13, 15, 17, 20) and row != other_row))
    return joined(case, one, two)


def rest_broken(case, draw, first=None):
    """Each rule from one of them on broken once, at places that have nothing in common."""
    first = draw.below(len(ONE_EACH)) if first is None else first
    change = reduce(partial(joined, case), [kind(case, draw) for kind in ONE_EACH[first:]])
    need(change.verdict is not None)
    return change


TWICE = (out_of_range, price_out, flow_out, quantity_passed, least_missed, share_broken, flow_off, volume_off,
         limit_crossed, capacity_left, limit_unpaid)
DAMAGE = (flipped, replaced, count_first, room_first, price_moved)
KINDS = (READING + RULES * 2 + BALANCED * 2 + DAMAGE + (two_faults,) * 8 + (twice,) * 4
         + (out_of_range, flipped, price_moved, two_fields, two_fields, rest_broken,
            least_missed, share_broken, share_broken))


def drawn(draw, cases, kinds=KINDS):
    """The files and the verdict of one of the changes to one of the cases that has a place for it."""
    while True:
        try:
            case = draw.pick(cases)
            change = draw.pick(kinds)(case, draw)
        except NoPlace:
            continue
        return altered(case, change.edits), change.verdict
