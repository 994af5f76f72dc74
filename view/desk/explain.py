"""The checker's verdict in the rule paper's words, with the numbers that decide. Each number of the paper has its function here."""

from math import gcd

from .account import Account, Table
from .files import first_misfit
from .layout import CLEARING, DAY, ENERGY, MONEY, PLAIN, PRICE, SHARE, SIDE, TOTALS, VOLUME, asked, statement_length
from .market import BUY, SELL, WHOLE
from .numbers import said, with_unit
from .paper import NUMBERS, named

VERB = {SELL: "sells", BUY: "buys"}


def account_of(pair):
    """The account of a pair's verdict."""
    verdict = pair.verdict
    number = NUMBERS[verdict.number]
    if verdict.accepted:
        account = Account("Accepted.", verdict.line, number.says)
        of_accepted(account, pair)
        return account
    account = Account(f"Refused: {verdict.number}, {named(verdict, pair.market)}.", verdict.line, number.says)
    EXPLAINED[verdict.number](account, pair)
    return account


# ---- the reading of a file

def faulty_reading(pair):
    return pair.day if pair.clearing is None else pair.clearing


def of_end(account, pair):
    """1 and 5: bytes that a section needs, against those that the file has."""
    reading = faulty_reading(pair)
    part = reading.parts[-1]
    account.title = f"Section {part.section.number}, {part.section.name}, of {reading.file.name}"
    account.fact("starts at", part.offset, note="where the section before it ended" if part.offset else "")
    needed = part.offset + 2
    if part.count is None:
        account.fact("end of its count", needed, note="a count has 2 bytes")
    else:
        width = part.section.width(reading.periods)
        needed += width * part.count
        account.fact("count", part.count)
        account.fact("bytes of a row", width)
        account.fact("end of its rows", needed, note="start, 2, and count times the bytes of a row")
    account.fact("length of the file", reading.file.length)
    account.fact("missing bytes", needed - reading.file.length)
    account.so.append(f"The file ends inside the section's {'count' if part.count is None else 'rows'}.")


def of_count(account, pair):
    """2 and 6: a count against its limits, or against the one that the day file asks."""
    reading = faulty_reading(pair)
    part = reading.parts[-1]
    section = part.section
    account.title = f"Section {section.number}, {section.name}, of {reading.file.name}"
    account.fact("starts at", part.offset)
    account.fact("count", part.count)
    if section.count.of:
        for name in section.count.of:
            account.fact(f"{name} of the day", reading.counts[name])
        account.fact("asked", asked(section, reading.counts), note=" times ".join(section.count.of))
        account.so.append(f"By the day file there are {asked(section, reading.counts)} {section.name}, and not {part.count}.")
    else:
        account.fact("least", section.count.least)
        account.fact("most", section.count.most)
        account.so.append(f"A {reading.kind.name} file has {section.count.least} to {section.count.most} {section.name}.")


def of_field(account, pair):
    """3 and 7: a field against its range, or against what its row or the row before has."""
    reading = faulty_reading(pair)
    part = reading.parts[-1]
    _, number, position = reading.fault.place
    row = part.rows[number]
    before = part.rows[number - 1].values if number else None
    one = part.section.fields_of_row(reading.periods)[position]
    title = part.section.titles(reading.periods)[position]
    earlier, value = row.values[:position], row.values[position]
    which = f" ({reading.row_name(part, number)})" if part.section.count.of else ""
    account.title = (f"Section {part.section.number}, {part.section.name}, row {number}{which}, field {position}, {title}, "
                     f"of {reading.file.name}")
    account.fact("stands at", row.offset_of(position, reading.periods), note=f"{one.width} byte{'s' if one.width > 1 else ''}")
    account.fact("found", value, one.unit)
    broken = first_misfit(part.section, position, value, earlier, before, reading.counts)
    if isinstance(broken, tuple):
        account.fact("least", broken[0], one.unit)
        account.fact("most", broken[1], one.unit, f"the {one.of} are numbered from 0" if one.of else "")
        account.so.append(f"It lies {'below' if value < broken[0] else 'above'} its range.")
    elif broken is not None:
        for name, other in broken.compared(earlier, before):
            account.fact(name, other, one.unit)
        account.so.append(f"It has to be {broken.words}.")


def of_trailing(account, pair):
    """4 and 8: where the last section ends, against the file's length."""
    reading = faulty_reading(pair)
    account.title = f"The end of {reading.file.name}"
    account.fact("end of the last section", reading.end)
    account.fact("length of the file", reading.file.length)
    account.fact("bytes behind it", reading.file.length - reading.end)
    account.so.append("A file ends where its last section does.")


# ---- zones, lines, steps

def zone_words(market, zone):
    return f"zone {zone} (code {market.codes[zone]})"


def of_price(account, pair):
    market, (zone, period, _) = pair.market, pair.verdict.place
    account.title = f"In {zone_words(market, zone)}, period {period}"
    price, floor, ceiling = market.price[zone][period], market.floor[period], market.ceiling[period]
    account.fact("price", price, PRICE)
    account.fact("floor", floor, PRICE)
    account.fact("ceiling", ceiling, PRICE)
    account.so.append(f"The price is {with_unit(floor - price, PRICE)} below the floor." if price < floor
                      else f"The price is {with_unit(price - ceiling, PRICE)} above the ceiling.")


def line_facts(account, market, line, period):
    account.title = f"On line {line.row} from {zone_words(market, line.start)} to {zone_words(market, line.end)}, period {period}"
    account.fact("flow", line.flow[period], VOLUME, "above zero it runs from \"from\" to \"to\"")
    account.fact("forward capacity", line.forward[period], VOLUME)
    account.fact("back capacity", line.back[period], VOLUME)


def of_capacity(account, pair):
    market, (row, period, _) = pair.market, pair.verdict.place
    line = market.lines[row]
    line_facts(account, market, line, period)
    flow, forward, back = line.flow[period], line.forward[period], line.back[period]
    beyond, way = (flow - forward, "forward") if flow > forward else (-back - flow, "back")
    account.fact("beyond by", beyond, VOLUME)
    account.so.append(f"{with_unit(abs(flow), VOLUME)} run {way}, which is {with_unit(beyond, VOLUME)} more than the {way} capacity.")


def step_facts(account, market, step):
    account.title = f"Step {step.row} {VERB[step.side]} in {zone_words(market, step.zone)}, period {step.period}"
    account.fact("side", step.side, SIDE)
    account.fact("accepted", step.accepted, VOLUME)
    account.fact("quantity", step.quantity, VOLUME)


def of_quantity(account, pair):
    step = pair.market.steps[pair.verdict.place[0]]
    step_facts(account, pair.market, step)
    account.fact("beyond by", step.accepted - step.quantity, VOLUME)
    account.so.append(f"{with_unit(step.accepted - step.quantity, VOLUME)} more are accepted than the order has.")


def of_balance(account, pair):
    """The sums first, then what they are made of."""
    market, (zone, period, _) = pair.market, pair.verdict.place
    account.title = f"In {zone_words(market, zone)}, period {period}"
    parts = {"sold": [], "bought": [], "leaves": [], "enters": []}
    for side, word in ((SELL, "sold"), (BUY, "bought")):
        parts[word] += [("steps", market.by_steps(side, zone, period), ""), ("blocks", market.by_blocks(side, zone, period), "")]
    for line in market.lines:
        if line.start == zone:
            parts["leaves"].append((f"line {line.row}", line.flow[period], f"to {zone_words(market, line.end)}"))
        elif line.end == zone:
            parts["enters"].append((f"line {line.row}", line.flow[period], f"from {zone_words(market, line.start)}"))
    sums = {word: sum(volume for _, volume, _ in made) for word, made in parts.items()}
    for word, total in sums.items():
        account.fact(word, total, VOLUME)
    net, flows = sums["sold"] - sums["bought"], sums["leaves"] - sums["enters"]
    account.fact("net position", net, VOLUME, "sold less bought")
    account.fact("flows", flows, VOLUME, "leaving less entering")
    account.fact("difference", net - flows, VOLUME, "net position less flows")
    for word, made in parts.items():
        for name, volume, note in made:
            account.fact(f"{word} by {name}", volume, VOLUME, note)
    account.so.append(f"What is sold and what enters are {with_unit(abs(net - flows), VOLUME)} {'more' if net > flows else 'less'} "
                      "than what is bought and what leaves.")


def of_step(account, pair):
    market = pair.market
    step = market.steps[pair.verdict.place[0]]
    price = market.price[step.zone][step.period]
    step_facts(account, market, step)
    account.fact("limit", step.limit, PRICE)
    account.fact("price", price, PRICE)
    inside = step.limit < price if step.side == SELL else step.limit > price
    account.fact("asked", step.quantity if inside else 0, VOLUME, "in the money, so in full" if inside else "out of the money, so nothing")
    account.so.append(f"The step {VERB[step.side]} at a limit {'below' if step.limit < price else 'above'} the price, so it is "
                      + (f"in the money, and {with_unit(step.quantity - step.accepted, VOLUME)} of it are missing." if inside else
                         f"out of the money, and {with_unit(step.accepted, VOLUME)} of it are accepted all the same."))


def of_line(account, pair):
    market, (row, period, _) = pair.market, pair.verdict.place
    line = market.lines[row]
    start, end = market.price[line.start][period], market.price[line.end][period]
    line_facts(account, market, line, period)
    account.fact("price at from", start, PRICE)
    account.fact("price at to", end, PRICE)
    dearer = end > start
    due = line.forward[period] if dearer else -line.back[period]
    account.fact("asked", due, VOLUME, "the forward capacity" if dearer else "minus the back capacity")
    account.so.append(f"\"to\" is {with_unit(abs(end - start), PRICE)} {'dearer' if dearer else 'cheaper'} than \"from\", so the line has "
                      f"to be full {'forward' if dearer else 'back'}, with a flow of {with_unit(due, VOLUME)}; it stands at "
                      f"{with_unit(line.flow[period], VOLUME)}.")


# ---- blocks

def block_facts(account, market, block):
    account.title = f"Block {block.row} {VERB[block.side]} in {zone_words(market, block.zone)}"
    account.fact("side", block.side, SIDE)
    account.fact("ratio", block.ratio, SHARE)


def of_least(account, pair):
    block = pair.market.blocks[pair.verdict.place[0]]
    block_facts(account, pair.market, block)
    account.fact("least ratio in the file", block.least, SHARE, "0 stands for all" if block.least == 0 else "")
    account.fact("least", block.least_allowed, SHARE)
    account.fact("missing", block.least_allowed - block.ratio, SHARE)
    account.so.append(f"The block may be rejected, or accepted from {said(block.least_allowed, SHARE)} on.")


def of_whole(account, pair):
    row, period, _ = pair.verdict.place
    block = pair.market.blocks[row]
    product = block.quantity[period] * block.ratio
    block_facts(account, pair.market, block)
    account.fact(f"quantity in period {period}", block.quantity[period], VOLUME)
    account.fact("quantity times ratio", product)
    account.fact("thousands in it", product // WHOLE)
    account.fact("left over", product % WHOLE, note="0 where the volume is whole")
    step = WHOLE // gcd(WHOLE, *block.quantity)
    account.so.append(f"The ratios that make all its volumes whole are the multiples of {said(step, SHARE)}.")


def of_block(account, pair):
    market = pair.market
    block = market.blocks[pair.verdict.place[0]]
    block_facts(account, market, block)
    account.fact("limit", block.limit, PRICE)
    account.fact("whole quantity", sum(block.quantity), ENERGY)
    account.fact("income", market.income(block), MONEY, "quantity times price over its periods")
    account.fact("limit times quantity", market.at_limit(block), MONEY)
    missing = -market.gain(block)
    account.fact("missing", missing, MONEY)
    account.so.append(f"Over its periods the block {'gets' if block.side == SELL else 'pays'} {with_unit(missing, MONEY)} "
                      f"{'less than its limit asks' if block.side == SELL else 'more than its limit allows'}, and it is accepted.")
    table = Table("Period by period", [("period", PLAIN), ("quantity", VOLUME), ("price", PRICE), ("income", MONEY),
                                       ("limit times quantity", MONEY)])
    for period, quantity in enumerate(block.quantity):
        if quantity:
            price = market.price[block.zone][period]
            table.rows.append([period, quantity, price, quantity * price, quantity * block.limit])
    account.tables.append(table)


# ---- the rest

def of_room(account, pair):
    needed = statement_length(pair.day.counts)
    account.fact("bytes of the room", pair.room)
    account.fact("bytes of the statement", needed, note=f"{len(TOTALS)} totals, and a net position for each zone and period")
    account.fact("missing bytes", needed - pair.room)
    account.so.append("Nothing is written; the same files are accepted with a longer room.")


def of_accepted(account, pair):
    market, totals = pair.market, pair.verdict.totals
    account.title = "Totals"
    for total in TOTALS:
        account.fact(total.name, totals[total.name], total.unit)
    for total in TOTALS:
        account.so.append(f"{total.name.capitalize()} {with_unit(totals[total.name], total.unit)}: {total.meaning}")
    account.so.append("Buyers, sellers and rent add up to the order value.")
    lost = sorted((block for block in market.blocks if market.shortfall(block)), key=lambda block: (-market.shortfall(block), block.row))
    if lost:
        table = Table("Blocks that make up the shortfall, the largest first", [
            ("block", PLAIN), ("zone", PLAIN), ("code", PLAIN), ("side", SIDE), ("limit", PRICE), ("ratio", SHARE), ("left", ENERGY),
            ("shortfall", MONEY)])
        for block in lost:
            left = sum(block.left(period) for period in range(market.periods))
            table.rows.append([block.row, block.zone, market.codes[block.zone], block.side, block.limit, block.ratio, left,
                               market.shortfall(block)])
        account.tables.append(table)
    account.so.append(f"The statement has {statement_length(pair.day.counts)} bytes; a shorter room gets 18.")


EXPLAINED = {
    DAY.ends: of_end, DAY.miscounts: of_count, DAY.misfits: of_field, DAY.trails: of_trailing,
    CLEARING.ends: of_end, CLEARING.miscounts: of_count, CLEARING.misfits: of_field, CLEARING.trails: of_trailing,
    11: of_price, 12: of_capacity, 13: of_quantity, 14: of_balance, 15: of_step, 16: of_line, 17: of_block, 18: of_room,
    20: of_least, 21: of_whole,
}


def meaning(number):
    """A number of the paper without any file: what it is called, what it says, and what its place names."""
    one = NUMBERS[number]
    place = ", ".join(one.place) or "none"
    return [f"{number}: {one.name}.", one.says, f"Its place: {place}."]
