"""The merit order of a zone and period: its sells ascending and its buys descending, on one price axis. A bar is as wide as the quantity;
what is accepted of it is solid, the rest light; a block is hatched. Bars that go beyond the axis are cut, with a break in them."""

from dataclasses import dataclass

from .explain import VERB
from .layout import PRICE, SIDE, VOLUME
from .marks import FLAG_WIDTH, flag, sign, svg_flag
from .market import BUY, SELL
from .markup import classes, heads, scrolled, svg, table, tag, unfolded, wide
from .numbers import said, with_unit

WIDTH, HEIGHT = 500, 300
LEFT, RIGHT, TOP, BOTTOM = 80, 492, 14, 268  # of the room that the bars have
LEAST = 3  # units of the narrowest bar
NEAR = 2_000  # hundredths of a euro around the price that the axis has at least
FAR = 6  # times as far as those nearer to the price: such a limit is cut
ZERO_NEAR = 3  # the axis starts at 0 where that is not farther than so many times what it shows
TICKS = 6
APART = 8  # times the quantity of the other side: then each side has a scale of its own


@dataclass(frozen=True)
class Order:
    """A step, or what a block has in the period."""
    kind: str
    row: int
    side: int
    limit: int
    quantity: int
    accepted: int

    @property
    def name(self):
        return f"{self.kind} {self.row}"

    @property
    def words(self):
        return (f"{self.name} {VERB[self.side]} {with_unit(self.quantity, VOLUME)} at {with_unit(self.limit, PRICE)}; "
                f"accepted {with_unit(self.accepted, VOLUME)}")


def orders_of(market):
    """The orders of each zone and period, sells ascending, buys descending."""
    found = {(zone, period): [] for zone in range(market.zones) for period in range(market.periods)}
    for step in market.steps:
        found[step.zone, step.period].append(Order("step", step.row, step.side, step.limit, step.quantity, step.accepted))
    for block in market.blocks:
        for period, quantity in enumerate(block.quantity):
            if quantity:
                found[block.zone, period].append(Order("block", block.row, block.side, block.limit, quantity, block.accepted(period)))
    for orders in found.values():
        orders.sort(key=lambda order: (order.side, -order.limit if order.side == BUY else order.limit, order.kind == "block", order.row))
    return found


# ---- the price axis

@dataclass(frozen=True)
class Axis:
    lowest: int
    highest: int

    def y(self, price):
        """The height of a price; beyond the axis, its end."""
        inside = min(max(price, self.lowest), self.highest)
        return BOTTOM - (BOTTOM - TOP) * (inside - self.lowest) // (self.highest - self.lowest)

    def ticks(self):
        """Round prices along the axis, at most so many."""
        step = 1
        while (self.highest - self.lowest) // step > TICKS:
            step = step * 5 // 2 if str(step).startswith("2") else step * 2
        first = -(-self.lowest // step) * step
        return range(first, self.highest + 1, step)


def axis_of(price, orders):
    """An axis around the price, with the limits near it: one that is many times farther away than the others is left out, unless half of
    them are."""
    away = sorted(abs(order.limit - price) for order in orders)
    radius = max(NEAR, away[(len(away) - 1) // 2])
    for distance in away:
        if distance <= FAR * radius:
            radius = max(radius, distance)
    near = [order.limit for order in orders if abs(order.limit - price) <= radius] + [price]
    lowest, highest = min(near), max(near)
    margin = max(100, (highest - lowest) // 8)
    if margin <= lowest <= ZERO_NEAR * (highest - lowest):
        return Axis(0, highest + margin)
    return Axis(lowest - margin, highest + margin)


# ---- the bars

def marked_order(marks, place):
    """The name of the order that the refusal is about, where it stands in this zone and period."""
    if place not in marks.cells:
        return None
    return f"step {marks.step}" if marks.step is not None else f"block {marks.block}" if marks.block is not None else None


def bars(orders, axis, marked, most_orders, most_quantity):
    """A bar for each order of a side, from left to right, and what is drawn over all of them: limits, and the marked bar."""
    least = min(LEAST, (RIGHT - LEFT) // most_orders)
    room = RIGHT - LEFT - least * most_orders
    under, limits, over, x = [], [], [], LEFT
    for order in orders:
        width = least + room * order.quantity // most_quantity
        place = order.name == marked
        (over if place else under).append(bar(order, axis, x, width, place))
        limits.append(limit_label(order, axis, x, width))
        x += width
    return under, limits + over


def bar(order, axis, x, width, place):
    top = axis.y(order.limit)
    shape = dict(y=top, height=max(2, BOTTOM - top))
    inner = width - 1 if width > LEAST else width
    solid = solid_part(order, inner)
    parts = [tag("title", order.words), tag("rect", x=x, width=inner, class_="rest", **shape)]
    if solid:
        parts.append(tag("rect", x=x, width=solid, class_="done", **shape))
    if order.kind == "block":
        parts.append(tag("rect", x=x, width=inner, class_="hatch", **shape))
    if not axis.lowest <= order.limit <= axis.highest:
        parts.append(tag("path", d=f"M{x - 1} {cut_height(top)}L{x + width} {cut_height(top) - 6}", class_="cut"))
    if place:
        parts += [tag("rect", x=x - 1, width=inner + 2, class_="outline", **shape), order_flag(x + width // 2, top)]
    return tag("g", *parts, class_=classes("order", SIDE.words[order.side], "place" if place else ""), data_order=order.name)


def order_flag(x, top):
    """The words of the place above a bar, inside the picture."""
    left = min(max(x - FLAG_WIDTH // 2, LEFT), RIGHT - FLAG_WIDTH)
    return svg_flag(left, max(top - 18, TOP + 18))


def cut_height(top):
    """Where the break of a cut bar is: below its upper end, or above its foot."""
    return min(top + 14, BOTTOM - 2)


def solid_part(order, width):
    """The units of a bar that are solid: none for nothing, all for all, and some of both for a part."""
    if order.accepted >= order.quantity:
        return width
    return min(max(1, width * order.accepted // order.quantity), width - 1) if order.accepted else 0


def limit_label(order, axis, x, width):
    """The limit above its bar, where it has room there."""
    top = axis.y(order.limit)
    arrow = "\u2191 " if order.limit > axis.highest else "\u2193 " if order.limit < axis.lowest else ""
    text = arrow + said(order.limit, PRICE)
    if wide(text, 11) > width:
        return ""
    return tag("text", text, x=x + width // 2, y=top + 30 if order.limit > axis.highest else max(top - 5, TOP + 10), class_="limit",
               text_anchor="middle")


def grid(axis, free):
    """The axis: a thin line and a text for each tick; no text where the price stands."""
    return [tag("g", tag("path", d=f"M{LEFT} {axis.y(tick)}H{RIGHT}"),
                tag("text", said(tick, PRICE), x=LEFT - 8, y=axis.y(tick) + 4, text_anchor="end") if abs(axis.y(tick) - free) > 14 else "",
                class_=classes("tick", "" if tick else "zero"))
            for tick in axis.ticks()]


def price_line(price, y):
    """The zone's price, across the bars and on the axis."""
    return tag("g", tag("title", f"price {with_unit(price, PRICE)}"), tag("path", d=f"M{LEFT - 2} {y}H{RIGHT}"),
               tag("rect", x=0, y=y - 10, width=LEFT - 2, height=20, rx=4),
               tag("text", said(price, PRICE), x=LEFT - 8, y=y + 4, text_anchor="end"), class_="price-line")


def scales(sides):
    """For each side the number of orders and the quantity that its width stands for: the greater of both sides, as long as these are
    not too far apart."""
    own = [(len(side), whole_quantity(side)) for side in sides]
    less, more = sorted(quantity for _, quantity in own)
    if 0 < APART * less < more:
        return own
    return [(max(number for number, _ in own), more)] * len(sides)


def whole_quantity(orders):
    return sum(order.quantity for order in orders)


def side_drawn(mine, side, axis, price, marked, scale, together):
    """The bars of a side, the price across them, and what they come to."""
    under, over = bars(mine, axis, marked, *scale)
    y = axis.y(price)
    words = f"no {SIDE.words[side]}s"
    if mine:
        accepted = sum(order.accepted for order in mine)
        words = f"{SIDE.words[side]}s: {with_unit(accepted, VOLUME)} accepted of {with_unit(whole_quantity(mine), VOLUME)}"
    foot = tag("text", words if together else f"{words} (own scale)", x=LEFT, y=HEIGHT - 10, class_="foot")
    return svg(WIDTH, HEIGHT, *grid(axis, y), *under, price_line(price, y), *over, foot, role="img", aria_label=words, class_="merit")


# ---- a zone and period

def picture(market, orders, marks, zone, period):
    """Both sides of a zone and period."""
    price, place = market.price[zone][period], (zone, period) in marks.cells
    caption = tag("figcaption", tag("b", f"Zone {market.codes[zone]}"), f" (zone {zone}), period {period}: the price is ",
                  tag("b", with_unit(price, PRICE)), ". ", flag() if place else "")
    if orders:
        axis = axis_of(price, orders)
        sides = [[order for order in orders if order.side == side] for side in (SELL, BUY)]
        own = scales(sides)
        marked = marked_order(marks, (zone, period))
        drawn = [side_drawn(mine, side, axis, price, marked, scale, own[SELL] == own[BUY])
                 for side, mine, scale in zip((SELL, BUY), sides, own)]
        shown = tag("div", *drawn, class_="sides")
    else:
        shown = nothing()
    return tag("figure", caption, shown, class_="place" if place else None, data_merit=f"{zone} {period}")


def nothing():
    return tag("p", "There are no orders here.", class_="none")


def legend():
    words = [f"{side}, {state}" for side in SIDE.words for state in ("accepted", "left")]
    keys = [tag("span", tag("span", "", class_=f"key {one.replace(',', '')}"), f" {one}", class_="keyed") for one in words]
    return tag("p", *keys, "Hatched: a block. A bar is as wide as its quantity, with a least width; one with a break goes on beyond the "
               "axis.", class_="note")


def order_table(orders, marked):
    rows = []
    for order in orders:
        place = order.name == marked
        cells = [tag("td", f"{order.name} ", sign() if place else ""), SIDE.words[order.side], said(order.limit, PRICE)]
        cells += [said(number, VOLUME) for number in (order.quantity, order.accepted, order.quantity - order.accepted)]
        rows.append(tag("tr", *(one if one.startswith("<td") else tag("td", one) for one in cells), class_="place" if place else None,
                        data_row=order.name))
    head = heads("order", "side", ("limit", PRICE), ("quantity", VOLUME), ("accepted", VOLUME), ("left", VOLUME))
    return scrolled(table(head, rows, class_="exact"))


def pictures(market, marks, shown):
    """The picture and the table of every zone and period, of which the shown one is seen."""
    found = orders_of(market)

    def choice(place, *inside):
        return tag("div", *inside, class_="choice", data_when_zone=place[0], data_when_period=place[1], hidden=place != shown)
    drawn = [choice(place, picture(market, orders, marks, *place)) for place, orders in found.items()]
    tables = [choice(place, order_table(orders, marked_order(marks, place)) if orders else nothing()) for place, orders in found.items()]
    return drawn + [legend(), unfolded("These orders as a table", *tables)]
