"""The network as a picture for each period: zones with their price and net position, lines with their flow. Everything has the same place
in all periods; it is found once, in whole numbers."""

from dataclasses import dataclass
from itertools import combinations
from math import isqrt
from typing import Tuple

from .layout import PRICE, VOLUME
from .marks import FLAG_WIDTH, svg_flag
from .markup import classes, heads, scrolled, svg, table, tag, unfolded, wide
from .numbers import said, with_unit

# where zones stand, in thousandths of the two radii, and these radii, by the number of zones
RING = {
    1: ((0, 0),),
    2: ((-1000, 0), (1000, 0)),
    3: ((0, -1000), (866, 500), (-866, 500)),
    4: ((-707, -707), (707, -707), (707, 707), (-707, 707)),
    5: ((0, -1000), (951, -309), (588, 809), (-588, 809), (-951, -309)),
    6: ((-500, -866), (500, -866), (1000, 0), (500, 866), (-500, 866), (-1000, 0)),
    7: ((0, -1000), (782, -623), (975, 223), (434, 901), (-434, 901), (-975, 223), (-782, -623)),
    8: ((-383, -924), (383, -924), (924, -383), (924, 383), (383, 924), (-383, 924), (-924, 383), (-924, -383)),
}
RADII = {1: (0, 0), 2: (0, 0), 3: (270, 170), 4: (350, 190), 5: (380, 230), 6: (420, 260), 7: (450, 290), 8: (480, 320)}

STEPS = 128  # of the walk along a curve
BESIDE = 50  # between two lines that join the same zones
CARD_HEIGHT, LABEL_HEIGHT, FLAG_HEIGHT = 80, 38, 22
TAIL, HEAD = 4, 19  # free units between a zone and its end of a line, without and with an arrow
ROUNDS = 3  # of finding better places for the labels
STRETCHES = range(100, 221, 15)  # hundredths of the least room that are tried, until no label lies on another
MARGIN = 14
LEGEND = ("An arrow points where the flow goes; a dotted line has none. A label has the flow and the capacity in its direction. Full: it "
          "carries all that it can that way. Closed: it can carry nothing that way. Beyond: more than it can.")


# ---- geometry

@dataclass(frozen=True)
class Box:
    left: int
    top: int
    width: int
    height: int

    def overlap(self, other):
        """The area that two boxes share."""
        across = min(self.left + self.width, other.left + other.width) - max(self.left, other.left)
        down = min(self.top + self.height, other.top + other.height) - max(self.top, other.top)
        return across * down if across > 0 and down > 0 else 0

    def holds(self, point, margin=0):
        return (self.left - margin <= point[0] <= self.left + self.width + margin
                and self.top - margin <= point[1] <= self.top + self.height + margin)


def box_around(point, width, height):
    return Box(point[0] - width // 2, point[1] - height // 2, width, height)


@dataclass(frozen=True)
class Curve:
    """A bow from `start` to `end` that `pull` draws to a side."""
    start: Tuple[int, int]
    pull: Tuple[int, int]
    end: Tuple[int, int]

    def blend(self, one, other):
        """The point at two steps of the walk: the same step twice is a point of the curve, two steps pull the piece between them."""
        weights = ((STEPS - one) * (STEPS - other), one * (STEPS - other) + other * (STEPS - one), one * other)
        return tuple(sum(weight * point[axis] for weight, point in zip(weights, (self.start, self.pull, self.end))) // STEPS ** 2
                     for axis in (0, 1))

    def at(self, step):
        return self.blend(step, step)

    def leaves(self, box, margin):
        """The first step at which a walk from the start is outside the box."""
        return next(step for step in range(STEPS) if not box.holds(self.at(step), margin))

    def back(self):
        return Curve(self.end, self.pull, self.start)

    def path(self, one, other):
        """The piece between two steps, for the `d` of a path."""
        points = (self.at(one), self.blend(one, other), self.at(other))
        return "M{} {}Q{} {} {} {}".format(*(number for point in points for number in point))


def bow(start, end, aside):
    """A curve whose middle lies that far aside of the straight line."""
    across, down = end[0] - start[0], end[1] - start[1]
    length = max(1, isqrt(across * across + down * down))
    middle = ((start[0] + end[0]) // 2, (start[1] + end[1]) // 2)
    return Curve(start, (middle[0] - 2 * aside * down // length, middle[1] + 2 * aside * across // length), end)


# ---- what stands on it

def trade_words(net):
    """A net position in words, with a sign that points up where it leaves the zone."""
    if net == 0:
        return "neither in nor out"
    return f"\u25b2 exports {with_unit(net, VOLUME)}" if net > 0 else f"\u25bc imports {with_unit(-net, VOLUME)}"


def trade_class(net):
    return "export" if net > 0 else "import" if net < 0 else "neither"


@dataclass(frozen=True)
class Flow:
    """A line in a period, seen in the direction of its flow; without one, towards the dearer end."""
    forward: bool
    size: int
    capacity: int

    @property
    def state(self):
        if self.size > self.capacity:
            return "beyond"
        if self.capacity == 0:
            return "closed"
        return "full" if self.size == self.capacity else ""

    @property
    def words(self):
        return f"{said(self.size, VOLUME)} of {with_unit(self.capacity, VOLUME)}"

    @property
    def thickness(self):
        return 7 if self.state in ("full", "beyond") else 2 + 4 * self.size // max(1, self.capacity)


def flow_of(market, line, period):
    flow = line.flow[period]
    dearer = market.price[line.end][period] >= market.price[line.start][period]
    forward = flow > 0 or flow == 0 and dearer
    return Flow(forward, abs(flow), (line.forward if forward else line.back)[period])


# ---- the places of things

class Plan:
    """Where zones, lines and labels stand."""

    def __init__(self, market, nets, marks):
        self.market, self.nets, self.marks = market, nets, marks
        words = [trade_words(net) for zone in nets for net in zone]
        words += [with_unit(price, PRICE) for prices in market.price for price in prices]
        self.card_width = max(132, max(wide(text, 13) for text in words) + 24)
        self.sizes = [self.label_size(line) for line in market.lines]
        for stretch in STRETCHES:
            self.lay_out(stretch)
            if not self.crowded():
                break
        self.frame = self.around()

    def lay_out(self, stretch):
        """Places everything, in so many hundredths of the least room."""
        self.cards = self.placed_cards(stretch)
        self.curves = [self.curve(line, BESIDE * stretch // 100) for line in self.market.lines]
        self.labels = placed_labels(self.curves, self.sizes, self.cards, self.market.lines)

    def crowded(self):
        """Whether a label lies on another or on a zone."""
        return any(one.overlap(other) for one, other in combinations(self.labels + self.cards, 2))

    def label_size(self, line):
        texts = [flow_of(self.market, line, period).words for period in range(self.market.periods)]
        width = max(104, max(wide(text, 13) for text in texts) + 14)
        if self.marks.line and self.marks.line[0] == line.row:
            return max(width, FLAG_WIDTH), LABEL_HEIGHT + FLAG_HEIGHT
        return width, LABEL_HEIGHT

    def placed_cards(self, stretch):
        across, down = RADII[self.market.zones]
        if self.market.zones == 2:
            across = (self.card_width + max((width for width, _ in self.sizes), default=0)) // 2 + 60
        spots = [(x * across * stretch // 100_000, y * down * stretch // 100_000) for x, y in RING[self.market.zones]]
        return [box_around(spots[spot], self.card_width, CARD_HEIGHT) for spot in seated(spots, self.market.lines)]

    def curve(self, line, apart):
        """The line's curve; those that join the same zones lie beside one another."""
        ends = sorted((line.start, line.end))
        beside = [other.row for other in self.market.lines if sorted((other.start, other.end)) == ends]
        aside = (2 * beside.index(line.row) - len(beside) + 1) * apart // 2
        low, high = (middle_of(self.cards[zone]) for zone in ends)
        curve = bow(low, high, aside)
        return curve if line.start == ends[0] else curve.back()

    def around(self):
        """The box that holds everything."""
        boxes = self.cards + self.labels + [Box(*curve.at(STEPS // 2), 0, 0) for curve in self.curves]
        left, top = min(box.left for box in boxes) - MARGIN, min(box.top for box in boxes) - MARGIN - FLAG_HEIGHT
        right, bottom = max(box.left + box.width for box in boxes), max(box.top + box.height for box in boxes)
        return Box(left, top, right - left + MARGIN, bottom - top + MARGIN)


def seated(spots, lines):
    """Which spot each zone has: in their order around the ring, save that two change places as long as this makes the lines shorter."""
    seats = list(range(len(spots)))

    def length():
        ends = [(spots[seats[line.start]], spots[seats[line.end]]) for line in lines]
        return sum((one[0] - other[0]) ** 2 + (one[1] - other[1]) ** 2 for one, other in ends)
    shortest, better = length(), True
    while better:
        better = False
        for one, other in combinations(range(len(seats)), 2):
            seats[one], seats[other] = seats[other], seats[one]
            if length() < shortest:
                shortest, better = length(), True
            else:
                seats[one], seats[other] = seats[other], seats[one]
    return seats


def middle_of(box):
    return box.left + box.width // 2, box.top + box.height // 2


def placed_labels(curves, sizes, cards, lines):
    """A place on its curve for each label, where it hides the least: each looks for a better one in turn, some rounds long."""
    points = [[curve.at(step) for step in range(0, STEPS + 1, 12)] for curve in curves]
    spots = [label_spots(curve, cards[line.start], cards[line.end], size) for curve, line, size in zip(curves, lines, sizes)]
    labels = [mine[len(mine) // 2] for mine in spots]
    for _ in range(ROUNDS):
        for row, mine in enumerate(spots):
            others = cards + labels[:row] + labels[row + 1:]
            foreign = [point for other, walk in enumerate(points) if other != row for point in walk]
            labels[row] = min(mine, key=lambda box: hidden_by(box, others, foreign) + abs(mine.index(box) - len(mine) // 2))
    return labels


def label_spots(curve, start, end, size):
    """Boxes along the free part of a curve."""
    first, last = curve.leaves(start, TAIL), STEPS - curve.back().leaves(end, TAIL)
    return [box_around(curve.at(first + (last - first) * part // 20), *size) for part in range(4, 17)]


def hidden_by(box, others, foreign):
    """How much a label at that place would hide."""
    room = Box(box.left - 4, box.top - 4, box.width + 8, box.height + 8)
    return sum(room.overlap(other) for other in others) + sum(80 for point in foreign if box.holds(point))


# ---- the pictures

def zone_card(plan, zone, period, heat):
    market, box = plan.market, plan.cards[zone]
    price, net = market.price[zone][period], plan.nets[zone][period]
    place = (zone, period) in plan.marks.cells and plan.marks.line is None
    x, y = box.left + 12, box.top
    title = (f"zone {zone} (code {market.codes[zone]}), period {period}: price {with_unit(price, PRICE)}, "
             f"net position {with_unit(net, VOLUME)}")
    return tag("g", tag("title", title),
               tag("rect", x=box.left, y=box.top, width=box.width, height=box.height, rx=9, class_=heat.of(price)),
               tag("text", market.codes[zone], x=x, y=y + 25, class_="code"),
               tag("text", f"zone {zone}", x=box.left + box.width - 12, y=y + 24, class_="aside", text_anchor="end"),
               tag("text", with_unit(price, PRICE), x=x, y=y + 47, class_="price"),
               tag("text", trade_words(net), x=x, y=y + 68, class_=classes("trade", trade_class(net))),
               svg_flag(box.left, box.top - 3) if place else "",
               class_=classes("zone", "place" if place else ""), data_node=f"{zone} {period}", data_pick_zone=zone)


def course_drawn(plan, line, period):
    """The way of a line, from its tail to its head."""
    flow = flow_of(plan.market, line, period)
    curve, ends = plan.curves[line.row], (plan.cards[line.start], plan.cards[line.end])
    if not flow.forward:
        curve, ends = curve.back(), ends[::-1]
    last = STEPS - curve.back().leaves(ends[1], HEAD if flow.size else TAIL)
    path = curve.path(curve.leaves(ends[0], TAIL), last)
    arrow = f"url(#arrow{'-' + flow.state if flow.state else ''})" if flow.size else None
    halo = [tag("path", d=path, class_="halo")] if plan.marks.line == (line.row, period) else []
    return halo + [tag("path", d=path, class_=classes("flow", flow.state, "" if flow.size else "idle"), stroke_width=flow.thickness,
                       marker_end=arrow)]


def label_drawn(plan, line, period):
    """What a line is called and carries."""
    flow, box, place = flow_of(plan.market, line, period), plan.labels[line.row], plan.marks.line == (line.row, period)
    x = box.left + box.width // 2
    shown = [tag("title", line_words(plan.market, line, period)),
             tag("rect", x=box.left, y=box.top, width=box.width, height=LABEL_HEIGHT, rx=5, class_="label"),
             tag("text", f"line {line.row}", x=box.left + 7, y=box.top + 14, class_="aside"),
             tag("text", flow.words, x=x, y=box.top + 31, class_="amount", text_anchor="middle")]
    if flow.state:
        width = wide(flow.state, 11) + 8
        left = box.left + box.width - width - 4
        shown += [tag("rect", x=left, y=box.top + 3, width=width, height=14, rx=3, class_=classes("badge", flow.state)),
                  tag("text", flow.state, x=left + width // 2, y=box.top + 14, class_=classes("badge", flow.state), text_anchor="middle")]
    if place:
        shown.append(svg_flag(x - FLAG_WIDTH // 2, box.top + LABEL_HEIGHT + FLAG_HEIGHT - 2))
    return tag("g", *shown, class_=classes("line", "place" if place else ""), data_line=f"{line.row} {period}")


def line_words(market, line, period):
    return (f"line {line.row} from zone {line.start} (code {market.codes[line.start]}) to zone {line.end} (code {market.codes[line.end]}), "
            f"period {period}: flow {with_unit(line.flow[period], VOLUME)}, forward capacity {with_unit(line.forward[period], VOLUME)}, "
            f"back capacity {with_unit(line.back[period], VOLUME)}")


def picture(plan, period, heat):
    frame = plan.frame
    courses = [path for line in plan.market.lines for path in course_drawn(plan, line, period)]
    labels = [label_drawn(plan, line, period) for line in plan.market.lines]
    cards = [zone_card(plan, zone, period, heat) for zone in range(plan.market.zones)]
    return svg(frame.width, frame.height, *courses, *cards, *labels, left=frame.left, top=frame.top, role="img",
               aria_label=f"The network in period {period}", width=frame.width, class_="network")


def line_table(plan, period):
    market = plan.market
    head = heads("line", "from", "to", ("flow", VOLUME), ("forward capacity", VOLUME), ("back capacity", VOLUME), "")
    rows = []
    for line in market.lines:
        cells = [line.row, f"{line.start} (code {market.codes[line.start]})", f"{line.end} (code {market.codes[line.end]})"]
        cells += [said(values[period], VOLUME) for values in (line.flow, line.forward, line.back)]
        rows.append(cells + [flow_of(market, line, period).state])
    return table(head, rows, class_="exact")


def pictures(market, nets, marks, heat, shown):
    """The network of every period, of which the shown one is seen, and what stands on it as tables."""
    plan = Plan(market, nets, marks)

    def choice(period, *inside):
        return tag("div", *inside, class_="choice", data_when_period=period, hidden=period != shown)
    periods = range(market.periods)
    drawn = [choice(period, scrolled(picture(plan, period, heat))) for period in periods]
    if not market.lines:
        return drawn + [tag("p", "The day has no lines.", class_="note")]
    tables = [choice(period, scrolled(line_table(plan, period))) for period in periods]
    return drawn + [tag("p", LEGEND, class_="note"), unfolded("Lines of this period as a table", *tables)]
