"""Net positions over the day: a strip of bars for each zone, all on one scale, and a table of the numbers."""

from .layout import VOLUME
from .marks import sign
from .markup import classes, scrolled, svg, table, tag, unfolded
from .network import trade_class, trade_words
from .numbers import grouped, said, with_unit

HALF = 48  # the greatest height of a bar, to either side of zero
ZERO = 50
FEW = 8  # periods; with more the strips take the whole width


def bar(net, greatest):
    """A bar above zero for what leaves the zone, below for what comes in; as wide as its cell."""
    height = max(1, HALF * abs(net) // greatest) if net else 0
    return svg(10, 2 * ZERO, tag("path", d=f"M0 {ZERO}H10", class_="zero"),
               tag("rect", x=1, width=8, y=ZERO - height if net > 0 else ZERO, height=height, class_=trade_class(net)) if net else "",
               preserveAspectRatio="none", aria_hidden="true")


def cell(market, marks, zone, period, net, greatest):
    place = (zone, period) in marks.cells
    title = f"zone {zone} (code {market.codes[zone]}), period {period}: net position {with_unit(net, VOLUME)}"
    return tag("td", bar(net, greatest), sign() if place else "", title=title, class_=classes("bar", "place" if place else ""),
               data_bar=f"{zone} {period}", data_pick_period=period, data_pick_zone=zone)


def period_heads(market, marks):
    """A head for each period."""
    return [tag("th", period, sign() if period in marks.periods else "", data_pick_period=period, scope="col")
            for period in range(market.periods)]


def zone_head(market, zone, *more):
    return tag("th", tag("b", market.codes[zone]), tag("small", f" zone {zone}"), *more, scope="row", data_pick_zone=zone)


def chosen_net(nets, shown):
    """The net position of the chosen period, beside its strip."""
    return [tag("span", trade_words(net), class_=f"said {trade_class(net)}", data_when_period=period, hidden=period != shown)
            for period, net in enumerate(nets)]


def chart(market, nets, marks, shown):
    greatest = max(1, max(abs(net) for zone in nets for net in zone))
    rows = []
    for zone, row in enumerate(nets):
        cells = [cell(market, marks, zone, period, net, greatest) for period, net in enumerate(row)]
        rows.append(tag("tr", zone_head(market, zone, *chosen_net(row, shown)), *cells))
    scale = tag("p", f"All strips have one scale: a bar of full height is {grouped(with_unit(greatest, VOLUME))}. ",
                tag("span", "\u25b2 above the line: exports", class_="export"), ", ",
                tag("span", "\u25bc below it: imports", class_="import"), ".", class_="note")
    head = [tag("th", "zone", scope="col"), *period_heads(market, marks)]
    return [table(head, rows, class_=classes("strips", "few" if market.periods <= FEW else "")), scale]


def numbers(market, nets, marks):
    """The net positions as texts."""
    def number(zone, period, net):
        place = (zone, period) in marks.cells
        return tag("td", said(net, VOLUME), sign() if place else "", class_="place" if place else None, data_net=f"{zone} {period}",
                   data_raw=net, data_pick_period=period, data_pick_zone=zone)
    rows = [tag("tr", zone_head(market, zone), *(number(zone, period, net) for period, net in enumerate(nets[zone])))
            for zone in range(market.zones)]
    return scrolled(table([tag("th", "zone", scope="col"), *period_heads(market, marks)], rows, class_="grid"))


def pictures(market, nets, marks, shown):
    return chart(market, nets, marks, shown) + [unfolded(f"Net positions as a table, in {VOLUME.name}", numbers(market, nets, marks))]
