"""Prices by zone and period, as a coloured table."""

from .layout import PRICE
from .marks import sign
from .markup import classes, scrolled, table, tag
from .nets import period_heads, zone_head
from .numbers import said, with_unit


def cell(market, marks, heat, zone, period):
    price, place = market.price[zone][period], (zone, period) in marks.cells
    title = f"zone {zone} (code {market.codes[zone]}), period {period}: {with_unit(price, PRICE)}"
    return tag("td", said(price, PRICE), sign() if place else "", title=title, class_=classes(heat.of(price), "place" if place else ""),
               data_price=f"{zone} {period}", data_raw=price, data_pick_period=period, data_pick_zone=zone)


def scale(heat):
    """What the colours mean."""
    def swatch(price):
        return tag("span", said(price, PRICE), class_=classes("swatch", heat.of(price)))
    words = [swatch(heat.lowest), " the lowest ", swatch(heat.highest), f" the highest of the day, in {PRICE.name}."]
    return tag("p", *words, " Prices below zero have a colour of their own and are underlined." if heat.lowest < 0 else "", class_="note")


def pictures(market, marks, heat):
    rows = [tag("tr", zone_head(market, zone), *(cell(market, marks, heat, zone, period) for period in range(market.periods)))
            for zone in range(market.zones)]
    return [scrolled(table([tag("th", "zone", scope="col"), *period_heads(market, marks)], rows, class_="grid prices")), scale(heat)]
