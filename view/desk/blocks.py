"""All blocks as a table, with their quantities over the periods as a small strip."""

from .layout import ENERGY, MONEY, PRICE, SHARE, SIDE, VOLUME
from .marks import flag
from .market import WHOLE
from .markup import heads, scrolled, svg, table, tag
from .numbers import grouped, said, with_unit

TALL, WIDE = 24, 48  # units of a strip; with many periods it is wider
HEAD = heads("block", "zone", "side", ("limit", PRICE), ("whole quantity", ENERGY), "least ratio", "ratio", "quantity by period",
             ("income", MONEY), ("limit times quantity", MONEY), ("gain", MONEY), ("in the shortfall", MONEY))
WORDS = ("Income, limit times quantity and gain are those of the whole block at the stated prices; the gain is what a sell block gets "
         "above its limit, or a buy block pays below it. What counts in the shortfall is the gain of what is left unaccepted, where that "
         "is above zero.")


def bars(heights, step):
    """Bars of these heights as one path."""
    return "".join(f"M{step * period} {TALL}h{step - 1}v-{height}h-{step - 1}z" for period, height in enumerate(heights) if height)


def strip(block, marked_period):
    """The quantities over the periods; what is accepted of them is solid."""
    greatest, step = max(block.quantity), max(6, WIDE // len(block.quantity))
    heights = [max(1, TALL * quantity // greatest) if quantity else 0 for quantity in block.quantity]
    done = [max(1, height * block.ratio // WHOLE) if height and block.ratio else 0 for height in heights]
    words = ", ".join(f"{with_unit(quantity, VOLUME)} in period {period}" for period, quantity in enumerate(block.quantity) if quantity)
    width = step * len(heights)
    parts = [tag("title", words), tag("path", d=f"M0 {TALL}H{width}", class_="zero"), tag("path", d=bars(heights, step), class_="rest")]
    if block.ratio:
        parts.append(tag("path", d=bars(done, step), class_="done"))
    if marked_period is not None:
        parts.append(tag("rect", x=step * marked_period - 1, y=0, width=step + 1, height=TALL, class_="outline place",
                         data_block_period=f"{block.row} {marked_period}"))
    return svg(width, TALL, *parts, width=width, height=TALL, class_=f"strip {SIDE.words[block.side]}")


def ratio_bar(block):
    bars = [tag("rect", width=width, height=8, rx=2, class_=name) for width, name in ((50, "rest"), (50 * block.ratio // WHOLE, "done"))]
    return svg(50, 8, *bars, width=50, height=8, class_=f"ratio {SIDE.words[block.side]}", aria_hidden="true")


def row(market, marks, block):
    place = marks.block == block.row
    least = said(block.least_allowed, SHARE) + (" (0 in the file)" if block.least == 0 else "")
    money = {"income": market.income(block), "limit times quantity": market.at_limit(block), "gain": market.gain(block),
             "in the shortfall": market.shortfall(block)}
    cells = [tag("th", block.row, " ", flag() if place else "", scope="row"),
             tag("td", tag("b", market.codes[block.zone]), tag("small", f" zone {block.zone}")), tag("td", SIDE.words[block.side]),
             tag("td", said(block.limit, PRICE)), tag("td", grouped(said(sum(block.quantity), ENERGY))), tag("td", least),
             tag("td", said(block.ratio, SHARE), " ", ratio_bar(block)), tag("td", strip(block, marks.block_period if place else None)),
             *(tag("td", grouped(said(raw, MONEY)), data_amount=f"{block.row} {name}", data_raw=raw) for name, raw in money.items())]
    return tag("tr", *cells, class_="place" if place else None, data_block=block.row)


def pictures(market, marks):
    if not market.blocks:
        return [tag("p", "The day has no blocks.", class_="none")]
    return [scrolled(table(HEAD, [row(market, marks, block) for block in market.blocks], class_="blocks")), tag("p", WORDS, class_="note")]
