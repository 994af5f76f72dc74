"""What the place of a refusal touches: each picture marks what it has of it, and nothing else."""

from dataclasses import dataclass
from typing import FrozenSet, Optional, Tuple

from .markup import tag
from .paper import NUMBERS

WORDS = "refused here"
SIGN = "\u00d7"  # a cross, wherever there is no room for the words
FLAG_WIDTH = 116  # units of both in a picture


@dataclass(frozen=True)
class Marks:
    """`cells` are zones and periods; `line` is a row and a period; `first` is the zone and period that the page shows first."""
    cells: FrozenSet[Tuple[int, int]] = frozenset()
    line: Optional[Tuple[int, int]] = None
    step: Optional[int] = None
    block: Optional[int] = None
    block_period: Optional[int] = None
    first: Tuple[int, int] = (0, 0)

    @property
    def periods(self):
        return {period for _, period in self.cells}

    @property
    def zones(self):
        return {zone for zone, _ in self.cells}


def marks_of(pair):
    """The marks of a pair that reads; none where it is accepted, or refused at no place."""
    verdict, market = pair.verdict, pair.market
    place = dict(zip(NUMBERS[verdict.number].place, verdict.place))
    if "line" in place:
        line, period = market.lines[place["line"]], place["period"]
        return marked([(line.start, period), (line.end, period)], line=(line.row, period))
    if "step" in place:
        step = market.steps[place["step"]]
        return marked([(step.zone, step.period)], step=step.row)
    if "block" in place:
        block = market.blocks[place["block"]]
        periods = [period for period, quantity in enumerate(block.quantity) if quantity]
        chosen = [place["period"]] if "period" in place else periods
        return marked([(block.zone, period) for period in chosen], block=block.row, block_period=place.get("period"))
    if "zone" in place:
        return marked([(place["zone"], place["period"])])
    return Marks()


def marked(cells, **rest):
    return Marks(frozenset(cells), first=cells[0], **rest)


def sign():
    """The sign of the place, with its words for whoever does not see it."""
    return tag("span", SIGN, tag("span", f" {WORDS}", class_="unseen"), class_="sign", title=WORDS)


def flag():
    """The sign with its words."""
    return tag("span", f"{SIGN} {WORDS}", class_="flag")


def svg_flag(x, y):
    """The same in a picture, from its left lower corner."""
    return tag("g", tag("rect", x=x, y=y - 18, width=FLAG_WIDTH, height=18, rx=3),
               tag("text", f"{SIGN} {WORDS}", x=x + FLAG_WIDTH // 2, y=y - 5, text_anchor="middle"), class_="flag")

