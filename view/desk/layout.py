"""The day file, the clearing file and the statement, section by section and field by field.

This is the only description of them here: what is shown, explained, drawn, imported and exported follows from it. A request that adds a
section, a field, a range or a total changes this file and nothing else that knows of bytes.

Numbers are little-endian. A section is a count (u16) and so many rows; a row is its fields, one behind the other, and then, where the
section says so, some more for each period. Rows and fields are counted from 0, sections from 1.
"""

from dataclasses import dataclass
from struct import calcsize
from typing import Callable, Optional, Tuple

COUNT = "H"  # the bytes of a section's count


# ---- units

@dataclass(frozen=True)
class Unit:
    """What a raw number stands for: a decimal with so many digits behind the point, or one of some words."""
    name: str = ""
    digits: int = 0
    words: Tuple[str, ...] = ()
    thing: str = "a whole number"


PLAIN = Unit()
SIDE = Unit(words=("sell", "buy"), thing="a side")
PRICE = Unit("€/MWh", 2, thing="a price")
VOLUME = Unit("MW", 1, thing="a volume")
SHARE = Unit("", 3, thing="a ratio")
MONEY = Unit("€", 3, thing="an amount")
ENERGY = Unit("MWh", 1, thing="an amount of energy")
assert MONEY.digits == PRICE.digits + VOLUME.digits  # periods last one hour


# ---- fields

@dataclass(frozen=True)
class Rule:
    """What a field has to keep against the fields of its row before it, or against the row before.

    `holds(value, earlier, before, last)`: `earlier` are the values before it in its row, `before` those of the row before or None, `last`
    tells whether it is its row's last field. `compared(earlier, before)` names the numbers that it is held against."""
    words: str
    holds: Callable[..., bool]
    compared: Callable[..., list]


@dataclass(frozen=True)
class Field:
    """`form` is how `struct` calls its bytes. A field `of` a section is the number of one of its rows; else it has a range."""
    name: str
    form: str
    unit: Unit = PLAIN
    least: int = 0
    most: int = 0
    of: Optional[str] = None
    rule: Optional[Rule] = None

    @property
    def width(self):
        return calcsize("<" + self.form)

    def range(self, counts):
        return (self.least, self.most) if self.of is None else (0, counts[self.of] - 1)


# ---- sections

@dataclass(frozen=True)
class Count:
    """A range of its own, or the product of the counts of other sections, which it then goes by: rows are named by theirs."""
    least: int = 0
    most: int = 0
    of: Tuple[str, ...] = ()


@dataclass(frozen=True)
class Named:
    """A row that has a name and a unit of its own."""
    name: str
    unit: Unit
    meaning: str


@dataclass(frozen=True)
class Section:
    number: int
    name: str
    row: str
    count: Count
    fields: Tuple[Field, ...]
    each: Tuple[Field, ...] = ()
    named: Tuple[Named, ...] = ()

    def fields_of_row(self, periods):
        return self.fields + self.each * periods

    def width(self, periods):
        return sum(field.width for field in self.fields_of_row(periods))

    def period_of(self, number):
        """The period that a field's number belongs to, or None for those that stand once in a row."""
        return None if number < len(self.fields) else (number - len(self.fields)) // len(self.each)

    def titles(self, periods):
        """The name of each field of a row, with its period where it has one."""
        return [field.name if self.period_of(number) is None else f"{field.name} {self.period_of(number)}"
                for number, field in enumerate(self.fields_of_row(periods))]


@dataclass(frozen=True)
class Kind:
    """A kind of file, with the numbers of its faults: it ends too soon, a count, a field, bytes behind its end."""
    name: str
    sections: Tuple[Section, ...]
    ends: int = 0
    miscounts: int = 0
    misfits: int = 0
    trails: int = 0

    @property
    def faults(self):
        return (self.ends, self.miscounts, self.misfits, self.trails)

    def section(self, name):
        return next(section for section in self.sections if section.name == name)


# ---- what a field is held against

def earlier_field(words, name, position, holds):
    """A rule against one field before it in its row."""
    return Rule(words, lambda value, earlier, before, last: holds(value, earlier[position]),
                lambda earlier, before: [(name, earlier[position])])


def row_before(words, name, holds):
    """A rule against the same first field of the row before."""
    return Rule(words, lambda value, earlier, before, last: before is None or holds(value, before[0]),
                lambda earlier, before: [] if before is None else [(name, before[0])])


def some_above_zero(words, start, name):
    """A rule of the last field: one of the fields from `start` on is above 0."""
    return Rule(words, lambda value, earlier, before, last: not last or value > 0 or any(number > 0 for number in earlier[start:]),
                lambda earlier, before: [(f"{name} {period}", number) for period, number in enumerate(earlier[start:])])


# ---- the files

PRICES = dict(form="i", unit=PRICE, least=-1_000_000, most=1_000_000)
QUANTITIES = dict(form="I", unit=VOLUME, most=1_000_000)

DAY = Kind("day", ends=1, miscounts=2, misfits=3, trails=4, sections=(
    Section(1, "periods", "period", Count(1, 25), (
        Field("floor", **PRICES),
        Field("ceiling", **PRICES, rule=earlier_field("not below the floor", "floor", 0, lambda value, floor: value >= floor)))),
    Section(2, "zones", "zone", Count(1, 8), (
        Field("code", "H", least=1, most=65_535,
              rule=row_before("above the code before it", "code before", lambda value, code: value > code)),)),
    Section(3, "lines", "line", Count(0, 16), (
        Field("from", "B", of="zones"),
        Field("to", "B", of="zones", rule=earlier_field("another zone than from", "from", 0, lambda value, other: value != other))), each=(
        Field("forward", **QUANTITIES),
        Field("back", **QUANTITIES))),
    Section(4, "steps", "step", Count(0, 2_000), (
        Field("zone", "B", of="zones"),
        Field("period", "B", of="periods"),
        Field("side", "B", SIDE, most=1),
        Field("spare", "B"),
        Field("price", **PRICES),
        Field("quantity", "I", VOLUME, least=1, most=1_000_000))),
    Section(5, "blocks", "block", Count(0, 100), (
        Field("zone", "B", of="zones"),
        Field("side", "B", SIDE, most=1),
        Field("least ratio", "H", SHARE, most=1_000),
        Field("price", **PRICES)), each=(
        Field("quantity", **QUANTITIES, rule=some_above_zero("above 0, as no quantity before it is", 4, "quantity")),)),
))

CLEARING = Kind("clearing", ends=5, miscounts=6, misfits=7, trails=8, sections=(
    Section(1, "prices", "price", Count(of=("zones", "periods")), (Field("price", **PRICES),)),
    Section(2, "flows", "flow", Count(of=("lines", "periods")), (Field("flow", "i", VOLUME, least=-1_000_000, most=1_000_000),)),
    Section(3, "steps", "step", Count(of=("steps",)), (Field("volume", **QUANTITIES),)),
    Section(4, "blocks", "block", Count(of=("blocks",)), (Field("ratio", "H", SHARE, most=1_000),)),
))

TOTALS = (
    Named("order value", MONEY, "what the accepted buys are worth at their limits, less what the accepted sells ask at theirs."),
    Named("buyers", MONEY, "buyer surplus, what the buyers pay less than their limits."),
    Named("sellers", MONEY, "seller surplus, what the sellers get above their limits."),
    Named("rent", MONEY, "what the lines earn, flow times the price at \"to\" less the price at \"from\"."),
    Named("traded", ENERGY, "all accepted buy volume, in periods of an hour each."),
    Named("shortfall", MONEY, "an upper bound that belongs to these prices: no other choice for this day has an order value greater by "
          "more than this. It is what the unaccepted rest of the blocks would have gained at these prices, block by block where that is "
          "above zero. Other valid prices for the same acceptances can give a smaller one. It is not lost welfare."),
)

STATEMENT = Kind("statement", sections=(
    Section(1, "totals", "total", Count(len(TOTALS), len(TOTALS)), named=TOTALS, fields=(
        Field("total", "q", MONEY, least=-2**63, most=2**63 - 1),)),
    Section(2, "net positions", "net position", Count(of=("zones", "periods")), (
        Field("net position", "i", VOLUME, least=-2**31, most=2**31 - 1),)),
))

KINDS = {kind.name: kind for kind in (DAY, CLEARING, STATEMENT)}


def statement_length(counts):
    """The bytes of the statement of a day with these counts."""
    return sum(calcsize("<" + COUNT) + section.width(0) * (asked(section, counts) or section.count.most) for section in STATEMENT.sections)


def row_words(name):
    """What one row of that section of the day file is called."""
    return DAY.section(name).row


def keys_of(section):
    """The names that tell a row of a section from the others: the rows it goes by, or its own number."""
    return tuple(row_words(name) for name in section.count.of) or (section.row,)


def key_of(section, row, counts):
    """The numbers for those names of a row; the first goes slowest."""
    numbers = []
    for name in reversed(section.count.of):
        row, number = divmod(row, counts[name])
        numbers.append(number)
    return tuple(reversed(numbers)) or (row,)


def asked(section, counts):
    """How many rows a section has that goes by others; None for one with a range of its own."""
    if not section.count.of:
        return None
    product = 1
    for name in section.count.of:
        product *= counts[name]
    return product
