"""An account of a verdict: sentences, facts and tables of whole numbers with their units, before they are said as text or drawn."""

from dataclasses import dataclass, field
from textwrap import wrap
from typing import List, Optional, Tuple

from .layout import PLAIN, Unit
from .numbers import beside_raw


@dataclass(frozen=True)
class Fact:
    """A number that counts, by name."""
    name: str
    raw: int
    unit: Unit = PLAIN
    note: str = ""

    @property
    def text(self):
        """What the number stands for, where that says more than the number."""
        return beside_raw(self.raw, self.unit)[len(str(self.raw)):]


@dataclass
class Table:
    """Columns of numbers, each with its unit; rows of whole numbers."""
    title: str
    columns: List[Tuple[str, Unit]]
    rows: List[List[int]] = field(default_factory=list)

    def cells(self):
        """The cells as texts, the raw numbers of a column under one another."""
        widths = [max(len(str(raw)) for raw in column) for column in zip(*self.rows)]
        return [[" " * (width - len(str(raw))) + beside_raw(raw, unit) for raw, (_, unit), width in zip(row, self.columns, widths)]
                for row in self.rows]


@dataclass
class Account:
    """`head` says it in one line, `line` is the checker's own; then the paper's sentence, the facts, the tables, and what they come to."""
    head: str
    line: str
    says: str
    title: str = ""
    facts: List[Fact] = field(default_factory=list)
    tables: List[Table] = field(default_factory=list)
    so: List[str] = field(default_factory=list)

    def fact(self, name, raw, unit=PLAIN, note=""):
        self.facts.append(Fact(name, raw, unit, note))

    def fact_of(self, name) -> Optional[Fact]:
        return next((fact for fact in self.facts if fact.name == name), None)


def as_text(account, width=110):
    """The account as lines of text. A fact is a line: its name, two spaces or more, the raw number, what it stands for, a note."""
    lines = [account.head, "", f"  {account.line}", ""]
    lines += wrap(account.says, width)
    if account.facts or account.tables:
        lines.append("")
    if account.title:
        lines.append(f"{account.title}:")
    names = max((len(fact.name) for fact in account.facts), default=0)
    raws = max((len(str(fact.raw)) for fact in account.facts), default=0)
    texts = max((len(fact.text) for fact in account.facts if fact.note), default=0)
    for fact in account.facts:
        lines.append(f"  {fact.name:{names}}  {fact.raw:{raws}}{fact.text:{texts}}  {fact.note}".rstrip())
    for table in account.tables:
        lines += ["", f"{table.title}:"] + aligned([[name for name, _ in table.columns]] + table.cells())
    if account.so:
        lines.append("")
    for sentence in account.so:
        lines += wrap(sentence, width)
    return lines


def aligned(rows):
    """Rows of texts under one another, two spaces and more between them."""
    widths = [max(len(row[column]) for row in rows) for column in range(len(rows[0]))]
    return [("  " + "  ".join(f"{text:{width}}" for text, width in zip(row, widths))).rstrip() for row in rows]
