"""What the rule paper makes of a day and a clearing that read without fault: whole numbers, by its sentences.

Nothing is judged here. These are the numbers that the rules compare; which rule is broken is the checker's to say."""

from dataclasses import dataclass
from typing import List

SELL, BUY = 0, 1
WHOLE = 1_000  # a ratio of all


@dataclass(frozen=True)
class Line:
    row: int
    start: int
    end: int
    forward: List[int]
    back: List[int]
    flow: List[int]


@dataclass(frozen=True)
class Step:
    row: int
    zone: int
    period: int
    side: int
    limit: int
    quantity: int
    accepted: int


@dataclass(frozen=True)
class Block:
    row: int
    zone: int
    side: int
    least: int
    limit: int
    quantity: List[int]
    ratio: int

    @property
    def least_allowed(self):
        """The least ratio above 0 that the block may be accepted with: 0 in the file stands for all of it."""
        return self.least or WHOLE

    def accepted(self, period):
        return self.quantity[period] * self.ratio // WHOLE

    def left(self, period):
        return self.quantity[period] - self.accepted(period)


class Market:
    def __init__(self, day, clearing):
        self.day, self.clearing = day, clearing
        self.periods, self.zones = day.counts["periods"], day.counts["zones"]
        self.codes = day.codes
        self.floor = [row.value("floor") for row in day.rows("periods")]
        self.ceiling = [row.value("ceiling") for row in day.rows("periods")]
        prices = [row.value("price") for row in clearing.rows("prices")]
        flows = [row.value("flow") for row in clearing.rows("flows")]
        self.price = self.by_period(prices)
        self.lines = [Line(row.number, row.value("from"), row.value("to"), row.each("forward"), row.each("back"), flow)
                      for row, flow in zip(day.rows("lines"), self.by_period(flows))]
        self.steps = [Step(row.number, row.value("zone"), row.value("period"), row.value("side"), row.value("price"), row.value("quantity"),
                           chosen.value("volume"))
                      for row, chosen in zip(day.rows("steps"), clearing.rows("steps"))]
        self.blocks = [Block(row.number, row.value("zone"), row.value("side"), row.value("least ratio"), row.value("price"),
                             row.each("quantity"), chosen.value("ratio"))
                       for row, chosen in zip(day.rows("blocks"), clearing.rows("blocks"))]

    def by_period(self, values):
        return [values[start:start + self.periods] for start in range(0, len(values), self.periods)]

    # ---- a zone and period

    def by_steps(self, side, zone, period):
        """What steps of this side have accepted there."""
        return sum(step.accepted for step in self.steps if (step.zone, step.period, step.side) == (zone, period, side))

    def by_blocks(self, side, zone, period):
        return sum(block.accepted(period) for block in self.blocks if (block.zone, block.side) == (zone, side))

    def net(self, zone, period):
        """Supply less demand."""
        return (self.by_steps(SELL, zone, period) + self.by_blocks(SELL, zone, period)
                - self.by_steps(BUY, zone, period) - self.by_blocks(BUY, zone, period))

    def nets(self):
        """The net positions of all zones and periods, gathered in one pass."""
        table = [[0] * self.periods for _ in range(self.zones)]
        for step in self.steps:
            table[step.zone][step.period] += step.accepted if step.side == SELL else -step.accepted
        for block in self.blocks:
            for period in range(self.periods):
                table[block.zone][period] += block.accepted(period) if block.side == SELL else -block.accepted(period)
        return table

    # ---- a block

    def income(self, block):
        """Quantity times price over its periods."""
        return sum(quantity * price for quantity, price in zip(block.quantity, self.price[block.zone]))

    def at_limit(self, block):
        """Limit times the whole quantity."""
        return block.limit * sum(block.quantity)

    def gain(self, block):
        """The surplus of the whole block at the stated prices."""
        difference = self.income(block) - self.at_limit(block)
        return difference if block.side == SELL else -difference

    def left_gain(self, block):
        """The surplus that what is left unaccepted of it would have had."""
        difference = sum(block.left(period) * (self.price[block.zone][period] - block.limit) for period in range(self.periods))
        return difference if block.side == SELL else -difference

    def shortfall(self, block):
        return max(0, self.left_gain(block))
