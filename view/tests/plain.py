"""A pair of files that read without fault, taken apart plainly, and the numbers of the files that each rule compares at a place.

It uses nothing of what it tests."""

from struct import calcsize, unpack_from


class Plain:
    def __init__(self, day, clearing):
        self.data, self.place = day, 0
        self.bounds = self.rows("ii")
        self.hours = len(self.bounds)
        self.codes = self.rows("H")
        self.lines = self.rows("BB" + "II" * self.hours)
        self.steps = self.rows("BBBBiI")
        self.blocks = self.rows("BBHi" + "I" * self.hours)
        self.data, self.place = clearing, 0
        self.prices, self.flows, self.volumes, self.ratios = (self.rows(form) for form in "iiIH")

    def rows(self, form):
        count, = unpack_from("<H", self.data, self.place)
        start, width = self.place + 2, calcsize("<" + form)
        self.place = start + count * width
        return [unpack_from("<" + form, self.data, start + row * width) for row in range(count)]

    def price(self, zone, hour):
        return self.prices[zone * self.hours + hour][0]

    def of_price(self, zone, hour):
        floor, ceiling = self.bounds[hour]
        return {"price": self.price(zone, hour), "floor": floor, "ceiling": ceiling}

    def of_flow(self, line, hour):
        forward, back = self.lines[line][2 + 2 * hour:4 + 2 * hour]
        return {"flow": self.flows[line * self.hours + hour][0], "forward capacity": forward, "back capacity": back}

    def of_line(self, line, hour):
        start, end = self.lines[line][:2]
        return {**self.of_flow(line, hour), "price at from": self.price(start, hour), "price at to": self.price(end, hour)}

    def of_quantity(self, step):
        return {"side": self.steps[step][2], "accepted": self.volumes[step][0], "quantity": self.steps[step][5]}

    def of_step(self, step):
        zone, hour, _, _, limit, _ = self.steps[step]
        return {**self.of_quantity(step), "limit": limit, "price": self.price(zone, hour)}

    def of_ratio(self, block):
        return {"side": self.blocks[block][1], "ratio": self.ratios[block][0], "least ratio in the file": self.blocks[block][2]}

    def of_whole(self, block, hour):
        return {"ratio": self.ratios[block][0], f"quantity in period {hour}": self.blocks[block][4 + hour]}

    def of_block(self, block):
        zone, side, _, limit, *quantities = self.blocks[block]
        return {"side": side, "ratio": self.ratios[block][0], "limit": limit, "whole quantity": sum(quantities),
                "income": sum(quantity * self.price(zone, hour) for hour, quantity in enumerate(quantities))}

    def of_balance(self, zone, hour):
        """Steps and blocks of the zone, and the lines at it."""
        sums = {f"{verb} by {kind}": 0 for verb in ("sold", "bought") for kind in ("steps", "blocks")}
        for step, (volume,) in zip(self.steps, self.volumes):
            if step[:2] == (zone, hour):
                sums[("sold", "bought")[step[2]] + " by steps"] += volume
        for block, (ratio,) in zip(self.blocks, self.ratios):
            if block[0] == zone:
                sums[("sold", "bought")[block[1]] + " by blocks"] += block[4 + hour] * ratio // 1000
        for row, line in enumerate(self.lines):
            if zone in line[:2]:
                sums[("leaves" if line[0] == zone else "enters") + f" by line {row}"] = self.flows[row * self.hours + hour][0]
        return sums

    def of(self, number, place):
        """The numbers that a rule compares there."""
        named, count = {11: (self.of_price, 2), 12: (self.of_flow, 2), 13: (self.of_quantity, 1), 14: (self.of_balance, 2),
                        15: (self.of_step, 1), 16: (self.of_line, 2), 17: (self.of_block, 1), 20: (self.of_ratio, 1),
                        21: (self.of_whole, 2)}[number]
        return named(*place[:count])
