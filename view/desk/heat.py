"""Colours of prices, in whole numbers: steps between the lowest and the highest of the day. Those below zero have a colour of their own."""

STEPS = 24

# from, to: for light screens and paper, and for dark screens; the text on them is dark on the first and light on the second
ABOVE = (((0xf8, 0xf4, 0xf8), (0xcf, 0xa6, 0xd2)), ((0x2a, 0x26, 0x2e), (0x75, 0x45, 0x7c)))
BELOW = (((0xe3, 0xf3, 0xef), (0x8c, 0xcf, 0xbf)), ((0x1c, 0x31, 0x2e), (0x15, 0x66, 0x59)))


class Heat:
    """The class of each price of a day."""

    def __init__(self, market):
        prices = [price for prices in market.price for price in prices]
        self.lowest, self.highest = min(prices), max(prices)

    def of(self, price):
        if price < 0:
            return f"heat below b{part(-price, -self.lowest)}"
        base = max(self.lowest, 0)
        return f"heat a{part(price - base, self.highest - base)}"


def part(value, whole):
    """The step that a value has between 0 and the whole."""
    return value * (STEPS - 1) // whole if whole else 0


def mixed(ends, step):
    """The colour at a step of the way from one to the other."""
    return "#" + "".join(f"{one + (other - one) * step // (STEPS - 1):02x}" for one, other in zip(*ends))


def rules():
    """The colours as rules of a style sheet."""
    lines = []
    for letter, (light, dark) in (("a", ABOVE), ("b", BELOW)):
        lines += [f".{letter}{step}{{--light:{mixed(light, step)};--dark:{mixed(dark, step)}}}" for step in range(STEPS)]
    return "\n".join(lines)
