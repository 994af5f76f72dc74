"""What `explain` prints, read back by its text alone: facts by name, tables by title."""

import re

FACT = re.compile(r"  (?P<name>\S.*?)  +(?P<raw>-?[0-9]+)(?: = (?P<text>\S+)(?: (?P<unit>\S+))?)?(?:  +(?P<note>.*))?")
CELL = re.compile(r"(?P<raw>-?[0-9]+)(?: = (?P<text>\S+)(?: (?P<unit>\S+))?)?")
DIGITS = {"€/MWh": 2, "MW": 1, "MWh": 1, "€": 3}
SIDES = {"sell": 0, "buy": 1}


class Spoken:
    """The verdict line, the facts, the tables and the other lines of a printed account."""

    def __init__(self, text):
        self.facts, self.tables, self.words, self.verdict = {}, {}, [], None
        lines = text.splitlines()
        self.head = lines[0]
        place = 0
        while place < len(lines):
            line = lines[place]
            place += 1
            match = FACT.fullmatch(line)
            if line.startswith("  verdict "):
                self.verdict = line.strip()
            elif line.endswith(":") and place < len(lines) and lines[place].startswith("  ") and not FACT.fullmatch(lines[place]):
                rows = []
                while place < len(lines) and lines[place].startswith("  "):
                    rows.append(re.split(r"  +", lines[place].strip()))
                    place += 1
                names, cells = rows[0], [[self.number(CELL.fullmatch(cell)) for cell in row] for row in rows[1:]]
                self.tables[line[:-1]] = [dict(zip(names, row)) for row in cells]
            elif match:
                assert match["name"] not in self.facts, match["name"]
                self.facts[match["name"]] = self.number(match)
            else:
                self.words.append(line)

    @staticmethod
    def number(match):
        """The raw number, which has to be what stands beside it in its unit."""
        raw, text, unit = int(match["raw"]), match["text"], match["unit"]
        if text in SIDES:
            assert SIDES[text] == raw
        elif text is not None:
            digits = DIGITS[unit] if unit else 3
            whole, _, behind = text.partition(".")
            assert len(behind) == digits, (text, unit)
            assert int(whole + behind) == raw and (raw != 0 or not text.startswith("-")), (raw, text)
        return raw

    @property
    def sentences(self):
        return " ".join(self.words)
