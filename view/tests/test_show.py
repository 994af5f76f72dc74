"""On all stored files: from what `show` prints the bytes can be written again, up to the fault; its mark is where the checker says."""

import re
import struct
import sys
import unittest

import stored

from desk import checker, files, layout, show

# the bytes of a row as the rule paper has them: once, and for each period
DAY = {1: ("ii", ""), 2: ("H", ""), 3: ("BB", "II"), 4: ("BBBBiI", ""), 5: ("BBHi", "I")}
CLEARING = {1: ("i", ""), 2: ("i", ""), 3: ("I", ""), 4: ("H", "")}
STATEMENT = {1: ("q", ""), 2: ("i", "")}

SECTION = re.compile(r"section ([0-9]+), .*, at ([0-9]+): (?:no count|count (>> )?([0-9]+) \(.*\))")
PERIOD = re.compile(r" {6} +([0-9]+)  period ([0-9]+) +(.*)")
VALUE = re.compile(r"([0-9]+) [a-z ]+ (>> )?(-?[0-9]+)")
NUMBERED = re.compile(r"[0-9]+ [a-z ]+")


class Shown:
    """The printed text taken apart: the bytes that it stands for, and the places of its marks as (section, row, field)."""

    def __init__(self, lines, forms):
        self.data, self.marks, self.forms = b"", [], forms
        self.section = self.row = self.names = None
        self.keys = 0
        for line in lines[1:]:
            if line.startswith(("Refused", ">> ")):
                break
            self.take(line)

    def take(self, line):
        section, period = SECTION.fullmatch(line), PERIOD.fullmatch(line)
        cells = re.split(r"  +", line.strip())
        if section:
            self.section, self.names = int(section[1]), None
            assert int(section[2]) == len(self.data)
            if section[3]:
                self.marks.append((self.section, "count"))
            if section[4]:
                self.data += struct.pack("<H", int(section[4]))
        elif period:
            once, each = self.forms[self.section]
            assert int(period[1]) == len(self.data)
            for place, text in enumerate(re.split(r"  +", period[3])):
                number, mark, value = VALUE.match(text).groups()
                assert int(number) == len(once) + int(period[2]) * len(each) + place
                self.put(each[place], value, int(number), mark)
        elif cells[0] == "at":
            self.names = cells
            self.keys = next(place for place, name in enumerate(cells) if NUMBERED.fullmatch(name))
        elif cells[0].isdigit():
            assert int(cells[0]) == len(self.data), line
            self.row = int(cells[1])
            for number, text in enumerate(cells[self.keys:]):
                assert self.names[self.keys + number].startswith(f"{number} ")
                mark, value = re.match(r"(>> )?(-?[0-9]+)", text).groups()
                self.put(self.forms[self.section][0][number], value, number, mark)

    def put(self, form, value, number, mark):
        self.data += struct.pack("<" + form, int(value))
        if mark:
            self.marks.append((self.section, self.row, number))


class ShownAgain(unittest.TestCase):
    def check(self, kind, forms, data, counts, verdict):
        reading = files.read(kind, files.File("a.bin", data, len(data)), counts, verdict)
        lines = show.lines_of(reading, verdict)
        shown = Shown(lines, forms)
        fault = verdict.number if verdict is not None and verdict.number in kind.faults else 0
        tail = [line for line in lines if line.startswith((">> ", "   in no field"))]
        if fault == 0:
            self.assertEqual(shown.data, data)
            self.assertEqual((shown.marks, tail), ([], []))
            return reading
        self.assertIn(verdict.line, lines[0])
        self.assertTrue(data.startswith(shown.data))
        if fault == kind.ends:
            self.assertEqual(shown.marks, [])
            left = "".join(line.split(": ")[1] for line in tail[1:])
            self.assertEqual(shown.data + bytes.fromhex(left), data)
        elif fault == kind.miscounts:
            self.assertEqual((shown.marks, tail), ([(verdict.place[0], "count")], []))
        elif fault == kind.misfits:
            self.assertEqual((shown.marks, tail), ([verdict.place], []))
        else:
            self.assertEqual(len(tail), 2)
            self.assertIn(f"from {len(shown.data)} to {len(data)}: {data[len(shown.data):][:16].hex(' ')}", tail[1])
        return reading

    def test_stored_files(self):
        seen = {}
        for place, (day, clearing, report) in enumerate(stored.pairs()):
            if place % 1000 == 0:
                print(f"show: {place} pairs", file=sys.stderr, flush=True)
            verdict = checker.parse(report)
            with self.subTest(pair=place):
                if len(day) > files.MOST_BYTES or len(clearing) > files.MOST_BYTES:
                    continue
                if day not in seen:
                    seen[day] = self.check(layout.DAY, DAY, day, None, verdict)
                if verdict.number not in layout.DAY.faults:
                    self.check(layout.CLEARING, CLEARING, clearing, seen[day].counts, verdict)

    def test_statements(self):
        for counts in (None, {"zones": 2, "periods": 1}):
            data = struct.pack("<H6qH2i", 6, 4700000, 3200000, 0, 1500000, 1100, 150000, 2, 500, -500)
            reading = files.read(layout.STATEMENT, files.File("a.bin", data, len(data)), counts)
            lines = show.lines_of(reading, None)
            self.assertEqual(Shown(lines, STATEMENT).data, data)
            self.assertTrue(any("traded" in line and "1100 = 110.0 MWh" in line for line in lines))
        for cut in range(len(data)):
            reading = files.read(layout.STATEMENT, files.File("a.bin", data[:cut], cut), counts)
            self.assertIsNotNone(reading.flaw)
            self.assertTrue(data.startswith(Shown(show.lines_of(reading, None), STATEMENT).data))


if __name__ == "__main__":
    unittest.main()
