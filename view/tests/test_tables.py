"""Tables in and out, and the writing of files: all or nothing."""

import contextlib
import io
import os
import shutil
import sys
import tempfile
import unittest
from pathlib import Path
from unittest import mock

from stored import ROOT, pairs

from desk import checker, files, tables
from desk.layout import CLEARING, DAY, keys_of
from desk.pair import take_apart
from desk.words import main

READS = [0] + list(range(9, 22))
LONG = "7" * 60

SMALL = {
    "day-1-periods.csv": "period,floor,ceiling\n0,-500.00,3000.00\n1,-500.00,3000.00\n",
    "day-2-zones.csv": "zone,code\n0,10\n1,20\n",
    "day-3-lines.csv": "line,from,to,forward 0,back 0,forward 1,back 1\n0,0,1,50.0,20.0,60.0,30.0\n",
    "day-4-steps.csv": "step,zone,period,side,spare,price,quantity\n0,0,0,sell,0,20.00,100.0\n1,1,1,buy,0,90.00,70.0\n",
    "day-5-blocks.csv": "block,zone,side,least ratio,price,quantity 0,quantity 1\n0,1,sell,0.250,45.00,30.0,0.0\n",
    "clearing-1-prices.csv": "zone,period,price\n0,0,20.00\n0,1,21.00\n1,0,50.00\n1,1,-0.01\n",
    "clearing-2-flows.csv": "line,period,flow\n0,0,50.0\n0,1,-30.0\n",
    "clearing-3-steps.csv": "step,volume\n0,50.5\n1,0.0\n",
    "clearing-4-blocks.csv": "block,ratio\n0,0.000\n",
}
EMPTY = {
    "day-1-periods.csv": "period,floor,ceiling\n0,-10000.00,10000.00\n",
    "day-2-zones.csv": "zone,code\n0,65535\n",
    "day-3-lines.csv": "line,from,to,forward 0,back 0\n",
    "day-4-steps.csv": "step,zone,period,side,spare,price,quantity\n",
    "day-5-blocks.csv": "block,zone,side,least ratio,price,quantity 0\n",
    "clearing-1-prices.csv": "zone,period,price\n0,0,0.00\n",
    "clearing-2-flows.csv": "line,period,flow\n",
    "clearing-3-steps.csv": "step,volume\n",
    "clearing-4-blocks.csv": "block,ratio\n",
}

PRICE = "a price from -10000.00 to 10000.00 €/MWh with 2 digits behind the point"
VOLUME = "a volume from 0.0 to 100000.0 MW with 1 digit behind the point"
SIZE = "a volume from 0.1 to 100000.0 MW with 1 digit behind the point"
RATIO = "a ratio from 0.000 to 1.000 with 3 digits behind the point"
ZONE = "the number of a zone from 0 to 1"
CELLS = "cells with commas between them, quoted from end to end or not at all"

# A table, what stands in it, what comes in its place, and what is said of it behind the table's path.
BAD = [
    # names
    ("day-1-periods.csv", "period,floor", "period,flor", ', line 1, column 2 (floor): expected "floor", found "flor"'),
    ("day-1-periods.csv", "period,floor,ceiling", "period;floor;ceiling",
     ', line 1, column 1 (period): expected "period", found "period;floor;ceiling"'),
    ("day-1-periods.csv", "period,floor,ceiling", "period,floor", ', line 1, column 3 (ceiling): expected "ceiling", found nothing'),
    ("day-1-periods.csv", "ceiling", "ceiling,note", ', line 1, column 4: expected no more columns, found "note"'),
    ("day-1-periods.csv", "period,", "Period,", ', line 1, column 1 (period): expected "period", found "Period"'),
    ("day-1-periods.csv", "period,", "\ufeff\ufeffperiod,", ', line 1, column 1 (period): expected "period", found "\\ufeffperiod"'),
    ("day-1-periods.csv", SMALL["day-1-periods.csv"], "", ', line 1, column 1 (period): expected "period", found nothing'),
    ("day-1-periods.csv", "period,", "\nperiod,", ', line 1, column 1 (period): expected "period", found nothing'),
    ("day-3-lines.csv", ",forward 1,back 1", "", ', line 1, column 6 (forward 1): expected "forward 1", found nothing'),
    ("day-3-lines.csv", "back 0,forward 1", "forward 1,back 0", ', line 1, column 5 (back 0): expected "back 0", found "forward 1"'),
    ("clearing-1-prices.csv", "zone,period,price", "0,0,20.00", ', line 1, column 1 (zone): expected "zone", found "0"'),
    # columns in a line
    ("day-1-periods.csv", "0,-500.00,3000.00\n1", "0,-500.00\n1", ", line 2, column 3 (ceiling): expected 3 columns, found 2"),
    ("day-2-zones.csv", "1,20", "1,20,", ", line 3, column 3: expected 2 columns, found 3"),
    ("day-4-steps.csv", "20.00,", "20,00,", ", line 2, column 8: expected 7 columns, found 8"),
    ("day-2-zones.csv", "0,10\n", "0,10\n\n", ", line 3, column 1 (zone): expected 2 columns, found an empty line"),
    ("clearing-4-blocks.csv", "0.000\n", "0.000\n\n", ", line 3, column 1 (block): expected 2 columns, found an empty line"),
    ("clearing-4-blocks.csv", "0.000\n", "0.000\n ", ", line 3, column 2 (ratio): expected 2 columns, found 1"),
    # quotes and line ends
    ("day-2-zones.csv", "0,10", '0,"10', f', line 2, column 2 (code): expected {CELLS}, found "0,\\"10"'),
    ("day-2-zones.csv", "0,10", '0,"1"0', f', line 2, column 2 (code): expected {CELLS}, found "0,\\"1\\"0"'),
    ("day-2-zones.csv", "0,10", '0,1"0"', ', line 2, column 2 (code): expected a whole number from 1 to 65535, found "1\\"0\\""'),
    ("day-2-zones.csv", "0,10\n", "0,10\r\r\n", f', line 2, column 2 (code): expected {CELLS}, found "0,10\\r"'),
    ("day-2-zones.csv", "1,20\n", "1,20\r", f', line 3, column 2 (code): expected {CELLS}, found "1,20\\r"'),
    # the numbers that tell a row
    ("day-4-steps.csv", "1,1,1,buy", "2,1,1,buy", ', line 3, column 1 (step): expected 1, as the rows stand in their order, found "2"'),
    ("day-4-steps.csv", "0,0,0,sell", "00,0,0,sell", ', line 2, column 1 (step): expected 0, as the rows stand in their order, found "00"'),
    ("day-2-zones.csv", "0,10\n1,20", "1,10\n0,20", ', line 2, column 1 (zone): expected 0, as the rows stand in their order, found "1"'),
    ("clearing-1-prices.csv", "0,1,21.00\n1,0,50.00", "1,0,50.00\n0,1,21.00",
     ', line 3, column 1 (zone): expected 0, as the rows stand in their order, found "1"'),
    ("clearing-1-prices.csv", "0,0,20.00\n0,1,21.00", "0,1,21.00\n0,0,20.00",
     ', line 2, column 2 (period): expected 0, as the rows stand in their order, found "1"'),
    # one way of writing
    ("day-4-steps.csv", "20.00", "20", f', line 2, column 6 (price): expected {PRICE}, found "20"'),
    ("day-4-steps.csv", "20.00", "20.0", f', line 2, column 6 (price): expected {PRICE}, found "20.0"'),
    ("day-4-steps.csv", "20.00", "20.000", f', line 2, column 6 (price): expected {PRICE}, found "20.000"'),
    ("day-4-steps.csv", "20.00", "+20.00", f', line 2, column 6 (price): expected {PRICE}, found "+20.00"'),
    ("day-4-steps.csv", "20.00", " 20.00", f', line 2, column 6 (price): expected {PRICE}, found " 20.00"'),
    ("day-4-steps.csv", "20.00", "20.00 ", f', line 2, column 6 (price): expected {PRICE}, found "20.00 "'),
    ("day-4-steps.csv", "20.00", ' "20.00"', f', line 2, column 6 (price): expected {PRICE}, found " \\"20.00\\""'),
    ("day-4-steps.csv", "20.00", '"2,000.00"', f', line 2, column 6 (price): expected {PRICE}, found "2,000.00"'),
    ("day-4-steps.csv", "20.00", '"20,00"', f', line 2, column 6 (price): expected {PRICE}, found "20,00"'),
    ("day-4-steps.csv", "20.00", "020.00", f', line 2, column 6 (price): expected {PRICE}, found "020.00"'),
    ("day-4-steps.csv", "20.00", ".20", f', line 2, column 6 (price): expected {PRICE}, found ".20"'),
    ("day-4-steps.csv", "20.00", "-0.00", f', line 2, column 6 (price): expected {PRICE}, found "-0.00"'),
    ("day-4-steps.csv", "20.00", "2e1", f', line 2, column 6 (price): expected {PRICE}, found "2e1"'),
    ("day-4-steps.csv", "20.00", "nan", f', line 2, column 6 (price): expected {PRICE}, found "nan"'),
    ("day-4-steps.csv", "20.00", "", f', line 2, column 6 (price): expected {PRICE}, found ""'),
    ("day-4-steps.csv", "20.00", "\u0662\u0660.\u0660\u0660",
     f', line 2, column 6 (price): expected {PRICE}, found "\\u0662\\u0660.\\u0660\\u0660"'),
    ("day-4-steps.csv", "20.00", "\u221220.00", f', line 2, column 6 (price): expected {PRICE}, found "\\u221220.00"'),
    ("day-4-steps.csv", "20.00", "20\x0b.00", f', line 2, column 6 (price): expected {PRICE}, found "20\\u000b.00"'),
    ("day-4-steps.csv", "20.00", LONG, f', line 2, column 6 (price): expected {PRICE}, found "{LONG[:40]}" and more'),
    ("day-4-steps.csv", "sell", "Sell", ', line 2, column 4 (side): expected sell or buy, found "Sell"'),
    ("day-4-steps.csv", "sell", "0", ', line 2, column 4 (side): expected sell or buy, found "0"'),
    ("day-5-blocks.csv", "0.250", "0.25", f', line 2, column 4 (least ratio): expected {RATIO}, found "0.25"'),
    ("day-5-blocks.csv", "0.250", "25%", f', line 2, column 4 (least ratio): expected {RATIO}, found "25%"'),
    ("clearing-2-flows.csv", "-30.0", "-30",
     ', line 3, column 3 (flow): expected a volume from -100000.0 to 100000.0 MW with 1 digit behind the point, found "-30"'),
    # ranges
    ("day-1-periods.csv", "0,-500.00", "0,-10000.01", f', line 2, column 2 (floor): expected {PRICE}, found "-10000.01"'),
    ("day-2-zones.csv", "0,10", "0,0", ', line 2, column 2 (code): expected a whole number from 1 to 65535, found "0"'),
    ("day-2-zones.csv", "1,20", "1,65536", ', line 3, column 2 (code): expected a whole number from 1 to 65535, found "65536"'),
    ("day-3-lines.csv", "0,0,1", "0,10,1", f', line 2, column 2 (from): expected {ZONE}, found "10"'),
    ("day-3-lines.csv", "0,0,1", "0,0,2", f', line 2, column 3 (to): expected {ZONE}, found "2"'),
    ("day-3-lines.csv", "30.0", "100000.1", f', line 2, column 7 (back 1): expected {VOLUME}, found "100000.1"'),
    ("day-3-lines.csv", "60.0", "-0.1", f', line 2, column 6 (forward 1): expected {VOLUME}, found "-0.1"'),
    ("day-4-steps.csv", "0,0,0,sell", "0,2,0,sell", f', line 2, column 2 (zone): expected {ZONE}, found "2"'),
    ("day-4-steps.csv", "0,0,0,sell", "0,0,2,sell", ', line 2, column 3 (period): expected the number of a period from 0 to 1, found "2"'),
    ("day-4-steps.csv", "sell,0", "sell,1", ', line 2, column 5 (spare): expected 0, found "1"'),
    ("day-4-steps.csv", "20.00", "10000.01", f', line 2, column 6 (price): expected {PRICE}, found "10000.01"'),
    ("day-4-steps.csv", "100.0", "0.0", f', line 2, column 7 (quantity): expected {SIZE}, found "0.0"'),
    ("day-4-steps.csv", "100.0", "100000.1", f', line 2, column 7 (quantity): expected {SIZE}, found "100000.1"'),
    ("day-5-blocks.csv", "0.250", "1.001", f', line 2, column 4 (least ratio): expected {RATIO}, found "1.001"'),
    ("day-5-blocks.csv", "30.0", "100000.1", f', line 2, column 6 (quantity 0): expected {VOLUME}, found "100000.1"'),
    ("clearing-1-prices.csv", "50.00", "10000.01", f', line 4, column 3 (price): expected {PRICE}, found "10000.01"'),
    ("clearing-2-flows.csv", "-30.0", "-100000.1",
     ', line 3, column 3 (flow): expected a volume from -100000.0 to 100000.0 MW with 1 digit behind the point, found "-100000.1"'),
    ("clearing-3-steps.csv", "50.5", "-0.1", f', line 2, column 2 (volume): expected {VOLUME}, found "-0.1"'),
    ("clearing-4-blocks.csv", "0.000", "1.001", f', line 2, column 2 (ratio): expected {RATIO}, found "1.001"'),
    # against the fields and the row before
    ("day-1-periods.csv", "3000.00\n1", "-500.01\n1",
     ', line 2, column 3 (ceiling): expected it to be not below the floor, found "-500.01"'),
    ("day-2-zones.csv", "1,20", "1,10", ', line 3, column 2 (code): expected it to be above the code before it, found "10"'),
    ("day-3-lines.csv", "0,0,1", "0,1,1", ', line 2, column 3 (to): expected it to be another zone than from, found "1"'),
    ("day-5-blocks.csv", "30.0", "0.0",
     ', line 2, column 7 (quantity 1): expected it to be above 0, as no quantity before it is, found "0.0"'),
    # rows
    ("day-1-periods.csv", "0,-500.00,3000.00\n1,-500.00,3000.00\n", "", ", line 2, column 1 (period): expected 1 to 25 rows, found 0"),
    ("day-1-periods.csv", "1,-500.00,3000.00\n", "".join(f"{row},0.00,1.00\n" for row in range(1, 27)),
     ", line 27, column 1 (period): expected 1 to 25 rows, found 27"),
    ("day-2-zones.csv", "0,10\n1,20\n", "", ", line 2, column 1 (zone): expected 1 to 8 rows, found 0"),
    ("day-2-zones.csv", "1,20\n", "".join(f"{row},{row + 20}\n" for row in range(1, 9)),
     ", line 10, column 1 (zone): expected 1 to 8 rows, found 9"),
    ("day-3-lines.csv", "0,0,1,50.0,20.0,60.0,30.0\n", "".join(f"{row},0,1,0.0,0.0,0.0,0.0\n" for row in range(17)),
     ", line 18, column 1 (line): expected 0 to 16 rows, found 17"),
    ("day-4-steps.csv", "1,1,1,buy,0,90.00,70.0\n", "".join(f"{row},1,1,buy,0,0.00,0.1\n" for row in range(1, 2_001)),
     ", line 2002, column 1 (step): expected 0 to 2000 rows, found 2001"),
    ("day-5-blocks.csv", "0,1,sell,0.250,45.00,30.0,0.0\n", "".join(f"{row},1,sell,0.000,0.00,1.0,0.0\n" for row in range(101)),
     ", line 102, column 1 (block): expected 0 to 100 rows, found 101"),
    ("clearing-1-prices.csv", "1,1,-0.01\n", "", ", line 5, column 1 (zone): expected 4 rows, the day's zones times periods, found 3"),
    ("clearing-1-prices.csv", "1,1,-0.01\n", "1,1,-0.01\n2,0,0.00\n",
     ", line 6, column 1 (zone): expected 4 rows, the day's zones times periods, found 5"),
    ("clearing-2-flows.csv", "0,1,-30.0\n", "", ", line 3, column 1 (line): expected 2 rows, the day's lines times periods, found 1"),
    ("clearing-3-steps.csv", "0,50.5\n1,0.0\n", "", ", line 2, column 1 (step): expected 2 rows, the day's steps, found 0"),
    ("clearing-4-blocks.csv", "0,0.000\n", "0,0.000\n1,0.000\n", ", line 3, column 1 (block): expected 1 row, the day's blocks, found 2"),
]

GOOD = [
    ("day-1-periods.csv", "0,-500.00,3000.00", "0,-10000.00,-10000.00", (1, 0, [-1_000_000, -1_000_000])),
    ("day-1-periods.csv", "0,-500.00,3000.00", "0,10000.00,10000.00", (1, 0, [1_000_000, 1_000_000])),
    ("day-2-zones.csv", "0,10\n1,20", "0,1\n1,65535", (2, 1, [65_535])),
    ("day-3-lines.csv", "50.0,20.0,60.0,30.0", "0.0,100000.0,0.1,99999.9", (3, 0, [0, 1, 0, 1_000_000, 1, 999_999])),
    ("day-4-steps.csv", "sell,0,20.00,100.0", "buy,0,-0.01,0.1", (4, 0, [0, 0, 1, 0, -1, 1])),
    ("day-4-steps.csv", "sell,0,20.00,100.0", "sell,0,0.00,100000.0", (4, 0, [0, 0, 0, 0, 0, 1_000_000])),
    ("day-5-blocks.csv", "0.250,45.00,30.0,0.0", "0.000,-10000.00,0.0,0.1", (5, 0, [1, 0, 0, -1_000_000, 0, 1])),
    ("day-5-blocks.csv", "0.250,45.00,30.0,0.0", "1.000,10000.00,100000.0,0.0", (5, 0, [1, 0, 1_000, 1_000_000, 1_000_000, 0])),
    ("clearing-1-prices.csv", "20.00", "-10000.00", (1, 0, [-1_000_000])),
    ("clearing-1-prices.csv", "20.00", "0.00", (1, 0, [0])),
    ("clearing-2-flows.csv", "-30.0", "-100000.0", (2, 1, [-1_000_000])),
    ("clearing-2-flows.csv", "-30.0", "100000.0", (2, 1, [1_000_000])),
    ("clearing-3-steps.csv", "50.5", "100000.0", (3, 0, [1_000_000])),
    ("clearing-4-blocks.csv", "0.000", "1.000", (4, 0, [1_000])),
    ("clearing-4-blocks.csv", "0.000", "0.001", (4, 0, [1])),
]


def changed(name, old, new):
    """The small tables with one place of one of them changed."""
    assert old in SMALL[name], (name, old)
    return {**SMALL, name: SMALL[name].replace(old, new, 1)}


def lay(folder, contents):
    """These files in a folder, and no others."""
    shutil.rmtree(folder, ignore_errors=True)
    folder.mkdir()
    for name, content in contents.items():
        (folder / name).write_bytes(content if isinstance(content, bytes) else content.encode())


def tree(folder):
    """All that is under a folder: the bytes of files, None for folders, where links point."""
    found = {}
    for path in sorted(folder.rglob("*")):
        found[str(path.relative_to(folder))] = os.readlink(path) if path.is_symlink() else path.read_bytes() if path.is_file() else None
    return found


def apart(day, clearing, verdict):
    return take_apart(files.File("day.bin", day, len(day)), files.File("clearing.bin", clearing, len(clearing)), verdict)


def verdict_of(data):
    return checker.judge(data["day.bin"], data["clearing.bin"])


def with_progress(items, words):
    for number, item in enumerate(items, 1):
        if number % 500 == 0 or number == len(items):
            print(f"\r{words}: {number} of {len(items)}", end="" if number < len(items) else "\n", file=sys.stderr, flush=True)
        yield item


class InFolder(unittest.TestCase):
    def setUp(self):
        holder = tempfile.TemporaryDirectory(prefix="ayinzhad-test-")
        self.addCleanup(holder.cleanup)
        self.folder = Path(holder.name)
        self.tables, self.output = self.folder / "tables", self.folder / "output"

    def unable(self, act, *args):
        """The one line that is said where something cannot be done."""
        with self.assertRaises(files.Unable) as caught:
            act(*args)
        self.assertNotIn("\n", str(caught.exception))
        return str(caught.exception)


class RoundTrips(InFolder):
    def test_stored_pairs_that_read(self):
        reading = [(day, clearing, verdict) for day, clearing, report in pairs()
                   for verdict in [checker.parse(report)] if verdict.number in READS]
        self.assertGreater(len(reading), 1_500)
        for day, clearing, verdict in with_progress(reading, "to tables and back"):
            written = tables.tables_of(apart(day, clearing, verdict))
            lay(self.tables, written)
            back = tables.files_of(self.tables)
            self.assertEqual(back, {"day.bin": day, "clearing.bin": clearing})
            self.assertEqual(tables.tables_of(apart(back["day.bin"], back["clearing.bin"], verdict)), written)

    def test_a_field_that_the_checker_refuses_is_refused_at_its_place(self):
        faulty = [(day, clearing, verdict) for day, clearing, report in pairs()
                  for verdict in [checker.parse(report)] if verdict.number in (DAY.misfits, CLEARING.misfits)]
        self.assertGreater(len(faulty), 1_500)
        for day, clearing, verdict in with_progress(faulty, "faulty fields"):
            pair = apart(day, clearing, verdict)
            readings = [reading for reading in (pair.day, pair.clearing) if reading is not None]
            lay(self.tables, {tables.table_name(reading.kind, part.section): tables.table_text(part, reading.counts)
                              for reading in readings for part in reading.parts})
            number, row, field = verdict.place
            section = readings[-1].kind.sections[number - 1]
            table = self.tables / tables.table_name(readings[-1].kind, section)
            place = f"{table}, line {row + 2}, column {len(keys_of(section)) + field + 1} ("
            said = self.unable(tables.files_of, self.tables)
            self.assertTrue(said.startswith(place), (verdict.line, said))

    def test_small_tables(self):
        for contents in (SMALL, EMPTY):
            lay(self.tables, contents)
            verdict = verdict_of(tables.files_of(self.tables))
            self.assertIn(verdict.number, READS)
            tables.import_folder(self.tables, self.output)
            tables.export_folder(self.output, self.output)
            self.assertEqual({name: (self.output / name).read_text() for name in contents}, contents)

    def test_the_largest_day_is_far_below_what_is_read_of_a_table(self):
        row = [1_000_000] * 50
        lines = DAY.section("lines")
        part = files.Part(lines, 0, 16, [files.Row(lines, number, 0, [7, 7] + row) for number in range(16)])
        self.assertLess(len(tables.table_text(part, {"periods": 25})) * 4, tables.MOST_BYTES)
        steps = DAY.section("steps")
        part = files.Part(steps, 0, 2_000, [files.Row(steps, number, 0, [7, 24, 0, 0, -1_000_000, 1_000_000]) for number in range(2_000)])
        self.assertLess(len(tables.table_text(part, {"periods": 25})) * 4, tables.MOST_BYTES)

    def test_samples_are_accepted(self):
        samples = sorted((ROOT / "view" / "samples").iterdir())
        self.assertEqual([one.name for one in samples], ["small-day", "winter-day"])
        for sample in samples:
            said = tables.import_folder(sample, self.output)
            data = {name: (self.output / name).read_bytes() for name in ("day.bin", "clearing.bin")}
            self.assertEqual(said[0], f"{self.output}/day.bin: {len(data['day.bin'])} bytes")
            verdict = verdict_of(data)
            self.assertTrue(verdict.accepted, verdict.line)
            self.assertGreater(verdict.totals["shortfall"], 0)
            tables.export_folder(self.output, self.folder / "again")
            self.assertEqual(tree(self.folder / "again"), tree(sample))


class Import(InFolder):
    def test_bad_tables(self):
        before = {"day.bin": b"what was there", "clearing.bin": b"this too", "note": b"and this"}
        lay(self.output, before)
        for name, old, new, words in BAD:
            with self.subTest(name=name, old=old[:40], new=new[:40]):
                lay(self.tables, changed(name, old, new))
                for output in (self.output, self.folder / "new", self.folder / "new" / "deep"):
                    self.assertEqual(self.unable(tables.import_folder, self.tables, output), f"{self.tables / name}{words}")
                self.assertEqual(tree(self.output), before)
                self.assertFalse((self.folder / "new").exists())

    def test_every_column_is_looked_at(self):
        for name, text in SMALL.items():
            lines = text.splitlines()
            for line in range(len(lines)):
                for column, title in enumerate(lines[0].split(",")):
                    cells = lines[line].split(",")
                    cells[column] = "?"
                    lay(self.tables, {**SMALL, name: "\n".join(lines[:line] + [",".join(cells)] + lines[line + 1:])})
                    said = self.unable(tables.files_of, self.tables)
                    place = f"{self.tables / name}, line {line + 1}, column {column + 1} ({title})"
                    self.assertTrue(said.startswith(f"{place}: expected "), said)
                    self.assertTrue(said.endswith(', found "?"'), said)

    def test_the_first_fault_is_named(self):
        worse = {name: text.replace("0", "x") for name, text in SMALL.items()}
        self.assertIn("day-1-periods.csv, line 2, column 1 (period)", self.said_of(worse))
        worse = {**worse, "day-1-periods.csv": SMALL["day-1-periods.csv"]}
        self.assertIn("day-2-zones.csv, line 2, column 1 (zone)", self.said_of(worse))
        self.assertIn("clearing-3-steps.csv, line 2, column 1 (step)",
                      self.said_of({**SMALL, "clearing-3-steps.csv": "step,volume\n1,x\n0,x\n", "clearing-4-blocks.csv": ""}))

    def said_of(self, contents):
        lay(self.tables, contents)
        return self.unable(tables.files_of, self.tables)

    def test_edges(self):
        for name, old, new, (section, row, values) in GOOD:
            with self.subTest(name=name, new=new):
                lay(self.tables, changed(name, old, new))
                data = tables.files_of(self.tables)
                verdict = verdict_of(data)
                self.assertIn(verdict.number, READS)
                pair = apart(data["day.bin"], data["clearing.bin"], verdict)
                reading = pair.day if name.startswith("day") else pair.clearing
                self.assertEqual(reading.parts[section - 1].rows[row].values, values)

    def test_what_spreadsheets_write(self):
        lay(self.tables, SMALL)
        expected = tables.files_of(self.tables)
        for change in (lambda text: text.replace("\n", "\r\n"), lambda text: "\ufeff" + text, lambda text: text[:-1],
                       lambda text: "".join(",".join(f'"{cell}"' for cell in line.split(",")) + "\n" for line in text.splitlines()),
                       lambda text: "\ufeff" + text.replace("\n", "\r\n")[:-2]):
            lay(self.tables, {name: change(text) for name, text in SMALL.items()})
            self.assertEqual(tables.files_of(self.tables), expected)

    def test_a_table_that_cannot_be_read(self):
        path = self.tables / "day-3-lines.csv"
        zero = Path("/dev/zero")
        cases = [
            (lambda: path.unlink(), ": No such file or directory"),
            (lambda: (path.unlink(), path.mkdir()), ": a folder or a device, not a file"),
            (lambda: (path.unlink(), path.symlink_to(zero)), ": a folder or a device, not a file"),
            (lambda: (path.unlink(), os.mkfifo(path)), ": a folder or a device, not a file"),
            (lambda: path.write_bytes(b"0" * (tables.MOST_BYTES + 1)), f": more than {tables.MOST_BYTES} bytes, which no table needs"),
            (lambda: os.truncate(path, 1 << 40), f": more than {tables.MOST_BYTES} bytes, which no table needs"),
            (lambda: path.write_bytes(b"\xef\xbb\xbfline\n0,\xff"),
             ", line 2, column 2 (from): expected text in UTF-8, found the byte 255"),
            (lambda: path.write_bytes("line,from".encode("utf-16")),
             ", line 1, column 1 (line): expected text in UTF-8, found the byte 255"),
        ]
        for change, words in cases:
            with self.subTest(words=words):
                lay(self.tables, SMALL)
                change()
                self.assertEqual(self.unable(tables.import_folder, self.tables, self.output), f"{path}{words}")
                self.assertFalse(self.output.exists())
        said = self.unable(tables.import_folder, self.folder / "nowhere", self.output)
        self.assertEqual(said, f"{self.folder}/nowhere/day-1-periods.csv: No such file or directory")

    def test_a_file_of_empty_lines(self):
        lay(self.tables, {**SMALL, "day-2-zones.csv": "\n" * tables.MOST_BYTES})
        said = self.unable(tables.files_of, self.tables)
        self.assertEqual(said, f'{self.tables}/day-2-zones.csv, line 1, column 1 (zone): expected "zone", found nothing')


class Export(InFolder):
    def test_files_that_do_not_read(self):
        for sample, name, line in (("field", "day.bin", "verdict 3 4 1 4"), ("old-clearing", "clearing.bin", "verdict 5 4 0 0")):
            with self.assertRaises(files.Refused) as caught:
                tables.export_folder(ROOT / "samples" / sample, self.output)
            self.assertEqual(str(caught.exception),
                             f"{ROOT}/samples/{sample}/{name}: does not read, {line}; `ayinzhad-view explain` says why")
            self.assertFalse(self.output.exists())

    def test_files_that_are_missing(self):
        for sample, name in (("missing-day", "day.bin"), ("missing-clearing", "clearing.bin")):
            said = self.unable(tables.export_folder, ROOT / "samples" / sample, self.output)
            self.assertEqual(said, f"{ROOT}/samples/{sample}/{name}: No such file or directory")
            self.assertFalse(self.output.exists())

    def test_a_refused_pair_that_reads(self):
        for sample in ("refused", "below-least", "accepted", "partial"):
            said = tables.export_folder(ROOT / "samples" / sample, self.output)
            self.assertEqual(sorted(os.listdir(self.output)), sorted(SMALL))
            self.assertEqual([line.split(": ")[0] for line in said], [f"{self.output}/{name}" for name in SMALL])
            self.assertEqual([line.split(": ")[1] for line in said],
                             ["1 row", "2 rows", "1 row", "4 rows", "1 row", "2 rows", "1 row", "4 rows", "1 row"])
            data = {name: (ROOT / "samples" / sample / name).read_bytes() for name in ("day.bin", "clearing.bin")}
            self.assertEqual(tables.files_of(self.output), data)

    def test_text(self):
        tables.export_folder(ROOT / "samples" / "partial", self.output)
        self.assertEqual((self.output / "day-4-steps.csv").read_bytes().split(b"\n")[:2],
                         [b"step,zone,period,side,spare,price,quantity", b"0,0,0,sell,0,20.00,100.0"])
        self.assertEqual((self.output / "clearing-4-blocks.csv").read_bytes(), b"block,ratio\n0,0.250\n")


class Command(InFolder):
    def run_word(self, *words):
        out, err = io.StringIO(), io.StringIO()
        with contextlib.redirect_stdout(out), contextlib.redirect_stderr(err):
            status = main([str(word) for word in words])
        return status, out.getvalue(), err.getvalue()

    def test_words(self):
        status, out, err = self.run_word("export", ROOT / "samples" / "accepted", "-o", self.tables)
        self.assertEqual((status, len(out.splitlines()), err), (0, 9, ""))
        status, out, err = self.run_word("import", self.tables)
        self.assertEqual((status, out.splitlines()[1], err), (0, f"{self.tables}/clearing.bin: 38 bytes", ""))
        status, out, err = self.run_word("export", ROOT / "samples" / "field", "-o", self.output)
        self.assertEqual((status, out, len(err.splitlines())), (1, "", 1))
        status, out, err = self.run_word("import", self.output)
        self.assertEqual((status, out, len(err.splitlines())), (2, "", 1))


class Put(InFolder):
    """The safe writer: three files, of which the second is not there before."""
    NEW = {"a": b"new a", "b": b"new b", "c": b"new c"}
    OLD = {"a": b"old a", "c": b"old c", "other": b"other"}

    def setUp(self):
        super().setUp()
        lay(self.output, self.OLD)

    def put(self):
        files.put({str(self.output / name): data for name, data in self.NEW.items()})

    def failing(self, name, turn, error):
        """The function of `os` of that name, which fails at its turn and only then."""
        real, calls = getattr(os, name), []

        def one(*args, **words):
            calls.append(args)
            if len(calls) == turn:
                raise error
            return real(*args, **words)
        return mock.patch.object(os, name, one)

    def test_all(self):
        mask = os.umask(0o027)
        try:
            self.put()
        finally:
            os.umask(mask)
        self.assertEqual(tree(self.output), {**self.OLD, **self.NEW})
        self.assertEqual([(self.output / name).stat().st_mode & 0o777 for name in self.NEW], [0o640] * 3)

    def test_or_none(self):
        for name in ("replace", "fsync"):
            for turn, path in enumerate(self.NEW, 1):
                with self.subTest(name=name, turn=turn), self.failing(name, turn, OSError(28, "No space left on device")):
                    self.assertEqual(self.unable(self.put), f"{self.output / path}: No space left on device; nothing is written")
                    self.assertEqual(tree(self.output), self.OLD)

    def test_stopped(self):
        for name in ("replace", "fsync", "link"):
            for turn in (1, 2, 3):
                with self.subTest(name=name, turn=turn), self.failing(name, turn, KeyboardInterrupt()):
                    self.assertRaises(KeyboardInterrupt, self.put)
                    self.assertEqual(tree(self.output), self.OLD)

    def test_without_second_names(self):
        def no_link(source, target):
            raise FileNotFoundError(2, "No such file or directory") if not os.path.exists(source) else PermissionError(1, "Not permitted")
        with mock.patch.object(os, "link", no_link):
            for turn in (1, 2, 3):
                with self.failing("replace", turn, OSError(5, "Input/output error")):
                    self.unable(self.put)
                    self.assertEqual(tree(self.output), self.OLD)
            with mock.patch.object(shutil, "copy2", side_effect=OSError(28, "No space left on device")):
                self.assertEqual(self.unable(self.put), f"{self.output}/a: No space left on device; nothing is written")
                self.assertEqual(tree(self.output), self.OLD)
            self.put()
        self.assertEqual(tree(self.output), {**self.OLD, **self.NEW})

    def test_a_folder_or_a_device_in_the_place(self):
        for name in self.NEW:
            for make in (os.mkdir, os.mkfifo):
                lay(self.output, {})
                make(self.output / name)
                before = tree(self.output)
                self.assertEqual(self.unable(self.put), f"{self.output / name}: a folder or a device stands there; nothing is written")
                self.assertEqual(tree(self.output), before)

    def test_links_are_followed(self):
        far = self.folder / "far"
        lay(far, {"held": b"held"})
        (self.output / "a").unlink()
        (self.output / "a").symlink_to(far / "held")
        (self.output / "b").symlink_to(far / "not there yet")
        before = tree(self.folder)
        for turn in (1, 2, 3):
            with self.failing("replace", turn, OSError(5, "Input/output error")):
                self.unable(self.put)
                self.assertEqual(tree(self.folder), before)
        self.put()
        self.assertEqual(tree(far), {"held": b"new a", "not there yet": b"new b"})
        self.assertEqual(os.readlink(self.output / "a"), str(far / "held"))
        self.assertEqual((self.output / "c").read_bytes(), b"new c")

    def test_two_links_to_one_file(self):
        (self.output / "b").symlink_to("a")
        before = tree(self.output)
        self.assertIn("two of them are links to one file; nothing is written", self.unable(self.put))
        self.assertEqual(tree(self.output), before)

    def test_a_missing_folder(self):
        said = self.unable(files.put, {str(self.output / "a"): b"new", str(self.output / "none" / "b"): b"new"})
        self.assertEqual(said, f"{self.output}/none/b: No such file or directory; nothing is written")
        self.assertEqual(tree(self.output), self.OLD)

    def test_folders_are_made_and_taken_away(self):
        deep = self.output / "one" / "two"
        for turn in (1, 2, 3):
            with self.failing("replace", turn, OSError(5, "Input/output error")):
                self.unable(files.put_in, deep, self.NEW)
            with self.failing("replace", turn, KeyboardInterrupt()):
                self.assertRaises(KeyboardInterrupt, files.put_in, deep, self.NEW)
            self.assertEqual(tree(self.output), self.OLD)
        with self.failing("mkdir", 2, OSError(28, "No space left on device")):
            self.assertEqual(self.unable(files.put_in, deep, self.NEW), f"{deep}: No space left on device; nothing is written")
        self.assertEqual(tree(self.output), self.OLD)
        files.put_in(f"{deep}/", self.NEW)
        self.assertEqual(tree(deep), self.NEW)

    def test_a_file_where_the_folder_should_be(self):
        for folder, path in ((self.output / "a", self.output / "a" / "a"), (self.output / "a" / "deep", self.output / "a" / "deep")):
            said = self.unable(files.put_in, folder, self.NEW)
            self.assertEqual(said, f"{path}: Not a directory; nothing is written")
            self.assertEqual(tree(self.output), self.OLD)

    @unittest.skipIf(os.geteuid() == 0, "the superuser may write anywhere")
    def test_a_folder_without_permission(self):
        self.output.chmod(0o555)
        self.addCleanup(self.output.chmod, 0o755)
        self.assertEqual(self.unable(self.put), f"{self.output}/a: Permission denied; nothing is written")
        self.assertEqual(tree(self.output), self.OLD)


if __name__ == "__main__":
    unittest.main()
