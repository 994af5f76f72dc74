"""On all stored pairs: what `explain` says is the checker's verdict, the numbers that it prints break the rule that it names, and they are
those of the files."""

import contextlib
import io
import sys
import tempfile
import unittest
from pathlib import Path

import stored
from plain import Plain
from spoken import Spoken

from desk.words import main


# ---- each rule, from what is printed alone

def breaks_end(said):
    facts = said.facts
    end = facts["starts at"] + 2
    if "count" in facts:
        end += facts["count"] * facts["bytes of a row"]
        assert facts["end of its rows"] == end
    else:
        assert facts["end of its count"] == end
    return end > facts["length of the file"] and facts["missing bytes"] == end - facts["length of the file"]


def breaks_limits(said):
    return not said.facts["least"] <= said.facts["count"] <= said.facts["most"]


def breaks_asked(said):
    product = 1
    for name, value in said.facts.items():
        if name.endswith(" of the day"):
            product *= value
    return product == said.facts["asked"] != said.facts["count"]


def breaks_field(said):
    facts = said.facts
    found = facts["found"]
    if "least" in facts:
        return not facts["least"] <= found <= facts["most"]
    if "not below the floor" in said.sentences:
        return found < facts["floor"]
    if "above the code before it" in said.sentences:
        return found <= facts["code before"]
    if "another zone than from" in said.sentences:
        return found == facts["from"]
    if "above 0, as no quantity before it is" in said.sentences:
        return found == 0 and all(value == 0 for name, value in facts.items() if name.startswith("quantity "))
    return False


def breaks_trailing(said):
    facts = said.facts
    return 0 < facts["bytes behind it"] == facts["length of the file"] - facts["end of the last section"]


def breaks_price(said):
    return not said.facts["floor"] <= said.facts["price"] <= said.facts["ceiling"]


def breaks_capacity(said):
    facts = said.facts
    beyond = max(facts["flow"] - facts["forward capacity"], -facts["back capacity"] - facts["flow"])
    return 0 < beyond == facts["beyond by"]


def breaks_quantity(said):
    return 0 < said.facts["accepted"] - said.facts["quantity"] == said.facts["beyond by"]


def breaks_balance(said):
    facts = said.facts
    for word in ("sold", "bought"):
        assert facts[word] == facts[f"{word} by steps"] + facts[f"{word} by blocks"]
    for word in ("leaves", "enters"):
        assert facts[word] == sum(value for name, value in facts.items() if name.startswith(f"{word} by line "))
    assert facts["net position"] == facts["sold"] - facts["bought"]
    assert facts["flows"] == facts["leaves"] - facts["enters"]
    return 0 != facts["net position"] - facts["flows"] == facts["difference"]


def breaks_step(said):
    facts = said.facts
    ahead = facts["price"] - facts["limit"] if facts["side"] == 0 else facts["limit"] - facts["price"]
    due = facts["quantity"] if ahead > 0 else 0
    return ahead != 0 and facts["accepted"] != due == facts["asked"]


def breaks_line(said):
    facts = said.facts
    ahead = facts["price at to"] - facts["price at from"]
    due = facts["forward capacity"] if ahead > 0 else -facts["back capacity"]
    return ahead != 0 and facts["flow"] != due == facts["asked"]


def breaks_block(said):
    facts, rows = said.facts, said.tables["Period by period"]
    assert all(row["income"] == row["quantity"] * row["price"] for row in rows)
    assert all(row["limit times quantity"] == row["quantity"] * facts["limit"] for row in rows)
    assert facts["income"] == sum(row["income"] for row in rows)
    assert facts["whole quantity"] == sum(row["quantity"] for row in rows)
    assert facts["limit times quantity"] == facts["limit"] * facts["whole quantity"]
    missing = facts["limit times quantity"] - facts["income"]
    return facts["ratio"] > 0 and 0 < (missing if facts["side"] == 0 else -missing) == facts["missing"]


def breaks_least(said):
    facts = said.facts
    assert facts["least"] == (facts["least ratio in the file"] or 1000)
    return 0 < facts["ratio"] < facts["least"] == facts["ratio"] + facts["missing"]


def breaks_whole(said):
    facts = said.facts
    quantity = next(value for name, value in facts.items() if name.startswith("quantity in period "))
    assert facts["quantity times ratio"] == quantity * facts["ratio"] == 1000 * facts["thousands in it"] + facts["left over"]
    return 0 < facts["left over"] < 1000


BREAKS = {1: breaks_end, 2: breaks_limits, 3: breaks_field, 4: breaks_trailing, 5: breaks_end, 6: breaks_asked, 7: breaks_field,
          8: breaks_trailing, 11: breaks_price, 12: breaks_capacity, 13: breaks_quantity, 14: breaks_balance, 15: breaks_step,
          16: breaks_line, 17: breaks_block, 20: breaks_least, 21: breaks_whole}


# ---- the pairs

def explained(*words):
    """What the command prints, and its status."""
    printed = io.StringIO()
    with contextlib.redirect_stdout(printed):
        status = main(["explain", *map(str, words)])
    return printed.getvalue(), status


class Explained(unittest.TestCase):
    @classmethod
    def setUpClass(cls):
        cls.folder = tempfile.TemporaryDirectory()
        cls.day, cls.clearing = Path(cls.folder.name, "day.bin"), Path(cls.folder.name, "clearing.bin")

    @classmethod
    def tearDownClass(cls):
        cls.folder.cleanup()

    def of(self, day, clearing, *words):
        self.day.write_bytes(day)
        self.clearing.write_bytes(clearing)
        text, status = explained(self.day, self.clearing, *words)
        return Spoken(text), status

    def test_stored_pairs(self):
        met = {}
        for place, (day, clearing, report) in enumerate(stored.pairs()):
            if place % 500 == 0:
                print(f"explain: {place} pairs", file=sys.stderr, flush=True)
            said, status = self.of(day, clearing)
            number = int(report[0].split()[1])
            with self.subTest(pair=place):
                self.assertEqual(said.verdict, report[0])
                self.assertEqual(status, 1 if number else 0)
                if number:
                    self.assertTrue(said.head.startswith(f"Refused: {number}, "))
                    self.assertTrue(BREAKS[number](said), said.facts)
                    self.assertTrue(said.sentences.endswith("."))
                    self.of_the_files(said, day, clearing, report)
                else:
                    self.accepted(said, report)
            met[number] = met.get(number, 0) + 1
        self.assertEqual(set(met), set(BREAKS) | {0})

    def of_the_files(self, said, day, clearing, report):
        """The numbers that decide are those that stand in the files at that place."""
        number, *place = map(int, report[0].split()[1:])
        if number > 8:
            for name, value in Plain(day, clearing).of(number, place).items():
                self.assertEqual(said.facts[name], value, name)
        elif number in (3, 7):
            file = day if number == 3 else clearing
            raw = said.facts["found"] % 2**32
            self.assertEqual(file[said.facts["stands at"]], raw % 256)
        elif number in (2, 6):
            file, start = day if number == 2 else clearing, said.facts["starts at"]
            self.assertEqual(int.from_bytes(file[start:start + 2], "little"), said.facts["count"])
        elif number in (1, 4, 5, 8):
            self.assertEqual(said.facts["length of the file"], len(day if number < 5 else clearing))

    def accepted(self, said, report):
        """The totals are the checker's, they add up, and the blocks named make up the shortfall, the largest first."""
        totals = {name: int(value) for name, value in (line.rsplit(" ", 1) for line in report[1:7])}
        self.assertEqual(said.facts, totals)
        self.assertEqual(totals["buyers"] + totals["sellers"] + totals["rent"], totals["order value"])
        rows = [row["shortfall"] for row in said.tables.get("Blocks that make up the shortfall, the largest first", [])]
        self.assertEqual(sum(rows), totals["shortfall"])
        self.assertEqual(rows, sorted(rows, reverse=True))
        self.assertTrue(all(row > 0 for row in rows))
        self.assertIn("upper bound that belongs to these prices", said.sentences.replace("\n", " "))

    def test_room(self):
        """18 is the checker's too: with a byte less than the statement, and not with as many."""
        day, clearing, report = next(pair for pair in stored.pairs() if pair[2][0] == "verdict 0 0 0 0")
        length = 52 + 4 * (len(report) - 7)
        said, status = self.of(day, clearing, "--room", length - 1)
        self.assertEqual((said.verdict, status), ("verdict 18 0 0 0", 1))
        self.assertEqual(said.facts, {"bytes of the room": length - 1, "bytes of the statement": length, "missing bytes": 1})
        said, status = self.of(day, clearing, "--room", length)
        self.assertEqual((said.verdict, status), ("verdict 0 0 0 0", 0))

    def test_every_number(self):
        """Each number of the paper has its words, 18 and 19 among them, and no other has."""
        for number in range(0, 40):
            known = number in BREAKS or number in (0, 18, 19)
            with contextlib.redirect_stderr(io.StringIO()):
                text, status = explained("--number", number)
            self.assertEqual(status, 0 if known else 2, number)
            self.assertEqual(text.startswith(f"{number}: "), known)


if __name__ == "__main__":
    unittest.main()
