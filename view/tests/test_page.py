"""The page of stored pairs, read back: the figures are the checker's, and the place of a refusal is marked wherever it is and nowhere else.

Every stored pair's page is made. All accepted ones are read back, and of each refusal number at most SOME, spread evenly over the pairs."""

import base64
import hashlib
import re
import sys
import tempfile
import unittest
from collections import Counter, defaultdict
from html.parser import HTMLParser
from pathlib import Path

import stored
from plain import Plain

from desk import checker, marks, merit, network, page
from desk.explain import account_of
from desk.files import File
from desk.layout import TOTALS
from desk.pair import take_apart

SOME = 25
WORDS = "refused here"
PICTURES = ("network", "prices", "nets", "merit", "blocks")
HOOKS = ("data-node", "data-line", "data-price", "data-bar", "data-net", "data-merit", "data-order", "data-row", "data-block",
         "data-block-period")
GEOMETRY = {"x", "y", "width", "height", "d", "viewbox", "rx", "stroke-width"}


class Seen(HTMLParser):
    """A page read back: its elements are balanced; those that count are kept with their texts."""

    def __init__(self, text):
        super().__init__(convert_charrefs=True)
        self.open, self.ids, self.places, self.kept, self.shown, self.wrong = [], set(), [], [], [], []
        self.feed(text)
        self.close()
        self.wrong += [f"{tag} is not closed" for tag, *_ in self.open]

    def handle_starttag(self, tag, pairs):
        if tag == "meta":
            return
        attributes = dict(pairs)
        self.look(tag, attributes)
        self.open.append((tag, attributes, []))

    def handle_startendtag(self, tag, pairs):
        self.look(tag, dict(pairs))
        if "place" in (dict(pairs).get("class") or "").split():
            self.place(tag, dict(pairs), WORDS)

    def look(self, tag, attributes):
        if tag == "body":
            self.body = attributes
        if "id" in attributes:
            if attributes["id"] in self.ids:
                self.wrong.append(f"id {attributes['id']} is there twice")
            self.ids.add(attributes["id"])
        if "heat" in (attributes.get("class") or "").split() and not re.search(r"heat( below b| a)[0-9]+( |$)", attributes["class"]):
            self.wrong.append(f"class={attributes['class']}")
        for name, value in attributes.items():
            if name in GEOMETRY and not re.fullmatch(r"[-0-9 MHVLQhvlz]*", value) and "device" not in value:
                self.wrong.append(f"{name}={value} in {tag}")
        if "data-when-period" in attributes and "hidden" not in attributes:
            self.shown.append((self.above("id"), attributes.get("data-when-zone"), attributes["data-when-period"]))

    def handle_data(self, data):
        if any("unseen" in (attributes.get("class") or "") for _, attributes, _ in self.open):
            data = f" {data}"
        for _, _, texts in self.open[-4:]:
            texts.append(data)

    def handle_endtag(self, tag):
        name, attributes, texts = self.open.pop() if self.open else ("nothing", {}, [])
        if name != tag:
            self.wrong.append(f"{name} is closed by {tag}")
        text = "".join(texts)
        if "data-raw" in attributes:
            self.kept.append((attributes, text))
        if "place" in (attributes.get("class") or "").split():
            self.place(name, attributes, text)

    def place(self, tag, attributes, text):
        """A mark: in which picture, of what, and for which choice."""
        hook = next(((name, attributes[name]) for name in HOOKS if name in attributes), None)
        hook = hook or next(((name, attributes[name]) for name in ("data-pick-period", "data-pick-zone") if name in attributes), (tag, ""))
        self.places.append((self.above("id"), *hook, self.above("data-when-zone"), self.above("data-when-period")))
        if tag != "figure" and WORDS not in text:
            self.wrong.append(f"a mark without words: {hook}")

    def above(self, name):
        return next((attributes[name] for _, attributes, _ in reversed(self.open) if name in attributes), None)


def decimal(raw, digits):
    """A raw number as a decimal, made another way than the page does."""
    whole, behind = divmod(abs(raw), 10 ** digits)
    return f"{'-' if raw < 0 else ''}{whole}.{behind:0{digits}}"


def pair_of(day, clearing, report, name="day.bin"):
    return take_apart(File(name, day, len(day)), File("clearing.bin", clearing, len(clearing)), checker.parse(report))


def expected_cells(verdict, market):
    """The zones and periods that a refusal's place touches, the first shown one first; and the step or block, by name."""
    one, two, _ = verdict.place
    if verdict.number in (11, 14):
        return [(one, two)], None
    if verdict.number in (12, 16):
        return [(market.lines[one].start, two), (market.lines[one].end, two)], None
    if verdict.number in (13, 15):
        return [(market.steps[one].zone, market.steps[one].period)], f"step {one}"
    if verdict.number in (17, 20):
        block = market.blocks[one]
        return [(block.zone, period) for period in range(market.periods) if block.quantity[period]], f"block {one}"
    assert verdict.number == 21
    return [(market.blocks[one].zone, two)], f"block {one}"


def expected_places(verdict, market):
    """Every mark of a refusal that the page has to have."""
    cells, order = expected_cells(verdict, market)
    places = []
    for zone, period in cells:
        both, when = f"{zone} {period}", (str(zone), str(period))
        if verdict.number not in (12, 16):
            places.append(("network", "data-node", both, None, str(period)))
        places += [("prices", "data-price", both, None, None), ("nets", "data-bar", both, None, None),
                   ("nets", "data-net", both, None, None), ("merit", "data-merit", both, *when)]
        if order is not None:
            places += [("merit", "data-order", order, *when), ("merit", "data-row", order, *when)]
    places += [("periods", "data-pick-period", str(period), None, None) for period in {period for _, period in cells}]
    places += [("merit", "data-pick-zone", str(zone), None, None) for zone in {zone for zone, _ in cells}]
    if verdict.number in (12, 16):
        places.append(("network", "data-line", f"{verdict.place[0]} {verdict.place[1]}", None, str(verdict.place[1])))
    if order is not None and order.startswith("block"):
        places.append(("blocks", "data-block", str(verdict.place[0]), None, None))
    if verdict.number == 21:
        places.append(("blocks", "data-block-period", f"{verdict.place[0]} {verdict.place[1]}", None, None))
    return Counter(places)


FAULT_FACT = {1: "length of the file", 2: "starts at", 3: "stands at", 4: "end of the last section",
              5: "length of the file", 6: "starts at", 7: "stands at", 8: "end of the last section"}


class PageOfStoredPairs(unittest.TestCase):
    @classmethod
    def setUpClass(cls):
        cls.pairs = stored.pairs()
        by_number = defaultdict(list)
        for number, (_, _, report) in enumerate(cls.pairs):
            by_number[checker.parse(report).number].append(number)
        cls.read_back = set(by_number.pop(0))
        for numbers in by_number.values():
            cls.read_back.update(numbers[len(numbers) * part // SOME] for part in range(SOME))

    def test_every_stored_pair(self):
        for number, (day, clearing, report) in enumerate(self.pairs):
            if number % 500 == 0:
                print(f"  pages: {number} of {len(self.pairs)}", file=sys.stderr)
            pair = pair_of(day, clearing, report)
            text = page.text_of(pair)
            if number not in self.read_back:
                continue
            with self.subTest(pair=number, verdict=report[0]):
                self.check(pair, report, text)

    def check(self, pair, report, text):
        self.assertLess(len(text.encode()), 5_000_000)
        bare = re.sub(r"(?s)<(style|script)>.*?</\1>", "", text)
        self.assertEqual([word for word in ("http:", "https:", "src=", "href=") if word in text], [])
        self.assertEqual([word for word in ("NaN", "undefined", ">None<", '"None"', " style=") if word in bare], [])
        self.assertTrue(f"<code>{report[0]}</code>" in bare)
        seen = Seen(bare)
        self.assertEqual(seen.wrong, [])
        if pair.market is None:
            self.check_fault(pair, seen, text)
        elif pair.verdict.accepted:
            self.check_figures(pair, report, seen)
            self.check_blocks(pair, seen)
            self.assertEqual(seen.places, [])
            self.check_shown(seen, pair, (0, 0))
        else:
            self.assertFalse(any("data-total" in attributes for attributes, _ in seen.kept))
            self.assertEqual(Counter(seen.places), expected_places(pair.verdict, pair.market))
            self.check_shown(seen, pair, expected_cells(pair.verdict, pair.market)[0][0])
            self.check_nets(pair, seen, pair.market.nets())

    def check_figures(self, pair, report, seen):
        """The totals and net positions are those of the report's lines."""
        lines = dict(line.rsplit(" ", 1) for line in report[1:])
        totals = {attributes["data-total"]: (attributes["data-raw"], text) for attributes, text in seen.kept if "data-total" in attributes}
        self.assertEqual([total.name for total in TOTALS], list(totals))
        for total in TOTALS:
            raw, text = totals[total.name]
            self.assertEqual(raw, lines[total.name])
            self.assertEqual(text.replace("\u202f", ""), decimal(int(raw), 1 if total.name == "traded" else 3))
        codes = pair.market.codes
        nets = [[int(lines[f"net {code} {period}"]) for period in range(pair.market.periods)] for code in codes]
        self.check_nets(pair, seen, nets)

    def check_nets(self, pair, seen, nets):
        for hook, values, digits in (("data-net", nets, 1), ("data-price", pair.market.price, 2)):
            found = {attributes[hook]: (attributes["data-raw"], text.partition("\u00d7")[0])
                     for attributes, text in seen.kept if hook in attributes}
            asked = {f"{zone} {period}": (str(raw), decimal(raw, digits))
                     for zone, row in enumerate(values) for period, raw in enumerate(row)}
            self.assertEqual(found, asked)

    def check_blocks(self, pair, seen):
        """What the table says of each block is counted once more, from the bytes."""
        plain, asked = Plain(pair.day.file.data, pair.clearing.file.data), {}
        for row, ((zone, side, _, limit, *quantities), (ratio,)) in enumerate(zip(plain.blocks, plain.ratios)):
            sign, prices = 1 - 2 * side, [plain.price(zone, hour) for hour in range(plain.hours)]
            left = sum((quantity - quantity * ratio // 1000) * (price - limit) for quantity, price in zip(quantities, prices))
            income, whole = sum(map(int.__mul__, quantities, prices)), limit * sum(quantities)
            for name, raw in (("income", income), ("limit times quantity", whole), ("gain", sign * (income - whole)),
                              ("in the shortfall", max(0, sign * left))):
                asked[f"{row} {name}"] = (str(raw), decimal(raw, 3))
        found = {attributes["data-amount"]: (attributes["data-raw"], text.replace("\u202f", ""))
                 for attributes, text in seen.kept if "data-amount" in attributes}
        self.assertEqual(found, asked)

    def check_shown(self, seen, pair, first):
        """All pictures are there, and those of the first choice are seen."""
        self.assertTrue(set(PICTURES) <= seen.ids)
        zone, period = map(str, first)
        self.assertEqual((seen.body["data-zone"], seen.body["data-period"]), (zone, period))
        self.assertEqual({one for one in seen.shown if one[0] == "merit"}, {("merit", zone, period)})
        self.assertEqual({(when_zone, when) for _, when_zone, when in seen.shown if when_zone is None}, {(None, period)})

    def check_fault(self, pair, seen, text):
        """No market is drawn; the byte of the fault is marked in the map of its file and in its rows."""
        self.assertEqual(set(PICTURES) & seen.ids, set())
        self.assertEqual(Counter(tag for _, tag, *_ in seen.places), Counter(["path", "tr", "span"]))
        byte = account_of(pair).fact_of(FAULT_FACT[pair.verdict.number]).raw
        self.assertTrue(f"{WORDS}, at byte {byte}." in text)
        self.assertEqual(len(re.findall(r"data-map=", text)), 1 if pair.clearing is None else 2)


class Pictures(unittest.TestCase):
    """Pictures of the rule paper's day A, and of some orders, against what can be said of them beforehand."""

    @classmethod
    def setUpClass(cls):
        folder = stored.ROOT / "samples" / "accepted"
        files = [(folder / name).read_bytes() for name in ("day.bin", "clearing.bin")]
        cls.pair = pair_of(*files, (folder / "verdict").read_text().splitlines())
        cls.text = page.text_of(cls.pair)

    def part(self, name, mark):
        """The first element of that name with that mark, as text."""
        return re.search(rf"(?s)<{name} [^>]*{mark}.*?</{name}>", self.text).group()

    def test_the_network_says_what_it_carries(self):
        line = self.part("g", 'data-line="0 0"')
        self.assertIn(">50.0 of 50.0 MW<", line)
        self.assertIn(">full<", line)
        self.assertIn("exports 50.0 MW", self.part("g", 'data-node="0 0"'))
        self.assertIn("imports 50.0 MW", self.part("g", 'data-node="1 0"'))
        self.assertIn('marker-end="url(#arrow-full)"', self.text)

    def test_a_bar_is_as_wide_as_its_quantity_and_solid_as_far_as_accepted(self):
        def widths(order):
            bar = self.part("g", f'data-order="{order}"')
            return {name: int(width) for width, name in re.findall(r'width="([0-9]+)" class="(rest|done|hatch)"', bar)}
        sells, buys = widths("step 0"), widths("step 1")
        self.assertLessEqual(abs(10 * sells["done"] - 9 * sells["rest"]), 10)
        self.assertEqual(buys["done"], buys["rest"])
        self.assertLessEqual(abs(5 * buys["rest"] - 2 * sells["rest"]), 15)
        self.assertEqual(set(widths("block 0")), {"rest", "hatch"})

    def test_a_part_is_never_drawn_as_all_or_nothing(self):
        for accepted, solid in ((0, 0), (1, 1), (500_000, 50), (999_999, 99), (1_000_000, 100), (1_000_001, 100)):
            order = merit.Order("step", 0, 0, 5_000, 1_000_000, accepted)
            self.assertEqual(merit.solid_part(order, 100), solid)

    def test_limits_far_away_are_cut(self):
        near = [merit.Order("step", row, row % 2, 3_000 + 500 * row, 10, 0) for row in range(9)]
        far = [merit.Order("step", 9, 1, 1_000_000, 10, 10), merit.Order("step", 10, 0, -1_000_000, 10, 10)]
        axis = merit.axis_of(5_000, near + far)
        self.assertTrue(-2_000 <= axis.lowest < 3_000 and 7_000 < axis.highest <= 12_000)
        self.assertEqual([axis.y(order.limit) for order in far], [merit.TOP, merit.BOTTOM])
        heights = [axis.y(order.limit) for order in near]
        self.assertEqual(heights, sorted(set(heights), reverse=True))
        self.assertGreater(merit.axis_of(5_000, far).highest, 1_000_000)

    def test_labels_of_a_network_never_lie_on_one_another(self):
        for day, clearing, report in stored.pairs()[::7]:
            pair = pair_of(day, clearing, report)
            if pair.market is not None and pair.market.lines:
                plan = network.Plan(pair.market, pair.market.nets(), marks.marks_of(pair))
                self.assertFalse(plan.crowded())


class PageItself(unittest.TestCase):
    def pair(self, wanted, name="day.bin"):
        found = next(one for one in stored.pairs() if one[2][0].startswith(f"verdict {wanted} "))
        return pair_of(*found, name)

    def test_names_are_escaped(self):
        for number in (0, 3, 14):
            text = page.text_of(self.pair(number, "<b>\"&'</b>.bin"))
            self.assertFalse("<b>\"" in text)
            self.assertTrue("&lt;b&gt;&quot;&amp;&#x27;&lt;/b&gt;.bin" in text)

    def test_a_name_that_is_no_text_is_written(self):
        with tempfile.TemporaryDirectory() as folder:
            page.write(self.pair(0, "\udcff.bin"), str(Path(folder, "page.html")))
            self.assertIn("\\udcff.bin", Path(folder, "page.html").read_text("utf-8"))

    def test_the_policy_names_the_style_and_the_script(self):
        text = page.text_of(self.pair(0))
        policy = re.search(r'content="(default-src [^"]*)"', text).group(1).replace("&#x27;", "'")
        self.assertTrue(policy.startswith("default-src 'none';"))
        for name in ("style", "script"):
            inside, = re.findall(rf"(?s)<{name}>(.*?)</{name}>", text)
            digest = base64.b64encode(hashlib.sha256(inside.encode()).digest()).decode()
            self.assertIn(f"{name}-src 'sha256-{digest}'", policy)

    def test_the_same_files_give_the_same_bytes(self):
        with tempfile.TemporaryDirectory() as folder:
            written = []
            for name in ("one.html", "other.html"):
                page.write(self.pair(16), str(Path(folder, name)))
                written.append(Path(folder, name).read_bytes())
            self.assertEqual(*written)
            self.assertEqual(sorted(path.name for path in Path(folder).iterdir()), ["one.html", "other.html"])


if __name__ == "__main__":
    unittest.main()
