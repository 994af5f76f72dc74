"""The verdict and the day as one page of HTML that needs nothing beside itself. All figures are texts and all pictures are made here, in
whole numbers, for every zone and period; the page's script only chooses which of them are seen."""

from base64 import b64encode
from hashlib import sha256
from pathlib import Path

from . import blocks, filemap, heat, merit, nets, network, prices
from .explain import account_of
from .files import put
from .layout import TOTALS
from .marks import flag, marks_of, sign
from .markup import Markup, classes, heads, scrolled, svg, table, tag, unfolded
from .numbers import grouped, said, with_unit

FOLDER = Path(__file__).parent
PARTS = ("buyers", "sellers", "rent")  # of the order value
BAR = 1000  # units of the bar that they make


def write(pair, output):
    put({output: text_of(pair).encode(errors="backslashreplace")})  # a name of a file can be any bytes


def text_of(pair):
    """The whole page."""
    style = (FOLDER / "page.css").read_text("utf-8") + heat.rules()
    script = (FOLDER / "page.js").read_text("utf-8")
    account = account_of(pair)
    head = tag("head", tag("meta", charset="utf-8"),
               tag("meta", http_equiv="Content-Security-Policy", content=policy(style, script)),
               tag("meta", name="viewport", content="width=device-width, initial-scale=1"),
               tag("meta", name="color-scheme", content="light dark"),
               tag("title", account.head), tag("style", Markup(style)))
    body = fault_body(pair, account) if pair.market is None else market_body(pair, account, Markup(script))
    return f"<!DOCTYPE html>\n{tag('html', head, body, lang='en')}\n"


def policy(style, script):
    """Nothing is fetched, and no style or script but the page's own is heeded."""
    def allowed(text):
        return f"'sha256-{b64encode(sha256(text.encode()).digest()).decode()}'"
    return f"default-src 'none'; style-src {allowed(style)}; script-src {allowed(script)}; base-uri 'none'; form-action 'none'"


# ---- the verdict

def verdict_part(pair, account):
    """The verdict, large, and the reason for it."""
    accepted = pair.verdict.accepted
    names = [file.name for file in pair.files]
    told = account_part(account)
    return tag("header", tag("p", mark(accepted), tag("code", account.line), class_="line"), tag("h1", account.head.rstrip(".")),
               tag("p", " and ".join(names), class_="files"), tag("p", account.says, class_="says"),
               unfolded("The totals in words", *told) if accepted else tag("div", *told, class_="reason"),
               class_=classes("verdict", "accepted" if accepted else "refused"))


def mark(accepted):
    shape = "M5 13l5 5 9-11" if accepted else "M6 6l12 12M18 6L6 18"
    return svg(24, 24, tag("path", d=shape), class_="mark", aria_hidden="true")


def account_part(account):
    """Facts, tables and what follows from them."""
    parts = [tag("h2", account.title)] if account.title else []
    if account.facts:
        raw = "whole number" if any(fact.text for fact in account.facts) else ""
        parts.append(scrolled(table(("", "", raw, ""), [fact_row(fact) for fact in account.facts], class_="facts")))
    for one in account.tables:
        rows = [[said(raw, unit) for raw, (_, unit) in zip(row, one.columns)] for row in one.rows]
        parts += [tag("h3", one.title), scrolled(table(heads(*one.columns), rows, class_="exact"))]
    return parts + [tag("p", sentence) for sentence in account.so]


def fact_row(fact):
    return tag("tr", tag("th", fact.name, scope="row"), tag("td", with_unit(fact.raw, fact.unit)), tag("td", fact.raw if fact.text else ""),
               tag("td", fact.note), data_fact=fact.name, data_raw=fact.raw)


# ---- the totals

def totals_part(pair):
    if not pair.verdict.accepted:
        return section("totals", "Totals", tag("p", "The checker gives no totals and no statement where it refuses.", class_="none"))
    return section("totals", "Totals", tag("div", *(tile(total, pair.verdict.totals[total.name]) for total in TOTALS), class_="tiles"),
                   *value_bar(pair.verdict.totals))


def tile(total, raw):
    number = tag("span", grouped(said(raw, total.unit)), class_="figure", data_total=total.name, data_raw=raw)
    return tag("div", tag("h3", total.name, tag("i", "", class_=classes("key", total.name)) if total.name in PARTS else ""),
               tag("p", number, " ", tag("span", total.unit.name, class_="unit"), class_="amount"),
               tag("p", f"{raw} in the statement", class_="raw"), tag("p", total.meaning[0].upper() + total.meaning[1:], class_="meaning"),
               class_=classes("tile", "first" if total is TOTALS[0] else ""))


def value_bar(totals):
    """Buyers, sellers and rent as parts of the order value."""
    whole, amounts = sum(totals[name] for name in PARTS), [totals[name] for name in PARTS]
    if whole <= 0 or min(amounts) < 0:
        return []
    drawn, before = [], 0
    for name, amount in zip(PARTS, amounts):
        left, right = BAR * before // whole, BAR * (before + amount) // whole
        drawn.append(tag("rect", x=left, width=right - left, height=12, class_=name))
        before += amount
    return [svg(BAR, 12, *drawn, preserveAspectRatio="none", class_="value", aria_hidden="true"),
            tag("p", "Buyers, sellers and rent add up to the order value.", class_="note")]


# ---- choosing

def chooser(market, marks):
    """The bar that stays in sight: a button for each period, and those before and behind the chosen one."""
    shown = marks.first[1]
    buttons = [tag("button", period, sign() if period in marks.periods else "", type="button", data_pick_period=period,
                   aria_pressed="true" if period == shown else "false",
                   class_=classes("in-period" if period == shown else "", "place" if period in marks.periods else ""))
               for period in range(market.periods)]
    return tag("nav", tag("p", "Period ", tag("output", shown, id="period"), class_="which"),
               tag("button", "\u2039", type="button", id="previous", aria_label="previous period", class_="move"),
               tag("div", *buttons, class_="periods", id="periods"),
               tag("button", "\u203a", type="button", id="next", aria_label="next period", class_="move"),
               tag("p", flag(), class_="legend") if marks.cells else "", id="chooser", aria_label="Period")


def zone_buttons(market, marks):
    shown = marks.first[0]
    return tag("div", "Zone ", *(
        tag("button", market.codes[zone], sign() if zone in marks.zones else "", type="button", data_pick_zone=zone,
            aria_pressed="true" if zone == shown else "false",
            class_=classes("in-zone" if zone == shown else "", "place" if zone in marks.zones else "")) for zone in range(market.zones)),
        class_="zones", role="group", aria_label="Zone")


# ---- the page's parts

def section(name, title, *inside):
    return tag("section", tag("h2", title), *inside, id=name)


def drawing_aids():
    """Arrows and the hatching, which the pictures name."""
    arrows = [tag("marker", tag("path", d="M0 0L10 5L0 10z", class_=state or "plain"), id="arrow" + (f"-{state}" if state else ""),
                  viewBox="0 0 10 10", refX=1, refY=5, markerWidth=17, markerHeight=17, markerUnits="userSpaceOnUse", orient="auto")
              for state in ("", "full", "beyond")]
    hatch = tag("pattern", tag("path", d="M0 0V6", class_="stripe"), id="hatch", width=6, height=6, patternUnits="userSpaceOnUse",
                patternTransform="rotate(45)")
    return svg(1, 1, tag("defs", *arrows, hatch), class_="aids", width=0, height=0, aria_hidden="true")


def foot(pair):
    lengths = "; ".join(f"{file.name}, {file.length} bytes" for file in pair.files)
    return tag("footer", tag("p", lengths, "; ", tag("code", pair.verdict.line), "."),
               tag("p", "The verdict is the checker's; this page shows what stands in the files."))


def positions_of(pair):
    """The net positions, and whose they are."""
    if pair.verdict.accepted:
        return pair.market.by_period([net for _, _, net in pair.verdict.nets]), "These are the checker's."
    return pair.market.nets(), ("The checker gives none where it refuses; these are counted from the files by the paper's definition: what "
                                "is sold less what is bought.")


def market_body(pair, account, script):
    """The body of a pair that reads: it has a picture of everything."""
    market, marks, colours = pair.market, marks_of(pair), heat.Heat(pair.market)
    zone, period = marks.first
    positions, source = positions_of(pair)
    legend = tag("p", flag(), " marks the place that the checker names, in every picture that has it.", class_="note")
    return tag(
        "body", drawing_aids(), verdict_part(pair, account), totals_part(pair), chooser(market, marks),
        section("network", "Network", legend if marks.cells else "", *network.pictures(market, positions, marks, colours, period)),
        section("prices", "Prices", *prices.pictures(market, marks, colours)),
        section("nets", "Net positions", tag("p", source, class_="note"), *nets.pictures(market, positions, marks, period)),
        section("merit", "Merit order", zone_buttons(market, marks), *merit.pictures(market, marks, marks.first)),
        section("blocks", "Blocks", *blocks.pictures(market, marks)), foot(pair),
        tag("script", script), data_period=period, data_zone=zone, class_="still")


def fault_body(pair, account):
    """The body of a pair of which a file does not read: there is no whole day or clearing to draw."""
    legend = tag("p", "A file does not read, so there are no totals and no market to draw: a picture of half a file would mislead.",
                 class_="note")
    return tag("body", verdict_part(pair, account), section("bytes", "Where the fault is", legend, *filemap.pictures(pair)), foot(pair))
