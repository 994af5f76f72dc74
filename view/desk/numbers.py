"""Whole numbers said as decimals and read back, with exactly the digits of their unit. Nothing here is rounded, and nothing is a float."""

import re


def said(raw, unit):
    """The number as a person reads it, without its unit's name: 4500 as 45.00."""
    if unit.words:
        return unit.words[raw] if 0 <= raw < len(unit.words) else str(raw)
    if not unit.digits:
        return str(raw)
    sign, size = "-" if raw < 0 else "", str(abs(raw)).rjust(unit.digits + 1, "0")
    return f"{sign}{size[:-unit.digits]}.{size[-unit.digits:]}"


def with_unit(raw, unit):
    return f"{said(raw, unit)} {unit.name}".rstrip()


def beside_raw(raw, unit):
    """The raw number and what it stands for: 4500 = 45.00 €/MWh, 0 = sell; a plain number alone."""
    text = with_unit(raw, unit)
    return text if text == str(raw) else f"{raw} = {text}"


def read_back(text, unit):
    """The raw number of a text that `said` gives, or None: one way of writing for each number."""
    if unit.words:
        return unit.words.index(text) if text in unit.words else None
    point = rf"\.[0-9]{{{unit.digits}}}" if unit.digits else ""
    if not re.fullmatch(rf"-?(0|[1-9][0-9]{{0,18}}){point}", text):
        return None
    raw = int(text.replace(".", ""))
    return raw if said(raw, unit) == text else None


def grouped(text):
    """A decimal with a thin space between its thousands, for the eye: 1 234 567.890."""
    whole, point, behind = text.partition(".")
    sign, digits = ("-", whole[1:]) if whole.startswith("-") else ("", whole)
    parts = []
    while len(digits) > 3:
        digits, part = digits[:-3], digits[-3:]
        parts.append(part)
    return sign + "\u202f".join([digits] + parts[::-1]) + point + behind
