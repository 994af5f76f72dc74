"""Tables in and out: a day and its clearing as a CSV table for each section, and back to the same bytes.

A table has a line of names and then a line for each row: first the numbers that tell the row from the others, then its fields, as a person
reads them. There is one way to write each number, so that the two files and their tables give each other, both ways."""

import csv
import json
import os
import stat
from dataclasses import dataclass
from itertools import zip_longest
from typing import Dict

from .files import Refused, Unable, first_misfit, put_in, section_bytes
from .layout import CLEARING, DAY, Section, asked, key_of, keys_of, row_words
from .numbers import read_back, said
from .pair import load

MOST_BYTES = 1 << 20  # of a table; no table that fits is nearly as long
MOST_SHOWN = 40  # characters of what was found


def file_name(kind):
    return f"{kind.name}.bin"


def table_name(kind, section):
    return f"{kind.name}-{section.number}-{section.name}.csv"


def columns_of(section, periods):
    """The names of a table's columns: what tells a row from the others, then its fields."""
    return list(keys_of(section)) + section.titles(periods)


def amount(number, thing):
    return f"{number} {thing}{'' if number == 1 else 's'}"


# ---- out

def export_folder(folder, output, program=None):
    """Writes the tables of the two files of a folder, and gives the lines to say."""
    pair = load(*(os.path.join(folder, file_name(kind)) for kind in (DAY, CLEARING)), program)
    for reading in (pair.day, pair.clearing):
        if reading.fault is not None:
            raise Refused(f"{reading.file.name}: does not read, {pair.verdict.line}; `ayinzhad-view explain` says why")
    put_in(output, tables_of(pair))
    return [f"{os.path.join(output, table_name(reading.kind, part.section))}: {amount(len(part.rows), 'row')}"
            for reading in (pair.day, pair.clearing) for part in reading.parts]


def tables_of(pair):
    """The tables of a pair that reads, name and bytes."""
    return {table_name(reading.kind, part.section): table_text(part, reading.counts).encode()
            for reading in (pair.day, pair.clearing) for part in reading.parts}


def table_text(part, counts):
    section, periods = part.section, counts["periods"]
    fields = section.fields_of_row(periods)
    lines = [columns_of(section, periods)]
    for row in part.rows:
        keys = [str(key) for key in key_of(section, row.number, counts)]
        lines.append(keys + [said(value, one.unit) for value, one in zip(row.values, fields)])
    return "".join(",".join(cells) + "\n" for cells in lines)


# ---- in

def import_folder(folder, output):
    """Writes the two files that the tables of a folder stand for, and gives the lines to say."""
    files = files_of(folder)
    put_in(output, files)
    paths = [os.path.join(output, name) for name in files]
    return [f"{path}: {len(data)} bytes" for path, data in zip(paths, files.values())] + [
        f"not judged here: `ayinzhad-view explain {' '.join(paths)}` gives the verdict"]


def files_of(folder):
    """The two files that the tables of a folder stand for, name and bytes. The first thing that does not fit ends the reading."""
    counts, files = {}, {}
    for kind in (DAY, CLEARING):
        data = b""
        for section in kind.sections:
            table = Table(os.path.join(folder, table_name(kind, section)), section, counts)
            rows = rows_of(table)
            if kind is DAY:
                counts[section.name] = len(rows)
            data += section_bytes(section, rows, table.periods)
        files[file_name(kind)] = data
    return files


@dataclass(frozen=True)
class Table:
    """A table to be read, with the counts of the day's sections before it. That of the periods is read first; its rows have no columns for
    each period."""
    path: str
    section: Section
    counts: Dict[str, int]

    @property
    def periods(self):
        return self.counts.get("periods", 0)

    @property
    def columns(self):
        return columns_of(self.section, self.periods)

    def wrong(self, line, column, expected, found):
        """Why the table is not taken, in one line. Lines and columns are counted from 1 there; `column` from 0."""
        name = f" ({self.columns[column]})" if column < len(self.columns) else ""
        return Unable(f"{self.path}, line {line}, column {column + 1}{name}: expected {expected}, found {found}")


def rows_of(table):
    """The values of a table's rows."""
    lines = lines_of(table)
    check_names(table, cells_of(table, 1, lines[0]) if lines else [])
    least, most = limits_of(table)
    rows = []
    for number, line in enumerate(lines[1:], 2):
        cells = cells_of(table, number, line)
        if len(cells) != len(table.columns):
            first = min(len(cells), len(table.columns))
            raise table.wrong(number, first, amount(len(table.columns), "column"), len(cells) or "an empty line")
        if len(rows) == most:
            raise table.wrong(number, 0, limit_words(table), len(lines) - 1)
        rows.append(values_of(table, number, cells, rows))
    if len(rows) < least:
        raise table.wrong(len(lines) + 1, 0, limit_words(table), len(rows))
    return rows


def check_names(table, cells):
    for column, (name, cell) in enumerate(zip_longest(table.columns, cells)):
        if name != cell:
            expected = "no more columns" if name is None else quoted(name)
            raise table.wrong(1, column, expected, "nothing" if cell is None else quoted(cell))


def values_of(table, line, cells, rows):
    """The values of the row that follows these rows."""
    section, counts = table.section, table.counts
    keys = key_of(section, len(rows), counts)
    for column, key in enumerate(keys):
        if cells[column] != str(key):
            raise table.wrong(line, column, f"{key}, as the rows stand in their order", quoted(cells[column]))
    values = []
    for position, one in enumerate(section.fields_of_row(table.periods)):
        column = len(keys) + position
        value = read_back(cells[column], one.unit)
        if value is None:
            broken = one.range(counts)
        else:
            broken = first_misfit(section, position, value, values, rows[-1] if rows else None, counts)
        if broken is not None:
            raise table.wrong(line, column, fit_words(one, broken), quoted(cells[column]))
        values.append(value)
    return values


def limits_of(table):
    """The least and the most rows of a table."""
    count, rows = table.section.count, asked(table.section, table.counts)
    return (count.least, count.most) if rows is None else (rows, rows)


# ---- text

def lines_of(table):
    """The lines of a table, whether they end as on Linux or on Windows, without a byte order mark."""
    try:
        text = bytes_of(table.path).decode("utf-8-sig")
    except UnicodeDecodeError as error:
        before = error.object[:error.start]
        line, column = before.count(b"\n") + 1, before[before.rfind(b"\n") + 1:].count(b",")
        raise table.wrong(line, column, "text in UTF-8", f"the byte {error.object[error.start]}")
    lines = text.replace("\r\n", "\n").split("\n")
    return lines if lines[-1] else lines[:-1]


def bytes_of(path):
    try:
        if not stat.S_ISREG(os.stat(path).st_mode):
            raise Unable(f"{path}: a folder or a device, not a file")
        with open(path, "rb") as source:
            data = source.read(MOST_BYTES + 1)
    except OSError as error:
        raise Unable(f"{path}: {error.strerror}")
    if len(data) > MOST_BYTES:
        raise Unable(f"{path}: more than {MOST_BYTES} bytes, which no table needs")
    return data


def cells_of(table, number, line):
    """The cells of a line, without the quotes around them."""
    try:
        if "\r" not in line:  # one that is not of a line's end
            return next(csv.reader([line], strict=True))
    except csv.Error:
        pass
    column = next(place for place, cell in enumerate(line.split(",")) if '"' in cell or "\r" in cell)
    raise table.wrong(number, column, "cells with commas between them, quoted from end to end or not at all", quoted(line))


def quoted(text):
    """A text in quotes as one short line of plain letters, whatever is in it."""
    shown = json.dumps(text)[1:-1]
    return f'"{shown}"' if len(shown) <= MOST_SHOWN else f'"{shown[:MOST_SHOWN]}" and more'


# ---- what was expected

def limit_words(table):
    """How many rows a table has."""
    section, (least, most) = table.section, limits_of(table)
    if section.count.of:
        return f"{amount(most, 'row')}, the day's {' times '.join(section.count.of)}"
    return f"{least} to {most} rows"


def fit_words(one, broken):
    """What a field should have kept, its range or its rule."""
    if not isinstance(broken, tuple):
        return f"it to be {broken.words}"
    unit, (least, most) = one.unit, broken
    if unit.words:
        return " or ".join(unit.words)
    if least == most:
        return said(least, unit)
    thing = f"the number of a {row_words(one.of)}" if one.of else unit.thing
    words = f"{thing} from {said(least, unit)} to {said(most, unit)} {unit.name}".rstrip()
    return f"{words} with {amount(unit.digits, 'digit')} behind the point" if unit.digits else words
