"""A file as text: each section with its count, each row with its offset, its number and its fields; up to the fault, if it has one."""

from .account import as_text
from .checker import judge, judge_day
from .explain import account_of
from .files import Refused, Unable, faulty, open_file, read
from .layout import CLEARING, DAY, STATEMENT, key_of, keys_of, statement_length
from .numbers import beside_raw
from .pair import Pair
from .paper import named

MARK = ">>"  # stands before what is at fault
SOME_BYTES = 16  # of those that belong to no field


# ---- which kind of file it is

def taken_apart(name, day_name, asked_kind, programs):
    """The file and the checker's verdict on it, None for a statement. Where no kind is asked for, a file that reads as a day (with a day:
    as its clearing) is one; else it is a statement if it has the form of one; else it is a faulty day (or clearing)."""
    file = open_file(name)
    if day_name is None:
        if asked_kind == CLEARING.name:
            raise Unable(f"{name}: a clearing file is read by its day's counts: add --day DAY")
        kind, verdict, counts, codes = DAY, judge_day(file.data, programs), None, ()
    else:
        day_file = open_file(day_name)
        kind, verdict = CLEARING, judge(day_file.data, file.data, programs)
        if faulty(DAY, verdict):
            raise Refused(f"{day_name}: the day file itself does not read, {verdict.line}; show it by itself")
        day = read(DAY, day_file, None, verdict)
        counts, codes = day.counts, day.codes
        if asked_kind == DAY.name:
            raise Unable(f"{name}: a day file is read by itself: leave out --day")
    as_statement = read(STATEMENT, file, counts, codes=codes)
    fits = not as_statement.flaw and (counts is None or len(file.data) == statement_length(counts))
    if asked_kind == STATEMENT.name or asked_kind is None and faulty(kind, verdict) and fits:
        return as_statement, None
    return read(kind, file, counts, verdict, codes), verdict


# ---- rows

def value_text(reading, field, value):
    """A value beside what it stands for."""
    return row_text(reading, field.of, value) if field.of else beside_raw(value, field.unit)


def row_text(reading, section, number):
    """The number of a row of a section of the day; a zone's with its code."""
    return f"{number} (code {reading.codes[number]})" if section == "zones" and number < len(reading.codes) else str(number)


def field_texts(reading, part, row):
    """The fields of a row, a text each; the faulty one with its mark."""
    fields = part.section.fields_of_row(reading.periods)
    texts = []
    for position, value in enumerate(row.values):
        if part.section.named:
            texts.append(beside_raw(value, part.section.named[row.number].unit))
        else:
            texts.append(value_text(reading, fields[position], value))
        if is_fault(reading, part, row.number, position):
            texts[-1] = f"{MARK} {texts[-1]}"
    return texts


def is_fault(reading, part, row, position):
    fault = reading.fault
    return fault is not None and fault.number == reading.kind.misfits and fault.place == (part.section.number, row, position)


def head_of_rows(reading, part):
    """The names above a row: offset, row, what the row is named by, and the numbered fields that stand once in it."""
    section = part.section
    names = ["at", "row"] + (["name"] if section.named else []) + (list(keys_of(section)) if named_by_counts(reading, section) else [])
    return names + [f"{number} {field.name}" for number, field in enumerate(section.fields)]


def named_by_counts(reading, section):
    return bool(section.count.of) and all(name in reading.counts for name in section.count.of)


def cells_of_row(reading, part, row):
    section = part.section
    cells = [str(row.offset), str(row.number)]
    if section.named:
        cells.append(section.named[row.number].name)
    if named_by_counts(reading, section):
        keys = key_of(section, row.number, reading.counts)
        cells += [row_text(reading, name, key) for name, key in zip(section.count.of, keys)]
    cells += field_texts(reading, part, row)[:len(section.fields)]
    return cells + [""] * (len(head_of_rows(reading, part)) - len(cells))


def lines_of_periods(reading, part, row):
    """The fields that a row has for each period, a line each with its offset and the fields' numbers."""
    section, texts = part.section, field_texts(reading, part, row)
    lines = []
    for period in range(reading.periods):
        start = len(section.fields) + period * len(section.each)
        stop = min(start + len(section.each), len(texts))
        if start >= stop:
            break
        shown = "  ".join(f"{number} {section.each[number - start].name} {texts[number]}" for number in range(start, stop))
        lines.append(f"      {row.offset_of(start, reading.periods):>6}  period {period:<2}  {shown}")
    return lines


def lines_of_rows(reading, part, rows):
    """Rows under their names, as columns; those with fields for each period have them below."""
    head = head_of_rows(reading, part)
    table = [cells_of_row(reading, part, row) for row in rows]
    widths = [max(map(len, column)) for column in zip(head, *table)]
    widths[0] = max(widths[0], 6)

    def line(cells):
        texts = [cells[0].rjust(widths[0])] + [text.ljust(width) for text, width in zip(cells[1:], widths[1:])]
        return ("  " + "  ".join(texts)).rstrip()
    lines = [line(head)]
    for row, cells in zip(rows, table):
        lines.append(line(cells))
        if part.section.each:
            lines += lines_of_periods(reading, part, row)
    return lines


# ---- sections

def count_words(part):
    count = part.section.count
    if part.section.named:
        return f"always {len(part.section.named)}"
    if count.of:
        return "the day's " + " times ".join(count.of)
    return f"{count.least} to {count.most}"


def lines_of_part(reading, part, row_number=None):
    section = part.section
    head = f"section {section.number}, {section.name}, at {part.offset}"
    if part.count is None:
        return [f"{head}: no count"]
    marked = reading.fault is not None and reading.fault.number == reading.kind.miscounts and part is reading.parts[-1]
    lines = [f"{head}: count {MARK + ' ' if marked else ''}{part.count} ({count_words(part)})"]
    rows = part.rows if row_number is None else [row for row in part.rows if row.number == row_number]
    return lines + (lines_of_rows(reading, part, rows) if rows else [])


def hexed(data):
    return data[:SOME_BYTES].hex(" ") + (" .." if len(data) > SOME_BYTES else "")


def lines_of_rest(reading):
    """Where the file ends too soon or goes on behind its last section, and the bytes there that are in no field."""
    data, kind, number = reading.file.data, reading.kind, reading.fault.number if reading.fault is not None else None
    if reading.flaw is not None:
        lines = [f"{MARK} {reading.flaw}"]
    elif number == kind.ends:
        lines = [f"{MARK} the file ends here, at {len(data)}, inside section {reading.parts[-1].section.number}"]
    elif number == kind.trails:
        lines = [f"{MARK} the last section ends here, at {reading.end}, and the file does not"]
    else:
        return []
    rest = data[reading.end:]
    return lines + ([f"   in no field, from {reading.end} to {reading.file.length}: {hexed(rest)}"] if rest else [])


def head_of_file(reading, verdict):
    """What file it is, and whether it reads."""
    kind, file = reading.kind, reading.file
    words = "reads without fault" if kind is not STATEMENT else "whole"
    if reading.flaw:
        words = f"not whole, {reading.flaw}"
    if reading.fault is not None:
        words = f"{verdict.line}: {named(verdict)}"
    lines = [f"{kind.name} {file.name}, {file.length} bytes: {words}"]
    if kind is CLEARING and reading.fault is None:
        lines.append(f"with its day: {verdict.line}: {named(verdict)}")
    return lines


def lines_of(reading, verdict, section=None, row=None):
    """The whole file as lines of text, or one section of it, or one row."""
    lines = head_of_file(reading, verdict)
    parts = reading.parts
    if section is not None:
        if not 1 <= section <= len(reading.kind.sections):
            raise Unable(f"section {section}: a {reading.kind.name} has sections 1 to {len(reading.kind.sections)}")
        parts = [part for part in reading.parts if part.section.number == section]
        if not parts:
            raise Unable(f"section {section}: {reading.file.name} reads up to section {reading.parts[-1].section.number}; show all of it")
    if row is not None:
        if section is None:
            raise Unable("--row needs --section")
        if not any(one.number == row for one in parts[0].rows):
            raise Unable(f"row {row}: section {section} shows {len(parts[0].rows)} rows, counted from 0")
    for part in parts:
        lines += [""] + lines_of_part(reading, part, row)
    if section is None:
        rest = lines_of_rest(reading)
        lines += ([""] if rest else []) + rest
    if reading.fault is not None:
        day, clearing = (reading, None) if reading.kind is DAY else (None, reading)
        lines += [""] + as_text(account_of(Pair(verdict, day, clearing, None)))
    return lines


def show(name, day_name=None, kind=None, section=None, row=None, programs=None):
    """The lines to print, and whether the file reads."""
    reading, verdict = taken_apart(name, day_name, kind, programs)
    lines = lines_of(reading, verdict, section, row)
    if reading.fault is not None and day_name is None and kind is None:
        lines += ["", "It is shown as a day file. A clearing file is shown with --day DAY, a broken statement with --as statement."]
    return lines, reading.fault is None and reading.flaw is None
