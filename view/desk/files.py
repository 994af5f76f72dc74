"""Bytes read by the layout, up to the fault that the checker names, and written by it. Nothing is judged here."""

import os
import shutil
import stat
from contextlib import suppress
from dataclasses import dataclass, field
from pathlib import Path
from secrets import token_hex
from struct import calcsize, pack, unpack_from
from typing import Dict, List, Optional

from .layout import COUNT, key_of, keys_of

MOST_BYTES = 65_536  # what the program reads of a file; no file that reads without fault is as long


class Unable(Exception):
    """A reason, in one line, why a word could not do what it was asked."""


class Refused(Unable):
    """The same, where the reason is the checker's refusal."""


@dataclass(frozen=True)
class File:
    """What is judged of a file, and how long all of it is."""
    name: str
    data: bytes
    length: int


def open_file(name):
    try:
        with open(name, "rb") as source:
            data = source.read(MOST_BYTES + 1)
            about = os.fstat(source.fileno())
    except OSError as error:
        raise Unable(f"{name}: {error.strerror}")
    length = about.st_size if stat.S_ISREG(about.st_mode) else len(data)
    return File(name, data[:MOST_BYTES], max(length, len(data)))


@dataclass(frozen=True)
class Row:
    """A row, or as much of one as the file has."""
    section: object
    number: int
    offset: int
    values: List[int]
    whole: bool = True

    def value(self, name):
        return self.values[next(place for place, one in enumerate(self.section.fields) if one.name == name)]

    def each(self, name):
        """The values of a field of each period, in their order."""
        place = next(place for place, one in enumerate(self.section.each) if one.name == name)
        return self.values[len(self.section.fields) + place::len(self.section.each)]

    def offset_of(self, position, periods):
        return self.offset + sum(one.width for one in self.section.fields_of_row(periods)[:position])


@dataclass
class Part:
    """A section as the file has it. `count` is None where the file ends inside it."""
    section: object
    offset: int
    count: Optional[int] = None
    rows: List[Row] = field(default_factory=list)


@dataclass
class Reading:
    """A file taken apart up to its fault. `end` is where the reading stopped; `fault` the verdict that names a fault in this file. A
    statement is never judged: what it lacks is its `flaw`. `codes` are those of the day's zones, as far as they are known."""
    kind: object
    file: File
    counts: Dict[str, int]
    parts: List[Part] = field(default_factory=list)
    end: int = 0
    fault: Optional[object] = None
    flaw: Optional[str] = None
    codes: List[int] = field(default_factory=list)

    @property
    def periods(self):
        return self.counts.get("periods", 0)

    def part(self, name):
        return next(part for part in self.parts if part.section.name == name)

    def rows(self, name):
        return self.part(name).rows

    def row_name(self, part, number):
        """A row as the paper names it: zone 1, period 0."""
        keys = key_of(part.section, number, self.counts)
        return ", ".join(f"{word} {key}" for word, key in zip(keys_of(part.section), keys))


def faulty(kind, verdict):
    """Whether a verdict names a fault in the reading of this kind of file."""
    return verdict is not None and verdict.number in kind.faults and verdict.number > 0


def read(kind, file, counts=None, verdict=None, codes=()):
    """Takes a file apart. `counts` and `codes` are the day file's, for the other kinds; `verdict` is the checker's."""
    fault = verdict if faulty(kind, verdict) else None
    reading = Reading(kind, file, {} if counts is None else counts, fault=fault, codes=list(codes))
    last = fault.place[0] if fault is not None and fault.number != kind.trails else len(kind.sections)
    for section in kind.sections[:last]:
        if reading.flaw is None:
            read_section(reading, section, fault if section.number == last else None)
    if kind.name == "day" and len(reading.parts) > 1:
        reading.codes = [row.value("code") for row in reading.rows("zones") if row.whole]
    if fault is None and reading.flaw is None and reading.end != len(file.data):
        flaw_in(reading, f"{len(file.data) - reading.end} bytes are behind its last section")
    return reading


def flaw_in(reading, words):
    if reading.kind.name != "statement":
        raise Unable(f"{reading.file.name}: {words}, which the checker does not refuse")
    reading.flaw = words


def read_section(reading, section, fault):
    data, kind = reading.file.data, reading.kind
    part = Part(section, reading.end)
    reading.parts.append(part)
    cut = fault is not None and fault.number == kind.ends
    short = f"it ends inside section {section.number}"
    if reading.end + calcsize("<" + COUNT) > len(data):
        return None if cut else flaw_in(reading, short)
    part.count, = unpack_from("<" + COUNT, data, reading.end)
    reading.end += calcsize("<" + COUNT)
    if kind.name == "day":
        reading.counts[section.name] = part.count
    if fault is not None and fault.number == kind.miscounts:
        return None
    if section.named and part.count != len(section.named):
        return flaw_in(reading, f"the count of section {section.number} is not {len(section.named)}")
    rows = part.count
    if fault is not None and fault.number == kind.misfits:
        rows = fault.place[1] + 1
    width = section.width(reading.periods)
    form = "<" + "".join(one.form for one in section.fields_of_row(reading.periods))
    for number in range(rows):
        if reading.end + width > len(data):
            part.rows.append(piece_of_row(reading, section, number))
            return None if cut else flaw_in(reading, short)
        part.rows.append(Row(section, number, reading.end, list(unpack_from(form, data, reading.end))))
        reading.end += width
    return None


def piece_of_row(reading, section, number):
    """The whole fields of a row that the file cuts."""
    start, values = reading.end, []
    for one in section.fields_of_row(reading.periods):
        if reading.end + one.width > len(reading.file.data):
            break
        values += unpack_from("<" + one.form, reading.file.data, reading.end)
        reading.end += one.width
    return Row(section, number, start, values, whole=False)


# ---- writing

def section_bytes(section, rows, periods):
    """The bytes of a section with these rows of values."""
    form = "<" + "".join(one.form for one in section.fields_of_row(periods))
    return pack("<" + COUNT, len(rows)) + b"".join(pack(form, *row) for row in rows)


def first_misfit(section, position, value, earlier, before, counts):
    """What the field at that position of a row should have kept, its range or its rule, or None where the value fits."""
    fields = section.fields_of_row(counts.get("periods", 0))
    one = fields[position]
    least, most = one.range(counts)
    if not least <= value <= most:
        return least, most
    if one.rule is not None and not one.rule.holds(value, earlier, before, position == len(fields) - 1):
        return one.rule
    return None


@dataclass(frozen=True)
class Place:
    """Where a file goes: its path as given, the file that this stands for, and two names beside it, for the new file and the old one."""
    path: str
    file: str
    new: str
    old: str


def place_of(path):
    """The place that a path stands for; a link stands for what it points to."""
    file = os.path.realpath(path)
    if os.path.exists(file) and not os.path.isfile(file):
        raise Unable(f"{path}: a folder or a device stands there; nothing is written")
    new, old = (os.path.join(os.path.dirname(file), f".ayinzhad-{token_hex(8)}") for _ in range(2))
    return Place(path, file, new, old)


def put(contents):
    """Writes all these files (path and bytes) or none. Each is written beside its place first, and only then are all renamed. Where one of
    them cannot be, or the command is stopped, those before it get back what they had. No place is empty meanwhile that was not before."""
    places = [place_of(path) for path in contents]
    if len({place.file for place in places}) < len(places):
        raise Unable(f"{', '.join(contents)}: two of them are links to one file; nothing is written")
    renamed = []
    try:
        for place, data in zip(places, contents.values()):
            write_new(place.new, data)
        for place in places:
            keep(place)
            renamed.append(place)
            os.replace(place.new, place.file)
    except BaseException as error:
        for one in renamed:
            put_back(one)
        if isinstance(error, OSError):
            raise Unable(f"{place.path}: {error.strerror}; nothing is written")
        raise
    finally:
        for one in places:
            remove(one.new)
            remove(one.old)


def write_new(name, data):
    with open(name, "xb") as target:
        target.write(data)
        target.flush()
        os.fsync(target.fileno())


def keep(place):
    """A second name for the file that is there; a copy, where the file system has no second names."""
    try:
        os.link(place.file, place.old)
    except FileNotFoundError:
        pass
    except OSError:
        shutil.copy2(place.file, place.old)


def put_back(place):
    """What was there before, whether the new file has its place by now or not."""
    if os.path.exists(place.old):
        os.replace(place.old, place.file)
    else:
        remove(place.file)


def remove(name):
    if os.path.lexists(name):
        os.unlink(name)


def put_in(folder, contents):
    """Writes all these files (name and bytes) in a folder, or none. A missing folder is made, and taken away again where they cannot be."""
    made = []
    try:
        for one in missing_folders(folder):
            os.mkdir(one)
            made.append(one)
        put({os.path.join(folder, name): data for name, data in contents.items()})
    except BaseException as error:
        for one in reversed(made):
            with suppress(OSError):
                os.rmdir(one)
        if isinstance(error, OSError):
            raise Unable(f"{folder}: {error.strerror}; nothing is written")
        raise


def missing_folders(folder):
    """The folders on the way to this one, and itself, that are not there; the outermost first."""
    way = [Path(folder), *Path(folder).parents]
    return [one for one in reversed(way) if not one.exists()]
