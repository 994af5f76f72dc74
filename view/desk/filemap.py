"""A file that does not read, as a map of its bytes: its sections as far as they were read, where the fault is, and the rows around it."""

from dataclasses import dataclass
from struct import calcsize

from .layout import COUNT
from .marks import WORDS, flag
from .markup import classes, scrolled, svg, table, tag, wide
from .show import MARK, lines_of_part, lines_of_rest, lines_of_rows

WIDTH, TALL = 1000, 64
COUNTED = calcsize("<" + COUNT)  # bytes of a section's count
LEAST = 24  # units of the narrowest segment
NAME_SIZE = 26  # units of a letter, at most
ROWS = {False: 6, True: 2}  # rows before the fault that are shown; fewer where a row has fields for each period


@dataclass(frozen=True)
class Segment:
    """Some bytes of a file; `kind` is section, unread, missing or behind."""
    name: str
    offset: int
    length: int
    kind: str = "section"


def needed_end(reading, part):
    """Where a section ends, or would."""
    start = part.offset + COUNTED
    return start if part.count is None else start + part.section.width(reading.periods) * part.count


def segments_of(reading):
    """The bytes of a file one behind the other, as far as its sections are known, and the rest."""
    kind, length, number = reading.kind, reading.file.length, reading.fault.number if reading.fault is not None else None
    found, end = [], 0
    for part in reading.parts:
        counted = number == kind.miscounts and part is reading.parts[-1]
        end = part.offset + COUNTED if counted else needed_end(reading, part)
        found.append(Segment(f"{part.section.number} {part.section.name}", part.offset, min(end, length) - part.offset))
    if number == kind.ends:
        found.append(Segment("missing", length, end - length, "missing"))
    elif number == kind.trails:
        found.append(Segment("behind the last section", end, length - end, "behind"))
    elif end < length:
        found.append(Segment("not read", end, length - end, "unread"))
    return found


def fault_offset(reading):
    """The byte that the fault stands at."""
    fault, kind, part = reading.fault, reading.kind, reading.parts[-1]
    if fault.number == kind.ends:
        return reading.file.length
    if fault.number == kind.trails:
        return reading.end
    if fault.number == kind.miscounts:
        return part.offset
    return part.rows[fault.place[1]].offset_of(fault.place[2], reading.periods)


def widths_of(segments):
    """The units of each segment: a least width, and the rest by their bytes."""
    room, whole = WIDTH - LEAST * len(segments), max(1, sum(segment.length for segment in segments))
    return [LEAST + room * segment.length // whole for segment in segments]


def holder(segments, at):
    """The segment that has the byte of the fault, or would have it."""
    return None if at is None else [segment for segment in segments if segment.offset <= at][-1]


def bar(segments, at):
    """The segments as one bar; the byte `at` is marked."""
    drawn, marked, x = [], [], 0
    for segment, width in zip(segments, widths_of(segments)):
        name = segment.name if wide(segment.name, NAME_SIZE) < width else segment.name.split()[0] if segment.kind == "section" else ""
        drawn.append(tag("g", tag("title", f"{segment.name}: from {segment.offset}, {segment.length} bytes"),
                         tag("rect", x=x, y=14, width=width - 2, height=34, rx=2), tag("text", name, x=x + 5, y=37),
                         class_=classes("segment", segment.kind)))
        if segment is holder(segments, at):
            byte = x + width * (at - segment.offset) // max(1, segment.length)
            marked.append(tag("path", d=f"M{byte} 8V54M{byte - 8} 0H{byte + 8}L{byte} 12z", class_="place at"))
        x += width
    return svg(x, TALL, *drawn, *marked, class_="map", role="img", aria_label="The bytes of the file")


def bytes_table(segments, at):
    rows = []
    for segment in segments:
        place = segment is holder(segments, at)
        rows.append(tag("tr", tag("td", segment.name), tag("td", segment.offset), tag("td", segment.length),
                        tag("td", flag(), f" at byte {at}") if place else tag("td", ""), class_="place" if place else None))
    return scrolled(table(("section", "starts at", "bytes", ""), rows, class_="exact"))


def file_map(reading):
    """The map of a file that is read up to its fault, or whole."""
    segments, at = segments_of(reading), None if reading.fault is None else fault_offset(reading)
    words = "it reads without fault" if at is None else f"{WORDS}, at byte {at}"
    return tag("div", tag("h3", f"The {reading.kind.name} file"), tag("p", f"{reading.file.name}, {reading.file.length} bytes: {words}."),
               bar(segments, at), bytes_table(segments, at), class_="file", data_map=reading.kind.name)


def excerpt(reading):
    """The rows before and at the fault, as `show` prints them."""
    part = reading.parts[-1]
    lines = lines_of_part(reading, part, row_number=-1)
    rows = part.rows[-ROWS[bool(part.section.each)]:]
    if rows:
        lines += lines_of_rows(reading, part, rows)
    lines += lines_of_rest(reading)
    shown = [tag("span", line, " ", flag(), class_="place") if MARK in line else tag("span", line) for line in lines]
    return tag("pre", *(part for line in shown for part in (line, "\n")), tabindex=0)


def pictures(pair):
    faulty = pair.day if pair.clearing is None else pair.clearing
    if pair.clearing is None:
        other = tag("p", "The clearing file is not looked at: the day file comes first.", class_="note")
    else:
        other = file_map(pair.day)
    return [file_map(faulty), tag("div", tag("h3", "The rows around it"), excerpt(faulty), class_="file"), other]
