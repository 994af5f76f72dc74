"""The stored pairs of the repository, with what the checker is held to print of each."""

import struct
import sys
from pathlib import Path

ROOT = Path(__file__).resolve().parents[2]
sys.path.insert(0, str(ROOT / "view"))
sys.dont_write_bytecode = True

ARCHIVE = ROOT / "crates" / "archive"


def pairs():
    """Each stored pair: the bytes of the day file and of the clearing file, and the lines that the checker prints."""
    data, place = (ARCHIVE / "stdin").read_bytes(), 0
    found = []
    while place < len(data):
        day, clearing = struct.unpack_from("<II", data, place)
        place += 8
        found.append((data[place:place + day], data[place + day:place + day + clearing]))
        place += day + clearing
    reports = []
    for line in (ARCHIVE / "stdout").read_text().splitlines():
        if line.startswith("verdict "):
            reports.append([])
        reports[-1].append(line)
    assert len(found) == len(reports)
    return [(day, clearing, report) for (day, clearing), report in zip(found, reports)]
