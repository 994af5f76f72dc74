"""A day file and a clearing file with the checker's verdict on them, taken apart as far as they read."""

from dataclasses import dataclass
from typing import Optional, Tuple

from . import checker
from .files import File, Reading, faulty, open_file, read
from .layout import CLEARING, DAY
from .market import Market


@dataclass
class Pair:
    """`clearing` is None where the day file does not read; `market` is None where either does not. `files` are both, read or not."""
    verdict: checker.Verdict
    day: Reading
    clearing: Optional[Reading]
    market: Optional[Market]
    room: Optional[int] = None
    files: Tuple[File, ...] = ()


def take_apart(day: File, clearing: File, verdict, room=None):
    reading, chosen, market = read(DAY, day, None, verdict), None, None
    if not faulty(DAY, verdict):
        chosen = read(CLEARING, clearing, reading.counts, verdict, reading.codes)
        if not faulty(CLEARING, verdict):
            market = Market(reading, chosen)
    return Pair(verdict, reading, chosen, market, room, (day, clearing))


def load(day_name, clearing_name, programs=None, room=None):
    day, clearing = open_file(day_name), open_file(clearing_name)
    if room is None:
        verdict = checker.judge(day.data, clearing.data, programs)
    else:
        verdict = checker.judge_in_room(day.data, clearing.data, room, programs)
    return take_apart(day, clearing, verdict, room)
