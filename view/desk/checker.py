"""Runs the checker. What it says is the verdict; nothing here or above adds one."""

import struct
import subprocess
import tempfile
from dataclasses import dataclass
from pathlib import Path
from typing import Dict, List, Tuple

from .files import Unable

ROOT = Path(__file__).resolve().parents[2]
PATIENCE = 60  # seconds
MOST_LENGTH = 65_535  # of a file or a room in a record of the program `rooms`


@dataclass(frozen=True)
class Verdict:
    """The checker's answer: a number and a place; where it accepts, totals by name and net positions as (code, period, value)."""
    number: int
    place: Tuple[int, int, int]
    totals: Dict[str, int]
    nets: List[Tuple[int, int, int]]

    @property
    def accepted(self):
        return self.number == 0

    @property
    def line(self):
        return "verdict " + " ".join(map(str, (self.number,) + self.place))


def program(name, folder=None):
    """The path of one of the repository's programs, or of one of that name in another folder."""
    path = (Path(folder) if folder else ROOT / "target" / "bin") / name
    if not path.is_file():
        raise Unable(f"{path}: no such program; `tools/build {name}` in the repository proves and builds it, which takes some minutes")
    return str(path.resolve())


def run(path, files):
    """What the program prints in a folder that holds these files alone."""
    try:
        with tempfile.TemporaryDirectory(prefix="ayinzhad-") as folder:
            for name, data in files.items():
                Path(folder, name).write_bytes(data)
            done = subprocess.run([str(ROOT / "tools" / "run"), path], cwd=folder, stdin=subprocess.DEVNULL, capture_output=True,
                                  timeout=PATIENCE)
    except OSError as error:
        raise Unable(f"{path}: could not be run: {error.strerror}")
    except subprocess.TimeoutExpired:
        raise Unable(f"{path}: no verdict within {PATIENCE} seconds")
    if done.returncode != 0:
        raise Unable(f"{path}: ended with status {done.returncode}")
    return done.stdout.decode("ascii", "replace").splitlines()


def parse(lines, path="the checker"):
    """A verdict from the lines that the checker prints."""
    try:
        words = lines[0].split()
        if words[0] != "verdict" or len(words) != 5:
            raise ValueError
        totals, nets = {}, []
        for line in lines[1:]:
            name, value = line.rsplit(" ", 1)
            if name.startswith("net "):
                _, code, period = name.split()
                nets.append((int(code), int(period), int(value)))
            else:
                totals[name] = int(value)
        return Verdict(int(words[1]), tuple(map(int, words[2:])), totals, nets)
    except (IndexError, ValueError):
        raise Unable(f"{path}: prints {' / '.join(lines[:1]) or 'nothing'}, which is no verdict")


def judge(day, clearing, folder=None):
    """The verdict of the program on two byte strings."""
    path = program("ayinzhad", folder)
    return parse(run(path, {"day.bin": day, "clearing.bin": clearing}), path)


def judge_in_room(day, clearing, room, folder=None):
    """The verdict of the checker with a room of so many bytes. A file too long for a record is refused in any room."""
    if not 0 <= room <= MOST_LENGTH:
        raise Unable(f"room {room}: expected 0 to {MOST_LENGTH} bytes")
    if max(len(day), len(clearing)) > MOST_LENGTH:
        return judge(day, clearing, folder)
    path = program("rooms", folder)
    record = struct.pack("<HHH", len(day), len(clearing), room) + day + clearing
    lines = run(path, {"pairs": record})
    return parse([line for line in lines if not line.startswith("room ")], path)


def judge_day(day, folder=None):
    """The verdict on a day file by itself: with an empty clearing file, which is looked at only when the day file reads."""
    return judge(day, b"", folder)
