"""python3 second/compare.py SEED [COUNT] [--archive COMMAND...]

Makes COUNT fresh pairs (100000 if not given) from SEED, hands them in batches to the product's program
archive and compares what it prints with the second opinion, pair by pair. A pair on which they differ is kept
in differs/SEED-NUMBER/ of the working directory. The program is target/bin/archive below the repository's
root, run by tools/run, unless a command is given. Exit status: 0 none differ, 1 some differ, 2 the program cannot be run.
"""
import argparse
import os
import re
import subprocess
import sys
import tempfile
import time
from struct import pack

from days import Draw, maximal, medium, small
from faults import drawn, judged, overlong
from judge import ACCEPTED, report

BATCH_PAIRS, BATCH_BYTES = 1000, 1000000
PAIRS_OF_A_DAY = 8
PATIENCE = 300                     # seconds for one batch


def pairs(seed):
    """Pairs without end: days, most of them small, each with near misses and damage to it."""
    draw = Draw(seed)
    while True:
        size = draw.below(500)
        case = maximal(draw) if size == 0 else medium(draw) if size < 25 else small(draw)
        yield case.files, ACCEPTED
        for _ in range(PAIRS_OF_A_DAY - 1):
            yield drawn(draw, [case], [overlong]) if draw.below(1000) == 0 else drawn(draw, [case])


class Comparison:
    """What has been compared so far."""

    def __init__(self, seed, count, command):
        self.seed, self.count, self.command = seed, count, command
        self.done, self.differing, self.numbers = 0, 0, {}
        self.began = self.shown = time.monotonic()

    def show(self, made=0, always=False):
        """Tell the progress, once a second at most; so many pairs are made and not yet compared."""
        now = time.monotonic()
        if always or now - self.shown >= 1:
            self.shown = now
            print("%d of %d pairs, %d a second, %d differ; %d in hand" % (
                self.done, self.count, self.done / max(now - self.began, 0.001), self.differing, made),
                file=sys.stderr, flush=True)

    def keep(self, number, files, second, archive, why):
        """Keep a pair on which the two programs differ."""
        self.differing += 1
        folder = os.path.join("differs", "%d-%d" % (self.seed, number))
        os.makedirs(folder, exist_ok=True)
        for name, data in (("day.bin", files[0]), ("clearing.bin", files[1]),
                           ("second.txt", second), ("archive.txt", archive)):
            with open(os.path.join(folder, name), "wb") as file:
                file.write(data)
        print("pair %d: %s; kept in %s" % (number, why, folder), file=sys.stderr, flush=True)

    def run(self, batch):
        """What the program prints of a batch, and how it ended if not well; through files, so none waits."""
        with tempfile.TemporaryFile() as stdin, tempfile.TemporaryFile() as stdout:
            for files, _ in batch:
                stdin.write(pack("<II", *map(len, files)) + files[0] + files[1])
            stdin.seek(0)
            try:
                process = subprocess.Popen(self.command, stdin=stdin, stdout=stdout)
            except OSError as error:
                print("cannot run %s: %s" % (" ".join(self.command), error.strerror), file=sys.stderr)
                sys.exit(2)
            ends = time.monotonic() + PATIENCE
            while process.poll() is None and time.monotonic() < ends:
                try:
                    process.wait(0.5)
                except subprocess.TimeoutExpired:
                    self.show(len(batch))
            if process.poll() is None:
                process.kill()
            status = process.wait()
            stdout.seek(0)
            return stdout.read(), "the program ended with status %d" % status if status else ""

    def compare(self, batch):
        """Compare one batch; an answer runs from one line that begins with "verdict " to the next."""
        printed, fault = self.run(batch)
        answers = re.split(rb"(?m)^(?=verdict )", printed)
        before = answers.pop(0)
        if answers:
            answers[0] = before + answers[0]
        elif before:
            answers = [before]
        answers[len(batch) - 1:] = [b"".join(answers[len(batch) - 1:])] if len(answers) >= len(batch) else []
        found = self.differing
        for at, (files, second) in enumerate(batch):
            number = self.done + at
            if at >= len(answers):
                self.keep(number, files, second, b"", "the program's output ended before this pair")
                self.differing += len(batch) - at - 1
                break
            if answers[at] != second:
                self.keep(number, files, second, answers[at], "the answers differ")
        if fault and self.differing == found:
            self.keep(self.done, *batch[0], printed, fault + " in the batch that begins with this pair")
        elif fault:
            print(fault, file=sys.stderr)
        self.done += len(batch)

    def go(self):
        """Compare all pairs."""
        source, batch, size = pairs(self.seed), [], 0
        for number in range(self.count):
            files, verdict = next(source)
            answer = judged(files, verdict)
            given = answer.verdict.number
            self.numbers[given] = self.numbers.get(given, 0) + 1
            batch.append((files, report(answer).encode()))
            size += len(files[0]) + len(files[1])
            self.show(len(batch))
            if len(batch) == BATCH_PAIRS or size > BATCH_BYTES or number == self.count - 1:
                self.compare(batch)
                batch, size = [], 0
        self.show(always=True)


def main():
    """Compare as the command asks."""
    root = os.path.dirname(os.path.dirname(os.path.abspath(__file__)))
    parser = argparse.ArgumentParser(usage=__doc__)
    parser.add_argument("seed", type=int)
    parser.add_argument("count", type=int, nargs="?", default=100000)
    parser.add_argument("--archive", nargs=argparse.REMAINDER, metavar="COMMAND")
    words = parser.parse_args()
    program = os.path.join(root, "target", "bin", "archive")
    if words.archive is None and not os.path.exists(program):
        print("there is no target/bin/archive: `tools/build archive` makes it", file=sys.stderr)
        return 2
    command = words.archive or [os.path.join(root, "tools", "run"), program]
    comparison = Comparison(words.seed, words.count, command)
    comparison.go()
    print("%d pairs from seed %d; %s" % (comparison.done, words.seed, ", ".join(
        "number %d: %d" % each for each in sorted(comparison.numbers.items()))))
    print("%d differ" % comparison.differing)
    return 1 if comparison.differing else 0


if __name__ == "__main__":
    sys.exit(main())
