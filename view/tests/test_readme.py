"""What the README quotes of the view is what it prints."""

import contextlib
import io
import os
import re
import shutil
import tempfile
import unittest
from pathlib import Path

import stored

from desk.words import main

SECTION = (stored.ROOT / "README.md").read_text("utf-8").partition("## At the desk\n")[2].partition("\n## ")[0]


def blocks():
    """The indented blocks of the section, without their indentation."""
    found, block = [], []
    for line in SECTION.splitlines() + ["."]:
        if line.startswith("    ") or block and not line:
            block.append(line[4:])
        elif block:
            found.append("\n".join(block).rstrip())
            block = []
    return found


def printed(words, folder):
    """What the command prints there."""
    text, before = io.StringIO(), os.getcwd()
    os.chdir(folder)
    try:
        with contextlib.redirect_stdout(text), contextlib.redirect_stderr(text):
            main(words)
    finally:
        os.chdir(before)
    return text.getvalue()


class Readme(unittest.TestCase):
    def test_quotes(self):
        """Each command is run; the block behind the last one of a block is how its output begins."""
        quoted = 0
        with tempfile.TemporaryDirectory() as folder:
            last = ""
            for block in blocks():
                if block.startswith("view/ayinzhad-view "):
                    for command in block.splitlines():
                        words = re.sub(r"\btarget/", f"{folder}/", command).split()[1:]
                        last = printed(words, stored.ROOT).replace(folder, "target")
                elif last.startswith(block.splitlines()[0]):
                    self.assertTrue(last.startswith(block), block)
                    quoted += 1
        self.assertEqual(quoted, 3)

    def test_tables(self):
        """The rows that it quotes are the sample's, and so is what is said of a wrong one."""
        steps = (stored.ROOT / "view" / "samples" / "small-day" / "day-4-steps.csv").read_text()
        quoted = next(block for block in blocks() if block.startswith("step,"))
        self.assertTrue(steps.startswith(quoted))
        with tempfile.TemporaryDirectory() as folder:
            shutil.copytree(stored.ROOT / "view" / "samples" / "small-day", Path(folder, "small-day"))
            Path(folder, "small-day", "day-4-steps.csv").write_text(steps.replace("sell,0,30.00", "sell,0,30", 1))
            self.assertIn(printed(["import", "small-day"], folder).strip(), blocks())


if __name__ == "__main__":
    unittest.main()
