"""The command as a person meets it: its words, its statuses, its errors of one line, its pager."""

import os
import pty
import random
import struct
import subprocess
import sys
import tempfile
import unittest
from pathlib import Path

import stored

COMMAND = str(stored.ROOT / "view" / "ayinzhad-view")
SAMPLES = stored.ROOT / "samples"
WORDS = ("show", "explain", "page", "import", "export")


def run(*words, **more):
    return subprocess.run([COMMAND, *map(str, words)], capture_output=True, timeout=60, **more)


def pair(sample):
    return SAMPLES / sample / "day.bin", SAMPLES / sample / "clearing.bin"


class Words(unittest.TestCase):
    def setUp(self):
        self.kept = tempfile.TemporaryDirectory()
        self.folder = Path(self.kept.name)
        self.addCleanup(self.kept.cleanup)

    def unable(self, expected, *words, status=2, **more):
        """The command prints nothing but one line with this in it, and ends with that status."""
        done = run(*words, **more)
        error = done.stderr.decode()
        self.assertEqual((done.returncode, done.stdout, error.count("\n")), (status, b"", 1), error)
        self.assertTrue(error.startswith("ayinzhad-view: "), error)
        self.assertIn(expected, error)

    # ---- help and statuses

    def test_help(self):
        for words in ((), *((word,) for word in WORDS)):
            done = run(*words, "--help")
            self.assertEqual((done.returncode, done.stderr), (0, b""))
            self.assertRegex(done.stdout.decode(), "examples?:")
        for word in WORDS:
            self.assertIn(f"ayinzhad-view {word} ", run(word, "--help").stdout.decode().partition("example:")[2])

    def test_status(self):
        page = self.folder / "page.html"
        for sample, status in (("accepted", 0), ("partial", 0), ("refused", 1), ("field", 1), ("old-clearing", 1), ("below-least", 1)):
            verdict = (SAMPLES / sample / "verdict").read_text().splitlines()[0]
            for words in (("explain", *pair(sample)), ("page", *pair(sample), "-o", page)):
                done = run(*words)
                self.assertEqual((done.returncode, done.stderr), (status, b""), words)
                self.assertIn(verdict, done.stdout.decode())
        self.assertEqual(run("show", pair("accepted")[0]).returncode, 0)
        self.assertEqual(run("show", pair("field")[0]).returncode, 1)
        self.assertEqual(run("show", pair("refused")[1], "--day", pair("refused")[0]).returncode, 0)
        self.assertEqual(run("show", pair("old-clearing")[1], "--day", pair("old-clearing")[0]).returncode, 1)

    def test_narrowed(self):
        whole = run("show", pair("accepted")[0]).stdout.decode().splitlines()
        section = run("show", pair("accepted")[0], "--section", 4).stdout.decode().splitlines()
        row = run("show", pair("accepted")[0], "--section", 4, "--row", 2).stdout.decode().splitlines()
        start = next(place for place, line in enumerate(whole) if line.startswith("section 4"))
        self.assertEqual(section[2:], whole[start:start + 6])
        self.assertEqual(row[4].split(), whole[start + 4].split())
        self.assertEqual(len(row), 5)

    def test_kinds(self):
        """A statement is known by its form; a file that could be either is what the checker reads, or what --as says."""
        day, clearing = pair("accepted")
        statement = SAMPLES / "accepted" / "statement.bin"
        said = [int(line.rsplit(" ", 1)[1]) for line in (SAMPLES / "accepted" / "verdict").read_text().splitlines()[1:]]
        self.assertEqual(statement.read_bytes(), struct.pack("<H6qH2i", 6, *said[:6], 2, *said[6:]))
        self.assertIn(b"statement ", run("show", statement).stdout.splitlines()[0])
        self.assertIn(b"1 (code 20)", run("show", statement, "--day", day).stdout)
        self.assertIn(b"day ", run("show", statement, "--as", "day").stdout.splitlines()[0])
        self.assertEqual(run("show", statement, "--as", "day").returncode, 1)
        self.assertEqual(run("show", day, "--as", "statement").returncode, 1)
        both = self.folder / "both.bin"
        both.write_bytes(b"\6\0" + b"\0" * 48 + b"\3\0" + b"\1\0\2\0\3\0" + b"\0" * 6)
        self.assertIn(b"day ", run("show", both).stdout.splitlines()[0])
        self.assertIn(b"statement ", run("show", both, "--as", "statement").stdout.splitlines()[0])
        self.unable("--day", "show", clearing, "--as", "clearing")

    # ---- what cannot be done

    def test_unable(self):
        day, clearing = pair("accepted")
        none = self.folder / "none"
        for word in WORDS:
            self.unable("--help", word, "--nonsense")
        self.unable("a word is missing")
        self.unable("invalid choice", "judge")
        self.unable("No such file", "show", none)
        self.unable("Is a directory", "show", self.folder)
        self.unable("No such file", "explain", day, none)
        self.unable("No such file", "explain", none, clearing)
        self.unable("needs DAY and CLEARING", "explain", day)
        self.unable("No such file", "page", day, none, "-o", self.folder / "a.html")
        self.unable("No such file", "page", day, clearing, "-o", none / "a.html")
        self.unable("a folder or a device stands there", "page", day, clearing, "-o", self.folder)
        self.unable("section 6", "show", day, "--section", 6)
        self.unable("section 0", "show", day, "--section", 0)
        self.unable("row 4", "show", day, "--section", 4, "--row", 4)
        self.unable("row -1", "show", day, "--section", 4, "--row", -1)
        self.unable("--row needs --section", "show", day, "--row", 1)
        self.unable("does not read", "show", pair("field")[1], "--day", pair("field")[0], status=1)
        self.unable("no such program", "--programs", self.folder, "explain", day, clearing)
        self.unable("room -1", "explain", day, clearing, "--room", -1)
        self.unable("number 9", "explain", "--number", 9)
        self.assertEqual(list(self.folder.iterdir()), [])

    def test_wrong_programs(self):
        """Whatever a program prints that is no verdict is said to be none."""
        for text, words in (("", "nothing"), ("missing day", "missing day"), ("verdict 0", "verdict 0"), ("verdict 0 0 0 x", "no verdict")):
            program = self.folder / "ayinzhad"
            program.write_text(f"#!/bin/sh\necho '{text}'\n" if text else "#!/bin/sh\n")
            program.chmod(0o755)
            self.unable(words, "--programs", self.folder, "explain", *pair("accepted"))
        program.write_text("#!/bin/sh\nexit 3\n")
        self.unable("status 3", "--programs", self.folder, "explain", *pair("accepted"))

    def test_damaged(self):
        """Whatever the bytes, a word ends with its own status, and never with a traceback."""
        numbers = random.Random(5)
        sources = [path.read_bytes() for path in pair("accepted")]
        day, clearing = self.folder / "day.bin", self.folder / "clearing.bin"
        for turn in range(40):
            for path, source in zip((day, clearing), sources):
                data = bytearray(source)
                for _ in range(numbers.randrange(3)):
                    data[numbers.randrange(len(data))] = numbers.randrange(256)
                path.write_bytes(data[:numbers.randrange(1, 2 * len(data))] + numbers.randbytes(numbers.randrange(3) * (turn % 2)))
            for words in (("explain", day, clearing), ("page", day, clearing, "-o", self.folder / "a.html"), ("show", day)):
                done = run(*words)
                self.assertIn(done.returncode, (0, 1), done.stderr)
                self.assertEqual(done.stderr, b"")

    # ---- the output

    def test_pager(self):
        """More than a screen goes through the pager of a terminal, less does not."""
        screen = {**os.environ, "PAGER": "sed 's/^/paged /'", "COLUMNS": "100"}
        for height, paged in ((10, True), (500, False)):
            self.assertEqual(b"paged " in self.on_terminal({**screen, "LINES": str(height)}), paged)
        self.assertIn(b"section 5", self.on_terminal({**screen, "LINES": "10", "PAGER": "no-such-pager"}))
        self.assertNotIn(b"paged", run("show", pair("accepted")[0], env={**screen, "LINES": "10"}).stdout)

    def on_terminal(self, settings):
        try:
            parent, child = pty.openpty()
        except OSError:
            self.skipTest("no terminals here")
        with subprocess.Popen([COMMAND, "show", str(pair("accepted")[0])], stdout=child, stderr=child, env=settings) as done:
            os.close(child)
            text = b""
            while True:
                try:
                    piece = os.read(parent, 65536)
                except OSError:
                    break
                if not piece:
                    break
                text += piece
        os.close(parent)
        self.assertEqual(done.returncode, 0)
        return text

    def test_other_signs(self):
        """A terminal without the euro sign gets its letters."""
        done = run("explain", *pair("accepted"), env={**os.environ, "PYTHONIOENCODING": "latin-1"})
        self.assertEqual((done.returncode, done.stderr), (0, b""))
        self.assertIn(b"4700.000 EUR", done.stdout)

    def test_closed_output(self):
        """A reader that goes away is no reason for a traceback."""
        command = f"{COMMAND} show {pair('accepted')[0]} | true"
        self.assertEqual(subprocess.run(["bash", "-c", command], capture_output=True, timeout=60).stderr, b"")

    def test_largest_day(self):
        """A largest day is shown and explained within seconds."""
        maker = str(stored.ROOT / "second" / "stored.py")
        subprocess.run([sys.executable, maker, "--maximal", str(self.folder)], check=True, capture_output=True)
        day, clearing, page = (self.folder / name for name in ("day.bin", "clearing.bin", "a.html"))
        for words in (("show", day), ("show", clearing, "--day", day), ("explain", day, clearing), ("page", day, clearing, "-o", page)):
            done = subprocess.run([COMMAND, *map(str, words)], capture_output=True, timeout=20)
            self.assertEqual((done.returncode, done.stderr), (0, b""))


if __name__ == "__main__":
    unittest.main()
