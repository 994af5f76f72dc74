"""The command's words, and what every one of them keeps: one line for an error, a status, a pager for long output."""

import argparse
import os
import shutil
import subprocess
import sys

from . import explain, page, show, tables
from .account import as_text
from .files import Refused, Unable
from .layout import KINDS
from .pair import load
from .paper import NUMBERS

NAME = "ayinzhad-view"
ACCEPTED, REFUSED, COULD_NOT = 0, 1, 2
NOT_FOUND = 127  # a shell's status for a command that is not there
PLAINER = str.maketrans({"€": "EUR", "\u202f": " "})

ABOUT = """Shows what stands in a day file and a clearing file, and says the checker's verdict in words. It never judges: the verdict is
always the checker's own.

examples:
  %(prog)s show day.bin                              a file, row by row
  %(prog)s explain day.bin clearing.bin              the verdict, with the numbers that decide
  %(prog)s page day.bin clearing.bin -o day.html     the same as pictures, on a page of its own
  %(prog)s export FOLDER                             day.bin and clearing.bin of a folder as tables
  %(prog)s import FOLDER                             and back, to the same bytes

status: 0 accepted (or done), 1 refused, 2 could not run"""


class Parser(argparse.ArgumentParser):
    def error(self, message):
        raise Unable(f"{message}; see {self.prog} --help")


def parser():
    top = Parser(prog=NAME, description=ABOUT, formatter_class=argparse.RawDescriptionHelpFormatter)
    top.add_argument("--programs", metavar="FOLDER", help="where the checker's programs are, in place of the repository's target/bin")
    words = top.add_subparsers(dest="word", metavar="WORD", parser_class=Parser)

    def word(name, about, example):
        return words.add_parser(name, help=about, description=about[0].upper() + about[1:] + ".", epilog=f"example: {NAME} {example}")

    one = word("show", "a day file, a clearing file (with --day) or a statement, as text",
               "show clearing.bin --day day.bin --section 3 --row 7")
    one.add_argument("file", metavar="FILE")
    one.add_argument("--day", metavar="DAY", help="the day file of the clearing or statement")
    one.add_argument("--as", dest="kind", choices=sorted(KINDS), help="the kind of FILE, where it can be taken for another")
    one.add_argument("--section", type=int, metavar="N", help="one section alone, from 1")
    one.add_argument("--row", type=int, metavar="R", help="one row of it alone, from 0")

    one = word("explain", "the checker's verdict on two files in words, with the numbers that decide", "explain day.bin clearing.bin")
    one.add_argument("day", metavar="DAY", nargs="?")
    one.add_argument("clearing", metavar="CLEARING", nargs="?")
    one.add_argument("--room", type=int, metavar="BYTES", help="with a room of so many bytes for the statement")
    one.add_argument("--number", type=int, metavar="N", help="what a verdict's number means, without any file")

    one = word("page", "the verdict and the day as one page of pictures", "page day.bin clearing.bin -o day.html")
    one.add_argument("day", metavar="DAY")
    one.add_argument("clearing", metavar="CLEARING")
    one.add_argument("-o", dest="output", metavar="FILE.html", required=True)

    one = word("import", "the tables of a folder as day.bin and clearing.bin", "import view/samples/small-day -o target/small-day")
    one.add_argument("folder", metavar="FOLDER")
    one.add_argument("-o", dest="output", metavar="OUT", help="the folder to write to, in place of FOLDER")

    one = word("export", "day.bin and clearing.bin of a folder as tables", "export samples/accepted -o target/tables")
    one.add_argument("folder", metavar="FOLDER")
    one.add_argument("-o", dest="output", metavar="OUT", help="the folder to write to, in place of FOLDER")
    return top


# ---- the words

def do_show(args):
    lines, good = show.show(args.file, args.day, args.kind, args.section, args.row, args.programs)
    say(lines)
    return ACCEPTED if good else REFUSED


def do_explain(args):
    if args.number is not None:
        if args.number not in NUMBERS:
            raise Unable(f"number {args.number}: no verdict has it; the numbers are {', '.join(map(str, sorted(NUMBERS)))}")
        say(explain.meaning(args.number))
        return ACCEPTED
    if args.clearing is None:
        raise Unable("explain needs DAY and CLEARING, or --number N")
    pair = load(args.day, args.clearing, args.programs, args.room)
    say(as_text(explain.account_of(pair)))
    return status_of(pair)


def do_page(args):
    pair = load(args.day, args.clearing, args.programs)
    page.write(pair, args.output)
    say([f"{pair.verdict.line}: {args.output} is written"])
    return status_of(pair)


def do_import(args):
    say(tables.import_folder(args.folder, args.output or args.folder))
    return ACCEPTED


def do_export(args):
    say(tables.export_folder(args.folder, args.output or args.folder, args.programs))
    return ACCEPTED


def status_of(pair):
    return ACCEPTED if pair.verdict.accepted else REFUSED


DO = {"show": do_show, "explain": do_explain, "page": do_page, "import": do_import, "export": do_export}


# ---- saying it

def sayable(text):
    """The text with plainer signs where the output cannot have the ones it has."""
    try:
        text.encode(sys.stdout.encoding or "utf-8")
        return text
    except UnicodeEncodeError:
        return text.translate(PLAINER)


def say(lines):
    """Prints lines; through a pager where they are more than the terminal has."""
    text = sayable("\n".join(lines) + "\n")
    if sys.stdout.isatty() and len(lines) >= shutil.get_terminal_size().lines and paged(text):
        return
    sys.stdout.write(text)
    sys.stdout.flush()


def paged(text):
    """Whether a pager was found and has shown the text."""
    pager = os.environ.get("PAGER") or next((name for name in ("less", "more") if shutil.which(name)), None)
    if pager is None:
        return False
    settings = {"LESS": "FRX", "LESSCHARSET": "utf-8", **os.environ}
    done = subprocess.run(pager, shell=True, input=text.encode(errors="backslashreplace"), env=settings, check=False)
    return done.returncode != NOT_FOUND


def main(words):
    """Runs the command with these words and gives its status."""
    for stream in (sys.stdout, sys.stderr):
        if hasattr(stream, "reconfigure"):
            stream.reconfigure(errors="backslashreplace")
    try:
        args = parser().parse_args(words)
        if args.word is None:
            raise Unable(f"a word is missing: {', '.join(DO)}; see {NAME} --help")
        return DO[args.word](args)
    except Unable as error:
        return complain(str(error), REFUSED if isinstance(error, Refused) else COULD_NOT)
    except BrokenPipeError:
        os.dup2(os.open(os.devnull, os.O_WRONLY), sys.stdout.fileno())
        return COULD_NOT
    except KeyboardInterrupt:
        return complain("stopped")
    except Exception as error:  # nobody at a desk reads a traceback
        return complain(f"a fault of this command itself: {type(error).__name__}: {error}")


def complain(reason, status=COULD_NOT):
    print(f"{NAME}: {reason}".replace("\n", " "), file=sys.stderr)
    return status
