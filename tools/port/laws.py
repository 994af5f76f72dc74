#!/usr/bin/env python3
"""Moves laws from specs/ to proofs/, where a must-fail edit of a definition may break them, and has every import follow.

usage: tools/port/laws.py [FOLDER]

It runs at the top of the repository (or over FOLDER). A law keeps its statement, its comment and its proof, word for word. A file that
holds only laws, with what only they name, moves whole; in a file that has definitions too these stay, with the laws that rest on none of
those that an edit changes, and the others go to a file of their own. Lib.antt, the imports of each .antt and .rt file, the `file:` lines of must-fail edits whose text moved, and the places that
docs/READING.md names follow. It may run again, also where some files have moved and others still import from the old place: what is
done already is left alone.
"""

import os
import re
import sys

# Files that move whole: the crate, the file in specs/, the file in proofs/ (there Rattle keeps the name Kinds for itself).
WHOLE = [
    ("whole", "Sums", "Sums"),
    ("whole", "Size", "Size"),
    ("market", "Kinds", "KindLaws"),
    ("market", "Welfare", "Welfare"),
    ("market", "RuleLaws", "RuleLaws"),
    ("market", "MeasureLaws", "MeasureLaws"),
    ("demands", "Demands", "Demands"),
    ("demands", "Laws", "Laws"),
    ("demands", "Refusals", "Refusals"),
]


class Split:
    """A file of specs/ whose laws go to a file of proofs/: it keeps the blocks that declare `stay`, or all but those that declare `move`."""

    def __init__(self, crate, file, laws, head, stay=(), move=(), specs_head=None, headings=(), lib=None, laws_lib=None):
        self.crate, self.file, self.laws, self.head = crate, file, laws, head
        self.stay, self.move, self.specs_head, self.headings = set(stay), set(move), specs_head, dict(headings)
        self.lib, self.laws_lib = lib, laws_lib

    def stays(self, names):
        if self.stay and names & self.stay and not names <= self.stay:
            raise SystemExit(f"{self.crate}/specs/{self.file}.antt: a block declares both what stays and what moves: {' '.join(sorted(names))}")
        return bool(names & self.stay) if self.stay else not names & self.move


SPLIT = [
    Split(
        "stages",
        "First",
        "FirstLaws",
        "-- The laws by which a loop looks for the first row at which a test fails, and that the answer says what it means. Assumes nothing.",
        stay=(
            *("every", "or_else", "bad_at", "first_bad", "Says", "Passed", "found_nothing"),
            *("apart", "both", "leb_is", "leb_false_is", "ltb_is", "eqb_is", "not_is", "every_is"),
        ),
        specs_head="-- The first row at which a test fails, and a test's answer as a fact. Assumes nothing.",
        headings=[
            (
                "-- ---- the laws a loop goes by: nothing passed yet; the test holds at i; it fails at i; the end",
                "-- ---- what a loop knows on its way",
            )
        ],
        laws_lib="-- The laws by which a loop looks for the first row at which a test fails, and that the answer says what it means.",
    ),
    Split(
        "stages",
        "Table",
        "TableLaws",
        "-- The laws by which a nested loop looks for the first cell of a table at which a test fails. Assumes nothing.",
        stay=("or_spot", "in_row", "first_cell", "RowsPassed"),
        specs_head="-- The first cell of a table at which a test fails, row by row. Assumes nothing.",
        headings=[("-- ---- the laws a nested loop goes by", "-- ---- what a nested loop knows on its way")],
        laws_lib="-- The laws by which a nested loop looks for the first cell of a table at which a test fails.",
    ),
    Split(
        "stages",
        "Stage",
        "StageLaws",
        "-- The first fault of a list of stages, and an answer made of it, is given just where what it means holds: proved here once, for every\n"
        "-- list. Assumes nothing.",
        stay=(
            *("Stage", "place", "field_place", "once", "spot", "fault_at", "first_fault", "answer"),
            *("Holds", "Breaks", "BrokenAt", "Means", "or_fault", "broken_here", "clean-++"),
        ),
        specs_head="-- A check is a list of stages. A stage is a number and a test at each cell of a table; its fault is the first cell, row by row, at which\n"
        "-- the test fails; the fault of a list is that of its first stage that has one. That an answer is given just where what it means holds is\n"
        "-- proved once, for every list, in proofs/StageLaws: a rule more is one more stage in the list. Assumes nothing.",
        laws_lib="-- That an answer is given just where what it means holds, for every list of stages.",
    ),
    Split(
        "sections",
        "Good",
        "GoodLaws",
        "-- That a section's stages say what a section guarantees that reads without fault, and which field of a bad row is the first that fails.\n"
        "-- Assumes nothing.",
        stay=("GoodSection", "Head", "FirstBad", "OwnNumber", "head", "with_rows_lem", "ended_clean", "ended_other", "part_length"),
        laws_lib="-- That a section's stages say what a section guarantees that reads without fault, and which field of a bad row is the first that fails.",
    ),
    Split(
        "cases",
        "FieldCases",
        "FieldsShown",
        "-- Which field a refusal names: that each case of the tables has its outcome. Assumes nothing.",
        move=("network_shown", "step_shown", "block_shown", "two_periods_shown", "clearing_shown", "shown"),
        specs_head="-- Which field a refusal names: fields of day A and clearing A out of range, by themselves or against those before them, and of a day of two\n"
        "-- periods. Tables; the statement about them is in proofs/FieldsShown. Assumes nothing.",
        lib="-- The tables of fields that a refusal names.",
        laws_lib="-- That each field that a refusal names has its outcome.",
    ),
    Split(
        "cases",
        "Others",
        "Needed",
        "-- That the bound of demand 3 does not hold without the shortfall. Assumes nothing.",
        move=("shortfall_needed",),
        specs_head="-- Demand 3 by examples: other choices for day A, each of them allowed, with its order value; and a day on which another choice is worth more\n"
        "-- than the accepted clearing, by just the shortfall, so that the bound needs it (proofs/Needed) and cannot be lower. Assumes nothing.",
        lib="-- Other choices than the accepted one, and the shortfalls that these leave.",
        laws_lib="-- That the bound of demand 3 does not hold without the shortfall.",
    ),
]

# Heads of files that speak of a file which moves.
HEADS = [
    ("market", "proofs/Welfare.antt", "only what `Kinds` says is", "only what `KindLaws` says is"),
    (
        "market",
        "specs/Rules.antt",
        "That a test passes just where its sentence holds is proved in the file after this one. Assumes nothing.",
        "That a test passes just where its sentence holds is proved in proofs/RuleLaws. Assumes nothing.",
    ),
]

READING = [
    (
        "Open `crates/demands/specs/Demands.antt`, beside it `Sentences.antt` (what an acceptance and a refusal mean) and\n"
        "`crates/market/specs/Other.antt` (another choice).",
        "Open `crates/demands/proofs/Demands.antt`, `crates/demands/specs/Sentences.antt` (what an acceptance and a refusal mean) and\n"
        "`crates/market/specs/Other.antt` (another choice).",
    ),
    ("does not hold without it (`shortfall_needed`);", "does not hold without it (`shortfall_needed` in `crates/cases/proofs/Needed.antt`);"),
    (
        "the bytes of each case. `FieldCases.antt` beside it is such a table for the fields:",
        "the bytes of each case. `FieldCases.antt` beside it has such tables for the fields, and `crates/cases/proofs/FieldsShown.antt` the theorem:",
    ),
    ("In `crates/market/specs`, with no byte in sight. `Items.antt`:", "In `crates/market`, with no byte in sight. `specs/Items.antt`:"),
    ("periods and rows. `Kinds.antt`: for each kind of row two facts.", "periods and rows. `proofs/KindLaws.antt`: for each kind of row two facts."),
    ("`Welfare.antt`: all rows together are one item.", "`proofs/Welfare.antt`: all rows together are one item."),
    ("`means` in `crates/stages/specs/Stage.antt`", "`means` in `crates/stages/proofs/StageLaws.antt`"),
    ("`lawful_is` in `crates/market/specs/RuleLaws.antt`", "`lawful_is` in `crates/market/proofs/RuleLaws.antt`"),
    ("`crates/market/specs/MeasureLaws.antt`", "`crates/market/proofs/MeasureLaws.antt`"),
]

WORDS = r"(?:(?:abbrev|pub|unfoldable|record|data|ruleset) )*"
DECLARED = re.compile(rf"^( *)({WORDS})([^\s(){{}}\[\],;.:@\"«»]+)(?: [({{].*)? (?::|=)(?: |$)")
USE = re.compile(r"^((?:ghost )?use )(Rattle\.\w+\.(?:specs|proofs)\.\w+)\.\{([^{}]*)\}(;?)$")
COMMENT = re.compile(r"(?:(?<=\s)|^)--(?=\s|$).*")


def read(path):
    with open(path, encoding="utf-8", newline="") as f:
        return f.read()


def write(path, text):
    os.makedirs(os.path.dirname(path), exist_ok=True)
    with open(path, "w", encoding="utf-8", newline="") as f:
        f.write(text)


def declared(text, only_pub=False):
    """The names that a text declares at any depth but in a record's fields and in `where` blocks."""
    names, skip, now = set(), None, ""
    for line in text.split("\n"):
        before, now = now, line
        indent = len(line) - len(line.lstrip(" "))
        if skip is not None and (indent > skip or not line.strip()):
            continue
        skip = None
        if line.strip() == "where":
            skip = indent - 1
            continue
        found = DECLARED.match(line)
        is_first = not before.strip() or before.strip().startswith(("--", "infix", "use ")) or before.endswith(" where")
        if found and is_first and not line.strip().startswith(("--", "module ", "use ", "unfolding ")):
            words = found[2].split()
            if " : " not in f"{line} " and "ruleset" not in words:
                continue
            if "pub" in words or not only_pub:
                names.add(found[3])
            if "record" in words:
                skip = indent
    return names


def words_of(text):
    """The words that a text may name: those of its code, and each operator's name."""
    code = "\n".join(COMMENT.sub("", line) for line in text.split("\n"))
    return {*re.split(r"[\s(){}\[\],;.@\"«»:]+", code), *re.findall(r"\[\]", code)}


def is_named(name, words):
    name = name.split(" as ")[-1].strip()
    return name in words or (name.startswith("◌") and name.endswith("◌") and name.strip("◌") in words)


def used(lines, words):
    """The import lines, each with the names alone that the words have."""
    kept = []
    for line in lines:
        found = re.match(r"^(use \S+)\.\{([^{}]*)\}$", line)
        if found:
            names = [it.strip() for it in found[2].split(",") if is_named(it.strip(), words)]
            if names:
                kept.append(f"{found[1]}.{{{', '.join(names)}}}")
        elif is_named(line.split(" as ")[-1].split(".")[-1].removeprefix("use "), words):
            kept.append(line)
    return kept


def wrapped(module, names, width=140):
    """Import lines of these names, none much longer than the width."""
    lines, now = [], []
    for name in names:
        if now and len(f"use {module}.{{{', '.join([*now, name])}}}") > width:
            lines.append(f"use {module}.{{{', '.join(now)}}}")
            now = []
        now.append(name)
    return [*lines, f"use {module}.{{{', '.join(now)}}}"] if now else lines


def parts_of(text):
    """The head, the import lines and the blocks of a file: a block ends at a blank line before a line that is not indented."""
    lines = text.rstrip("\n").split("\n")
    at = next(i for i, line in enumerate(lines) if not line.startswith("--"))
    head, rest = lines[:at], lines[at:]
    imports = [line for line in rest if line.startswith("use ")]
    rest = [line for line in rest if not line.startswith("use ")]
    blocks, now = [], []
    for i, line in enumerate(rest):
        if not line.strip():
            after = next((it for it in rest[i:] if it.strip()), "")
            if not after.startswith(" "):
                blocks.append(now)
                now = []
                continue
        now.append(line)
    blocks.append(now)
    return "\n".join(head), imports, ["\n".join(it).strip("\n") for it in blocks if any(line.strip() for line in it)]


def put_together(head, imports, blocks):
    return f"{head}\n" + "\n".join(imports) + "\n\n" + "\n\n".join(blocks) + "\n"


def libs(text):
    """The modules of a Lib.antt, each with the comment above it."""
    found, comment = {}, []
    for line in text.rstrip("\n").split("\n"):
        module = re.fullmatch(r"pub mod (\w+)", line)
        if module:
            found[module[1]] = "\n".join(comment)
            comment = []
        elif line.strip():
            comment.append(line)
    if comment:
        raise SystemExit(f"a comment of a Lib.antt stands above no module: {comment[0]}")
    return found


def lib_text(found):
    return "".join(f"{comment}\npub mod {module}\n" if comment else f"pub mod {module}\n" for module, comment in found.items())


def relist(root, crate, file, laws, comment, lib=None, gone=True):
    """Has the Lib.antt files of a crate say where the laws stand."""
    specs, proofs = f"{root}/crates/{crate}/specs/Lib.antt", f"{root}/crates/{crate}/proofs/Lib.antt"
    of_specs, of_proofs = libs(read(specs)), libs(read(proofs)) if os.path.exists(proofs) else {}
    if file in of_specs:
        comment = comment or of_specs[file]
        if gone:
            del of_specs[file]
        elif lib:
            of_specs[file] = lib
        write(specs, lib_text(of_specs))
    if laws not in of_proofs:
        # (behind the laws that were moved before, and before what stood there)
        moved = [it for it in of_proofs if it in MOVED[crate]]
        order = [*moved, laws, *(it for it in of_proofs if it not in moved)]
        of_proofs[laws] = comment
        write(proofs, lib_text({it: of_proofs[it] for it in order}))


MOVED = {}
for crate, _, laws in [*WHOLE, *((it.crate, it.file, it.laws) for it in SPLIT)]:
    MOVED.setdefault(crate, []).append(laws)


def move_whole(root, crate, file, laws):
    old, new = f"{root}/crates/{crate}/specs/{file}.antt", f"{root}/crates/{crate}/proofs/{laws}.antt"
    if not os.path.exists(old):
        if not os.path.exists(new):
            raise SystemExit(f"neither {old} nor {new} is there")
        return
    if os.path.exists(new):
        raise SystemExit(f"both {old} and {new} are there")
    write(new, read(old))
    os.remove(old)
    relist(root, crate, file, laws, None)
    print(f"{crate}: specs/{file} is proofs/{laws}")


def split(root, it):
    old, new = f"{root}/crates/{it.crate}/specs/{it.file}.antt", f"{root}/crates/{it.crate}/proofs/{it.laws}.antt"
    head, imports, blocks = parts_of(read(old))
    specs, laws, heading = [], [], None
    for block in blocks:
        names = declared(block)
        if not names and all(line.startswith("--") for line in block.split("\n")):
            # the heading of a part goes to each file that has something of the part
            heading = [block, False, False]
            continue
        if not names:
            raise SystemExit(f"{old}: a block that declares nothing: {block[:80]}")
        stays = it.stays(names)
        to = specs if stays else laws
        if heading and not heading[1 if stays else 2]:
            heading[1 if stays else 2] = True
            to.append(it.headings.get(heading[0], heading[0]) if stays else heading[0])
        to.append(block)
    if not laws:
        if not os.path.exists(new):
            raise SystemExit(f"{old} has no laws, and {new} is not there")
        return
    if os.path.exists(new):
        raise SystemExit(f"both {old} and {new} have laws")
    mine = f"Rattle.{it.crate}.specs.{it.file}"
    words = words_of("\n".join(laws))
    known = [name for block in specs for name in in_order(block) if is_named(name, words)]
    of_laws = used(imports, words)
    at = next((i for i, line in enumerate(of_laws) if line.startswith(f"use Rattle.{it.crate}.specs.declared.")), len(of_laws))
    write(new, put_together(it.head, [*of_laws[:at], *wrapped(mine, known), *of_laws[at:]], laws))
    write(old, put_together(it.specs_head or head, used(imports, words_of("\n".join(specs))), specs))
    relist(root, it.crate, it.file, it.laws, it.laws_lib, it.lib, gone=False)
    print(f"{it.crate}: the laws of specs/{it.file} are in proofs/{it.laws}")


def in_order(block):
    """The pub names of a block, in the order in which it declares them."""
    names = declared(block, only_pub=True)
    found = (DECLARED.match(line) for line in block.split("\n"))
    return list(dict.fromkeys(it[3] for it in found if it and it[3] in names and "pub" in it[2]))


def texts(root):
    for folder, dirs, files in os.walk(f"{root}/crates"):
        dirs[:] = sorted(it for it in dirs if it not in ("out", "must-fail", "data"))
        for name in sorted(files):
            if name.endswith((".antt", ".rt")):
                yield f"{folder}/{name}"


def reimport(root):
    """Rewrites the imports of each file."""
    whole = {f"Rattle.{crate}.specs.{file}": f"Rattle.{crate}.proofs.{laws}" for crate, file, laws in WHOLE}
    by_name = {
        f"Rattle.{it.crate}.specs.{it.file}": (
            f"Rattle.{it.crate}.proofs.{it.laws}",
            declared(read(f"{root}/crates/{it.crate}/proofs/{it.laws}.antt"), only_pub=True),
        )
        for it in SPLIT
    }
    for path in texts(root):
        was = text = read(path)
        for old, new in whole.items():
            text = re.sub(rf"(?<![\w.]){re.escape(old)}(?!\w)", new, text)
        lines = []
        has = {}
        for line in text.split("\n"):
            found = USE.match(line)
            if found:
                has.setdefault(found[2], set()).update(it.strip() for it in found[3].split(","))
        for line in text.split("\n"):
            found = USE.match(line)
            if not found or found[2] not in by_name:
                if any(f"{old}." in line or f"{old} as" in line for old in by_name) and not found:
                    raise SystemExit(f"{path}: a path into a file that is split, not in an import of names: {line}")
                lines.append(line)
                continue
            to, moved = by_name[found[2]]
            names = [it.strip() for it in found[3].split(",")]
            stay = [it for it in names if it.split(" as ")[0] not in moved]
            go = [it for it in names if it not in stay and it not in has.get(to, ())]
            for module, some in ((found[2], stay), (to, go)):
                if some:
                    lines.append(f"{found[1]}{module}.{{{', '.join(some)}}}{found[4]}")
        text = "\n".join(lines)
        crate, part = os.path.relpath(path, f"{root}/crates").split(os.sep)[:2]
        if part == "specs" and f"Rattle.{crate}.proofs." in text:
            raise SystemExit(f"{path}: a file of specs/ may not import from its own crate's proofs/")
        if text != was:
            write(path, text)


def refile(root):
    """Has the must-fail edits follow the statements that they change."""
    moves = [*WHOLE, *((it.crate, it.file, it.laws) for it in SPLIT)]
    for crate, file, laws in moves:
        folder = f"{root}/crates/{crate}/must-fail"
        for name in sorted(os.listdir(folder)) if os.path.isdir(folder) else []:
            text = read(f"{folder}/{name}")
            line = f"file: specs/{file}.antt\n"
            if line not in text:
                continue
            after = text.partition(line)[2].partition("\nfile: ")[0]
            olds = [it[len("old: ") :] for it in after.split("\n") if it.startswith("old: ")]
            there = f"{root}/crates/{crate}/specs/{file}.antt"
            stands = read(there) if os.path.exists(there) else ""
            moved = read(f"{root}/crates/{crate}/proofs/{laws}.antt")
            if not all(stands.count(it) == 1 for it in olds) and all(moved.count(it) == 1 for it in olds):
                write(f"{folder}/{name}", text.replace(line, f"file: proofs/{laws}.antt\n"))
                print(f"{crate}/must-fail/{name}: proofs/{laws}.antt")


def reword(path, pairs):
    was = text = read(path)
    for old, new in pairs:
        if old in text:
            text = text.replace(old, new)
        elif new not in text:
            print(f"{path}: it does not say: {old}", file=sys.stderr)
    if text != was:
        write(path, text)


def main():
    root = sys.argv[1] if len(sys.argv) > 1 else "."
    for crate, file, laws in WHOLE:
        move_whole(root, crate, file, laws)
    for it in SPLIT:
        split(root, it)
    reimport(root)
    refile(root)
    for crate, file, old, new in HEADS:
        reword(f"{root}/crates/{crate}/{file}", [(old, new)])
    reword(f"{root}/docs/READING.md", READING)


main()
