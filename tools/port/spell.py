#!/usr/bin/env python3
"""Spells the repository's own definitions, lemmas and fields as today's Rattle spells its library's: words in snake case.

usage: tools/port/spell.py [FOLDER]

It runs once, straight after port.py, over the crates below FOLDER (here by default). A name that a file of specs/ or proofs/ declares
and that begins with a small letter or an operator loses its humps and its dashes: firstBad is first_bad, more-counted is more_counted.
A dash that joins an operator behind it stays, as in sum-+. A lemma that would meet a definition of its name gets _lem behind it.
Functions of src/, exported names, strings, inputs and outputs keep theirs. Types and modules are in camel case already.
It prints each name that changes, with the new one, and stops before it writes anything where two names of one crate would fall together.
"""

import collections
import os
import re
import sys

# A declaration: the words in front of it, its name, its parameters, its type.
HEADS = "abbrev|pub|unfoldable|record|data|ruleset"
DECLARED = re.compile(rf"(?m)^ *((?:(?:{HEADS}) )*)([^\s(){{}}\[\],;.:@\"«»]+)((?: [({{][^\n]*?[)}}])*) :(?= |$)")
RULESET = re.compile(r"(?m)^ *(?:pub )?ruleset ([^\s(){}\[\],;.:]+)")
WORD = re.compile(r"[^\s(){}\[\],;.@\"«»:`]+")
OPERATOR = re.compile(r"[^A-Za-z0-9_'-]")
COMMENT = re.compile(r"(?:(?<=\s)|^)--(?=\s|$)[^\n]*", re.M)
# Lemmas that port.py spelled with an underscore already, beside a definition that comes to the same name.
LEMMAS = {"line_gives", "with_rows"}
# Definitions of two crates that come to one name and meet in no file.
APART = {"inRow", "stepRow"}
# Fields of records, which meet a definition of their name in no file's scope.
FIELDS = {"of-clearing", "block-quantity", "block-zone", "step-period", "step-zone", "block-rule", "step-rule", "ratio-ok", "rent-at"}
# Names that are declared with no type on their line.
MORE = ("fault-bad", "fault-good", "none-gained", "r-fits")


def texts(root, *endings):
    for folder, dirs, files in os.walk(os.path.join(root, "crates")):
        dirs[:] = sorted(d for d in dirs if d not in ("out", "must-fail", "data"))
        for name in sorted(files):
            if name.endswith(endings):
                yield os.path.join(folder, name)


def read(path):
    with open(path, encoding="utf-8", newline="") as f:
        return f.read()


def spelled(name):
    """The name in snake case."""
    if name[0].isupper():
        return name
    words = re.sub(r"(?<=[a-z0-9])[A-Z]", lambda m: "_" + m[0].lower(), name)
    parts = words.split("-")
    new = parts[0]
    for part in parts[1:]:
        joins = bool(part) and OPERATOR.search(part) and not new.endswith(("of", "or"))
        new += ("-" if joins or not part or not new else "_") + part
    return new


def own(root):
    """Each declared name, with the crates that declare it; and which of them are lemmas by their spelling."""
    names = collections.defaultdict(set)
    for path in texts(root, ".antt"):
        rest = os.path.relpath(path, os.path.join(root, "crates")).split(os.sep)
        walk = rest[1] == "proofs" and len(rest) > 3
        text = COMMENT.sub("", read(path))
        for _, name, _ in DECLARED.findall(text):
            names[name].add((rest[0], walk))
        for name in RULESET.findall(text):
            names[name].add((rest[0], walk))
    return names


def table(root):
    names = own(root)
    shared = {n for n in names if any(not walk for _, walk in names[n])}
    shared.update(MORE)
    new = {n: spelled(n) for n in shared if spelled(n) != n}
    # a definition keeps the bare name, the lemma with a dash gets an ending
    taken = collections.defaultdict(list)
    for n in shared:
        taken[new.get(n, n)].append(n)
    for word, olds in sorted(taken.items()):
        if len(olds) > 1:
            lemmas = [n for n in olds if "-" in n] or [n for n in olds if n in LEMMAS]
            if len(olds) == 2 and set(olds) & (APART | FIELDS):
                continue
            if len(olds) != 2 or len(lemmas) != 1:
                sys.exit(f"spell: these fall together as {word}: {olds}")
            new[lemmas[0]] = word + "_lem"
            if new[lemmas[0]] in taken:
                sys.exit(f"spell: {new[lemmas[0]]} is there already")
    return new


def of_code(root):
    """The functions and locals of src/, as a walk over the code names what they give."""
    found = set()
    for path in texts(root, ".rt"):
        found.update(w.replace("_", "-") for w in re.findall(r"\b(?:fn|let|let mut) (\w+)", read(path)))
    return found


def turned(text, new, stays, comments):
    """The text with each word of the table in its new spelling. What a walk finds behind a dot by the name of a function stays."""

    def word(m):
        if m[0] in stays and m.start() > 0 and text[m.start() - 1] == ".":
            return m[0]
        return new.get(m[0], m[0])

    def piece(t):
        nonlocal text
        text = t
        return WORD.sub(word, t)

    out, at = [], 0
    for m in comments.finditer(text0 := text):
        out.append(piece(text0[at : m.start()]))
        said = m[0]
        said = re.sub(r"`([^`\n]+)`", lambda q: "`" + WORD.sub(lambda w: new.get(w[0], w[0]), q[1]) + "`", said)
        said = re.sub(r"(?<![\w`-])[a-z0-9]+(?:[A-Z][a-z0-9]*)+(?![\w`-])", lambda w: new.get(w[0], w[0]), said)
        out.append(said)
        at = m.end()
    out.append(piece(text0[at:]))
    return "".join(out)


def main(argv):
    root = argv[0] if argv else "."
    new = table(root)
    code = of_code(root)
    changed = 0
    for path in texts(root, ".antt", ".rt"):
        rest = os.path.relpath(path, os.path.join(root, "crates")).split(os.sep)
        walk = rest[1] == "proofs" and len(rest) > 3
        old = read(path)
        if path.endswith(".rt"):
            # clauses and ghost lines alone: code has no dashes in names and no humps in small words
            text = turned(old, new, (), re.compile(r"//[^\n]*|b?\"(?:\\.|[^\"\\])*\""))
        else:
            text = turned(old, new, code if walk else (), COMMENT)
        if text != old:
            changed += 1
            with open(path, "w", encoding="utf-8", newline="") as f:
                f.write(text)
    for n in sorted(new):
        print(n, new[n])
    print(f"spell: {len(new)} names, {changed} files", file=sys.stderr)


if __name__ == "__main__":
    main(sys.argv[1:])
