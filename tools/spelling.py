#!/usr/bin/env python3
"""spelling.py [FOLDER]: brings this repository's own definitions and lemmas to the spelling of today's Rattle.

Run once, behind the kit's port.py. tools/spelling.txt has a line for each name, old and new. It turns the crates' files,
the texts of the edits (must-fail and tests/edits) and the names in backticks of README and docs; functions of src/, strings
and prose stay. It says where a file had the new name before, since two names may have fallen together there."""
import glob
import os
import re
import sys

ROOT = os.path.abspath(sys.argv[1]) if len(sys.argv) > 1 else os.path.dirname(os.path.dirname(os.path.abspath(__file__)))
HERE = os.path.dirname(os.path.abspath(__file__))
NAMES = dict(l.split() for l in open(f"{HERE}/spelling.txt") if l.strip())
WORD = re.compile(r"[^\s(){}\[\],;.\"`λ⌜⌝]+")
QUOTED = re.compile(r'("(?:[^"\\]|\\.)*")')
# Stands before a name that is turned already.
ALIAS = "\1"
# These are lemmas of one crate and, elsewhere, something else of the same name: turned in that crate alone.
ONLY = {"read_at": "promises", "tidied": "run"}


# The rules' own choice by a test: the library has an `if` of its own now, and the gate takes no second one.
OWN_IF = ("if◌then◌else◌", "choose◌then◌else◌")


def chosen(text):
    return re.sub(r"(?<![\w'◌.-])if(?![\w'◌-])", "choose", text.replace(*OWN_IF))


def turned(text, crate):
    def new(m):
        word = m.group(0)
        if ONLY.get(word, crate) != crate:
            return word
        return NAMES.get(word, word)

    return WORD.sub(new, text)


def aliases(text):
    """The names that a file gives to modules it imports, in snake case: no other name is meant where one stands."""
    old = re.findall(r"^use \S+ as ([a-z][\w-]*)$", text, re.M)
    return {name: name.replace("-", "_") for name in old if "-" in name or name in NAMES}


def renamed(text, names):
    """A module's name stands in the line that imports it and in front of a dot."""
    if not names:
        return text
    one = "|".join(re.escape(n) for n in sorted(names, key=len, reverse=True))
    text = re.sub(rf"^(use \S+ as )({one})$", lambda m: m.group(1) + ALIAS + names[m.group(2)], text, flags=re.M)
    return re.sub(rf"(?<![\w.'-])({one})\.(?=[\w«])", lambda m: ALIAS + names[m.group(1)] + ".", text)


def camel(text):
    """In prose only the names that no prose has."""
    return re.sub(r"\b[a-z]+[A-Z]\w*\b", lambda m: NAMES.get(m.group(0), m.group(0)), text)


def prose(text, crate):
    parts = re.split(r"(`[^`\n]*`)", text)
    return "".join(turned(p, crate) if i % 2 else camel(p) for i, p in enumerate(parts))


def line(text, crate, mark):
    """A line of a file: code, and behind `mark` a comment."""
    at = text.find(mark)
    while at > 0 and text[:at].count('"') % 2:
        at = text.find(mark, at + 1)
    code, comment = (text, "") if at < 0 else (text[:at], text[at:])
    if crate in ("rules", "parser", "run") and (mark == "--" or re.match(r"\s*(ghost use|ensures|requires)\b", code)):
        code = chosen(code)
    parts = QUOTED.split(code)
    return "".join(p if i % 2 else turned(p, crate) for i, p in enumerate(parts)) + prose(comment, crate)


def tight(text):
    """A projection is written tight, without the parentheses that it had; a shared slice's entry value is its `now`."""
    text = re.sub(r"\(now \((\w+) \.entry\)\)", r"\1.now", text).replace("\u2032", "'")
    text = re.sub(r"(?<=[\w)]) \.(?=[a-z])", ".", text)
    return re.sub(r"(?<![\w'])\((\w+(?:\.\w+)+)\)", r"\1", text)


def edit(text, crate):
    out, mark = [], "\0"
    for l in text.split("\n"):
        if l.startswith("file:"):
            mark = "--" if l.endswith(".antt") else "\0"
        m = re.match(r"(old|new): ?", l)
        out.append(tight(line(l, crate, mark)) if m else prose(l, crate))
    return "\n".join(out)


def crate_of(path):
    return os.path.relpath(path, ROOT).split(os.sep)[1]


def write(path, new, old):
    if new != old:
        open(path, "w").write(new)
    return new != old


def main():
    changed = 0
    for end, mark in (("antt", "--"), ("rt", "//")):
        for path in sorted(glob.glob(f"{ROOT}/crates/**/*.{end}", recursive=True)):
            if "/out/" in path:
                continue
            old = open(path).read()
            crate = crate_of(path)
            had = set(WORD.findall(old))
            for name in sorted(had & set(NAMES)):
                if ONLY.get(name, crate) == crate and NAMES[name] in had:
                    print(f"look: {os.path.relpath(path, ROOT)}: {name} became {NAMES[name]}, which the file had")
            text = renamed(old, aliases(old)) if end == "antt" else old
            changed += write(path, "\n".join(line(l, crate, mark) for l in text.split("\n")).replace(ALIAS, ""), old)
    for path in sorted(glob.glob(f"{ROOT}/crates/*/must-fail/*.edit") + glob.glob(f"{ROOT}/tests/edits/*/*.edit")):
        old = open(path).read()
        crate = crate_of(path) if "/crates/" in path else path.split(os.sep)[-2]
        changed += write(path, edit(old, crate), old)
    for path in [f"{ROOT}/README.md", f"{ROOT}/tests/README.md"] + sorted(glob.glob(f"{ROOT}/docs/*.md")):
        old = open(path).read()
        changed += write(path, prose(old, None), old)
    print(f"spelling.py: {changed} files changed")


main()
