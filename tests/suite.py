#!/usr/bin/env python3
"""The YAML test suite through the command `saphyr-events`.

  tests/suite.py TOOL FOLDER

FOLDER is the suite's data: below it, in each folder that has `in.yaml` and `test.event`, the events that YAML 1.2 gives
for a text, or as far as it goes if there is a file `error` too, and the text must be refused. (Debian's source package
libyaml-pp-perl holds a copy, in `test-suite/yaml-test-suite-data`.) The suite writes anchors by name and marks flow
collections and `...`; events have numbers and no such marks, so these are taken out of its lines before they are compared.
Prints a line for each test that comes out otherwise, then the counts; ends with 1 if there is one.
"""
import os
import pathlib
import re
import subprocess
import sys

# What runs the command where the machine is not x86-64.
EMULATOR = os.environ.get("SAPHYR_EMULATOR", "").split()
RIGHT = ("the suite's events", "refused, as it must be")


def plain(lines):
    """The suite's lines in the command's notation: names become numbers, marks go."""
    names, count = {}, 0
    for line in lines:
        line = re.sub(r"^(\+MAP) \{\}|^(\+SEQ) \[\]|^(-DOC) \.\.\.", lambda m: m[m.lastindex], line)
        if line.startswith("+DOC"):
            names = {}
        alias = re.fullmatch(r"=ALI \*(.*)", line)
        anchor = re.match(r"(=VAL|\+MAP|\+SEQ) &(\S+)", line)
        if alias:
            line = f"=ALI *{names.get(alias[1], '?')}"
        elif anchor:
            count += 1
            names[anchor[2]] = count
            line = f"{anchor[1]} &{count}{line[anchor.end():]}"
        yield line


def verdict(tool, folder):
    done = subprocess.run([*EMULATOR, tool, "events", folder / "in.yaml"], capture_output=True, check=False)
    if done.returncode not in (0, 1):
        sys.exit(done.stderr.decode())
    said = done.stderr.decode().split("\n")[0]
    if (folder / "error").exists():
        return (RIGHT[1], "") if done.returncode else ("accepted, must be refused", "")
    if done.returncode:
        return "refused, must be accepted", said
    given = done.stdout.decode().split("\n")
    wanted = list(plain((folder / "test.event").read_text(encoding="utf-8").split("\n")))
    if given == wanted:
        return RIGHT[0], ""
    first = next(i for i, pair in enumerate(zip(given + [None], wanted + [None])) if pair[0] != pair[1])
    return "other events", f"{given[first:first + 1]} / {wanted[first:first + 1]}"


def main(tool, top):
    counts = {}
    for path in sorted(pathlib.Path(top).rglob("test.event")):
        name, words = verdict(tool, path.parent)
        counts[name] = counts.get(name, 0) + 1
        if name not in RIGHT:
            print(f"{path.parent.relative_to(top)}: {name}: {words}")
    print(f"{sum(counts.values())} tests")
    for name in sorted(counts):
        print(f"{name}: {counts[name]}")
    return 0 if counts and set(counts) <= set(RIGHT) else 1


if __name__ == "__main__":
    if len(sys.argv) != 3:
        sys.exit(__doc__)
    sys.exit(main(sys.argv[1], sys.argv[2]))
