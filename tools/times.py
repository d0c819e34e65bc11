#!/usr/bin/env python3
"""times.py: seconds of the last gate, from target/: when in its `rt ci` the proof of each crate came, with how many edits that
crate has, and the parts of the gate. `rt ci` proves crates side by side and does not say how long each took; what it kept from
earlier runs is `kept`.

times.py --note FILE: how the gate keeps that: copies its input, and writes rt's own lines to FILE with the second of each."""
import os
import re
import sys
import time

ROOT = os.path.dirname(os.path.dirname(os.path.abspath(__file__)))
TARGET = f"{ROOT}/target"


def note(path):
    since = time.monotonic()
    with open(path, "wb") as kept:
        for line in sys.stdin.buffer:
            sys.stdout.buffer.write(line)
            sys.stdout.buffer.flush()
            if line.startswith(b"rt: "):
                kept.write(b"%6d  " % (time.monotonic() - since) + line)
    return 0


def crates():
    text = open(f"{ROOT}/crates.txt").read()
    return re.findall(r"^(\w+)[^:#\n]*:", text, re.M)


def came(said, pattern):
    """The second of a line, if it is there."""
    m = re.search(rf"^ *(\d+)  rt: {pattern}", said, re.M)
    return int(m.group(1)) if m else None


def main():
    if not os.path.exists(f"{TARGET}/ci"):
        sys.exit("times.py: no gate has passed here: there is no target/ci")
    said = open(f"{TARGET}/ci", encoding="utf-8", errors="replace").read()
    print(f"{'crate':14}{'proved at':>10}{'edits':>7}{'of them kept':>14}")
    edits, earlier = 0, 0
    for crate in crates():
        at = came(said, rf"{crate} proved$")
        proved = "kept" if at is None and came(said, rf"{crate} is kept:") is not None else "-" if at is None else at
        tried = len(re.findall(rf"^ *\d+  rt: must-fail {crate}/", said, re.M))
        m = re.search(rf"rt: {crate}: (\d+) of its \d+ must-fail edits were tried by an earlier run", said)
        kept = int(m.group(1)) if m else 0
        print(f"{crate:14}{proved:>10}{tried:>7}{kept:>14}")
        edits += tried
        earlier += kept
    print(f"{'all':14}{'':>10}{edits:>7}{earlier:>14}")
    if os.path.exists(f"{TARGET}/gate"):
        print("\nparts of the gate, seconds\n" + open(f"{TARGET}/gate").read(), end="")
    return 0


sys.exit(note(sys.argv[2]) if sys.argv[1:2] == ["--note"] and len(sys.argv) == 3 else main())
