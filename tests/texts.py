#!/usr/bin/env python3
"""Short token lists as YAML text, through libfyaml, event by event.

  tests/texts.py LISTS [N]

LISTS is the command `lists` of the host. `lists texts` writes every short list over small alphabets, and N longer ones
(40000), as YAML text, with the Rust's answer to the list and what the published scanner makes of the text: the same tokens,
the same but for a flow mapping put around a single pair, a refusal, or other tokens; the last are left out here. libfyaml's
`fy-tool` reads the text. Kinds, `---`, values, styles, tags and anchors are compared; an alias without an anchor in its
document is refused for libfyaml, whose events do not judge it. Prints the classes of texts on which the two differ, each
with its shortest text and the number or the letter under which docs/DIFFERENCES.md explains it, then the counts; ends with 1
if a text is not explained there. Needs Debian's libfyaml-utils; takes some five minutes.
"""
import collections
import concurrent.futures
import json
import os
import re
import subprocess
import sys

from suite import plain

# What runs the command where the machine is not x86-64.
EMULATOR = os.environ.get("SAPHYR_EMULATOR", "").split()
TOOL = ["fy-tool", "--json", "no", "--testsuite", "-"]
OURS, THEIRS, DIFFER = "only the machine refuses", "only libfyaml refuses", "differ"
# Of each explained difference: where the page has it, the verdict, what its words and what the list have. In the list what
# stands right in a flow sequence is in small letters.
EXPLAINED = [
    ("1 to 3", OURS, r"", r"key (fse|fen|val)"),
    ("4", OURS, r"^8$", r"(FSS|fen) val"),
    ("5", THEIRS, r"bracket|comma|flow sequence end|missing document start", r"key (fse|fen fen|val val)"),
    ("24", DIFFER, r"", r"key fen val"),
    ("a", OURS, r"^[2-7]$", r"(?<!SS) BOM"),
    ("a", THEIRS, r"missing document start", r"(?<!SS) BOM"),
    ("a", DIFFER, r"\ufeff|\+DOC", r"(?<!SS) BOM"),
    ("b", OURS, r"^2$", r"(VD|TD\S*|RD) (?!VD|TD|RD|DS)"),
    ("c", OURS, r"^([689]|1[0-2])$", r"RD"),
    ("d", THEIRS, r"expected node content", r"ENT (ENT|KEY|VAL|BE)"),
    ("e", THEIRS, r"expected (node content|key)", r"KEY( (ANC|TAG)\S*)* ENT"),
    ("f", THEIRS, r"expected key", r"VAL( (ANC|TAG)\S*)* (BMS|BSS|ENT) .*KEY .*BE VAL"),
    ("f", DIFFER, r"/ =VAL :$", r"KEY( (ANC|TAG)\S*)* (BMS|BSS|ENT) .*KEY .*BE .*VAL"),
    ("g", THEIRS, r"missing document start", r"(SS|DE)( (ANC|TAG)\S*)+ SCA\S*:[34]"),
    ("h", DIFFER, r"<!>", r"TD\(!,.*TAG\(,!\)"),
    ("i", OURS, r"^13$", r"TAG\(!\d"),
]


def small(names):
    """The list with small letters for the tokens that stand right in a flow sequence."""
    inside, out = [], []
    for name in names.split():
        lower = inside[-1:] == ["FSS"] and name in ("KEY", "VAL", "FEN", "FSE")
        out.append(name.lower() if lower else name)
        if name in ("FSS", "FMS"):
            inside.append(name)
        elif name in ("FSE", "FME"):
            inside = inside[:-1]
    return " ".join(out)


def explained(given, name, words):
    for where, verdict_, has, holds in EXPLAINED:
        if name == verdict_ and re.search(has, words) and re.search(holds, small(given["list"])):
            return where
    return "NOT EXPLAINED"


def libfyaml(text):
    """The events in the command's notation, and the message if the text was refused behind them."""
    done = subprocess.run(TOOL, input=text.encode(), capture_output=True, check=False)
    events = list(plain(done.stdout.decode().splitlines()))
    if done.returncode:
        said = re.search(r"error: (.*)", done.stderr.decode())
        return events, said[1] if said else f"ended by {done.returncode}"
    return events, "undefined alias" if "=ALI *?" in events else None


def verdict(given, events, message):
    """One of: same, both refuse, or how the two differ."""
    if given["number"] and message:
        return "both refuse", ""
    if given["number"] or message:
        return (OURS, str(given["number"])) if given["number"] else (THEIRS, message)
    for pair in zip(given["events"], events):
        if pair[0] != pair[1]:
            return DIFFER, f"{pair[0]} / {pair[1]}"
    return ("same", "") if len(given["events"]) == len(events) else (DIFFER, "one has more events")


def judged(line):
    """A line of `lists texts`, with the verdict if it has a text that stands for its list."""
    given = json.loads(line)
    if "text" not in given or given["scanned"] == "other":
        return given, None, ""
    return given, *verdict(given, *libfyaml(given["text"]))


def main(lists, count):
    counts, classes = collections.Counter(), {}
    made = subprocess.run([*EMULATOR, lists, "texts", "--count", count], stdout=subprocess.PIPE, check=True)
    with concurrent.futures.ThreadPoolExecutor(os.cpu_count()) as pool:
        for given, name, words in pool.map(judged, made.stdout.decode().splitlines()):
            if "lists" in given:
                print(f"{given['plan']}: {given['lists']} lists, {given['textless']} without a text")
                continue
            counts["texts"] += 1
            counts["scanned: " + given["scanned"]] += 1
            counts[name or "left out"] += 1
            if name in (OURS, THEIRS, DIFFER):
                classes.setdefault((explained(given, name, words), name), []).append((given, words))
    for (where, name), found in sorted(classes.items()):
        given, words = min(found, key=lambda pair: len(pair[0]["text"]))
        print(f"{where}: {name}: {len(found)}, such as {given['text']!r} ({given['list']}): {words}")
    for name in sorted(counts):
        print(f"{name}: {counts[name]}")
    return 1 if not counts or any(where == "NOT EXPLAINED" for where, _ in classes) else 0


if __name__ == "__main__":
    if len(sys.argv) not in (2, 3):
        sys.exit(__doc__)
    sys.exit(main(sys.argv[1], (sys.argv[2:] or ["40000"])[0]))
