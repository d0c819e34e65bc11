#!/usr/bin/env python3
"""YAML files that nobody here wrote, through the command `saphyr-events` and through PyYAML, event by event.

  tests/outside.py TOOL FOLDER...

TOOL is the command. Every file below the folders whose name ends in .yaml or .yml is taken, each content once. Kinds,
`---`, values, styles, tags and anchors are compared; an anchor is its number in the stream, as the command has it.
Prints a line for each file on which the two differ, with the letter under which docs/DIFFERENCES.md ("PyYAML does
otherwise") explains it, then the counts; ends with 1 if one is not explained there. Needs Debian's python3-yaml.
"""
import hashlib
import json
import os
import pathlib
import re
import subprocess
import sys

import yaml

# What runs the command where the machine is not x86-64.
EMULATOR = os.environ.get("SAPHYR_EMULATOR", "").split()
LOADER = getattr(yaml, "CSafeLoader", yaml.SafeLoader)
STYLES = {None: "plain", "": "plain", "'": "single", '"': "double", "|": "literal", ">": "folded"}

OURS, THEIRS, DIFFER = "only the command refuses", "only PyYAML refuses", "differ"
# Of each explained difference: its letter, the verdict, what its words have and what the text has.
EXPLAINED = [
    ("a", DIFFER, r"", r"&[^\s,\[\]{}]*:\s"),
    ("b", OURS, r"refused by 6:", r"^%"),
    ("c", OURS, r"refused by 2[67]:", r""),
    ("d", THEIRS, r"found incompatible YAML document", r"^%YAML"),
    ("e", THEIRS, r"while scanning a directive", r"^%"),
    ("f", THEIRS, r"found a tab character where an indentation space is expected", r"^ *\t"),
    ("g", THEIRS, r"did not find expected (key|node content)", r"(^|[-?\[{,]) *:\s"),
    ("h", THEIRS, r"did not find expected node content", r"[\[{,] *::"),
    ("i", THEIRS, r"parsing a flow mapping", r"[{,][^,}]*\n[^,}]*:"),
    ("j", THEIRS, r"expected <document start>", r"^--- [|>]\n\S"),
    ("k", OURS, r"by the scanner: invalid indentation( in flow construct)?$", r"[\[{]"),
    ("l", OURS, r"by the scanner: invalid indentation in quoted scalar$", r"['\"]"),
    ("m", DIFFER, r"'style': '(literal|folded)'", r"[^\n]\Z"),
    ("n", THEIRS, r"while scanning a tag", r"[\[{,] *!\S*[\]},]"),
    ("o", THEIRS, r"found character that cannot start any token", r"^ *[-?:]\t"),
]


def explained(name, words, text):
    for letter, verdict_, has, holds in EXPLAINED:
        if name == verdict_ and re.search(has, words) and re.search(holds, text, re.M):
            return letter
    return None


class Refused(Exception):
    """PyYAML, or its composer's rule about aliases, refuses the text here."""


def files(folders):
    """Each content once, in the order of the names."""
    seen = set()
    for folder in folders:
        for path in sorted(pathlib.Path(folder).rglob("*")):
            if path.suffix in (".yaml", ".yml") and path.is_file():
                digest = hashlib.sha256(path.read_bytes()).digest()
                if digest not in seen:
                    seen.add(digest)
                    yield path


class Anchors:
    """Names as the composer has them: of this document only. Numbers run on over the stream."""

    def __init__(self):
        self.count, self.names = 0, {}

    def of(self, event):
        if isinstance(event, yaml.AliasEvent):
            if event.anchor not in self.names:
                raise Refused(f"undefined alias {event.anchor}")
            return {"anchor": self.names[event.anchor]}
        if getattr(event, "anchor", None) is None:
            return {}
        self.count += 1
        self.names[event.anchor] = self.count
        return {"anchor": self.count}


def object_of(event, anchors):
    """An event of PyYAML as the command's --json writes it."""
    given = {"event": type(event).__name__.removesuffix("Event")} | anchors.of(event)
    if isinstance(event, yaml.DocumentStartEvent):
        anchors.names = {}
        given["explicit"] = bool(event.explicit)
    if getattr(event, "tag", None) is not None:
        given["tag"] = event.tag
    if isinstance(event, yaml.ScalarEvent):
        given["style"], given["value"] = STYLES[event.style], event.value
    return given


def pyyaml(text):
    """The events, and whether the text was refused behind them."""
    anchors, events = Anchors(), []
    try:
        for event in yaml.parse(text, Loader=LOADER):
            events.append(object_of(event, anchors))
    except (yaml.YAMLError, Refused) as error:
        return events, " ".join(str(error).split())
    return events, None


def command(tool, path):
    done = subprocess.run([*EMULATOR, tool, "events", "--json", "--", path], capture_output=True, check=False)
    if done.returncode not in (0, 1):
        sys.exit(done.stderr.decode())
    events = [json.loads(line) for line in done.stdout.decode().splitlines()]
    return events, done.stderr.decode().split("\n")[0] if done.returncode else None


def verdict(ours, theirs):
    """One of: same, both refuse, or how the two differ."""
    (our_events, our_end), (their_events, their_end) = ours, theirs
    if our_end and their_end:
        return "both refuse", ""
    if our_end or their_end:
        return OURS if our_end else THEIRS, our_end or their_end
    for index, pair in enumerate(zip(our_events, their_events)):
        if pair[0] != pair[1]:
            return DIFFER, f"event {index}: {pair[0]} / {pair[1]}"
    same = len(our_events) == len(their_events)
    return ("same", "") if same else (DIFFER, "one has more events")


def main(tool, folders):
    counts, events, documents, open_ = {}, 0, 0, 0
    for path in files(folders):
        ours, given = command(tool, path), path.read_bytes()
        name, words = verdict(ours, pyyaml(given))
        counts[name] = counts.get(name, 0) + 1
        events += len(ours[0])
        documents += sum(event["event"] == "DocumentStart" for event in ours[0])
        if name in (OURS, THEIRS, DIFFER):
            letter = explained(name, words, given.decode(errors="replace"))
            open_ += letter is None
            print(f"{path}: {name}: {words}: {f'see {letter}' if letter else 'NOT EXPLAINED'}")
    print(f"{sum(counts.values())} files, {documents} documents, {events} events")
    for name in sorted(counts):
        print(f"{name}: {counts[name]}")
    return 1 if open_ or not counts else 0


if __name__ == "__main__":
    if len(sys.argv) < 3:
        sys.exit(__doc__)
    sys.exit(main(sys.argv[1], sys.argv[2:]))
