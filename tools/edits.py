#!/usr/bin/env python3
"""edits.py [--all] [NAME | NAME/EDIT]..: tries edits that must be refused and that the gate leaves out; all, or the named ones.

tests/edits/CRATE/EDIT.edit is an edit of that crate, in the form of crates/CRATE/must-fail, and the check of the crate must
refuse it; --all takes those of must-fail too. tests/edits/across/EDIT.edit is an edit of one crate that another must refuse:
its line `crate:` names the first, which must still be proved, and `refused by:` the second, which must not. All is tried in a
copy outside the repository, over what earlier checks kept in crates/*/out. What rt said is left in target/edits. One that is
refused only for a name that it took away counts as not refused. Exits 1 if an edit is not refused."""
import glob
import os
import re
import shutil
import subprocess
import sys
import tempfile

ROOT = os.path.dirname(os.path.dirname(os.path.abspath(__file__)))
KEEP = f"{ROOT}/target/edits"
# What rt keeps of a crate for the next check, below its out/.
KEPT = ("incremental", "rlib")
# A message that says no more than that a name is gone.
NAMES = re.compile(r"has no field|is not in scope|has no `|was not admitted|(was|were) rejected|is no name")


def crate_of(path):
    return path.split(os.sep)[-3 if path.split(os.sep)[-2] == "must-fail" else -2]


def wanted(path, names):
    """Whether an edit is one of those named: its folder, or its folder and name; with none named, every one is."""
    name = os.path.basename(path)[: -len(".edit")]
    return not names or crate_of(path) in names or f"{crate_of(path)}/{name}" in names


def below(crates):
    """These crates and those that they stand on, by crates.txt."""
    text = open(f"{ROOT}/crates.txt").read()
    uses = {name: deps.split() for name, deps in re.findall(r"^(\w+)[^:#\n]*:(.*)$", text, re.M)}
    found, left = set(), list(crates)
    while left:
        crate = left.pop()
        if crate in uses and crate not in found:
            found.add(crate)
            left += uses[crate]
    return found


def linked(one, other):
    """As rt copies what it kept: a check replaces what was proved, and changes none of it, so that a link serves."""
    if one.endswith(".oantt"):
        try:
            return os.link(one, other)
        except OSError:
            pass
    return shutil.copy2(one, other)


def copied(to, crates):
    """The crates without their edits, and what earlier checks kept of those that are needed."""
    shutil.copytree(f"{ROOT}/crates", f"{to}/crates", ignore=shutil.ignore_patterns("must-fail", "out"))
    shutil.copy(f"{ROOT}/crates.txt", to)
    for crate in below(crates):
        for part in KEPT:
            kept = f"{ROOT}/crates/{crate}/out/{part}"
            if os.path.isdir(kept):
                shutil.copytree(kept, f"{to}/crates/{crate}/out/{part}", copy_function=linked)


def run(folder, name, *words):
    """What rt said, which is left in target/edits too, and its status."""
    ran = subprocess.run(["rt", *words], cwd=folder, stdout=subprocess.PIPE, stderr=subprocess.STDOUT, text=True, errors="replace")
    os.makedirs(KEEP, exist_ok=True)
    with open(f"{KEEP}/{name}.out", "w", encoding="utf-8") as kept:
        kept.write(ran.stdout)
    return ran.stdout, ran.returncode


def inside(paths, to):
    """Edits of one crate each: rt applies and judges them."""
    for path in paths:
        os.makedirs(f"{to}/crates/{crate_of(path)}/must-fail", exist_ok=True)
        shutil.copy(path, f"{to}/crates/{crate_of(path)}/must-fail")
    said, _ = run(to, "must-fail", "must-fail", *sorted({crate_of(p) for p in paths}))
    judged = [l for l in said.split("\n") if l.startswith("rt: must-fail ")]
    print("\n".join(judged) if judged else said[-3000:], flush=True)
    good = [l for l in judged if ": refused, as it must be" in l and "(only because a proof file names" not in l]
    return len(paths) - len(good)


def applied(text, to):
    """The edit of one crate in the copy, by its lines `file:`, `old:` and `new:`."""
    crate = re.search(r"^crate: (.*)$", text, re.M).group(1)
    pairs = re.findall(r"^(file|old|new): ?(.*)$", text, re.M)
    for kind, value in pairs:
        if kind == "file":
            path = f"{to}/crates/{crate}/{value}"
        elif kind == "old":
            old = value
        else:
            whole = open(path, encoding="utf-8").read()
            if whole.count(old) != 1:
                sys.exit(f"edits.py: {path}: the text is there {whole.count(old)} times, not once: {old}")
            with open(path, "w", encoding="utf-8") as it:
                it.write(whole.replace(old, value))
    return crate


def across(path, to):
    """An edit that its own crate takes and another must not."""
    text = open(path, encoding="utf-8").read()
    by = re.search(r"^refused by: (.*)$", text, re.M).group(1)
    name = os.path.basename(path)[: -len(".edit")]
    copied(to, [by])
    crate = applied(text, to)
    said, status = run(f"{to}/crates/{crate}", f"{name}.{crate}", "lib")
    if status:
        print(f"edits.py: across/{name}: {crate} is NOT PROVED with it; rt said:\n{said[-3000:]}", flush=True)
        return 1
    said, status = run(f"{to}/crates/{by}", f"{name}.{by}", "check")
    errors = re.findall(r"^(?:note: )?(?:\./)?((?:src|specs|proofs)/\S+:\d+:\d+): (?:error: |(?=it is not proved ))(.*)$", said, re.M)
    errors = [(at, why) for at, why in errors if not NAMES.search(why)]
    refused = status == 1 and re.search(r"^logic=not-proved", said, re.M) and "did not build" not in said
    if not (refused and errors):
        print(f"edits.py: across/{name}: NOT REFUSED by {by} alone; rt said:\n{said[-3000:]}", flush=True)
        return 1
    at, why = errors[0]
    print(f"edits.py: across/{name}: {crate} is proved with it, and {by} refuses it (first at {by}/{at}: {why[:200]})", flush=True)
    return 0


def main():
    words = [w for w in sys.argv[1:] if w != "--all"]
    paths = glob.glob(f"{ROOT}/tests/edits/*/*.edit")
    if "--all" in sys.argv[1:]:
        paths += glob.glob(f"{ROOT}/crates/*/must-fail/*.edit")
    paths = sorted(p for p in paths if wanted(p, words))
    if not paths:
        sys.exit("edits.py: there is no such edit")
    shutil.rmtree(KEEP, ignore_errors=True)
    ours = [p for p in paths if crate_of(p) != "across"]
    bad = 0
    if ours:
        with tempfile.TemporaryDirectory() as to:
            copied(to, [crate_of(p) for p in ours])
            bad += inside(ours, to)
    for path in (p for p in paths if crate_of(p) == "across"):
        with tempfile.TemporaryDirectory() as to:
            bad += across(path, to)
    print(f"edits.py: {len(paths) - bad} refused, {bad} not")
    return 1 if bad else 0


sys.exit(main())
