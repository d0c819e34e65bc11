#!/usr/bin/env python3
"""prove.py CRATE FUNCTION[=NAME,NAME..] ..: writes proofs/FUNCTION/Answers.antt for functions with no loop.

FUNCTION is the folder of its proof, as Machine/stream_start; the names are the definitions to unfold in its answers. `rt check
--start` says which goals the function has left, and what is known at each; those it proves by itself are not written. Each return
is one `simp` over the way that led there: what each call ensures, which case a match found, which test held, the last first.
What a call ensures is read from left to right, but where its result is matched or tested at once.
The name `~` has each return follow its rule by the laws of proofs/By.antt instead, one for each test on the way, with a
`simp` only at the end: for steps whose rule is too large for one `simp`. `=by_over` is for a plan: where it is a node it ends in
that law, and it stands in the list. A name `+MODULE.law` adds a law of the crate's proofs to each `simp`, `^pre` what the
function requires. --with FILE gives answers to goals, a line each: FUNCTION GOAL TERM. A goal that none of this answers is left
with its hole, and is named; then `rt check --only FUNCTION` in the crate's folder says what is left to do by hand, and `rt tidy`
lays the file out."""
import os
import re
import subprocess
import sys

ROOT = os.path.dirname(os.path.dirname(os.path.abspath(__file__)))
# The law for each case of a call that is matched: of the case that goes on, and of the other; with the places left open
# behind what is lent and the machine.
LAWS = {
    "read_token": (("by_look", 4), ("by_none", 4)),
    "find_id": (("by_known", 6), ("by_unknown", 6)),
    "find_place": (("by_registered", 3), ("by_unregistered", 3)),
    "resolve_tag": (("by_tagged", 5), ("by_untagged", 5)),
}
# The law for a call whose value the rule goes on with.
VALUES = {"skip_first": ("by_first", 4)}
TESTS = {"is": ("by_is", 6), "not": ("by_not", 6), "yes": ("by_yes", 5), "no": ("by_no", 5), "room": ("by_room", 5), "full": ("by_full", 5)}
# The modules whose names an answer may use, beside the definitions that it unfolds.
HOMES = [
    ("native.Mathlib.Omega", ("arith",)),
    ("native.Mathlib.Numerals", ("add-one",)),
    ("mathlib.Core.Path", ("refl", "sym", "◌∙◌")),
    ("borrow.Author.Tests", ("ne_eqb", "lt-ltb", "le-ltb")),
    ("Rattle.records.proofs.TokenLaws", ("inside",)),
]


class Goal:
    def __init__(self, name):
        self.name, self.text, self.steps = name, "", []

    def of(self, start):
        """The last step whose name begins so, and where it stands."""
        found = [i for i, (step, _) in enumerate(self.steps) if re.match(start, step)]
        return found[-1] if found else None


def goals(said):
    """The goals that `rt check --start` prints, each with the steps that led to it, the first one first, and their fields."""
    found, goal, part, fields = {}, None, None, {}
    for line in said.split("\n"):
        at = re.match(r"\S+?/Answers\.antt:\d+:\d+: goal \? in `([^`]+)`", line)
        if at:
            goal, part = Goal(at[1]), "text"
            found[at[1]] = goal
        elif goal is None or not line.startswith(" "):
            goal = None
        elif line.strip().startswith("names you can use"):
            all_of = re.search(r"use: as in `([^`]+)` above", line)
            goal.steps = found[all_of[1]].steps if all_of else []
            part = "steps"
        elif line.strip().startswith("the newest fields"):
            part = None
        elif part == "text":
            goal.text += " " + line.strip()
        elif part == "steps":
            line = line.strip()
            like = re.match(r"as in `([^`]+)` above, as far as (\S+)", line)
            step = re.match(r"(c(?:\.\S+)?): (.*)", line)
            if like:
                before = found[like[1]].steps
                last = [step for step, _ in before].index(like[2])
                goal.steps = before[: last + 1]
            elif step:
                same = re.match(r"same as (\S+)", step[2])
                fields[step[1]] = fields.get(same[1], "") if same else step[2]
                goal.steps = [*goal.steps, (step[1], fields[step[1]])]
    return list(found.values())


def called(step):
    """The function that a step calls: its name less what tells it from others, as `-ahead`, `-2`, `-then-..`."""
    return re.match(r"c\.([A-Za-z0-9_]+)", step)[1]


def is_call(step, fields):
    return ".result" in fields and ".ensures" in fields


def is_case(step):
    return re.match(r"c\.in[-_]", step)


def is_test(step):
    return step.startswith("c.if-")


def asked(steps, i):
    """Whether the call's result is matched or tested at once."""
    if i + 1 == len(steps):
        return False
    after = steps[i + 1][0]
    return bool(is_case(after)) or (is_test(after) and after[len("c.if-") :].startswith(called(steps[i][0])))


def told(step, fields):
    """What a case or a test tells, as an equation for simp, and which law of a chain it asks for."""
    if is_case(step):
        return f"{step}.is", None
    held = ".true" in fields
    fact = f"{step}.{'true' if held else 'false'}"
    kind = re.search(r"-(eq|lt|gt)-", step)
    if not kind:
        return fact, "yes" if held else "no"
    if kind[1] == "eq":
        return (fact, "is") if held else (f"ne_eqb _ _ {fact}", "not")
    # `a > b` holds as `b < a`
    return (f"lt-ltb _ _ {fact}", "room") if held else (f"le-ltb _ _ {fact}", "full")


def ensured(step, sums):
    """What a call ensures; where a sum was made for it, the rules have `suc at` for its contract's `at + 1`."""
    return f"(rw add-one at {step}.ensures)" if step in sums else f"{step}.ensures"


def summed(found):
    """The calls that come right behind a sum: each goal that a sum fits stands where its last step stands."""
    sums = set()
    for goal in found:
        if goal.name.startswith("overflow_add-"):
            steps = [step for step, _ in goal.steps if step != "c.type_inv"]
            for other in found:
                names = [step for step, _ in other.steps]
                if names[: len(steps)] == steps:
                    after = [(s, f) for s, f in other.steps[len(steps) :] if is_call(s, f)]
                    # the token ahead, and what goes on from there
                    sums |= {s for s, _ in after if called(s) in ("read_token", "node", "entry_at", "document_end_at")}
    return sums


def way(goal, sums, extra):
    """The facts on the way to a goal, the last first."""
    out = []
    for i in reversed(range(len(goal.steps))):
        step, fields = goal.steps[i]
        if is_case(step) or is_test(step):
            out.append(told(step, fields)[0])
        elif is_call(step, fields):
            back = asked(goal.steps, i)
            out.append("← " + ensured(step, sums) if back else ensured(step, sums))
    out += [f"← c.requires.{e[1:]}" if e[1:] else "← c.requires" for e in extra if e[0] == "^"]
    return out + [e.split(".")[-1] for e in extra if e[0] == "+"]


def simp(facts):
    return f"simp ({', '.join(['add-one', *facts])})"


def inside(goal):
    """The place of the token last read lies in the list, whose length is a number: so the next place is one too."""
    at = goal.of(r"c\.in-Token")
    read = next((s for s, _ in reversed(goal.steps[:at]) if called(s) == "read_token"), None) if at is not None else None
    if not read:
        return None
    return f"let tokens = c.well_formed.1.0 in\n    omega (arith, inside _ _ _ {read}.ensures {goal.steps[at][0]}.is, tokens)"


def chained(goal, sums, extra):
    """The return of a step by the laws of By: one law for each test on the way, the first outermost, then the leaf."""
    lent = re.search(r"\blent ((?:\S+ ){4}\S+?)\)", goal.text)
    if not lent:
        return None
    whom = f"(lent {lent[1]}) c.args.self"
    law = lambda name, open_, facts: f"{name} {whom}{' _' * open_} {facts}"
    steps, leaf, node = [], [], None
    for i, (step, fields) in enumerate(goal.steps):
        if is_case(step):
            call = goal.steps[i - 1][0]
            cases = LAWS.get(called(call))
            if not cases:
                return None
            other = step.startswith("c.in_default")
            steps.append(law(*cases[other], f"{ensured(call, sums)} {step}.is"))
            if other:
                leaf.append(f"{step}.is")
            elif called(call) == "read_token":
                node = call, step
        elif is_test(step):
            fact, kind = told(step, fields)
            fact = fact.split(" ")[-1]
            before = goal.steps[i - 1][0]
            if kind in ("yes", "no"):
                fact = f"{before}.ensures {fact}" if asked(goal.steps, i - 1) else f"refl {fact}"
            steps.append(law(*TESTS[kind], fact))
        elif is_call(step, fields) and not asked(goal.steps, i):
            if called(step) in VALUES:
                steps.append(law(*VALUES[called(step)], ensured(step, sums)))
            else:
                leaf.append(ensured(step, sums))
    leaf = leaf[::-1]
    last = next((s for s, f in reversed(goal.steps) if is_call(s, f)), None)
    own = next((e[1:] for e in extra if e[0] == "="), None)
    if own and last and called(last) == "node" and node:
        call, case = node
        rest = f"{ensured(last, sums)}" if own == "by_here" else f"_ {ensured(last, sums)}"
        body = law(own, 3, f"{ensured(call, sums)} {case}.is {rest}")
        stands = f"rw {last}.ensures (inside _ _ _ {call}.ensures {case}.is)"
    else:
        leaf += [f"← c.requires.{e[1:]}" if e[1:] else "← c.requires" for e in extra if e[0] == "^"]
        leaf += [e.split(".")[-1] for e in extra if e[0] == "+"]
        body = simp(leaf)
        stands = f"rw {last}.ensures tt" if last else ""
    for s in reversed(steps):
        body = f"{s} ({body})"
    taken = re.findall(r"\((\w+) : [^()]*\) →", goal.text.split("≡")[0])
    body = f"(λ {' '.join(taken)}. {body})" if taken else body
    return f"({body}, {stands})" if "×" in goal.text else body


def answer(function, goal, sums, extra):
    if f"{function} {goal.name}" in GIVEN:
        return GIVEN[f"{function} {goal.name}"]
    if goal.name.startswith("overflow_add-"):
        return inside(goal)
    if goal.name.startswith("returns"):
        return chained(goal, sums, extra) if any(e[0] == "~" for e in extra) else simp(way(goal, sums, extra))
    return None


def below(crate):
    """The crate and those that it stands on, the highest first."""
    text = open(f"{ROOT}/crates.txt", encoding="utf-8").read()
    uses = {name: deps.split() for name, deps in re.findall(r"^(\w+)[^:#\n]*:(.*)$", text, re.M)}
    return [crate, *[it for it in reversed(uses[crate]) if it in uses]]


def modules(folder):
    return sorted(os.path.relpath(os.path.join(top, f), folder) for top, _, fs in os.walk(folder) for f in fs if f.endswith(".antt"))


def homes(crate, text, names):
    """The import lines of what the answers use: laws of the crate's proofs, and definitions to unfold, of the highest crate that
    has one of that name."""
    words = set(re.findall(r"[^\s(){},.;]+", text))
    lines, found = {m: [n for n in ns if n.strip("◌") in words] for m, ns in HOMES}, set()
    for it in below(crate):
        for part, start in (("proofs", r"\s*pub"), ("specs", "unfoldable pub")):
            folder = f"{ROOT}/crates/{it}/{part}"
            for path in modules(folder) if part == "specs" or it == crate else []:
                there = open(f"{folder}/{path}", encoding="utf-8").read()
                module = ".".join(["Rattle", it, part, *path[: -len(".antt")].split("/")])
                wanted = words if part == "proofs" and "/" not in path else set(names) if part == "specs" else set()
                for n in sorted(wanted - found):
                    if re.search(rf"^{start} {re.escape(n)} ", there, re.M):
                        found.add(n)
                        lines.setdefault(module, []).append(n)
    return [f"use {m}.{{{', '.join(ns)}}}" for m, ns in lines.items() if ns]


GIVEN = {}


def write(crate, item):
    """Writes the answers of a function, and returns the goals that have none."""
    function, _, listed = item.partition("=")
    names = [n for n in listed.split(",") if n]
    extra = [n for n in names if n[0] in "+^~="]
    names = [n for n in names if n not in extra]
    folder = f"{ROOT}/crates/{crate}/proofs/{function}"
    path, was = f"{folder}/Answers.antt", None
    if os.path.exists(path):
        was = open(path, encoding="utf-8").read()
        os.remove(path)
    words = ["rt", "check", "--start", function.replace("/", "::"), "--allow-holes"]
    said = subprocess.run(words, cwd=f"{ROOT}/crates/{crate}", stdout=subprocess.PIPE, stderr=subprocess.STDOUT, text=True, errors="replace").stdout
    found = goals(said)
    if not found:
        if was is not None:
            with open(path, "w", encoding="utf-8") as it:
                it.write(was)
        why = [l for l in said.split("\n") if re.search(r"needs no file|error", l)] or said.split("\n")[-8:]
        print(f"prove.py: {function}: rt gave no open goal:\n" + "\n".join(why[:8]))
        return []
    sums = summed(found)
    unfold = f"unfolding {' '.join(names)}\n" if names else ""
    parts, open_ = [], []
    for goal in found:
        term = answer(function, goal, sums, extra)
        open_ += [goal.name] * (term is None)
        parts.append(f"pub {goal.name} : goal.{goal.name}\n{unfold}{goal.name} c =\n    {term or '?'}\n")
    text = "\n".join(parts)
    uses = homes(crate, text, names)
    uses.append(f"use Rattle.{crate}.proofs.{function.replace('/', '.')}.Goals as goal")
    with open(path, "w", encoding="utf-8") as it:
        it.write("\n".join(uses) + "\n\n" + text)
    print(f"prove.py: {function}: {len(found)} goals" + (f", of them left to you: {', '.join(open_)}" if open_ else ""))
    return open_


def main():
    if len(sys.argv) < 3 or sys.argv[1] in ("-h", "--help"):
        sys.exit(__doc__)
    crate, items = sys.argv[1], sys.argv[2:]
    if items[0] == "--with":
        for line in open(items[1], encoding="utf-8"):
            function, goal, term = line.rstrip("\n").split(" ", 2)
            GIVEN[f"{function} {goal}"] = term
        items = items[2:]
    return 1 if sum([write(crate, item) for item in items], []) else 0


sys.exit(main())
