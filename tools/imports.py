#!/usr/bin/env python3
"""imports.py [--fix]: names that a file of crates/ imports and never uses; --fix takes them out. Exits 1 if any was found."""
import glob
import os
import re
import sys

ROOT = os.path.dirname(os.path.dirname(os.path.abspath(__file__)))
USE = re.compile(r"^(ghost use|pub use|use) ([^\n{]*?)\.\{([^}]*)\}(;?)\n", re.M)
COMMENT = re.compile(r"\s*(--|//)")


def words(text):
    """Every name in the lines that are neither imports nor comments."""
    lines = [l for l in USE.sub("", text).split("\n") if not re.match(r"\s*(ghost |pub )?use ", l) and not COMMENT.match(l)]
    return set(re.findall(r"[^\s(){};,.]+", "\n".join(lines)))


def used(name, seen):
    """An operator is used where it or each of its parts stands; a renamed import where its new name does."""
    name = name.split(" as ")[-1].strip()
    if name in seen or "◌" not in name:
        return name in seen
    parts = [p for p in name.split("◌") if p]
    if name[0] == "◌" or name[-1] == "◌":
        return all(p in seen for p in parts)
    # brackets, which may stand right at a word
    return all(any(p in word for word in seen) for p in parts)


def trimmed(text):
    """The text with what it uses of its imports, and the names that it does not use."""
    seen, lost = words(text), []

    def kept(m):
        if m.group(1) == "pub use":
            return m.group(0)
        names = [n.strip() for n in m.group(3).split(",") if n.strip()]
        drop = [n for n in names if not used(n, seen)]
        lost.extend(drop)
        keep = [n for n in names if n not in drop]
        if not drop or not keep:
            return "" if drop else m.group(0)
        return f"{m.group(1)} {m.group(2)}.{{{', '.join(keep)}}}{m.group(4)}\n"

    return USE.sub(kept, text), lost


def main():
    fix = "--fix" in sys.argv[1:]
    found = 0
    files = glob.glob(ROOT + "/crates/**/*.antt", recursive=True) + glob.glob(ROOT + "/crates/**/*.rt", recursive=True)
    for path in sorted(files):
        if "/out/" in path:
            continue
        text = open(path).read()
        new, drop = trimmed(text)
        if not drop:
            continue
        found += 1
        print(os.path.relpath(path, ROOT) + ": " + ", ".join(drop))
        if fix:
            open(path, "w").write(new)
    return 1 if found and not fix else 0


sys.exit(main())
