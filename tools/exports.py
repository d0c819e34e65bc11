#!/usr/bin/env python3
"""exports.py: each export of crates/face_c has the name, parameters and clauses of a function of crates/face, word for word, and
takes the words of its clauses from the same definitions; and each function of the face is exported. The promises are proved of the
face, and no crate can stand on a static library: so this holds what C calls to the same promise. Exits 1 if one differs."""
import os
import re
import sys

ROOT = os.path.dirname(os.path.dirname(os.path.abspath(__file__)))
FUNCTION = re.compile(r'^pub (?:extern "C" )?fn (\w+)(.*?)^\{\n', re.M | re.S)
EXPORT = re.compile(r'^#\[unsafe\(no_mangle\)\]\npub extern "C" fn (\w+)', re.M)


def said(crate):
    """What stands between name and body of each public function, the public items, the exports, and where each word of the clauses
    comes from."""
    text = open(f"{ROOT}/crates/{crate}/src/lib.rt", encoding="utf-8").read()
    uses = re.findall(r"^ghost use (.*?)\.\{([^}]*)\};$", text, re.M)
    words = {name.strip(): path for path, names in uses for name in names.split(",")}
    return dict(FUNCTION.findall(text)), len(re.findall(r"^pub\b", text, re.M)), EXPORT.findall(text), words


def main():
    face, items, _, words = said("face")
    face_c, items_c, exported, words_c = said("face_c")
    wrong = []
    if not face or len(face) != items or len(face_c) != items_c:
        wrong.append("a public item is no function that can be compared")
    for name in sorted({*face, *face_c}):
        if face.get(name) != face_c.get(name) or name not in exported:
            wrong.append(f"{name} differs, or is missing on one side")
    for name in sorted(words_c):
        if words.get(name) != words_c[name]:
            wrong.append(f"{name} stands for another definition")
    for it in wrong:
        print(f"exports.py: crates/face and crates/face_c: {it}")
    return 1 if wrong else 0


sys.exit(main())
