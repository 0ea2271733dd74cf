#!/usr/bin/env python3
"""Brings the repository's own definitions and lemmas to snake case.

usage: python3 tools/respell.py          at the top of the repository, after the toolchain's own script

Every name that a file of specs/ or proofs/ defines in camel case (`venueFile`) becomes snake case (`venue_file`), and a
field of a record that has a dash in its name (`show-file`) gets an underscore for it. Types, modules, functions of src/,
strings and the names that the toolchain makes keep theirs. A name whose snake case form is taken gets the one of TAKEN.
Refuses to write if two names of one file would fall together.
"""

import os
import re
import sys

# names whose snake case form is a function of src/ or another definition, in a file that uses them
TAKEN = {
    "stepHome": "home_step",
    "needRow": "row_of_needs",
    "fileNumber": "number_of_file",
    "kindByte": "byte_of_kind",
    "nextText": "text_of_nexts",
    "needsText": "text_of_needs",
    "claimsText": "text_of_claims",
    "refusalText": "text_of_refusal",
    "venue-file": "venue_laid",
    "show-file": "show_laid",
}
PLACED = ("Answers.antt", "Invariants.antt", "Proof.antt")
HEAD = re.compile(r"^\s*(?:(?:pub|abbrev|unfoldable)\s+)*([^\s(){}\[\];:,]+)\s*(?:\([^()]*\)\s*|\{[^{}]*\}\s*)*:\s")
TOKEN = re.compile(r"[^\W\d][\w'-]*")
STRING = re.compile(r"'(?:[^'\\]|\\.)'|\"(?:[^\"\\]|\\.)*\"")


def files(root, ending):
    for folder, inside, names in os.walk(os.path.join(root, "crates")):
        inside[:] = sorted(d for d in inside if d != "out")
        for name in sorted(names):
            if name.endswith(ending):
                yield os.path.join(folder, name)


def text_of(path):
    with open(path, encoding="utf-8") as f:
        return f.read()


def snake(name):
    return re.sub(r"(?<=[a-z0-9])([A-Z])", lambda m: "_" + m.group(1).lower(), name)


def fields(text):
    """The names of the fields of the records that a text declares."""
    inside = False
    for line in text.splitlines():
        if re.match(r"^\s*(?:pub )?record ", line):
            inside = True
        elif not line.strip() or not line.startswith("  "):
            inside = False
        elif inside:
            m = HEAD.match(line)
            if m:
                yield m.group(1)


def names(root):
    found = {}
    for path in files(root, ".antt"):
        if os.path.basename(path) in PLACED:
            text = text_of(path)
            own = [m.group(1) for m in map(HEAD.match, text.splitlines()) if m and not re.search(r"^\s*pub ", m.group(0))]
        else:
            text = text_of(path)
            own = [m.group(1) for m in map(HEAD.match, text.splitlines()) if m]
        for name in own:
            if re.match(r"^[a-z][\w']*$", name) and snake(name) != name:
                found[name] = TAKEN.get(name, snake(name))
        for name in fields(text):
            if "-" in name:
                found[name] = TAKEN.get(name, name.replace("-", "_"))
    return found


def turned(text, found, source):
    def word(m):
        return found.get(m.group(0), m.group(0))

    if not source:
        return TOKEN.sub(word, text)
    at, out = 0, []
    for m in STRING.finditer(text):
        out += [TOKEN.sub(word, text[at:m.start()]), m.group(0)]
        at = m.end()
    return "".join(out) + TOKEN.sub(word, text[at:])


def main():
    root = "."
    found = names(root)
    texts, bad = {}, 0
    for ending in (".antt", ".rt"):
        for path in files(root, ending):
            text = text_of(path)
            words = set(TOKEN.findall(text))
            used = [old for old in found if old in words]
            for old in used:
                if found[old] in words or [found[other] for other in used].count(found[old]) > 1:
                    print(f"{path}: {old} would fall together with another {found[old]}")
                    bad += 1
            texts[path] = (text, turned(text, found, ending == ".rt"))
    if bad:
        return 1
    for path, (text, new) in texts.items():
        if new != text:
            with open(path, "w", encoding="utf-8") as f:
                f.write(new)
    print(f"{len(found)} names: " + ", ".join(f"{a} {b}" for a, b in sorted(found.items())))
    return 0


sys.exit(main())
