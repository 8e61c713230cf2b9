#!/usr/bin/env python3
"""Brings the repository's own definitions and lemmas to the names of today's Rattle.

Run once, at the top, after the toolchain's port script. What specs/ and proofs/ declare is written in snake case where it is no
type; a dash stays between two names, as in `le_at-add`, and becomes a low line before a plain word. An answer's name is written as
a constant's. The proof of a function `f` is `f_spec`. Edits of must-fail/ are respelled with the files that they speak of.
"""
import glob
import os
import re

LETTER = r"\w'₀-₉-"
NAME = re.compile(r"(?<![" + LETTER + r"◌])[^\W\d][" + LETTER + r"]*")
HEAD = re.compile(r"^ *(?:unfoldable |abbrev )?(?:pub )?([^\W\d][" + LETTER + r"]*)(?: *\{[^}]*\})* :(?= |$)")
PROOF = re.compile(r"^pub ([\w-]+)-spec :", re.M)

# What a law's name says behind a name of ours.
LIBRARY = {"add", "lt"}

# Lemmas that would have the name of a definition, or of what they were taken from.
LEMMAS = """all-from entered-for events-read is-permission is-suite most-events no-suite own-number policy-read policy-size policy-valid
    read-event same-suite same_bytes session-known session-valid slots-known state-valid""".split()

# Names that the rules below would split amiss.
GIVEN = {
    "SuiteID": "SuiteId",
    "UniqueSuiteID": "UniqueSuiteId",
    "allFrom-done": "all_from_done",
    "firstFrom-done": "first_from_done",
    "low-bits-lt": "low_bits-lt",
}

# The same for one file, whose name is a function's elsewhere.
HERE = {"crates/export/proofs/Outcomes.antt": {"read_answer": "read_answer_lem"}}

# What the port script respelled, in edits, which it leaves alone.
PORTED = {"isOf": "is_of"}


def files(*patterns):
    return [path for p in patterns for path in sorted(glob.glob("crates/*/" + p, recursive=True))]


def is_made(path):
    """Whether the file is a function's proof, most of whose names are the toolchain's."""
    return re.search(r"/proofs/[^/]+/[^/]+$", path) is not None


def snake(word):
    return re.sub(r"(?<=[a-z0-9])[A-Z]", lambda m: "_" + m.group().lower(), word)


def joined(name, words):
    """A law's name: a dash behind a name of several words or of the library's, before a name; else a low line."""
    first, *rest = (snake(part) for part in name.split("-"))
    if rest and ("_" in first or first == "length") and rest[0] in words:
        return "-".join([first, "_".join(rest)])
    return "_".join([first, *rest])


def table():
    names, words = set(), set(LIBRARY)
    for path in files("specs/**/*.antt", "proofs/*.antt"):
        for name in (m.group(1) for m in map(HEAD.match, open(path, encoding="utf-8")) if m):
            names.add(name)
            if "/specs/" in path:
                words.add(snake(name))
    new = {}
    for name in names:
        if re.fullmatch(r"[A-Z]+(-[A-Z]+)+", name):
            new[name] = name.replace("-", "_")
        elif not name[0].isupper():
            new[name] = joined(name, words)
    new.update({name: name.replace("-", "_") + "_lem" for name in LEMMAS})
    new.update(GIVEN)
    return {old: name for old, name in new.items() if old != name}


def respell(text, new, behind_a_dot):
    def turned(m):
        field = m.start() > 0 and text[m.start() - 1] == "."
        return m.group() if field and not behind_a_dot else new.get(m.group(), m.group())

    text = NAME.sub(turned, text)
    return re.sub(r"(?<=≡)ses-(?=granted|revoked)", "ses_", text)


def edit_text(text, new):
    text = text.replace("·", ".").replace(".specs.specs.", ".specs.")
    text = re.sub(r"(?<=[\w')]) \.(?=[a-z0-9])", ".", text)
    return respell(respell(text, PORTED, True), new, True)


def main():
    if os.path.exists("docs/PORT.md"):
        raise SystemExit("respell.py: this tree is respelled already, as docs/PORT.md says")
    new = table()
    fallen = sorted(n for n in set(new.values()) if list(new.values()).count(n) > 1)
    if fallen:
        raise SystemExit("respell.py: these names would fall together: " + ", ".join(fallen))
    for path in files("specs/**/*.antt", "proofs/**/*.antt", "src/**/*.rt"):
        old = open(path, encoding="utf-8").read()
        text = respell(old, {**new, **HERE.get(path, {})}, not is_made(path))
        for name in PROOF.findall(text):
            text = text.replace(name + "-spec", name.replace("-", "_") + "_spec")
        if text != old:
            open(path, "w", encoding="utf-8").write(text)
    for path in files("must-fail/*.edit"):
        old = open(path, encoding="utf-8").read()
        if "file: specs/" in old:
            open(path, "w", encoding="utf-8").write(edit_text(old, new))


if __name__ == "__main__":
    main()
