#!/usr/bin/env python3
"""Brings the repository's own definitions and lemmas to today's spelling, once, after port.py.

usage: tools/respell.py        at the top of the repository; prints each name with its new spelling

A word is in snake case and a type in upper camel case. The names are those that specs/ and proofs/
declare, fields among them; a goal's name, which the checker makes, is left as it is. A name of a
crate is respelled in that crate and in those that use it, in code, edits and comments, and not in
texts between quotes. Functions of src/ keep their names.
"""

import os
import re
import sys

# What would fall together with another name of the same crate, or with a function of src/.
CHOSEN = {
    "answer-of": "answer_of_lem",
    "correction-small": "correction_small_lem",
    "draw-bytes": "draw_bytes_lem",
    "first-again": "first_again_lem",
    "first-place": "first_place_lem",
    "second-again": "second_again_lem",
    "times-carry": "times_carry_lem",
    "words-number": "words_number_lem",
    "worked-runs": "worked_runs_lem",
}
# Names that are in snake case already, but are wanted for another one: crate, old, new.
MOVED = {("exchange_lines", "in_pairs"): "in_pairs_lem"}

DECLARED = re.compile(
    r"^[ ]*(?:(?:abbrev|unfoldable|pub|data|record|ruleset|module)\s+)*"
    r"([^\s(){};.,\":=λ]+)(?:\s+(?:\([^)]*\)|\{[^}]*\}))*\s*:(?!=)(.{0,60})",
    re.M,
)
WORD = re.compile(r"[^\W\d][\w'-]*")
TEXT = re.compile(r'b?"(?:\\.|[^"\\])*"|--(?=[ \n])[^\n]*|//[^\n]*')


def spelled(name):
    """The name in today's spelling."""
    if name in CHOSEN:
        return CHOSEN[name]
    if name[0].isupper():
        return "".join(part[:1].upper() + part[1:] for part in re.split("[-_]", name))
    name = name.replace("-", "_")
    return re.sub(r"([a-z0-9'])([A-Z])", lambda m: m[1] + "_" + m[2].lower(), name)


def files(folder, *endings):
    for place, folders, names in os.walk(folder):
        folders[:] = sorted(f for f in folders if f not in ("out", "target"))
        for name in sorted(names):
            if name.endswith(endings):
                yield os.path.join(place, name)


def crates():
    """The crates with what each uses, from crates.txt."""
    uses = {}
    with open("crates.txt", encoding="utf-8") as f:
        for line in f:
            line = line.split("#")[0].strip()
            if line:
                name, _, below = line.partition(":")
                uses[name.strip()] = below.split()
    return uses


def declared(crate):
    """The crate's own names that are not in today's spelling."""
    found = {}
    for path in files(os.path.join("crates", crate), ".antt"):
        with open(path, encoding="utf-8") as f:
            text = TEXT.sub("", f.read())
        for name, kind in DECLARED.findall(text):
            if kind.strip().startswith("goal.") or not WORD.fullmatch(name):
                continue
            if spelled(name) != name:
                found[name] = spelled(name)
    return found


def respell(text, names, words_only):
    """The text with each name respelled; in comments only names that are no plain words."""

    def word(m):
        before = text_part[max(0, m.start() - 5) : m.start()]
        return m[0] if before == "goal." else names.get(m[0], m[0])

    out, end = [], 0
    for quiet in list(TEXT.finditer(text)) + [None]:
        text_part = text[end : quiet.start() if quiet else len(text)]
        out.append(WORD.sub(word, text_part))
        if quiet:
            said = quiet[0]
            if said.startswith(("--", "//")):
                said = re.sub(r"[a-z]+[A-Z]\w*", lambda m: words_only.get(m[0], m[0]), said)
            out.append(said)
            end = quiet.end()
    return "".join(out)


def main():
    uses = crates()
    own = {crate: declared(crate) for crate in uses}
    for (crate, old), new in MOVED.items():
        if crate in own:
            own[crate][old] = new
    for crate, names in own.items():
        for old, new in sorted(names.items()):
            print(crate, old, new)
        fallen = {new for new in names.values() if list(names.values()).count(new) > 1}
        if fallen:
            sys.exit(f"{crate}: names fall together: {sorted(fallen)}")
    for crate in uses:
        names = {}
        for below in uses[crate] + [crate]:
            names |= own[below]
        for path in files(os.path.join("crates", crate), ".antt", ".rt", ".edit"):
            with open(path, encoding="utf-8") as f:
                text = f.read()
            new = respell(text, names, names)
            if new != text:
                with open(path, "w", encoding="utf-8") as f:
                    f.write(new)


main()
