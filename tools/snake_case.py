#!/usr/bin/env python3
"""Brings the names of the repository's own definitions and lemmas to snake case, in specs/, proofs/, clauses, edits and docs/.

usage: python3 tools/snake_case.py        at the top of the repository, once, after the kit's port.py
       python3 tools/snake_case.py map    prints the old and the new names, and changes nothing

A name that has a capital within it (touchAt) gets underscores (touch_at). In a lemma's name a dash stays where it joins the
name of a definition to what is said of it (field-append), and is an underscore between plain words (at-least-eight).
Types, facts and modules, which begin with a capital, keep their names, as do the functions of src/ and what Rattle makes.
"""
import pathlib
import re
import sys

TOP = pathlib.Path(__file__).resolve().parent.parent
LETTER = r"[\w'\-]"
TOKEN = re.compile(r"(?<!" + LETTER + r")[a-z][\w'\-]*")
STD_WORDS = {"length", "nth", "take", "drop", "and", "or", "not"}
# fields of a record of specs/, and the lemma of that name
FIELDS = {"reads-back": "reads_back", "writes-back": "writes_back"}
# lemmas that would have the name of the definition that they speak of
LEMMAS = {"row_read": "row_read_lem", "type-of": "type_of_lem", "whole-page": "whole_page_lem", "style-for": "style_for_lem"}


def snake(name):
    return re.sub(r"(?<=[a-z0-9])([A-Z])", lambda m: "_" + m.group(1).lower(), name)


def sources(kind):
    return sorted(p for p in TOP.glob("crates/*/" + kind) if "out" not in p.parts)


def generated(path):
    return path.name in ("Answers.antt", "Invariants.antt", "Proof.antt")


def own_names():
    """What specs/ and the lemma files of proofs/ define at the left margin: name -> whether specs/ has it."""
    names = {}
    for path in sources("specs/**/*.antt") + [p for p in sources("proofs/**/*.antt") if not generated(p)]:
        for line in path.read_text(encoding="utf-8").splitlines():
            m = re.match(r"(?:abbrev |unfoldable )?(?:pub )?(?:abbrev |unfoldable )?([a-z][\w'\-]*) :", line)
            if m:
                names[m.group(1)] = names.get(m.group(1), False) or "specs" in path.parts
    return names


def dashed(name, definitions):
    if "-" not in name:
        return name
    head, rest = name.split("-", 1)
    rest = rest.replace("-", "_")
    return f"{head}-{rest}" if head in definitions or head in STD_WORDS else f"{head}_{rest}"


def renamings():
    names = own_names()
    definitions = {snake(n) for n in names if "-" not in n}
    new = {}
    for path in sources("specs/**/*.antt") + sources("proofs/**/*.antt") + sources("src/**/*.rt"):
        for token in TOKEN.findall(path.read_text(encoding="utf-8")):
            if snake(token) != token and not ("-" in token and token in names):
                new[token] = snake(token)
    for name in names:
        if "-" in name:
            new[name] = dashed(snake(name), definitions)
    found = {old: to for old, to in new.items() if old != to}
    # a second run finds nothing to do
    return found | FIELDS | LEMMAS if found else found


def respelled(text, new):
    def one(m):
        word = m.group(0)
        behind_a_dot = m.start() > 0 and text[m.start() - 1] == "."
        if word in new and (word in FIELDS or not ("-" in word and behind_a_dot)):
            return new[word]
        return word

    return TOKEN.sub(one, text)


def main():
    new = renamings()
    if sys.argv[1:] == ["map"]:
        for old, to in sorted(new.items()):
            print(old, to)
        return
    fallen = {}
    for old, to in new.items():
        fallen.setdefault(to, []).append(old)
    together = {to: olds for to, olds in fallen.items() if len(olds) > 1}
    if together:
        raise SystemExit(f"names that fall together: {together}")
    camel = {old: to for old, to in new.items() if "-" not in old}
    for path in sources("specs/**/*.antt") + sources("proofs/**/*.antt") + sources("src/**/*.rt") + sources("must-fail/*.edit"):
        text = path.read_text(encoding="utf-8")
        after = respelled(text, new if path.suffix == ".antt" else camel)
        if after != text:
            path.write_text(after, encoding="utf-8")
    for path in [TOP / "README.md"] + sorted(TOP.glob("docs/*.md")):
        text = path.read_text(encoding="utf-8")
        after = re.sub(r"`[^`\n]*`", lambda m: respelled(m.group(0), camel), text)
        if after != text:
            path.write_text(after, encoding="utf-8")


main()
