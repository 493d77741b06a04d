#!/usr/bin/env python3
"""Brings the definitions and lemmas of crates/ to the spelling of today's Rattle.

usage: python3 tools/snake_names.py [--list]     at the top of the repository, once, after port.py

Words are in snake case, facts and types in camel case: tally-same becomes tally_same, Row-ok becomes RowOk. Only names
that this repository declares in specs/ and proofs/ are turned. Names that the check makes for a function's goals keep
their spelling, as do names of the library, functions of src/, strings, and programs' inputs and outputs. With --list
nothing is written: it prints the names, those that fall together, and the dashed names that stay.
"""

import os
import re
import sys

# A name that a source file could not read is quoted there, as «Cut-off».
WORD = re.compile(r"«[^»]*»|[^\s(){}\[\].,;:\"`|λ«»]+")
GOAL = re.compile(r"^(abbrev |unfoldable )*(pub )?(\S+) : goal\.\3\s*$", re.M)
DECLARED = re.compile(
    r"^\s*(?:unfoldable |abbrev |pub |data |record )*(?P<names>[^\s(){}\[\].,;:\"`|λ]+(?: [^\s(){}\[\].,;:\"`|λ=]+)*)"
    r"(?: *[({][^\n]*[)}])? : ",
    re.M,
)
# A name that began with a digit would read as a number.
SPELLED = {"0-alone": "zero_alone", "0-in": "zero_in", "1-in": "one_in"}


def files(root):
    for folder, dirs, names in os.walk(os.path.join(root, "crates")):
        dirs[:] = sorted(d for d in dirs if d != "out")
        for name in sorted(names):
            if name.endswith((".antt", ".rt", ".edit")):
                yield os.path.join(folder, name)


def read(path):
    with open(path, encoding="utf-8") as f:
        return f.read()


def bare(text):
    """The text of an .antt file without its comments."""
    return re.sub(r"(?m)(^|\s)--.*$", r"\1", text)


def new_name(name):
    if name in SPELLED:
        return SPELLED[name]
    if name[0].isupper():
        return "".join(w[0].upper() + w[1:] for w in re.split(r"[-_]", name))
    return name.replace("-", "_")


def declared(texts):
    own, goals = set(), set()
    for path, text in texts.items():
        if not path.endswith(".antt"):
            continue
        text = bare(text)
        goals |= {m.group(3) for m in GOAL.finditer(text)}
        for m in DECLARED.finditer(text):
            own |= set(m.group("names").split())
        for m in re.finditer(r" as ([^\s{},;]+)", text):
            own.add(m.group(1))
    for path, text in texts.items():
        if path.endswith(".rt"):
            for line in text.splitlines():
                if line.startswith("ghost use"):
                    own |= set(re.findall(r" as ([^\s{},;]+)", line))
    odd = {n for n in own if re.match(r"^[A-Z]\w*_\w", n)}
    return {n for n in own if "-" in n.strip("-") and re.match(r"^\w", n)} - goals | odd, goals


def turn_words(text, names):
    return WORD.sub(lambda m: names.get(m.group(0).strip("«»"), m.group(0)), text)


def turn(path, text, names):
    """Turns what is no comment and no string; in a source file only the ghost lines, clauses and fields can hold such names."""
    out = []
    mark = "--" if path.endswith(".antt") else "//"
    for line in text.split("\n"):
        at = re.search(r"(^|\s)" + re.escape(mark) + r"(\s|$)", line)
        code, said = (line[: at.start()], line[at.start() :]) if at else (line, "")
        parts = re.split(r'("(?:[^"\\]|\\.)*")', code)
        out.append("".join(p if i % 2 else turn_words(p, names) for i, p in enumerate(parts)) + said)
    return "\n".join(out)


def main():
    texts = {p: read(p) for p in files(".")}
    own, goals = declared(texts)
    names = {n: new_name(n) for n in sorted(own)}
    words = {p: set(WORD.findall(t if p.endswith(".rt") else bare(t))) for p, t in texts.items()}
    everywhere = set().union(*words.values())
    if "--list" in sys.argv:
        for old, new in names.items():
            if new in everywhere:
                where = [p for p in words if new in words[p] and old in words[p]]
                print("together:", old, new, "in one file:", where[:4], "| new alone in:", [p for p in words if new in words[p] and old not in words[p]][:4])
        back = {}
        for old, new in names.items():
            back.setdefault(new, []).append(old)
        for new, olds in back.items():
            if len(olds) > 1:
                print("two become one:", olds, new)
        print(len(names), "turned:", " ".join(names))
        print("stay:", " ".join(sorted(w for w in everywhere if re.match(r"^\w+(-\w+)+", w) and w not in names)))
        said = {}
        for p, t in texts.items():
            for m in re.finditer(r"(?m)(?:^|\s)(?:--|//)\s.*$", t):
                for w in WORD.findall(m.group(0)):
                    if w in names:
                        said.setdefault(w, []).append(p)
        print("in comments:", {k: v[:2] for k, v in said.items()})
        return
    turned = 0
    for path, text in texts.items():
        new = turn(path, text, names)
        if new != text:
            with open(path, "w", encoding="utf-8") as f:
                f.write(new)
            turned += 1
    print(f"{len(names)} names in {turned} files")


main()
