#!/usr/bin/env python3
"""Turns the names of this project's definitions and lemmas from camel case to snake case, as in `allTo-more` to `all_to-more`.

usage: python3 tools/spelling.py        at the top of the project, once, after the toolchain's port.py

A name's parts that begin with a capital are types and stay; so do dashes, which join two names. It rewrites crates/**/*.rt,
*.antt and must-fail/*.edit. Where a lemma would fall together with a definition, it keeps the dash that port.py took from it.
"""

import pathlib
import re

CAMEL = re.compile(r"(?<![A-Za-z0-9_'])[a-z][a-z0-9_']*(?:[A-Z][A-Za-z0-9_']*)+")

# lemmas whose dash port.py turned to `_`, though a definition has that name
DASHED = ["first_rows", "goes_on", "job_read", "place_at", "refused_says"]
DASHED_IN = {"placing/proofs/FitLaws.antt": ["pair_ok"]}


def snake(name):
    return re.sub(r"_?([A-Z])", lambda m: "_" + m.group(1).lower(), name.group())


def dashed(text, names):
    word = re.compile(r"(?<![A-Za-z0-9_'-])(" + "|".join(names) + r")(?![A-Za-z0-9_'-])")
    return word.sub(lambda m: m.group().replace("_", "-"), text)


def turned(path, text):
    here = path.relative_to("crates").as_posix()
    if path.suffix == ".antt":
        text = dashed(text, DASHED + DASHED_IN.get(here, []))
    return CAMEL.sub(snake, text)


def main():
    for path in sorted(pathlib.Path("crates").rglob("*")):
        if path.suffix not in (".rt", ".antt", ".edit") or "out" in path.parts:
            continue
        text = path.read_text(encoding="utf-8")
        new = turned(path, text)
        if new != text:
            path.write_text(new, encoding="utf-8")


main()
