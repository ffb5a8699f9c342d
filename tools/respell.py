#!/usr/bin/env python3
"""Brings the repository's own definitions and lemmas to the spelling of words: snake case, where they were in camel
case or had dashes. port.py respells the library's names and what is spelled like them; this does the rest.

usage: tools/respell.py [--dry]     at the top of the repository, once, after port.py

It reads the names that the .antt files of crates/ declare, and writes each one's new spelling wherever it stands as a
whole word in the .antt and .rt files and the must-fail edits of crates/. Types, modules, names of src/ and names that
are imported from elsewhere keep theirs. It prints the names that would become one.
"""

import os
import re
import sys

WORD = re.compile(r"[^\s(){}.;,@\"«»\[\]\\]+")
USE = re.compile(r"\buse\s+([^\s;{]+)\.\{([^}]*)\}")
DECLARED = re.compile(
    r"^ *(?:(?:abbrev|unfoldable|pub|let) )*((?:[^\s(){}.;,@\"«»\[\]\\:]+ +)+?)(?:\{[^}:]*\} +)?:(?=\s)", re.M
)
TYPED = re.compile(r"^ *(?:pub )?([^\s:]+) : tie\.(?:Need|invariant|decreases)", re.M)
# A lemma that would have its function's name ends in _lem. These lemmas are in snake case already, and their functions
# get there now: where they are declared or used.
LEMMAS = {
    "in_window": ["crates/demands/proofs/FlipViews.antt"],
    "is_digit": ["crates/pgm/specs/ReadBack.antt"],
    "place_at": ["crates/sweep/proofs/Bottoming.antt"],
    "on_line": [
        "crates/demands/proofs/FlipViews.antt",
        "crates/demands/proofs/WhyReach.antt",
        "crates/filter/proofs/Extremes.antt",
    ],
    "seen_by": ["crates/why/specs/Named.antt", "crates/demands/proofs/Why.antt"],
}
# And these get there beside their functions.
WITH_DASH = {"entry-at", "in-row", "read-first", "row-of"}


def files(*endings):
    for folder, below, names in os.walk("crates"):
        below[:] = sorted(it for it in below if it != "out")
        for name in sorted(names):
            if name.endswith(endings):
                yield os.path.join(folder, name)


def read(path):
    with open(path, encoding="utf-8") as it:
        return it.read()


def respelled(name):
    """The name in snake case; a fact keeps the capital that it has as a type."""
    name = name.replace("-", "_")
    return re.sub(r"(?<=[a-z0-9])([A-Z])(?=[a-z])", lambda it: "_" + it[1].lower(), name)


def is_old(name):
    return bool(
        re.fullmatch(r"[A-Za-z_][\w'₀-₉]*(-[\w'₀-₉]+)*", name)
        and ("-" in name or re.match(r"[a-z][a-z0-9_]*[A-Z][a-z]", name))
    )


def main():
    own = tuple(f"Rattle.{it}." for it in sorted(os.listdir("crates")))
    declared, imported, tied = {}, set(), {}
    for path in files(".antt"):
        text = re.sub(r"--[^\n]*", "", read(path))
        for module, names in USE.findall(text):
            if not module.startswith(own):
                imported.update(it.split(" as ")[0].strip() for it in names.split(","))
        ties = set(TYPED.findall(text))
        for names in DECLARED.findall(text):
            for name in names.split():
                if name in ties:
                    tied.setdefault(name, set()).add(path)
                else:
                    declared.setdefault(name, set()).add(path)
        for name in re.findall(r"\b(?:data|record) ([^\s(:]+)", text):
            declared.setdefault(name, set()).add(path)
    table = {}
    for name in sorted(declared):
        if is_old(name) and name not in imported and not re.search(r"-spec$", name):
            table[name] = respelled(name)
    functions = {new for name, new in table.items() if "-" not in name}
    for name, new in table.items():
        if name in WITH_DASH or ("-" in name and new in functions):
            table[name] = new + "_lem"
    # A new name that stands already in a file where the old one stands: the two would fall together.
    fallen = []
    words = {path: set(WORD.findall(re.sub(r"--[^\n]*", "", read(path)))) for path in files(".antt")}
    for name, new in table.items():
        for path, has in words.items():
            if name in has and new in has:
                fallen.append(f"{path}: {name} and {new}")
    byNew = {}
    for name, new in table.items():
        byNew.setdefault(new, []).append(name)
    for new, names in byNew.items():
        if len(names) > 1:
            fallen.append(f"{names} all become {new}")
        if new in declared:
            stands, came = sorted(declared[new])[:3], sorted(declared[names[0]])[:3]
            fallen.append(f"{names[0]} becomes {new}, declared in {stands}, old in {came}")
    print(f"{len(table)} names", file=sys.stderr)
    for it in fallen:
        print("together:", it)
    if "--table" in sys.argv:
        for name, new in table.items():
            print(f"{name}\t{new}")
    if "--dry" in sys.argv:
        return
    for path in files(".antt", ".rt", ".edit"):
        text = read(path)
        turned = text
        for name, paths in LEMMAS.items():
            if path in paths:
                turned = re.sub(rf"(?<![\w'-])(?<!(?<!named)\.){name}(?![\w.'-])", name + "_lem", turned)
        turned = WORD.sub(lambda it: table.get(it[0], it[0]), turned)
        if turned != text:
            with open(path, "w", encoding="utf-8") as it:
                it.write(turned)


if __name__ == "__main__":
    main()
