#!/usr/bin/env python3
"""Brings the names in README.md and docs/ to the spelling of the crates.

usage: python3 tools/respell_pages.py FOLDER     FOLDER: the repository as it was before the spelling changed

A name between backticks, alone or behind the module `Name.`, that a file of FOLDER's specs/ or proofs/ declares and none of today's does, gets the spelling
of tools/respell.py where a file of today's declares that. The list of wrong programs is made from the edits and left alone; so is docs/PORT.md.
"""

import glob
import re
import sys

import respell

SPAN = re.compile(r"`((?:\w+\.)?)([A-Za-z][\w'₀-₉-]*)`")


def declared_below(root):
    names = set()
    for part in ("specs", "proofs"):
        for path in glob.glob(f"{root}/crates/*/{part}/**/*.antt", recursive=True):
            names |= respell.declared(respell.QUIET.sub(" ", respell.read(path)))
    return names


def main():
    old, new = declared_below(sys.argv[1]), declared_below(".")
    for page in ["README.md", *sorted(set(glob.glob("docs/*.md")) - {"docs/WRONG_PROGRAMS.md", "docs/PORT.md"})]:
        text = respell.read(page)

        def spelled(found):
            name = found[2]
            now = respell.snake(name)
            if name in old and name not in new and now in new:
                return f"`{found[1]}{now}`"
            return found[0]

        made = SPAN.sub(spelled, text)
        if made != text:
            with open(page, "w", encoding="utf-8") as f:
                f.write(made)
            print(f"{page}: {sum(a != b for a, b in zip(SPAN.findall(text), SPAN.findall(made)))}")


if __name__ == "__main__":
    main()
