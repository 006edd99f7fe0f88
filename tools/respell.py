#!/usr/bin/env python3
"""Brings the definitions and lemmas of every crate to snake case, where port.py left them as they were.

usage: python3 tools/respell.py [--check]     at the top of the repository, once, after port.py

A name that a file of specs/ or proofs/ declares, in camel case or with dashes, gets underscores: `wordAt` is `word_at`, `file-again` is `file_again`.
Names of types and modules stay, and so do names that Rattle makes (`c.word-at.ensures`) and names of its library.
Two names of one file that fall together are printed; a function of src/ may have the name of a definition. --check writes nothing.
"""

import collections
import glob
import re
import sys

TOKEN = re.compile(r"[^\s(){}\[\].;,@\"«»:]+")
QUIET = re.compile(r'"(?:[^"\\\n]|\\.)*"|--[^\n]*|\{-.*?-\}', re.S)
QUIET_RT = re.compile(r'b?"(?:[^"\\\n]|\\.)*"|//[^\n]*', re.S)
SPAN = re.compile(r"`[^`\n]*`")
MAKES = ("Need-", "loop-", "returns", "overflow-", "invariant-", "decreases-")
# spelled otherwise, so that no two names fall together
OWN = {"first_of": "first_nonzero"}
# lemmas that would have the name of the definition that they are about
LEMMAS = """back-in by_count count-in distance-at first-chosen in-range is-edge is-scale location-at looked-up neighbours-refusal places-in points-within
records-in rows-given scaled-to some_below sum-in trailer-start""".split()
OWN.update({n: n.replace("-", "_") + "_lem" for n in LEMMAS})


def files():
    return sorted(glob.glob("crates/*/specs/**/*.antt", recursive=True) + glob.glob("crates/*/proofs/**/*.antt", recursive=True))


def sources():
    return sorted(glob.glob("crates/*/src/**/*.rt", recursive=True))


def read(path):
    with open(path, encoding="utf-8") as f:
        return f.read()


def declared(text):
    """The names that the text declares, but for answers to goals, which the generated names go by."""
    found = set()
    for m in re.finditer(r"(?m)^([ \t]*)((?:pub |abbrev |unfoldable )*)([^\s(){}.;,@\":=|\-][^\s(){}.;,@\":]*(?: [^\s(){}.;,@\":=|]+)*) : (?!tie\.)", text):
        if m[3].split()[0] not in ("module", "data", "record", "let", "elim"):
            found.update(m[3].split())
    for m in re.finditer(r"(?m)^[ \t]*pub (?:pub )?([^\s(){}.;,@\":]+) : ", text):
        found.add(m[1])
    return found


def snake(name):
    if name in OWN:
        return OWN[name]
    if not re.fullmatch(r"[A-Za-z0-9_'₀-₉-]+", name):
        return name
    parts = []
    for part in name.split("-"):
        if re.match(r"[A-Z]", part):
            parts.append(part)
        else:
            part = part.replace("getD", "get_or")
            parts.append(re.sub(r"(?<!^)([A-Z])", lambda m: "_" + m[1].lower(), part))
    return "_".join(parts)


def table():
    names = set()
    for f in files():
        names |= declared(QUIET.sub(" ", read(f)))
    for f in files() + sources():
        names |= set(re.findall(r" as ([a-z]\w*[A-Z]\w*)", read(f)))
    return {n: snake(n) for n in names if snake(n) != n and not n.startswith(MAKES)}


def foreign(text):
    """Names that a `use` line takes from the library under the same spelling."""
    out = set()
    for m in re.finditer(r"use\s+([\w·.'+-]+)\.\{([^}]*)\}", text):
        if not re.match(r"Rattle\.(?!std\.|core\.)", m[1]):
            for item in m[2].split(","):
                out.add(item.split(" as ")[-1].strip())
    return out


def turn_code(text, rows, keep, made):
    def one(m):
        t = m[0]
        before = text[m.start() - 1 : m.start()]
        if before == "." and (t in OWN or made and "-" in t and t not in fields):
            return t
        return rows.get(t, t) if t not in keep else t

    return TOKEN.sub(one, text)


def between(pattern, text, inside, outside):
    out, at = [], 0
    for m in pattern.finditer(text):
        out += [outside(text[at : m.start()]), inside(m[0])]
        at = m.end()
    return "".join(out + [outside(text[at:])])


def turn(text, rows, quiet, keep, made):
    comment = lambda c: c if c[0] in "\"b" else SPAN.sub(lambda s: turn_code(s[0], rows, keep, False), c)
    return between(quiet, text, comment, lambda t: turn_code(t, rows, keep, made))


fields = set()
heads = set()


def made_or_field(t):
    return t in fields and t not in heads


def main(argv):
    rows = table()
    bad, written = [], []
    for f in files():
        text = QUIET.sub(" ", read(f))
        for m in re.finditer(r"(?m)^[ \t]+(?:pub )?([^\s(){}.;,@\":=|]+) : ", text):
            fields.add(m[1])
        # names of a module, named behind a path
        for m in re.finditer(r"(?m)^(?:pub |abbrev |unfoldable )*([^\s(){}.;,@\":=|]+) : (?!tie\.)", text):
            fields.add(m[1])
            heads.add(m[1])
    for f in files() + sources():
        text = read(f)
        quiet = QUIET if f.endswith(".antt") else QUIET_RT
        code = quiet.sub(" ", text)
        keep = foreign(code) - declared(code) if f.endswith(".antt") else foreign(code)
        if f.endswith(".rt"):
            # a name in snake case may be a function's of src/
            keep |= {n for n in rows if re.fullmatch("[a-z0-9_]+", n)}
        new = turn(text, rows, quiet, keep, f.endswith(".antt"))
        seen = collections.defaultdict(set)
        for m in TOKEN.finditer(code):
            if m[0] not in keep and code[m.start() - 1 : m.start()] != "." and not made_or_field(m[0]):
                seen[rows.get(m[0], m[0])].add(m[0])
        for n, olds in sorted(seen.items()):
            if len(olds) > 1:
                bad.append(f"{f}: {n}: {', '.join(sorted(olds))}")
        if new != text:
            written.append((f, new))
    if bad:
        print("\n".join(bad))
    print(f"{len(rows)} names, {len(written)} files, {len(bad)} places where names fall together")
    if "--check" in argv:
        return 1 if bad else 0
    for f, new in written:
        with open(f, "w", encoding="utf-8") as out:
            out.write(new)
    return 0


if __name__ == "__main__":
    raise SystemExit(main(sys.argv[1:]))
