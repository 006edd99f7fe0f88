"""Prints the program that is proved of a library, as mir.py reads it.

    python3 bench/program.py CRATE

A check leaves a library's MIR beside it, in crates/NAME/out/rlib: `rt ci` leaves that of each library, `rt lib` in the crate's folder its own and those
of the libraries below. Printed are the functions of the crate and of those below, types written out. A function that takes a type or calls one that
does, or has a form that mir.py has no word for, is left out, and standard error says why: whoever calls it finds no function of that name.
"""

from __future__ import annotations

import json
import sys
from collections.abc import Sequence
from pathlib import Path
from typing import Any

ROOT = Path(__file__).parent.parent

# What json has: a word, or a form by its name with what belongs to it.
Form = Any


class Unknown(Exception):
    """A form that mir.py has no word for."""


def lowered(name: str) -> str:
    """A name as mir.py has it."""
    return name[:1].lower() + name[1:]


def split(form: Form) -> tuple[str, Form]:
    """A form's name, and what belongs to it."""
    if isinstance(form, str):
        return form, None
    ((name, rest),) = form.items()
    return name, rest


def items(texts: Sequence[str], words: tuple[str, str] = ("lcons", "lnil")) -> str:
    """A list."""
    text = words[1]
    for each in reversed(texts):
        text = f"({words[0]} {each} {text})"
    return text


def operation(form: Form) -> str:
    """An operation, with its signs and width."""
    name, rest = split(form)
    if rest is None:
        return lowered(name)
    parts = rest if isinstance(rest, list) else [rest]
    return f"({lowered(name)} {' '.join(lowered(str(part)) for part in parts)})"


class Writer:
    """Writes a function of the json."""

    def __init__(self, function: Form) -> None:
        if function["generics"]["types"]:
            raise Unknown("it takes a type")
        self.function = function
        self.declared = {each["name"]: each for each in function["types"]}
        self.forms = iter(function["body"])

    def types(self, forms: Sequence[Form], given: Sequence[str]) -> str:
        return items([self.type(each, given) for each in forms], ("tcons", "tnil"))

    def type(self, form: Form, given: Sequence[str] = ()) -> str:
        """A type where these types are given."""
        name, rest = split(form)
        match name:
            case "Int" | "Float":
                return f"(ty{name} {rest})"
            case "Bool" | "Unit" | "Ptr":
                return f"ty{name}"
            case "Ref":
                return "tyPtr"
            case "Array" if split(rest[1])[0] == "Lit":
                return f"(tyArray {self.type(rest[0], given)} (lenLit {split(rest[1])[1]}))"
            case "Struct":
                return f'(tyStruct "{rest[0]}" {self.types(rest[1], given)})'
            case "Param":
                return given[rest]
            case "Named" if isinstance(rest, list):
                return self.shape(self.declared[rest[0]["name"]], [self.type(each, given) for each in rest[1]])
        raise Unknown(f"the type {name}")

    def shape(self, declared: Form, given: Sequence[str]) -> str:
        """What a declared type is made of."""
        name, rest = split(declared["shape"])
        if name == "Fields":
            return f"(fields {self.types(rest, given)})"
        if name == "Variants":
            return f"(variants {items([self.types(each, given) for each in rest])})"
        raise Unknown(f"the shape {name}")

    def step(self, form: Form) -> str:
        name, rest = split(form)
        if name == "Deref":
            return f"(deref {self.type(rest)})"
        if name in ("Field", "Variant"):
            return f"({lowered(name)} {rest})"
        raise Unknown(f"the step {name}")

    def place(self, form: Form) -> str:
        return f"(place {form['local']} {items([self.step(each) for each in form['steps']])})"

    def operand(self, form: Form) -> str:
        name, rest = split(form)
        match name:
            case "Copy":
                return f"(copy {self.place(rest)})"
            case "Int":
                return f"(int {rest['width']} {rest['value']})"
            case "Float":
                return f"(float {rest['width']} {rest['bits']})"
            case "True" | "False" | "Unit":
                return lowered(name)
        raise Unknown(f"the operand {name}")

    def operands(self, forms: Sequence[Form]) -> str:
        return items([self.operand(each) for each in forms])

    def value(self, form: Form) -> str:
        name, rest = split(form)
        match name:
            case "Opd":
                return f"(rvOpd {self.operand(rest)})"
            case "Op1":
                return f"(op1 {operation(rest[0])} {self.operand(rest[1])})"
            case "Op2":
                return f"(op2 {operation(rest[0])} {self.operand(rest[1])} {self.operand(rest[2])})"
            case "AddrOf":
                return f"(addrOf {self.place(rest)})"
            case "Aggregate":
                return f"(aggregate {self.operands(rest)})"
            case "Repeat" if split(rest[1])[0] == "Lit":
                return f"(repeat {self.operand(rest[0])} {split(rest[1])[1]})"
        raise Unknown(f"the value {name}")

    def called(self, form: Form) -> str:
        name, rest = split(form)
        if name != "Fn" or rest[1]["types"] or rest[1]["dicts"]:
            raise Unknown(f"a call of {rest[0] if name == 'Fn' else name} at types")
        return f'(direct (fnRef "{rest[0]}"))'

    def switch(self, rest: Form) -> str:
        """A switch, whose arms follow in the body."""
        on, keys, has_default = rest
        arms = [(each, self.statement()) for each in keys]
        text = f"(default {self.statement()})" if has_default else "noArms"
        for each, body in reversed(arms):
            text = f"(arm {items([str(key) for key in each])} {body} {text})"
        return f"(switch {self.operand(on)} {text})"

    def statement(self) -> str:
        """The next statement of the body, with those that are in it."""
        name, rest = split(next(self.forms))
        match name:
            case "Seq":
                first = self.statement()
                return f"(seq {first} {self.statement()})"
            case "Skip" | "Return":
                return lowered(name)
            case "Block" | "Loop":
                return f"({lowered(name)} {self.statement()})"
            case "If":
                then = self.statement()
                return f"(if {self.operand(rest)} {then} {self.statement()})"
            case "Switch":
                return self.switch(rest)
            case "Exit":
                return f"(exit {rest})"
            case "Assign":
                return f"(assign {self.place(rest[0])} {self.value(rest[1])})"
            case "Call":
                return f"(call {self.called(rest[0])} {self.operands(rest[1])} {self.place(rest[2])})"
        raise Unknown(f"the statement {name}")

    def text(self, name: str) -> str:
        locals_ = items([f"(local {self.type(each['ty'])} valueLocal)" for each in self.function["locals"]])
        body = self.statement()
        return f'(fn-def "{name}" (fnItem 0 lnil {self.function["params"]} {locals_} {body}))'


def uses(root: Path) -> dict[str, list[str]]:
    """The crates of crates.txt, each with the libraries that it uses."""
    found = {}
    for line in (root / "crates.txt").read_text(encoding="utf-8").splitlines():
        name, colon, others = line.partition("#")[0].partition(":")
        if colon:
            found[name.split()[0]] = others.split()
    return found


def below(crate: str, root: Path) -> list[str]:
    """The crate and the libraries that it stands on."""
    listed, found = uses(root), [crate]
    for each in found:
        found += [other for other in listed[each] if other not in found]
    return found


def written(functions: Sequence[tuple[str, Form]]) -> tuple[str, list[str]]:
    """The program of these functions, and which of them are left out, and why."""
    texts, left_out = [], []
    for name, function in functions:
        try:
            texts.append(Writer(function).text(name))
        except Unknown as reason:
            left_out.append(f"{name}: {reason}")
    return f'program {items(texts)} (fnRef "")\n', left_out


def main(arguments: Sequence[str]) -> int:
    if len(arguments) != 1:
        print("usage: program.py CRATE", file=sys.stderr)
        return 2
    functions: list[tuple[str, Form]] = []
    for crate in below(arguments[0], ROOT):
        path = ROOT / "crates" / crate / "out" / "rlib" / f"{crate}.rlib" / "toolchain" / "mir.json"
        if not path.is_file():
            print(f"{path} is not there: run `rt ci`, or `rt lib` in crates/{arguments[0]}", file=sys.stderr)
            return 1
        functions += json.loads(path.read_text(encoding="utf-8"))
    text, left_out = written(functions)
    print(*left_out, sep="\n", end="\n" if left_out else "", file=sys.stderr)
    sys.stdout.write(text)
    return 0


if __name__ == "__main__":
    sys.exit(main(sys.argv[1:]))
