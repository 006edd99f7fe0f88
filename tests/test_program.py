"""Shows that bench/program.py writes a library's MIR as bench/mir.py reads it."""

from __future__ import annotations

import sys
import tempfile
import unittest
from pathlib import Path
from typing import Any

sys.path.append(str(Path(__file__).parent.parent / "bench"))

import mir  # noqa: E402
import program  # noqa: E402

U8, U64, BOOL = {"Int": 8}, {"Int": 64}, "Bool"
SLICE = {"Struct": ["&[]", [{"Ref": [{"Named": 0}, "Imm", U8]}, U64]]}
EITHER = {"Named": [{"name": "low::Either", "lifetimes": []}, [U64]]}
DECLARED = {"name": "low::Either", "shape": {"Variants": [[{"Param": 0}], [U8, {"Param": 0}]]}}


def place(local: int, *steps: Any) -> Any:
    return {"local": local, "steps": list(steps)}


def copy(local: int, *steps: Any) -> Any:
    return {"Copy": place(local, *steps)}


def number(value: int, width: int = 64) -> Any:
    return {"Int": {"width": width, "value": value}}


def assign(to: int, value: Any) -> Any:
    return {"Assign": [place(to), value]}


def call(name: str, argument: Any, to: int, types: list[Any] | None = None) -> Any:
    return {"Call": [{"Fn": [name, {"types": types or [], "dicts": []}]}, [argument], place(to)]}


def function(parameters: int, locals_: list[Any], *body: Any, takes: list[Any] | None = None) -> Any:
    return {
        "params": parameters,
        "generics": {"types": takes or []},
        "types": [DECLARED],
        "locals": [{"ty": each, "home": "ValueLocal"} for each in locals_],
        "body": list(body),
    }


def run(arguments: list[mir.Value], function_: Any, *others: tuple[str, Any]) -> mir.Value:
    text, left_out = program.written([("low::f", function_), *others])
    assert not left_out, left_out
    return mir.Machine(mir.read_program(text)).call("low::f", arguments)


class Written(unittest.TestCase):
    def test_a_choice(self) -> None:
        """The lesser of two numbers."""
        less = assign(3, {"Op2": [{"Lt": "Signed"}, copy(1), copy(2)]})
        body = ["Seq", less, "Seq", {"If": copy(3)}, assign(0, {"Opd": copy(1)}), assign(0, {"Opd": copy(2)}), "Return"]
        least = function(2, [U64, U64, U64, BOOL], *body)
        self.assertEqual(run([7, 9], least), 7)
        self.assertEqual(run([7, 2**64 - 1], least), 2**64 - 1)

    def test_a_loop_over_a_slice(self) -> None:
        """The sum of its bytes."""
        add = [
            "Seq",
            assign(4, {"Op2": ["Offset", copy(1, {"Field": 0}), copy(2)]}),
            "Seq",
            assign(5, {"Op1": [{"Cast": ["Unsigned", "Unsigned", 64]}, copy(4, {"Deref": U8})]}),
            "Seq",
            assign(0, {"Op2": [{"Add": "Unsigned"}, copy(0), copy(5)]}),
            assign(2, {"Op2": [{"Add": "Unsigned"}, copy(2), number(1)]}),
        ]
        turn = ["Seq", assign(3, {"Op2": ["Ne", copy(2), copy(1, {"Field": 1})]}), {"If": copy(3)}, *add, {"Exit": 1}]
        body = ["Seq", assign(0, {"Opd": number(0)}), "Seq", assign(2, {"Opd": number(0)}), "Seq", "Block", "Loop", *turn, "Return"]
        total = function(1, [U64, SLICE, U64, BOOL, "Ptr", U64], *body)
        text, _ = program.written([("low::f", total)])
        machine = mir.Machine(mir.read_program(text))
        self.assertEqual(machine.call("low::f", [machine.lend(bytes([3, 4, 250]))]), 257)

    def test_a_declared_type(self) -> None:
        """An enum over a number, and a switch on its tag."""
        second = assign(2, {"Aggregate": [number(1, 8), number(5, 8), copy(1)]})
        arms = [{"Switch": [copy(2, {"Variant": 0}, {"Field": 0}), [[0], [1]], False]}]
        arms += [assign(0, {"Opd": number(99)}), assign(0, {"Opd": copy(2, {"Variant": 1}, {"Field": 2})})]
        self.assertEqual(run([12], function(1, [U64, U64, EITHER], "Seq", second, "Seq", *arms, "Return")), 12)

    def test_a_call(self) -> None:
        double = function(1, [U64, U64], "Seq", assign(0, {"Op2": [{"Add": "Unsigned"}, copy(1), copy(1)]}), "Return")
        calls = function(1, [U64, U64], "Seq", call("low::double", copy(1), 0), "Return")
        self.assertEqual(run([21], calls, ("low::double", double)), 42)

    def test_left_out(self) -> None:
        """What takes a type, calls what does, or has another form."""
        sound = function(1, [U64, U64], "Return")
        takes = function(1, [{"Param": 0}, {"Param": 0}], "Return", takes=[{}])
        calls = function(1, [U64, U64], "Seq", call("low::takes", copy(1), 0, [U64]), "Return")
        odd = function(1, [U64, U64], "Unreachable")
        text, left_out = program.written([("low::sound", sound), ("low::takes", takes), ("low::calls", calls), ("low::odd", odd)])
        self.assertEqual(list(mir.read_program(text).functions), ["low::sound"])
        self.assertEqual(
            left_out,
            ["low::takes: it takes a type", "low::calls: a call of low::takes at types", "low::odd: the statement Unreachable"],
        )


class Below(unittest.TestCase):
    def test_libraries_once(self) -> None:
        with tempfile.TemporaryDirectory() as folder:
            lines = "# What is built on what.\nlow:\nmiddle: low\nbeside: low\nface staticlib: beside middle\nother: low\n"
            (Path(folder) / "crates.txt").write_text(lines)
            self.assertEqual(program.below("face", Path(folder)), ["face", "beside", "middle", "low"])


if __name__ == "__main__":
    unittest.main()
