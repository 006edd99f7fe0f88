"""Shows that bench/mir.py runs MIR as it is meant, and that bench/operations.py counts what runs."""

from __future__ import annotations

import contextlib
import importlib.util
import io
import math
import sys
import unittest
from collections import Counter
from collections.abc import Sequence
from pathlib import Path
from random import Random
from types import ModuleType
from unittest import mock

import exact
import exact_files

BENCH = Path(__file__).parent.parent / "bench"
sys.path.append(str(BENCH))

import mir  # noqa: E402


def load_program() -> ModuleType:
    """bench/operations.py, whose name a module of tests/ has too."""
    spec = importlib.util.spec_from_file_location("bench_operations", BENCH / "operations.py")
    assert spec is not None and spec.loader is not None
    module = importlib.util.module_from_spec(spec)
    spec.loader.exec_module(module)
    return module


COUNTING = load_program()

U8, U16, U32, U64 = "(tyInt 8)", "(tyInt 16)", "(tyInt 32)", "(tyInt 64)"
F64, BOOL, UNIT, POINTER = "(tyFloat 64)", "tyBool", "tyUnit", "tyPtr"
SLICE = f'(tyStruct "&[]" (tcons (tyRef (named 0) imm {U8}) (tcons {U64} tnil)))'
PRODUCTS, ADDITIONS, COMPARISONS = (
    "products of whole numbers",
    "additions and subtractions",
    "comparisons of whole numbers",
)


# MIR by hand.


def items(*trees: str, words: tuple[str, str] = ("lcons", "lnil")) -> str:
    text = words[1]
    for tree in reversed(trees):
        text = f"({words[0]} {tree} {text})"
    return text


def types(*trees: str) -> str:
    return items(*trees, words=("tcons", "tnil"))


def array(element: str, length: int) -> str:
    return f"(tyArray {element} (lenLit {length}))"


def number(value: int, bits: int = 32) -> str:
    return f"(int {bits} {value})"


def place(index: int, *steps: str) -> str:
    return f"(place {index} {items(*steps)})"


def copy(index: int, *steps: str) -> str:
    return f"(copy {place(index, *steps)})"


def given(operand: str) -> str:
    return f"(rvOpd {operand})"


def op2(operation: str, left: str, right: str) -> str:
    return f"(op2 {operation} {left} {right})"


def op1(operation: str, operand: str) -> str:
    return f"(op1 {operation} {operand})"


def aggregate(*operands: str) -> str:
    return f"(aggregate {items(*operands)})"


def assign(to: int | str, value: str) -> str:
    return f"(assign {place(to) if isinstance(to, int) else to} {value})"


def call(name: str, arguments: Sequence[str], to: int) -> str:
    return f'(call (direct (fnRef "{name}")) {items(*arguments)} {place(to)})'


def seq(*statements: str) -> str:
    text = statements[-1]
    for statement in reversed(statements[:-1]):
        text = f"(seq {statement} {text})"
    return text


def function(name: str, parameters: int, local_types: Sequence[str], *statements: str, declared: str = "") -> str:
    """A function that returns after its statements."""
    local_list = items(*(f"(local {each} valueLocal)" for each in local_types))
    return f'(fn-def "{name}" (fnItem 0 lnil {parameters} {local_list} {seq(*statements, "return")}) {declared})'


def program(*functions: str) -> mir.Program:
    return mir.read_program(f'rt: noise\nprogram {items(*functions)} (fnRef "rt_empty::main")\n')


def run(name: str, arguments: Sequence[mir.Value], *functions: str) -> mir.Value:
    return mir.Machine(program(*functions)).call(name, arguments)


def of_two(operation: str, operands: str, result: str, left: mir.Value, right: mir.Value) -> mir.Value:
    """What an operation on two values gives."""
    text = function("f", 2, [result, operands, operands], assign(0, op2(operation, copy(1), copy(2))))
    return run("f", (left, right), text)


def of_one(operation: str, operand: str, result: str, value: mir.Value) -> mir.Value:
    return run("f", (value,), function("f", 1, [result, operand], assign(0, op1(operation, copy(1)))))


def squares_below(steps: int) -> str:
    """Adds up the squares of the numbers below `steps`: a product, two sums, a comparison and a branch in each step."""
    turn = seq(
        assign(2, op2("(lt unsigned)", copy(1), number(steps))),
        f"(if {copy(2)} skip (exit 1))",
        assign(3, op2("(mul unsigned)", copy(1), copy(1))),
        assign(0, op2("(add unsigned)", copy(0), copy(3))),
        assign(1, op2("(add unsigned)", copy(1), number(1))),
    )
    start = [assign(0, given(number(0))), assign(1, given(number(0)))]
    return function("squares", 0, [U32, U32, BOOL, U32], *start, f"(block (loop {turn}))")


# 7 written to an element of an array; that element, and the same one of a copy made before.
ELEMENT = function(
    "element",
    1,
    [f'(tyStruct "two" {types(U32, U32)})', U64, array(U32, 3), array(U32, 3), U64, POINTER, POINTER, U32, U32],
    assign(2, aggregate(number(10), number(20), number(30))),
    assign(3, given(copy(2))),
    assign(4, op2("(mul unsigned)", copy(1), number(4, 64))),
    assign(5, f"(addrOf {place(2)})"),
    assign(6, op2("offset", copy(5), copy(4))),
    assign(place(6, f"(deref {U32})"), given(number(7))),
    assign(7, given(copy(6, f"(deref {U32})"))),
    assign(5, f"(addrOf {place(3)})"),
    assign(6, op2("offset", copy(5), copy(4))),
    assign(8, given(copy(6, f"(deref {U32})"))),
    assign(0, aggregate(copy(7), copy(8))),
)


class Arithmetic(unittest.TestCase):
    def test_two_whole_numbers(self) -> None:
        for operation, operands, left, right, wanted in (
            ("(add unsigned)", U8, 200, 55, 255),
            ("(add signed)", U8, 0xFF, 1, 0),
            ("(sub unsigned)", U16, 5, 3, 2),
            ("(sub signed)", U16, 3, 5, 0xFFFE),
            ("(mul unsigned)", U64, 1 << 32, 3, 3 << 32),
            ("(mul signed)", U32, 2**32 - 3, 5, 2**32 - 15),
            ("(div unsigned)", U8, 0xF9, 2, 124),
            ("(div signed)", U8, 0xF9, 2, 0xFD),
            ("(rem unsigned)", U8, 0xF9, 2, 1),
            ("(rem signed)", U8, 0xF9, 2, 0xFF),
            ("shl", U32, 0xC000_0001, 2, 4),
            ("(shr unsigned)", U8, 0x90, 3, 0x12),
            ("(shr signed)", U8, 0x90, 3, 0xF2),
            ("and", U8, 0b1100, 0b1010, 0b1000),
            ("or", U8, 0b1100, 0b1010, 0b1110),
            ("xor", U8, 0b1100, 0b1010, 0b0110),
        ):
            self.assertEqual(of_two(operation, operands, operands, left, right), wanted, operation)

    def test_comparisons(self) -> None:
        for operation, left, right, wanted in (
            ("(lt unsigned)", 0xFF, 1, False),
            ("(lt signed)", 0xFF, 1, True),
            ("(le unsigned)", 1, 0x80, True),
            ("(le signed)", 1, 0x80, False),
            ("(lt signed)", 3, 3, False),
            ("(le signed)", 3, 3, True),
            ("eq", 3, 3, True),
            ("ne", 3, 3, False),
        ):
            self.assertEqual(of_two(operation, U8, BOOL, left, right), wanted, (operation, left, right))

    def test_what_has_no_meaning(self) -> None:
        for operation, left, right in (
            ("(add unsigned)", 255, 1),
            ("(add signed)", 127, 1),
            ("(sub unsigned)", 0, 1),
            ("(sub signed)", 0x80, 1),
            ("(mul unsigned)", 16, 16),
            ("(mul signed)", 16, 8),
            ("(div unsigned)", 1, 0),
            ("(div signed)", 0x80, 0xFF),
            ("(rem unsigned)", 1, 0),
            ("shl", 1, 8),
        ):
            with self.assertRaises(mir.Stuck, msg=operation):
                of_two(operation, U8, U8, left, right)

    def test_casts(self) -> None:
        for operation, operand, result, value, wanted in (
            ("(cast unsigned unsigned 64)", U8, U64, 0xFF, 0xFF),
            ("(cast signed signed 64)", U8, U64, 0xFF, 2**64 - 1),
            ("(cast signed signed 8)", U64, U8, 2**64 - 128, 0x80),
            ("(cast signed unsigned 8)", U64, U8, 255, 255),
            ("(cast unsigned signed 16)", U8, U16, 200, 200),
            ("(cast unsigned unsigned 32)", BOOL, U32, 1, 1),
            ("(cast signed signed 32)", BOOL, U32, 1, 1),
            ("not", BOOL, BOOL, 1, 0),
            ("not", U8, U8, 0b1010, 0b1111_0101),
        ):
            self.assertEqual(of_one(operation, operand, result, value), wanted, operation)
        for operation, value in (("(cast unsigned signed 8)", 200), ("(cast signed unsigned 16)", 0xFF)):
            with self.assertRaises(mir.Stuck, msg=operation):
                of_one(operation, U8, U16, value)

    def test_floats(self) -> None:
        for operation, result, left, right, wanted in (
            ("floatAdd", F64, 0.1, 0.2, 0.30000000000000004),
            ("floatSub", F64, 0.5, 2.0, -1.5),
            ("floatMul", F64, 0.1, 3.0, 0.30000000000000004),
            ("floatDiv", F64, 1.0, 3.0, 1 / 3),
            ("floatDiv", F64, -1.0, 0.0, -math.inf),
            ("floatDiv", F64, -1.0, -0.0, math.inf),
            ("floatLe", BOOL, 2.0, 2.0, True),
            ("floatLt", BOOL, 2.0, 2.0, False),
            ("floatLe", BOOL, math.nan, 2.0, False),
        ):
            self.assertEqual(of_two(operation, F64, result, left, right), wanted, operation)
        self.assertEqual(of_one("(intToFloat unsigned 64)", U64, F64, 2**53), 2.0**53)
        self.assertEqual(of_one("(intToFloat signed 64)", U8, F64, 0xFF), -1.0)
        self.assertEqual(of_one("(floatToInt unsigned 16)", F64, U16, 65535.0), 65535)
        self.assertEqual(of_one("floatToBits", F64, U64, 1.0), 0x3FF0_0000_0000_0000)
        with self.assertRaises(mir.Stuck):
            of_one("(intToFloat unsigned 64)", U64, F64, 2**53 + 1)
        with self.assertRaises(mir.Stuck):
            of_one("(floatToInt unsigned 16)", F64, U16, 0.5)


class Control(unittest.TestCase):
    def test_loop_and_exit(self) -> None:
        self.assertEqual([run("squares", (), squares_below(steps)) for steps in range(5)], [0, 0, 1, 5, 14])

    def test_exit_to_the_next_turn(self) -> None:
        turn = seq(
            assign(1, op2("(sub unsigned)", copy(1), number(1))),
            assign(2, op2("(rem unsigned)", copy(1), number(2))),
            assign(3, op2("eq", copy(2), number(1))),
            f"(if {copy(3)} (exit 0) skip)",
            assign(0, op2("(add unsigned)", copy(0), number(1))),
            assign(3, op2("eq", copy(1), number(0))),
            f"(if {copy(3)} (exit 1) skip)",
        )
        even = function("even", 1, [U32, U32, U32, BOOL], assign(0, given(number(0))), f"(block (loop {turn}))")
        self.assertEqual(run("even", (7,), even), 4)

    def test_exit_from_nested_loops(self) -> None:
        inner = f"(block (loop {seq(assign(0, given(number(1))), f'(if {copy(1)} (exit 3) (exit 1))')}))"
        outer = seq(inner, assign(0, given(number(2))), "(exit 1)")
        nested = function("nested", 1, [U32, BOOL], f"(block (loop {outer}))")
        self.assertEqual([run("nested", (far,), nested) for far in (1, 0)], [1, 2])

    def test_return_from_a_loop(self) -> None:
        early = function("early", 1, [U32, U32], f"(block (loop {seq(assign(0, given(copy(1))), 'return')}))", assign(0, given(number(9))))
        self.assertEqual(run("early", (4,), early), 4)

    def test_if(self) -> None:
        body = f"(if {copy(1)} {assign(0, given(number(3)))} {assign(0, given(number(4)))})"
        either = function("either", 1, [U32, BOOL], body)
        self.assertEqual([run("either", (value,), either) for value in (1, 0)], [3, 4])

    def test_switch(self) -> None:
        def arms(last: str) -> str:
            first, second = (f"{items(*keys)} {assign(0, given(number(value)))}" for keys, value in ((("0", "7"), 10), (("2",), 20)))
            return function("f", 1, [U32, U8], f"(switch {copy(1)} (arm {first} (arm {second} {last})))")

        other = f"(default {assign(0, given(number(30)))})"
        self.assertEqual([run("f", (value,), arms(other)) for value in (0, 7, 2, 3)], [10, 10, 20, 30])
        with self.assertRaises(mir.Stuck):
            run("f", (3,), arms("noDefault"))

    def test_call(self) -> None:
        twice = function("twice", 1, [U32, U32], assign(1, op2("(mul unsigned)", copy(1), number(2))), assign(0, given(copy(1))))
        caller = function("caller", 1, [U32, U32, U32], call("twice", [copy(1)], 2), assign(0, op2("(add unsigned)", copy(1), copy(2))))
        machine = mir.Machine(program(caller, twice))
        self.assertEqual(([machine.call("caller", (value,)) for value in (5, 6)], machine.top), ([15, 18], 0))

    def test_forms_that_are_not_read(self) -> None:
        for text in (function("f", 0, ["(tyFloat 32)"]), function("f", 0, [U32], assign(0, op1("leadingZeros", number(1))))):
            with self.assertRaises(mir.Unknown):
                program(text)
        with self.assertRaises(mir.Unknown):
            mir.read_program("rt: a proof fails\n")


class Memory(unittest.TestCase):
    def test_layouts(self) -> None:
        fields = [mir.whole(8), mir.whole(16), mir.whole(64), mir.BOOL]
        struct = mir.struct_of(fields)
        self.assertEqual(([start for start, _ in struct.parts], struct.size, struct.align), ([0, 2, 8, 16], 24, 8))
        self.assertEqual(mir.struct_of([mir.whole(8), mir.array_of(mir.whole(16), 3)]).size, 8)
        either = mir.enum_of([[mir.whole(16), mir.whole(32)], [mir.whole(64)], []])
        self.assertEqual([[start for start, _ in variant.parts] for variant in either.variants], [[0, 2, 4], [0, 8], [0]])
        self.assertEqual((either.size, either.align), (16, 8))

    def test_array(self) -> None:
        for index, before in enumerate((10, 20, 30)):
            result = run("element", (index,), ELEMENT)
            self.assertEqual(result, mir.struct_of([mir.whole(32)] * 2).made_of([7, before]))

    def test_repetition_and_slice(self) -> None:
        repeated = function("f", 0, [array(U16, 4)], assign(0, f"(repeat {number(513, 16)} 4)"))
        self.assertEqual(run("f", (), repeated), bytes([1, 2] * 4))
        last = [
            assign(2, op2("(sub unsigned)", copy(1, "(field 1)"), number(1, 64))),
            assign(3, op2("offset", copy(1, "(field 0)"), copy(2))),
            assign(0, given(copy(3, f"(deref {U8})"))),
        ]
        machine = mir.Machine(program(function("last", 1, [U8, SLICE, U64, POINTER], *last)))
        self.assertEqual([machine.call("last", (machine.lend(data),)) for data in (b"abc", b"de")], [*b"ce"])

    def test_struct_by_value(self) -> None:
        pair = '(tyNamed (pair "Pair" lnil))'
        declared = items(f'(pair "Pair" (fields {types(U8, U32)}))')
        field = "(field 1)"
        altered = function("altered", 1, [U32, pair], assign(place(1, field), given(number(6))), assign(0, given(copy(1, field))), declared=declared)
        statements = [
            assign(2, aggregate(number(1, 8), copy(1))),
            call("altered", [copy(2)], 3),
            assign(0, op2("(mul unsigned)", copy(3), copy(2, field))),
        ]
        caller = function("caller", 1, [U32, U32, pair, U32], *statements, declared=declared)
        self.assertEqual(run("caller", (5,), caller, altered), 30)

    def test_field_behind_a_pointer(self) -> None:
        pair = f'(tyStruct "Pair" {types(U8, U32)})'
        steps = f"(deref {pair})", "(field 1)"
        statements = [
            assign(1, aggregate(number(1, 8), number(5))),
            assign(2, f"(addrOf {place(1)})"),
            assign(place(2, *steps), given(number(6))),
            assign(0, op2("(mul unsigned)", copy(1, "(field 1)"), copy(2, *steps))),
        ]
        self.assertEqual(run("f", (), function("f", 0, [U32, pair, POINTER], *statements)), 36)

    def test_enum(self) -> None:
        either = '(tyNamed (pair "Either" lnil))'
        variants = items(types(U16), types(F64, U32), words=("ttcons", "ttnil"))
        declared = items(f'(pair "Either" (variants {variants}))')
        statements = [
            assign(1, aggregate(number(1, 8), "(float 64 4607182418800017408)", number(77))),
            assign(2, given(copy(1, "(variant 0)", "(field 0)"))),
            assign(0, given(copy(1, "(variant 1)", "(field 2)"))),
        ]
        self.assertEqual(run("f", (), function("f", 0, [U32, either, U8], *statements, declared=declared)), 77)


def counted(name: str, arguments: Sequence[mir.Value], *functions: str) -> dict[str, int]:
    """How many of each line a call takes, of those that it takes."""
    meter = COUNTING.Meter(program(*functions))
    meter.call(name, arguments)
    return +meter.counts().lookup


class Counts(unittest.TestCase):
    three = {PRODUCTS: 3, ADDITIONS: 6, COMPARISONS: 4, "branches": 4}

    def test_a_loop_of_three_steps(self) -> None:
        self.assertEqual(counted("squares", (), squares_below(3)), self.three)

    def test_a_wrong_count_is_seen(self) -> None:
        self.assertNotEqual(counted("squares", (), squares_below(4)), self.three)
        with mock.patch.dict(COUNTING.LINE_OF, {"mul": "shifts"}):
            self.assertNotEqual(counted("squares", (), squares_below(3)), self.three)
        with mock.patch.object(COUNTING, "is_power", lambda operand: True):
            self.assertNotEqual(counted("squares", (), squares_below(3)), self.three)

    def test_one_time_fewer_is_seen(self) -> None:
        meter = COUNTING.Meter(program(squares_below(3)))
        meter.call("squares", ())
        right = meter.times
        for statement, lines in enumerate(meter.lines):
            meter.times = right.copy()
            meter.times[statement] -= 1
            self.assertEqual(+meter.counts().lookup == self.three, not lines)

    def test_index_arithmetic_and_arrays(self) -> None:
        self.assertEqual(counted("element", (1,), ELEMENT), {"index arithmetic": 3, "reads from arrays": 2, "writes to arrays": 1})

    def test_two_reads_of_one_statement(self) -> None:
        element = copy(1, f"(deref {U64})")
        statements = [assign(1, f"(addrOf {place(0)})"), assign(2, op2("ne", element, element))]
        self.assertEqual(counted("f", (), function("f", 0, [U64, POINTER, BOOL], *statements)), {"reads from arrays": 2, COMPARISONS: 1})

    def test_a_product_that_is_no_index(self) -> None:
        by_four = assign(2, op2("(mul unsigned)", copy(1), number(4, 64)))
        offset = [assign(3, f"(addrOf {place(0)})"), assign(3, op2("offset", copy(3), copy(2)))]
        for statements, wanted in (
            ([by_four, assign(2, op2("(add unsigned)", copy(2), number(1, 64)))], {COUNTING.PRODUCTS_BY_POWERS: 1, ADDITIONS: 1}),
            ([by_four, f"(if true {assign(2, given(copy(1)))} skip)"], {COUNTING.PRODUCTS_BY_POWERS: 1, "branches": 1}),
            ([assign(2, op2("(mul unsigned)", copy(1), copy(1)))], {PRODUCTS: 1}),
        ):
            text = function("f", 1, [U64, U64, U64, POINTER], *statements, *offset)
            self.assertEqual(counted("f", (1,), text), {**wanted, "index arithmetic": 1})

    def test_literal_powers_of_two(self) -> None:
        for operation, left, right, line in (
            ("(mul unsigned)", copy(1), number(6), PRODUCTS),
            ("(mul unsigned)", copy(1), number(8), COUNTING.PRODUCTS_BY_POWERS),
            ("(mul unsigned)", number(1), copy(1), COUNTING.PRODUCTS_BY_POWERS),
            ("(div unsigned)", copy(1), number(10), "divisions and remainders of whole numbers"),
            ("(div unsigned)", number(8), copy(1), "divisions and remainders of whole numbers"),
            ("(div unsigned)", copy(1), number(2), COUNTING.DIVISIONS_BY_POWERS),
            ("(rem unsigned)", copy(1), number(4096), COUNTING.DIVISIONS_BY_POWERS),
        ):
            text = function("f", 1, [U32, U32], assign(0, op2(operation, left, right)))
            self.assertEqual(counted("f", (8,), text), {line: 1}, (operation, left, right))

    def test_the_roots_apart(self) -> None:
        multiply = assign(0, op2("(mul unsigned)", copy(1), copy(1)))
        one = function(COUNTING.DISTANCE, 1, [U32, U32], multiply)
        both = function(COUNTING.ROOTS, 1, [U32, U32], *[call(COUNTING.DISTANCE, [copy(1)], 0)] * 2)
        lookup = function("lookup", 1, [U32, U32], multiply, *[call(COUNTING.ROOTS, [copy(1)], 0)] * 3)
        meter = COUNTING.Meter(program(lookup, both, one))
        meter.call("lookup", (3,))
        counts = meter.counts()
        self.assertEqual(+counts.lookup, {PRODUCTS: 7, "calls": 9, COUNTING.DISTANCES: 6})
        self.assertEqual(+counts.roots, {PRODUCTS: 6, "calls": 6, COUNTING.DISTANCES: 6})
        meter.restart()
        self.assertEqual([+each for each in meter.counts()], [{}, {}])

    def test_each_operation_has_a_line(self) -> None:
        known = {*mir.ARITHMETIC, *mir.ORDER, *mir.SHIFTS, *mir.WITHOUT_SIGN, "not", "cast", "intToFloat", "floatToInt", "floatToBits"}
        self.assertEqual(set(COUNTING.LINE_OF), known)


ANSWER = '(tyNamed (pair "Answer" lnil))'
FOUND = items(types(U16, U64, U32), types(U8), words=("ttcons", "ttnil"))
REPLY = f'(tyStruct "Reply" {types(U8, UNIT)})'


def survey_program(*reply: str) -> str:
    """A survey that holds nothing, and answers each lookup so, after one D."""
    functions = [
        function("root::distance_of", 1, [U32, U32], assign(0, op2("(shr unsigned)", copy(1), number(1)))),
        function("root::distances", 1, [U32, U32], call("root::distance_of", [copy(1)], 0)),
        function("survey::fresh", 0, [UNIT], assign(0, given("unit"))),
        function("survey::load", 2, [REPLY, UNIT, SLICE], assign(0, aggregate(number(0, 8), copy(1)))),
        function(
            "survey::lookup",
            3,
            [ANSWER, UNIT, U32, U32, U32],
            assign(4, op2("(add unsigned)", copy(2), copy(3))),
            call("root::distances", [copy(4)], 4),
            assign(0, aggregate(*reply)),
            declared=items(f'(pair "Answer" (variants {FOUND}))'),
        ),
    ]
    return f'program {items(*functions)} (fnRef "rt_empty::main")'


def answering(answer: int, count: int, radius: int) -> str:
    return survey_program(number(0, 8), number(answer % 2**16, 16), number(count, 64), number(radius))


class Answers(unittest.TestCase):
    def printed(self, text: str) -> tuple[int, str]:
        """The status and what is printed, for a survey of one point of value -2."""
        output = io.StringIO()
        points = [exact.Point(7, 9, -2)]
        with mock.patch.object(COUNTING, "printed_program", lambda: text), mock.patch.object(COUNTING, "make_points", lambda rng, count: points):
            with contextlib.redirect_stdout(output):
                return COUNTING.main(["1"]), output.getvalue()

    def test_right_answers(self) -> None:
        status, text = self.printed(answering(-512, 1, 0))
        self.assertEqual(status, 0)
        rows = {line[:52].strip(): line[52:].split() for line in text.splitlines()}
        self.assertEqual(len(rows), len(COUNTING.LINES) + 1)
        self.assertIn("a lookup, 1 points, 32 lookups", rows)
        self.assertEqual(rows[ADDITIONS], ["1.0", "1", "1", "0.0"])
        self.assertEqual(rows["shifts"], ["1.0", "1", "1", "1.0"])
        self.assertEqual(rows["calls"], ["2.0", "2", "2", "1.0"])
        self.assertEqual(rows["D's worked out"], ["1.0", "1", "1", "1.0"])

    def test_no_roots(self) -> None:
        for name in ("root::distances", "root::distance_of"):
            status, text = self.printed(answering(-512, 1, 0).replace(f'"{name}"', '"root::other"'))
            self.assertEqual((status, text), (1, f"the program has no {name}\n"))

    def test_locations_differ(self) -> None:
        with mock.patch.object(COUNTING, "look_up", wraps=COUNTING.look_up) as looked_up:
            self.printed(answering(-512, 1, 0))
        self.assertGreater(len({each.args[2] for each in looked_up.call_args_list}), 20)

    def test_wrong_answers(self) -> None:
        for answer in ((-511, 1, 0), (512, 1, 0), (-512, 2, 0), (-512, 1, 3)):
            status, text = self.printed(answering(*answer))
            self.assertEqual((status, text.count("\n")), (1, 1), answer)
            self.assertIn("[-512], 1 and 0 are right", text)

    def test_refused(self) -> None:
        status, text = self.printed(survey_program(number(1, 8), number(6, 8)))
        self.assertEqual(status, 1)
        self.assertTrue(text.endswith(": refused 6\n"), text)

    def test_usage(self) -> None:
        for arguments in (["0"], ["257"], ["many"], ["5", "5"]):
            with contextlib.redirect_stdout(io.StringIO()):
                self.assertEqual(COUNTING.main(arguments), 2)

    def test_points_that_a_survey_file_takes(self) -> None:
        for count in (1, 200, 256):
            points = COUNTING.make_points(Random(count), count)
            self.assertEqual(len(points), count)
            self.assertEqual(exact_files.read_survey_file(exact_files.survey_file(points)), points)

    def test_table(self) -> None:
        both = [COUNTING.Counts(Counter({PRODUCTS: products}), Counter({PRODUCTS: 1})) for products in (2, 1003)]
        self.assertEqual(COUNTING.table(5, both)[1].split()[-4:], ["502.5", "2", "1,003", "1.0"])


if __name__ == "__main__":
    unittest.main()
