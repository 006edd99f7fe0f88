"""Reads a program of MIR, as program.py prints it, and runs it, counting how often each statement runs.

The toolchain's definition of MIR says what each form means. Memory is one array of bytes, the locals of one call above those of another, and a
pointer is an index into it. A sum that does not fit, a division by 0 and the like raise Stuck. To reach beside a value, or to read bytes that were
never written, goes unnoticed: no proved program does either.
"""

from __future__ import annotations

import enum
import itertools
import math
import operator
import re
from collections.abc import Callable, Iterator, Sequence
from dataclasses import dataclass
from struct import pack, unpack
from typing import Any, NamedTuple

# The bits of a whole number, a bool or a pointer; a float; the bytes of what has parts.
Value = int | float | bytes

# A word, or a list of trees.
Tree = Any

TOKEN = re.compile(r'[()]|"[^"]*"|[^\s()"]+')
POINTER_BYTES = 8
RETURNED = -1


class Stuck(Exception):
    """A step that MIR's definition gives no meaning."""


class Unknown(Exception):
    """A form that is not read here."""


# Layouts.


class Kind(enum.Enum):
    WHOLE, BOOL, POINTER, FLOAT, PARTS = range(5)


@dataclass(frozen=True)
class Layout:
    """How the values of a type lie in memory; an enum has variants, and the first part of each is its tag."""

    kind: Kind
    size: int
    align: int = 1
    parts: tuple[tuple[int, Layout], ...] = ()
    variants: tuple[Layout, ...] = ()

    @property
    def bits(self) -> int:
        return 1 if self.kind is Kind.BOOL else 8 * self.size

    def read(self, data: bytes | bytearray, at: int = 0) -> Value:
        raw = data[at : at + self.size]
        if self.kind is Kind.PARTS:
            return bytes(raw)
        return unpack("<d", raw)[0] if self.kind is Kind.FLOAT else int.from_bytes(raw, "little")

    def written(self, value: Value) -> bytes:
        if isinstance(value, bytes):
            return value
        return pack("<d", value) if self.kind is Kind.FLOAT else int(value).to_bytes(self.size, "little")

    def live(self, content: Sequence[Value]) -> Layout:
        """Of an enum the variant that the first of the content, its tag, tells; else itself."""
        return self.variants[int(content[0])] if self.variants else self

    def values(self, data: bytes) -> list[Value]:
        """The parts of a value."""
        return [part.read(data, start) for start, part in self.live(data).parts]

    def made_of(self, values: Sequence[Value]) -> bytes:
        """The value that has these parts."""
        data = bytearray(self.size)
        for (start, part), value in zip(self.live(values).parts, values, strict=True):
            data[start : start + part.size] = part.written(value)
        return bytes(data)


BOOL = Layout(Kind.BOOL, 1)
UNIT = Layout(Kind.PARTS, 0)
FLOAT = Layout(Kind.FLOAT, 8, 8)
POINTER = Layout(Kind.POINTER, POINTER_BYTES, POINTER_BYTES)


def whole(bits: int) -> Layout:
    return Layout(Kind.WHOLE, bits // 8, bits // 8)


def rounded_up(size: int, align: int) -> int:
    return -(-size // align) * align


def struct_of(fields: Sequence[Layout]) -> Layout:
    """As C has it."""
    parts, end = [], 0
    for field in fields:
        start = rounded_up(end, field.align)
        parts.append((start, field))
        end = start + field.size
    align = max((field.align for field in fields), default=1)
    return Layout(Kind.PARTS, rounded_up(end, align), align, tuple(parts))


def enum_of(variants: Sequence[Sequence[Layout]]) -> Layout:
    """The variants lie over one another."""
    structs = tuple(struct_of([whole(8), *fields]) for fields in variants)
    align = max(struct.align for struct in structs)
    size = rounded_up(max(struct.size for struct in structs), align)
    return Layout(Kind.PARTS, size, align, variants=structs)


def array_of(element: Layout, length: int) -> Layout:
    parts = tuple((index * element.size, element) for index in range(length))
    return Layout(Kind.PARTS, length * element.size, element.align, parts)


# Operations.


def signed(number: int, bits: int) -> int:
    """What bits say in two's complement."""
    return number - (1 << bits) if number >> (bits - 1) else number


def fitted(number: int, sign: str, bits: int) -> int:
    """The bits of a number, where there are enough."""
    least = -1 << (bits - 1) if sign == "signed" else 0
    if not least <= number < least + (1 << bits):
        raise Stuck(f"{number} is no {sign} number of {bits} bits")
    return number % (1 << bits)


def quotient(left: int, right: int) -> int:
    """Rounded towards zero."""
    if right == 0:
        raise Stuck(f"{left} divided by 0")
    size = abs(left) // abs(right)
    return size if (left < 0) == (right < 0) else -size


def remainder(left: int, right: int) -> int:
    return left - right * quotient(left, right)


def float_quotient(left: float, right: float) -> float:
    if right != 0:
        return left / right
    if left == 0 or math.isnan(left):
        return math.nan
    return math.copysign(math.inf, left) * math.copysign(1, right)


ARITHMETIC = {"add": operator.add, "sub": operator.sub, "mul": operator.mul, "div": quotient, "rem": remainder}
ORDER = {"lt": operator.lt, "le": operator.le}
SHIFTS = {"shl": operator.lshift, "shr": operator.rshift}
WITHOUT_SIGN: dict[str, Callable[[Any, Any], Value]] = {
    "eq": operator.eq,
    "ne": operator.ne,
    "and": operator.and_,
    "or": operator.or_,
    "xor": operator.xor,
    "offset": operator.add,
    "floatAdd": operator.add,
    "floatSub": operator.sub,
    "floatMul": operator.mul,
    "floatDiv": float_quotient,
    "floatEq": operator.eq,
    "floatNe": operator.ne,
    "floatLt": operator.lt,
    "floatLe": operator.le,
}


def binary(name: str, sign: str, bits: int) -> Callable[[Any, Any], Value]:
    """What an operation does to two values of so many bits."""

    def read(number: int) -> int:
        return signed(number, bits) if sign == "signed" else number

    def shifted(left: int, right: int) -> int:
        if right >= bits:
            raise Stuck(f"{bits} bits shifted by {right}")
        return SHIFTS[name](read(left), right) % (1 << bits)

    if name in ARITHMETIC:
        return lambda left, right: fitted(ARITHMETIC[name](read(left), read(right)), sign, bits)
    if name in ORDER:
        return lambda left, right: ORDER[name](read(left), read(right))
    if name in SHIFTS:
        return shifted
    if name in WITHOUT_SIGN:
        return WITHOUT_SIGN[name]
    raise Unknown(name)


def as_float(number: int) -> float:
    if abs(number) > 1 << 53:
        raise Stuck(f"{number} as a float")
    return float(number)


def as_whole(number: float, sign: str, bits: int) -> int:
    if not number.is_integer() or abs(number) > 1 << 53:
        raise Stuck(f"{number} as a whole number")
    return fitted(int(number), sign, bits)


def unary(words: Sequence[str], layout: Layout) -> Callable[[Any], Value]:
    """What an operation does to one value."""
    bits = layout.bits

    def read(sign: str, number: int) -> int:
        return signed(number, bits) if sign == "signed" and layout.kind is Kind.WHOLE else number

    match words:
        case ["not"]:
            return lambda value: (1 << bits) - 1 - value
        case ["cast", before, after, width]:
            return lambda value: fitted(read(before, value), after, int(width))
        case ["intToFloat", sign, "64"]:
            return lambda value: as_float(read(sign, value))
        case ["floatToInt", sign, width]:
            return lambda value: as_whole(value, sign, int(width))
        case ["floatToBits"]:
            return lambda value: int.from_bytes(pack("<d", value), "little")
    raise Unknown(words)


# Places and operands; `base` is where the locals of a call begin.


class Place(NamedTuple):
    """A local by its offset and, for each pointer that is followed from there, how far beyond its target."""

    start: int
    hops: tuple[int, ...]
    layout: Layout

    def address(self, machine: Machine, base: int) -> int:
        at = base + self.start
        for hop in self.hops:
            at = int.from_bytes(machine.memory[at : at + POINTER_BYTES], "little") + hop
        return at


class Copy(NamedTuple):
    place: Place

    @property
    def layout(self) -> Layout:
        return self.place.layout

    def value(self, machine: Machine, base: int) -> Value:
        return self.place.layout.read(machine.memory, self.place.address(machine, base))


class Literal(NamedTuple):
    number: Value
    layout: Layout

    def value(self, machine: Machine, base: int) -> Value:
        return self.number


Operand = Copy | Literal


# Statements.


@dataclass(frozen=True)
class Statement:
    """Its number, what it reads, where its result goes, and the statements in it.

    `run` gives None where the next statement follows, RETURNED, or how many blocks and loops are left beside the innermost one.
    """

    number: int
    operands: tuple[Operand, ...] = ()
    place: Place | None = None
    bodies: tuple[Body, ...] = ()

    def run(self, machine: Machine, base: int) -> int | None:
        raise NotImplementedError

    def values(self, machine: Machine, base: int) -> list[Value]:
        return [operand.value(machine, base) for operand in self.operands]

    def put(self, machine: Machine, base: int, value: Value) -> None:
        assert self.place is not None
        machine.store(self.place.address(machine, base), self.place.layout, value)


Body = tuple[Statement, ...]


def sequences(body: Body) -> Iterator[Body]:
    """The body, and every one in it."""
    yield body
    for statement in body:
        for inner in statement.bodies:
            yield from sequences(inner)


def outside(ending: int) -> int:
    """How a block or a loop ends where what is in it leaves it."""
    return ending if ending == RETURNED else ending - 1


def same(value: Value) -> Value:
    return value


@dataclass(frozen=True)
class Assign(Statement):
    """An operation by its name, or a copy, an aggregate, a repetition."""

    name: str = "copy"
    compute: Callable[..., Value] = same

    def run(self, machine: Machine, base: int) -> None:
        self.put(machine, base, self.compute(*self.values(machine, base)))


@dataclass(frozen=True)
class Address(Statement):
    target: Place = Place(0, (), UNIT)

    def run(self, machine: Machine, base: int) -> None:
        self.put(machine, base, self.target.address(machine, base))


@dataclass(frozen=True)
class Call(Statement):
    name: str = ""

    def run(self, machine: Machine, base: int) -> None:
        self.put(machine, base, machine.call(self.name, self.values(machine, base)))


class If(Statement):
    def run(self, machine: Machine, base: int) -> int | None:
        condition = self.operands[0].value(machine, base)
        return machine.run(self.bodies[0 if condition else 1], base)


@dataclass(frozen=True)
class Switch(Statement):
    """The keys of each body; those of a default are none."""

    keys: tuple[tuple[int, ...], ...] = ()

    def run(self, machine: Machine, base: int) -> int | None:
        number = self.operands[0].value(machine, base)
        for keys, body in zip(self.keys, self.bodies, strict=True):
            if not keys or number in keys:
                return machine.run(body, base)
        raise Stuck(f"no arm of a switch has {number}")


class Block(Statement):
    def run(self, machine: Machine, base: int) -> int | None:
        ending = machine.run(self.bodies[0], base)
        return outside(ending) if ending else None


class Loop(Statement):
    def run(self, machine: Machine, base: int) -> int:
        while not (ending := machine.run(self.bodies[0], base)):
            pass
        return outside(ending)


@dataclass(frozen=True)
class End(Statement):
    """A return or an exit."""

    ending: int = RETURNED

    def run(self, machine: Machine, base: int) -> int:
        return self.ending


# Functions, and the machine that runs them.


class Function(NamedTuple):
    """The locals are laid out as a struct: the result, the parameters, the others."""

    parameters: int
    locals: Layout
    body: Body

    @property
    def result(self) -> Layout:
        return self.locals.parts[0][1]


class Program(NamedTuple):
    functions: dict[str, Function]
    statements: int


class Machine:
    """Has in `times` how often each statement was run, by its number."""

    def __init__(self, program: Program) -> None:
        self.functions = program.functions
        self.times = [0] * program.statements
        self.memory = bytearray()
        self.top = 0

    def take(self, size: int) -> int:
        """Where so many bytes more begin."""
        start = self.top
        self.top += size
        self.memory.extend(bytes(max(0, self.top - len(self.memory))))
        return start

    def store(self, at: int, layout: Layout, value: Value) -> None:
        self.memory[at : at + layout.size] = layout.written(value)

    def lend(self, data: bytes) -> bytes:
        """A slice of these bytes, which stay in memory."""
        start = self.take(len(data))
        self.memory[start : start + len(data)] = data
        return pack("<QQ", start, len(data))

    def call(self, name: str, arguments: Sequence[Value]) -> Value:
        function = self.functions[name]
        base = self.take(function.locals.size)
        parameters = function.locals.parts[1 : function.parameters + 1]
        for (start, layout), argument in zip(parameters, arguments, strict=True):
            self.store(base + start, layout, argument)
        if self.run(function.body, base) != RETURNED:
            raise Stuck(f"{name} ends without a return")
        self.top = base
        return function.result.read(self.memory, base)

    def run(self, body: Body, base: int) -> int | None:
        for statement in body:
            self.times[statement.number] += 1
            ending = statement.run(self, base)
            if ending is not None:
                return ending
        return None


# Reading.


def trees(text: str) -> list[Tree]:
    unclosed: list[list[Tree]] = [[]]
    for token in TOKEN.findall(text):
        if token == "(":
            unclosed.append([])
        elif token == ")":
            closed = unclosed.pop()
            unclosed[-1].append(closed)
        else:
            unclosed[-1].append(token.strip('"'))
    return unclosed[0]


def listed(tree: Tree) -> list[Tree]:
    """The items of `lcons A (lcons B lnil)`, or of a list with other such words."""
    items = []
    while isinstance(tree, list):
        items.append(tree[1])
        tree = tree[2]
    return items


def in_sequence(tree: Tree) -> Iterator[Tree]:
    """The statements that `seq` joins, without any `skip`."""
    while isinstance(tree, list) and tree[0] == "seq":
        yield from in_sequence(tree[1])
        tree = tree[2]
    if tree != "skip":
        yield tree


def words_of(tree: Tree) -> list[str]:
    return tree if isinstance(tree, list) else [tree]


class Reader:
    """Makes a function of its tree, and numbers its statements."""

    def __init__(self, tree: Tree, numbers: Iterator[int]) -> None:
        _, _, (_, _, _, parameters, types, body), *declared = tree
        self.declared = {name: fields for _, name, fields in listed(declared[0])} if declared else {}
        self.numbers = numbers
        self.locals = struct_of([self.layout(each) for _, each, _ in listed(types)])
        self.function = Function(int(parameters), self.locals, self.body(body))

    def layouts(self, tree: Tree) -> list[Layout]:
        return [self.layout(each) for each in listed(tree)]

    def layout(self, tree: Tree) -> Layout:
        match tree:
            case ["tyInt", bits]:
                return whole(int(bits))
            case "tyBool":
                return BOOL
            case "tyUnit":
                return UNIT
            case ["tyFloat", "64"]:
                return FLOAT
            case "tyPtr" | ["tyRef", _, _, _]:
                return POINTER
            case ["tyArray", element, ["lenLit", length]]:
                return array_of(self.layout(element), int(length))
            case ["tyStruct", _, fields] | ["fields", fields]:
                return struct_of(self.layouts(fields))
            case ["variants", variants]:
                return enum_of([self.layouts(fields) for fields in listed(variants)])
            case ["tyNamed", ["pair", name, _]]:
                return self.layout(self.declared[name])
        raise Unknown(tree)

    def place(self, tree: Tree) -> Place:
        start, layout = self.locals.parts[int(tree[1])]
        offsets = [start]
        for step in listed(tree[2]):
            match step:
                case ["deref", target]:
                    offsets.append(0)
                    layout = self.layout(target)
                case ["field", index]:
                    start, layout = layout.parts[int(index)]
                    offsets[-1] += start
                case ["variant", index]:
                    layout = layout.variants[int(index)]
                case _:
                    raise Unknown(step)
        return Place(offsets[0], tuple(offsets[1:]), layout)

    def operand(self, tree: Tree) -> Operand:
        match tree:
            case ["copy", place]:
                return Copy(self.place(place))
            case ["int", bits, number]:
                return Literal(int(number), whole(int(bits)))
            case ["float", "64", pattern]:
                return Literal(FLOAT.read(int(pattern).to_bytes(FLOAT.size, "little")), FLOAT)
            case "true" | "false":
                return Literal(int(tree == "true"), BOOL)
            case "unit":
                return Literal(b"", UNIT)
        raise Unknown(tree)

    def operands(self, *given: Tree) -> tuple[Operand, ...]:
        return tuple(self.operand(tree) for tree in given)

    def body(self, tree: Tree) -> Body:
        return tuple(self.statement(each) for each in in_sequence(tree))

    def statement(self, tree: Tree) -> Statement:
        number = next(self.numbers)
        match tree:
            case "return":
                return End(number)
            case ["exit", depth]:
                return End(number, ending=int(depth))
            case ["assign", place, value]:
                return self.assignment(number, self.place(place), value)
            case ["call", ["direct", ["fnRef", name]], arguments, place]:
                return Call(number, self.operands(*listed(arguments)), self.place(place), name=name)
            case ["if", condition, then, otherwise]:
                return If(number, self.operands(condition), bodies=(self.body(then), self.body(otherwise)))
            case ["switch", on, arms]:
                return self.switch(number, on, arms)
            case ["block", inner]:
                return Block(number, bodies=(self.body(inner),))
            case ["loop", inner]:
                return Loop(number, bodies=(self.body(inner),))
        raise Unknown(tree)

    def switch(self, number: int, on: Tree, arms: Tree) -> Statement:
        keys, bodies = [], []
        while arms[0] == "arm":
            keys.append(tuple(int(key) for key in listed(arms[1])))
            bodies.append(self.body(arms[2]))
            arms = arms[3]
        if arms[0] == "default":
            keys.append(())
            bodies.append(self.body(arms[1]))
        return Switch(number, self.operands(on), bodies=tuple(bodies), keys=tuple(keys))

    def assignment(self, number: int, place: Place, tree: Tree) -> Statement:
        compute: Callable[..., Value]
        match tree:
            case ["addrOf", target]:
                return Address(number, place=place, target=self.place(target))
            case ["rvOpd", given]:
                operands, name, compute = self.operands(given), "copy", same
            case ["aggregate", given]:
                operands, name, compute = self.operands(*listed(given)), "aggregate", lambda *values: place.layout.made_of(values)
            case ["repeat", given, length]:
                operands, name, compute = self.operands(given), "repeat", lambda value: place.layout.made_of([value] * int(length))
            case ["op2", operation, left, right]:
                operands, (name, *sign) = self.operands(left, right), words_of(operation)
                compute = binary(name, sign[0] if sign else "unsigned", operands[0].layout.bits)
            case ["op1", operation, given]:
                operands, (name, *_) = self.operands(given), words_of(operation)
                compute = unary(words_of(operation), operands[0].layout)
            case _:
                raise Unknown(tree)
        return Assign(number, operands, place, name=name, compute=compute)


def read_program(text: str) -> Program:
    """The program on the line that begins with the word `program`."""
    line = next((line for line in text.splitlines() if line.startswith("program ")), None)
    if line is None:
        raise Unknown("no line begins with the word `program`")
    numbers = itertools.count()
    functions = {tree[1]: Reader(tree, numbers).function for tree in listed(trees(line)[1])}
    return Program(functions, next(numbers))
