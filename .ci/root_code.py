"""The distance's root has no division, no remainder, no float and no table: neither in its source, nor in the program that is proved, nor in its machine code.

root_code.py SOURCE PROGRAM LIBRARY examines the source that D's root stands in; the program, as `bench/program.py candidates` prints it, by which a lookup
works out its distances; and the static library that exports D's root alone.
"""
from __future__ import annotations

import pathlib
import re
import subprocess
import sys
from collections.abc import Iterator

sys.path.append(str(pathlib.Path(__file__).parent.parent / 'bench'))

import mir  # noqa: E402

# who works out a lookup's distances, by which function, and D's root alone as the library exports it
CALLER, DISTANCES, EXPORTED = 'candidates::of_keys', 'root::distances', 'distance_of'

COMMENT = re.compile(r'//[^\n]*')
CLAUSE = re.compile(r'\b(?:requires|ensures)(?:\s+\w+)?\s*(?=\{)')
GHOST = re.compile(r'^ghost use [^\n]*\n', re.M)
BANNED = {'a division': re.compile(r'/'), 'a remainder': re.compile(r'%'), 'a float': re.compile(r'f(?:32|64)\b|\b\d[\d_]*\.(?!\.)')}

# what a step of the program may do; an aggregate could be a table
OPERATIONS = {'copy', 'repeat', 'add', 'sub', 'mul', 'shl', 'shr', 'lt', 'le', 'eq', 'ne', 'cast', 'offset'}
FORMS = (mir.Assign, mir.Address, mir.Call, mir.If, mir.Block, mir.Loop, mir.End)

PREFIX = r'(?:(?:cs|ds|es|ss|data16|notrack|bnd)\s+)*'
LISTED = re.compile(r'^ *[0-9a-f]+:\t' + PREFIX + r'(?P<name>\S+)', re.M)
LABEL = re.compile(r'^[0-9a-f]+ <(?P<name>[^>]+)>:$', re.M)
UNDEFINED = re.compile(r'^ +[UuVvWw] (?P<name>\S+)', re.M)
CONSTANTS = re.compile(r'^ *\d+ (?P<name>\.rodata\S*|\.data\S*) +0*[1-9a-f]', re.M)
# moves, arithmetic, comparisons, jumps and shifts of whole numbers, one or several at a time
WHOLE = re.compile(
    r'mov\w*|lea|(?:xor|and|or|not|neg|add|adc|sub|sbb|inc|dec|imul|cmp|test|sh[lr]d?|sar|rol|ror|push|pop)[bwlq]?|set\w+|cmov\w+|j\w+|ret|nop\w*|endbr64|xchg'
    r'|p(?:add|sub)[bwdq]|pcmp(?:eq|gt)[bwd]|pandn?|por|pxor|ps[lr]l[wdq]|psra[wd]|pshuf\w+|punpck\w+|pmuludq|pmull[wd]'
)


def without_clauses(source: str) -> str:
    """The source without its contracts."""
    while found := CLAUSE.search(source):
        depth, end = 1, found.end() + 1
        while depth:
            depth += {'{': 1, '}': -1}.get(source[end], 0)
            end += 1
        source = source[: found.start()] + source[end:]
    return source


def faults_of_source(source: str) -> list[str]:
    """What stands in the source, beside comments and contracts, that must not."""
    code = GHOST.sub('', without_clauses(COMMENT.sub('', source)))
    return [name for name, pattern in BANNED.items() if pattern.search(code)]


def statements(function: mir.Function) -> Iterator[mir.Statement]:
    for body in mir.sequences(function.body):
        yield from body


def called(function: mir.Function) -> set[str]:
    return {statement.name for statement in statements(function) if isinstance(statement, mir.Call)}


def reached(program: mir.Program, name: str) -> list[str]:
    """A function and all that it calls."""
    names = [name]
    for each in names:
        names += sorted(called(program.functions[each]) - set(names))
    return names


def faults_of_statement(statement: mir.Statement) -> Iterator[str]:
    if not isinstance(statement, FORMS):
        yield f'the form {type(statement).__name__}'
    if isinstance(statement, mir.Assign) and statement.name not in OPERATIONS:
        yield f'the operation {statement.name}'
    if any(operand.layout.kind is mir.Kind.FLOAT for operand in statement.operands):
        yield 'a float'


def faults_of_program(text: str) -> list[str]:
    """What the functions do that work out a lookup's distances, and must not."""
    program = mir.read_program(text)
    if DISTANCES not in called(program.functions[CALLER]):
        return [f'{CALLER} does not call {DISTANCES}']
    faults = [f'{name}: {fault}' for name in reached(program, DISTANCES) for each in statements(program.functions[name]) for fault in faults_of_statement(each)]
    return sorted(set(faults))


def faults_of_listing(listing: str) -> list[str]:
    """The instructions of a disassembly that are none of whole numbers, or divide, and a function that it lacks."""
    found = [f'the instruction {name}' for name in sorted(set(LISTED.findall(listing))) if not WHOLE.fullmatch(name)]
    return found + ([] if EXPORTED in LABEL.findall(listing) else [f'no function {EXPORTED}'])


def printed(*command: str) -> str:
    """What a command prints."""
    return subprocess.run(command, capture_output=True, text=True, check=True).stdout


def faults_of_library(library: str) -> list[str]:
    """Those of a library or an object file's machine code, what it needs of others, and where a table could stand."""
    found = faults_of_listing(printed('objdump', '-d', '--no-show-raw-insn', library))
    found += [f'code that is not here, {name}' for name in UNDEFINED.findall(printed('nm', library))]
    return found + [f'constants, {name}' for name in CONSTANTS.findall(printed('objdump', '-h', library))]


def main() -> int:
    source, program, library = sys.argv[1:]
    faults = [f'{source}: {fault}' for fault in faults_of_source(pathlib.Path(source).read_text(encoding='utf-8'))]
    faults += [f'{program}: {fault}' for fault in faults_of_program(pathlib.Path(program).read_text(encoding='utf-8'))]
    faults += [f'{library}: {fault}' for fault in faults_of_library(library)]
    for fault in faults:
        print(fault)
    return 1 if faults else 0


if __name__ == '__main__':
    sys.exit(main())
