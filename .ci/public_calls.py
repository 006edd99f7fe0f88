"""Every public function of the crates that callers use has a contract: an `ensures` and no `requires`."""

from __future__ import annotations

import pathlib
import re
import sys
from collections.abc import Iterator

# A crate of crates.txt is on the public face, or below it, where a function may ask something of
# its callers, or a program, which nobody calls.
FACE = """
    refusal survey_file survey lending history grid grid_reading grid_rows esri grid_history
    grid_program esri_program many_lookups whole_files file_edits file_lookups file_neighbours
    file_grids grid_files shepard root_c
"""
BELOW = """
    model laws numbers relative_error floats root digits point_arrays shift locate polygon extent
    trailer read_points write_points metric squares candidates neighbours influence weights
    weighted_mean error_bound lookup refusals neighbour_records grid_rules grid_cells grid_bytes
    grid_trailer esri_cells esri_text row_history grid_io neighbour_bytes file_access print
"""
PROGRAMS = """
    shepard_grid shepard_esri shepard_replay
"""
CLASSES = {'public face': FACE, 'below it': BELOW, 'programs': PROGRAMS}

CLAUSE = re.compile(r'\s*(\w+)(?:\s+\w+)?\s*\{')
HEAD_END = re.compile(r'\b(?:requires|ensures)\b|[{;]')
FUNCTION = re.compile(r'\bpub\s+(?:(?:const|unsafe|extern\s*(?:"[^"]*")?)\s+)*fn\s+(\w+)')
COMMENT = re.compile(r'//[^\n]*')


def listed_crates(text: str) -> list[str]:
    """The crates of crates.txt, in its order."""
    lines = [line.partition('#')[0].strip() for line in text.splitlines()]
    return [line.partition(':')[0].split()[0] for line in lines if line]


def class_faults(listed: list[str], classes: dict[str, str]) -> list[str]:
    """Crates with no entry or with two, and entries with no crate."""
    entries = [crate for crates in classes.values() for crate in crates.split()]
    faults = [f'{crate} is in no class of public_calls.py' for crate in listed if crate not in entries]
    faults += [f'{crate} is not in crates.txt' for crate in entries if crate not in listed]
    twice = sorted({crate for crate in entries if entries.count(crate) > 1})
    return faults + [f'{crate} is in two places of public_calls.py' for crate in twice]


def past(text: str, at: int, opening: str, closing: str) -> int:
    """The position after what the opening at `at` encloses."""
    depth = 0
    for position in range(at, len(text)):
        depth += (text[position] == opening) - (text[position] == closing)
        if depth == 0:
            return position + 1
    return len(text)


def clauses(text: str, at: int) -> list[str]:
    """The kinds of the clauses of the function whose parameters open at `at` or after."""
    at = past(text, text.index('(', at), '(', ')')
    # the type of the result goes up to the first clause or the body
    found = HEAD_END.search(text, at)
    at = found.start() if found else len(text)
    names = []
    while clause := CLAUSE.match(text, at):
        names.append(clause.group(1))
        at = past(text, clause.end() - 1, '{', '}')
    return names


def public_functions(text: str) -> Iterator[tuple[str, list[str]]]:
    """The name of each public function and its clauses' kinds."""
    text = COMMENT.sub('', text)
    for found in FUNCTION.finditer(text):
        yield found.group(1), clauses(text, found.end())


def contract_faults(crate: pathlib.Path) -> list[str]:
    """What the public functions of a crate lack; a crate on the public face has some."""
    faults = []
    functions = 0
    for source in sorted((crate / 'src').glob('**/*.rt')):
        for name, names in public_functions(source.read_text(encoding='utf-8')):
            functions += 1
            if 'ensures' not in names:
                faults.append(f'{source}: {name} has no ensures')
            if 'requires' in names:
                faults.append(f'{source}: {name} has a requires')
    return faults if functions else [f'{crate} has no public function']


def all_faults(root: pathlib.Path, classes: dict[str, str]) -> list[str]:
    listed = listed_crates((root / 'crates.txt').read_text(encoding='utf-8'))
    faults = class_faults(listed, classes)
    for crate in classes['public face'].split():
        faults += contract_faults(root / 'crates' / crate)
    return faults


def main() -> int:
    faults = all_faults(pathlib.Path('.'), CLASSES)
    print('\n'.join(faults), end='\n' if faults else '')
    return 1 if faults else 0


if __name__ == '__main__':
    sys.exit(main())
