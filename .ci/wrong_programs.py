"""The list of wrong programs, docs/WRONG_PROGRAMS.md, made from the must-fail edits.

Without an argument the list is written. With --check it is compared with the edits, and each edit with its head and its crate:
an edit's first line is `# SUBJECT: WRONG PROGRAM`, where SUBJECT is a function of the crate, or, for an edit of specs/, a definition of
the edited file, as `Choice.nearer`; of a crate with no code the line ends in `(refused by CASE)`, CASE a theorem of its specs/ or proofs/.
"""
from __future__ import annotations

import dataclasses
import pathlib
import re
import sys
from collections import Counter

# the crates that callers use: each of their public functions has at least LEAST edits of its own
PUBLIC = ('survey_file', 'survey', 'lending', 'many_lookups', 'grid', 'esri', 'grid_program', 'esri_program', 'history', 'grid_history',
          'whole_files', 'file_edits', 'file_lookups', 'file_neighbours', 'file_grids', 'grid_reading', 'grid_rows', 'grid_files')
LEAST = 2
# the crates that only hand calls on: each of their functions is one call of a public function of PUBLIC, whose wrong programs are its own
HANDING_ON = ('shepard',)

LIST = pathlib.Path('docs/WRONG_PROGRAMS.md')
CODE, CONTRACT, DEFINITION, PROOF = 'code', 'contract', 'definition', 'proof'

HEAD = re.compile(r'# (?P<subject>\S+): (?P<wrong>.+?)(?: \(refused by (?P<case>.+)\))?')
FUNCTION = re.compile(r'^ *(?P<public>pub )?(?:pub\(crate\) )?(?:extern "C" )?fn (?P<name>\w+)', re.M)
BODY = re.compile(r'^\{\n(?P<text>.*?)^\}', re.M | re.S)
CALL = re.compile(r'\s*(?P<called>\w+::\w+)\([\w\s,]*\)\s*')
CLAUSE = re.compile(r'\b(?:requires|ensures|invariant)(?:\s+\w+)?\s*\{')
DEFINED = re.compile(r'^(?:(?:pub|abbrev|unfoldable|record|data)\s+)*(?P<name>[^\s:]+) ', re.M)

INTRODUCTION = """# Wrong programs

Every must-fail edit, with what it is tried on and what is wrong with it: the prover must refuse each, and the gate tries them all. `.ci/wrong_programs.py` makes this list from the edits; docs/PROOFS.md says what an edit is worth.
"""


class Fault(Exception):
    """An edit that does not fit its crate, or has no head."""


@dataclasses.dataclass(frozen=True)
class Edit:
    """An edit of a crate: what it is tried on, what is wrong with it, the case that refuses it, and which kinds of text it changes."""

    path: pathlib.Path
    crate: str
    subject: str
    wrong: str
    case: str
    kinds: tuple[str, ...]
    files: tuple[str, ...]


def crates() -> list[str]:
    """The crates, lowest first."""
    lines = pathlib.Path('crates.txt').read_text(encoding='utf-8').splitlines()
    return [line.split(':')[0].split()[0] for line in lines if line.strip() and not line.startswith('#')]


def functions(crate: str) -> dict[str, bool]:
    """The functions of a crate by their paths, and whether each is public."""
    found = {}
    for source in sorted(pathlib.Path('crates', crate, 'src').glob('**/*.rt')):
        module = source.relative_to(f'crates/{crate}/src').with_suffix('').parts
        outer = [crate] if module in (('lib',), ('main',)) else [crate, *module]
        for match in FUNCTION.finditer(source.read_text(encoding='utf-8')):
            found['::'.join([*outer, match['name']])] = match['public'] is not None
    return found


def definitions(source: pathlib.Path) -> set[str]:
    """The names that a file of definitions defines, each behind the file's own."""
    return {f'{source.stem}.{match["name"]}' for match in DEFINED.finditer(source.read_text(encoding='utf-8'))}


def end_of_block(text: str, start: int) -> int:
    """Where the block ends whose brace is open just before `start`."""
    depth, at = 1, start
    while depth and at < len(text):
        depth += {'{': 1, '}': -1}.get(text[at], 0)
        at += 1
    return at


def kind_of(file: str, text: str, start: int, end: int) -> str:
    """What the text from `start` to `end` of a file belongs to."""
    if file.startswith('specs/'):
        return DEFINITION
    if file.startswith('proofs/'):
        return PROOF
    clauses = ((match.start(), end_of_block(text, match.end())) for match in CLAUSE.finditer(text))
    return CONTRACT if any(first < end and start < last for first, last in clauses) else CODE


def changes(path: pathlib.Path) -> list[tuple[str, str]]:
    """The files that an edit changes, and the kind of each text in them; the edit is made along the way, as the prover's driver makes it."""
    texts: dict[str, str] = {}
    found = []
    file = old = ''
    for line in path.read_text(encoding='utf-8').splitlines():
        if line.startswith('file: '):
            file = line.removeprefix('file: ')
        elif line.startswith('old: '):
            old = line.removeprefix('old: ')
        elif line.startswith('new:'):
            source = path.parent.parent / file
            if not source.is_file():
                raise Fault(f'{path}: the crate has no file "{file}"')
            text = texts.get(file) or source.read_text(encoding='utf-8')
            if text.count(old) != 1:
                raise Fault(f'{path}: its old text is {text.count(old)} times in {file}')
            at = text.index(old)
            found.append((file, kind_of(file, text, at, at + len(old))))
            texts[file] = text.replace(old, line.removeprefix('new:').removeprefix(' '))
    if not found:
        raise Fault(f'{path}: it changes nothing')
    return found


def edit_at(path: pathlib.Path) -> Edit:
    """The edit of a file."""
    head = HEAD.fullmatch(path.read_text(encoding='utf-8').split('\n', 1)[0])
    if head is None:
        raise Fault(f'{path}: its first line is not "# SUBJECT: WRONG PROGRAM"')
    made = changes(path)
    kinds = tuple(dict.fromkeys(kind for _, kind in made if kind != PROOF))
    files = tuple(dict.fromkeys(file for file, _ in made))
    return Edit(path, path.parent.parent.name, head['subject'], head['wrong'], head['case'] or '', kinds, files)


def edits(faults: list[str]) -> list[Edit]:
    """The edits of all crates, in the crates' order; what is wrong with one goes to the faults."""
    found = []
    for crate in crates():
        for path in sorted(pathlib.Path('crates', crate, 'must-fail').glob('*.edit')):
            try:
                found.append(edit_at(path))
            except Fault as fault:
                faults.append(str(fault))
    return found


def subject_faults(edit: Edit) -> list[str]:
    """Whether the edit's crate has what the edit is tried on, and the case that refuses it."""
    root = pathlib.Path('crates', edit.crate)
    own = functions(edit.crate)
    known = set(own)
    if DEFINITION in edit.kinds:
        known |= {name for file in edit.files if file.startswith('specs/') for name in definitions(root / file)}
    faults = [] if edit.subject in known else [f'{edit.path}: {edit.subject} is no function of {edit.crate} and no definition of {", ".join(edit.files)}']
    cases = {name.split('.')[1] for folder in ('specs', 'proofs') for source in (root / folder).glob('*.antt') for name in definitions(source)}
    if edit.case and edit.case.split(',')[0] not in cases:
        faults.append(f'{edit.path}: {edit.crate} has no case {edit.case.split(",")[0]}')
    if not own and not edit.case:
        faults.append(f'{edit.path}: its first line does not end in "(refused by CASE)"')
    return faults


def doubles(found: list[Edit]) -> list[str]:
    """Edits of one crate that have the same head."""
    heads = Counter((edit.crate, edit.subject, edit.wrong) for edit in found)
    return [f'{crate}: {count} edits "{subject}: {wrong}"' for (crate, subject, wrong), count in heads.items() if count > 1]


def too_few(found: list[Edit]) -> list[str]:
    """Public functions with fewer edits of code or contract than asked for."""
    tried = Counter(edit.subject for edit in found if DEFINITION not in edit.kinds)
    faults = [f'{crate}: no crate of crates.txt' for crate in PUBLIC if crate not in crates()]
    for crate in PUBLIC:
        public = [name for name, is_public in functions(crate).items() if is_public]
        faults += [f'{name}: {tried[name]} edits are tried on it, fewer than {LEAST}' for name in public if tried[name] < LEAST]
    return faults


def handed_on() -> list[str]:
    """Functions of the crates that hand on whose body, the lines between a brace and a brace at the left margin, is anything but one call."""
    called = {name for crate in PUBLIC for name, is_public in functions(crate).items() if is_public}
    faults = []
    for source in (source for crate in HANDING_ON for source in sorted(pathlib.Path('crates', crate, 'src').glob('**/*.rt'))):
        text = source.read_text(encoding='utf-8')
        names = [match['name'] for match in FUNCTION.finditer(text)]
        calls = [CALL.fullmatch(match['text']) for match in BODY.finditer(text)]
        if len(names) != len(calls):
            faults.append(f'{source}: {len(names)} functions and {len(calls)} bodies')
        faults += [f'{source}: {name} is not one call of a public function of {", ".join(PUBLIC)}'
                   for name, call in zip(names, calls) if call is None or call['called'] not in called]
    return faults


def cell(text: str) -> str:
    """A text as a cell of a table."""
    return text.replace('|', '\\|')


def case_cell(case: str) -> str:
    """A case, with the row of it that is meant, if one is named."""
    name, comma, row = case.partition(',')
    return cell(f'`{name}`{comma}{row}')


def table(titles: tuple[str, ...], rows: list[tuple[str, ...]]) -> list[str]:
    """The lines of a table."""
    first, *others = (f'| {" | ".join(row)} |' for row in [titles, *rows])
    return [first, '|' + '---|' * len(titles), *others]


def section(crate: str, found: list[Edit]) -> list[str]:
    """The tables of one crate: the edits that a case refuses, and the others."""
    own = sorted((edit for edit in found if edit.crate == crate), key=lambda edit: (edit.subject, edit.path))
    by_case = [(f'`{edit.subject}`', cell(edit.wrong), case_cell(edit.case), f'`{edit.path}`') for edit in own if edit.case]
    others = [(f'`{edit.subject}`', cell(edit.wrong), ', '.join(edit.kinds), f'`{edit.path}`') for edit in own if not edit.case]
    lines = ['', f'## {crate}'] if own else []
    if by_case:
        lines += ['', *table(('Tried on', 'Wrong definition', 'Refused by', 'Edit'), by_case)]
    if others:
        lines += ['', *table(('Tried on', 'Wrong program', 'Edit of', 'Edit'), others)]
    return lines


def counts(found: list[Edit]) -> str:
    """How many edits there are of each kind."""
    code, contract, definition = (sum(kind in edit.kinds for edit in found) for kind in (CODE, CONTRACT, DEFINITION))
    return (f'Of the {len(found)} edits {code} are of code, {contract} of a contract, a `requires` or an `ensures`, '
            f'and {definition} of a definition in `specs/`.')


def listing(found: list[Edit]) -> str:
    """The whole list."""
    lines = [counts(found)]
    for crate in crates():
        lines += section(crate, found)
    return INTRODUCTION + '\n'.join(lines) + '\n'


def main(arguments: list[str]) -> int:
    """Writes the list, or checks it."""
    if arguments not in ([], ['--check']):
        print('usage: wrong_programs.py [--check]')
        return 2
    faults: list[str] = []
    found = edits(faults)
    for edit in found:
        faults += subject_faults(edit)
    faults += doubles(found) + too_few(found) + handed_on()
    if not arguments:
        LIST.write_text(listing(found), encoding='utf-8')
    elif not LIST.exists() or LIST.read_text(encoding='utf-8') != listing(found):
        faults.append(f'{LIST} is not what the edits make: run python3 .ci/wrong_programs.py')
    print('\n'.join(faults), end='\n' if faults else '')
    return 1 if faults else 0


if __name__ == '__main__':
    sys.exit(main(sys.argv[1:]))
