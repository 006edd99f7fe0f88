"""Holds crates.txt to README.md's table of crates and to what each crate uses.

    crate_list.py           writes crates.txt: the headings and the order of README's table, and for each crate the libraries that it names
                            and those whose structs stand in its own
    crate_list.py --check   fails where crates.txt differs, or where the table and the folders of crates/ do not list the same crates
"""
from __future__ import annotations

import pathlib
import re
import sys

# the static libraries, which no crate uses
STATIC = ('shepard', 'root_c')
LIST = pathlib.Path('crates.txt')
HEAD = '# A crate and what it is built on, under the headings and in the order of README.md; made by .ci/crate_list.py.\n'


def table() -> list[tuple[str, list[str]]]:
    """The headings of README's table of crates, each with its crates."""
    text = pathlib.Path('README.md').read_text(encoding='utf-8')
    part = text.split('\n## The crates\n')[1].split('\n## ')[0]
    headings: list[tuple[str, list[str]]] = []
    for row in re.finditer(r'^\| (?:\*\*(.+?)\*\*|`(\w+)`) \|', part, re.M):
        if row[1]:
            headings.append((row[1], []))
        else:
            headings[-1][1].append(row[2])
    return headings


def taken(text: str, public: bool) -> list[tuple[str, str]]:
    """The items that `use` or `pub use` lines take, alone or in braces, each behind its library; where public, of `pub use` alone."""
    items = []
    for owner, alone, several in re.findall(rf'^{"pub " if public else "(?:pub )?"}use (\w+)::(?:(\w+)|\{{([\w\s,]*)\}});', text, re.M):
        items += [(owner, item) for item in ([alone] if alone else re.findall(r'\w+', several))]
    return items


def passed_on() -> dict[str, str]:
    """What libraries pass on by `pub use`: `survey::Record` is of `neighbour_records`."""
    items: dict[str, str] = {}
    for source in pathlib.Path('crates').glob('*/src/lib.rt'):
        for owner, item in taken(source.read_text(encoding='utf-8'), public=True):
            items[f'{source.parts[1]}::{item}'] = owner
    return items


def held() -> dict[str, set[str]]:
    """The structs, as `survey::Survey`, each with those of its own and other libraries that its fields are."""
    structs: dict[str, set[str]] = {}
    for source in pathlib.Path('crates').glob('*/src/lib.rt'):
        crate, text = source.parts[1], source.read_text(encoding='utf-8')
        owners = {item: owner for owner, item in taken(text, public=False)}
        for name, fields in re.findall(r'^pub struct (\w+) \{(.*?)^\}', text, re.M | re.S):
            types = re.findall(r': (\w+),', fields)
            structs[f'{crate}::{name}'] = {f'{owners.get(kind, crate)}::{kind}' for kind in types}
    passed = passed_on()
    return {name: {f'{passed[kind]}::{kind.split("::")[1]}' if kind in passed else kind for kind in kinds} for name, kinds in structs.items()}


def reached(crate: str) -> set[str]:
    """The libraries whose structs stand in those of the crate, at any depth: the checker asks for them."""
    structs = held()
    seen: set[str] = set()
    left = [name for name in structs if name.startswith(f'{crate}::')]
    while left:
        kinds = structs.get(left.pop(), set()) - seen
        seen |= kinds
        left += kinds
    return {kind.split('::')[0] for kind in seen if kind in structs}


def uses(crate: str, others: list[str]) -> list[str]:
    """Those of the others that the crate's code, definitions or proofs name, take an item of, or hold a struct of, in their order."""
    files = [p for p in sorted(pathlib.Path('crates', crate).rglob('*')) if p.suffix in ('.rt', '.antt')]
    text = '\n'.join(p.read_text(encoding='utf-8') for p in files)
    code = '\n'.join(p.read_text(encoding='utf-8') for p in files if p.suffix == '.rt')

    used = {f'{owner}::{item}' for owner, item in taken(code, public=False)}
    held_or_taken = reached(crate) | {owner for item, owner in passed_on().items() if item in used or re.search(rf'(?<![\w:]){item}\b', code)}

    def named(other: str) -> bool:
        in_proofs = re.search(rf'Rattle\.{other}\.', text)
        in_code = re.search(rf'(?<![\w:]){other}::', code)
        return bool(in_proofs or in_code or other in held_or_taken)

    return [other for other in others if other != crate and named(other)]


def made() -> str:
    """What crates.txt has to say; the standard library is every crate's, and never listed."""
    headings = table()
    every = [crate for _, crates in headings for crate in crates]
    lines = [HEAD]
    for heading, crates in headings:
        lines.append(f'\n# {heading}\n')
        lines += [f'{crate}{" staticlib" if crate in STATIC else ""}: {" ".join(uses(crate, every))}'.rstrip() + '\n' for crate in crates]
    return ''.join(lines)


def main() -> int:
    listed = sorted(crate for _, crates in table() for crate in crates)
    there = sorted(p.name for p in pathlib.Path('crates').iterdir() if p.is_dir())
    if listed != there:
        print(f'README.md and crates/ differ in: {sorted(set(listed) ^ set(there))}')
        return 1
    if sys.argv[1:] == ['--check']:
        if LIST.read_text(encoding='utf-8') != made():
            print('crates.txt is not what README.md and the crates make: run python3 .ci/crate_list.py')
            return 1
        return 0
    LIST.write_text(made(), encoding='utf-8')
    return 0


if __name__ == '__main__':
    sys.exit(main())
