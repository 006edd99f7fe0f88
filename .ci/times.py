"""When each crate was proved, by the clock: `rt ci` prints no seconds of its own.

times.py pass FILE     passes on what `rt ci` prints, and writes the lines on proved crates and on edits to FILE, each behind the seconds since the start
times.py FILE SECONDS  prints the table, the latest first, and, as the gate's time, SECONDS

Several checks run at the same time, and edits are told of at the end, so a crate's seconds are when it was done, not how long it took.
"""
from __future__ import annotations

import dataclasses
import pathlib
import re
import sys
import time

TOLD = re.compile(r'rt: (?:must-fail )?[\w-]+.*')
DONE = re.compile(r'^(?P<seconds>\d+) rt: (?P<crate>\w+) (?P<how>proved|is kept)(?:$|:)', re.M)
EDIT = re.compile(r'^\d+ rt: must-fail (?P<crate>\w+)/\S+: refused', re.M)


@dataclasses.dataclass
class Crate:
    """When a crate was done, whether an earlier run had proved it, and how many of its edits are refused."""

    seconds: int
    is_kept: bool
    edits: int = 0


def crates_in(text: str) -> dict[str, Crate]:
    """The crates, in the order in which they were done."""
    found = {match['crate']: Crate(int(match['seconds']), match['how'] == 'is kept') for match in DONE.finditer(text)}
    for match in EDIT.finditer(text):
        if match['crate'] in found:
            found[match['crate']].edits += 1
    return found


def row(name: str, *cells: object) -> str:
    """A line of the table."""
    return f'{name:<20}' + ''.join(f'{cell:>12}' for cell in cells)


def table(found: dict[str, Crate]) -> list[str]:
    """A line for each crate, the latest first, and one for all."""
    ordered = sorted(found.items(), key=lambda item: (-item[1].seconds, item[0]))
    lines = [row(name, crate.seconds, 'kept' if crate.is_kept else 'proved', crate.edits) for name, crate in ordered]
    latest = max((crate.seconds for crate in found.values()), default=0)
    proved = sum(not crate.is_kept for crate in found.values())
    return [row('crate', 'done at s', 'how', 'edits'), *lines, row('all', latest, f'{proved} proved', sum(crate.edits for crate in found.values()))]


def pass_on(file: pathlib.Path) -> None:
    """Passes standard input on, line by line."""
    start = time.monotonic()
    with file.open('w', encoding='utf-8') as told:
        for line in sys.stdin:
            print(line, end='', flush=True)
            if TOLD.match(line):
                told.write(f'{int(time.monotonic() - start)} {line}')


def main(arguments: list[str]) -> int:
    """Passes a run on, or prints the table and the time of the whole gate."""
    if len(arguments) != 2:
        print('usage: times.py pass FILE, times.py FILE SECONDS')
        return 2
    if arguments[0] == 'pass':
        sys.stdin.reconfigure(errors='replace')
        pass_on(pathlib.Path(arguments[1]))
        return 0
    found = crates_in(pathlib.Path(arguments[0]).read_text(encoding='utf-8'))
    minutes, seconds = divmod(int(arguments[1]), 60)
    print('\n'.join([*table(found), f'the whole gate: {minutes} min {seconds} s']))
    return 0 if found else 1


if __name__ == '__main__':
    sys.exit(main(sys.argv[1:]))
