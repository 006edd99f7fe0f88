"""Builds the static library of a crate, over the libraries as `rt ci` left them, so that none below it is proved twice.

static_library.py CRATE FILE proves the crate itself once more, from nothing, and writes the library to FILE. Where `rt ci` left no library of a crate
below, as in a checkout where checks of one's own stand, `rt lib` in the crate's folder makes it.
"""
from __future__ import annotations

import pathlib
import shutil
import subprocess
import sys

sys.path.append(str(pathlib.Path(__file__).parent.parent / 'bench'))

import program  # noqa: E402


def kit() -> pathlib.Path:
    """The folder of the toolchain: beside its first page."""
    return pathlib.Path(subprocess.run(['rt', 'doc'], capture_output=True, text=True, check=True).stdout.strip()).parent


def built_library(crate: str) -> pathlib.Path:
    return program.ROOT / 'crates' / crate / 'out' / 'rlib' / f'{crate}.rlib'


def over_built(crate: str, file: pathlib.Path) -> bool:
    """Whether the compiler made the library over those that are there."""
    at, (_, *below) = kit(), program.below(crate, program.ROOT)
    if not all((built_library(each) / 'format').is_file() for each in below):
        return False
    words: list[str | pathlib.Path] = [at / 'bin' / 'rattle', 'build', '--crate-name', crate, 'src/lib.rt', '--crate-type', 'staticlib']
    words += ['--extern', f'std={at}/rlibs/std.rlib', '-L', f'dependency={at}/rlibs']
    for each in program.uses(program.ROOT)[crate]:
        words += ['--extern', f'{each}={built_library(each)}']
    for each in below:
        words += ['-L', f'dependency={built_library(each).parent}']
    words += ['--antt-project', at / 'rattle' / 'logic' / 'antt-project.json', '--logic-built', at / 'logic_built', '--links', f'{crate}=']
    words += ['--jobs', '2', '--toolchain', at / 'toolchain', '-o', file]
    return subprocess.run(words, cwd=program.ROOT / 'crates' / crate).returncode == 0


def by_rt(crate: str, file: pathlib.Path) -> bool:
    """Whether `rt lib` made it."""
    folder = program.ROOT / 'crates' / crate
    if subprocess.run(['rt', 'lib'], cwd=folder).returncode != 0:
        return False
    shutil.copyfile(folder / 'out' / f'lib{crate}.a', file)
    return True


def main(arguments: list[str]) -> int:
    if len(arguments) != 2:
        print('usage: static_library.py CRATE FILE')
        return 2
    crate, file = arguments[0], pathlib.Path(arguments[1]).absolute()
    file.parent.mkdir(parents=True, exist_ok=True)
    return 0 if over_built(crate, file) or by_rt(crate, file) else 1


if __name__ == '__main__':
    sys.exit(main(sys.argv[1:]))
