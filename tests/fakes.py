"""Runs a stand-in for one of the programs, sound or with one planted fault."""

from __future__ import annotations

import argparse
import importlib
import sys
from pathlib import Path

import stand_ins
from faults import FAULTS

for source in sorted(Path(__file__).parent.glob("faults_*.py")):
    importlib.import_module(source.stem)


def main(arguments: list[str]) -> None:
    parser = argparse.ArgumentParser(description=__doc__)
    parser.add_argument("program", choices=("replay", "grid", "esri"))
    parser.add_argument("--fault", choices=FAULTS)
    options = parser.parse_args(arguments)
    if options.fault:
        FAULTS[options.fault].plant()
    data = sys.stdin.buffer.read()
    sys.stdout.buffer.write(getattr(stand_ins, options.program)(data))


if __name__ == "__main__":
    main(sys.argv[1:])
