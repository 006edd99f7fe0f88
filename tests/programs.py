"""Runs a program on an input."""

from __future__ import annotations

import subprocess
from collections.abc import Sequence
from typing import NamedTuple

SECONDS = 20
EXCERPT = 200


class Run(NamedTuple):
    """What a program wrote, and what else went wrong, if anything."""

    output: bytes
    trouble: str


def excerpt(text: str, at: int = 0) -> str:
    """A long text around a position."""
    start = max(0, at - EXCERPT // 2)
    part = text[start : start + EXCERPT]
    return ("... " if start else "") + part + (" ..." if start + EXCERPT < len(text) else "")


def run_program(command: Sequence[str], data: bytes, seconds: int = SECONDS) -> Run:
    try:
        done = subprocess.run(command, input=data, capture_output=True, timeout=seconds)
    except subprocess.TimeoutExpired as late:
        return Run(late.stdout or b"", f"; still running after {seconds} seconds")
    except OSError as error:
        return Run(b"", f"; {error}")
    trouble = f"; exit status {done.returncode}" if done.returncode else ""
    if done.stderr:
        trouble += f"; standard error {excerpt(done.stderr.decode(errors='replace'))!r}"
    return Run(done.stdout, trouble)
