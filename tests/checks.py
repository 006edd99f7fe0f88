"""Holds what a program wrote to what documents 01 and 02 permit, and counts what was compared."""

from __future__ import annotations

from collections import Counter

import exact
import exact_files
import exact_survey
import permitted
from grid_inputs import GridInput
from journals import Journal
from operations import BYTES, Operation
from outcomes import Choice, Outcome
from permitted import Expected, Piece
from programs import Run, excerpt
from protocol import Call


class Difference(Exception):
    """`expected` and `came` are texts; `at` is the position of the failing call, if any."""

    def __init__(self, expected: str, came: str, at: int | None = None) -> None:
        super().__init__(expected, came)
        self.expected = expected
        self.came = came
        self.at = at


def one_line(text: str) -> str:
    return text.replace("\n", "\\n")


def check_text(pieces: list[Piece], text: str, trouble: str, at: int | None = None) -> None:
    wrong = permitted.mismatch(pieces, text)
    if wrong is not None:
        came = excerpt(text, wrong) + (f" (position {wrong})" if wrong else "")
        expected = excerpt(permitted.permitted_text(pieces), wrong)
        raise Difference(one_line(expected), one_line(came) + trouble, at)


def check_end(run: Run) -> None:
    if run.trouble:
        raise Difference("an end with exit status 0 and no standard error", run.trouble)


def count_cells(counts: Counter[str], outcome: Outcome, name: str = "grid cells") -> None:
    """A cell is an answer in what was lent."""
    counts[name] += sum(isinstance(each, Choice) for each in outcome.filled)


def cells_counted(operation: Operation) -> str:
    """The name under which the answers in what a call fills are counted."""
    if operation.fills:
        return "row cells"
    return "esri cells" if operation.text else "grid cells"


def count_call(counts: Counter[str], call: Call, expected: Expected) -> None:
    """Refused lookups and grids are compared but not counted."""
    counts["damaged files"] += call.damaged
    if expected.outcome is not None and call.operation.counted:
        counts[call.operation.counted] += 1
        count_cells(counts, expected.outcome, cells_counted(call.operation))


def check_shown(call: Call, line: str, trouble: str, at: int) -> None:
    """A line of bytes shows as many as were lent, however many of them its reply tells."""
    shown = (len(line) - len(BYTES.word + " ")) // 2 if call.lent else 0
    if call.operation.lent is BYTES and shown != call.lent:
        raise Difference(f"{call.lent} bytes", f"{shown} bytes{trouble}", at)


def check_call(
    cases: list[Expected], call: Call, lines: list[str], trouble: str, at: int
) -> Expected:
    """Hold a call's lines to the case that its reply tells; gives that case."""
    check_text(permitted.replies(cases), lines[0], trouble, at)
    case = permitted.case_with(cases, lines[0])
    for pieces, line in zip(case.lines[1:], lines[1:]):
        check_text(pieces, line, trouble, at)
        check_shown(call, line, trouble, at)
    return case


def check_replies(journal: Journal, run: Run, counts: Counter[str]) -> None:
    """Hold every line that came against what is permitted, call by call."""
    lines = run.output.decode("ascii", "replace").split("\n")
    unended = lines.pop()
    missing = unended + " (no further line)"
    survey = exact_survey.Survey()
    position = 0
    for at, call in enumerate(journal.calls):
        cases = permitted.expected(survey, call)
        wanted = len(cases[0].lines)
        came = [*lines[position : position + wanted], missing, missing][:wanted]
        count_call(counts, call, check_call(cases, call, came, run.trouble, at))
        position += wanted
    end = lines[position:] + [unended]
    last = ["bad journal", ""] if journal.bad else [""]
    if end != last:
        raise Difference(repr("\n".join(last)), repr(excerpt("\n".join(end))) + run.trouble)
    check_end(run)
    counts["call lists"] += 1


def output_text(data: bytes) -> str:
    """Hexadecimal, or the text of what is too short to be a grid file."""
    if len(data) <= exact_files.GRID_TRAILER_BYTES:
        return repr(data.decode("ascii", "replace"))
    return data.hex()


def check_grid_file(test: GridInput, run: Run, counts: Counter[str]) -> None:
    try:
        outcome = exact_survey.grid_program(test.data)
        pieces = permitted.file_pieces(outcome)
        counts["grid files"] += 1
        count_cells(counts, outcome)
    except exact.Refused as refusal:
        pieces = [(repr(f"refused {refusal.number}\n"),)]
    check_text(pieces, output_text(run.output), run.trouble)
    check_end(run)
    counts["damaged files"] += test.damaged
    counts["damaged grid inputs"] += test.damaged


def check_esri_text(test: GridInput, run: Run, counts: Counter[str]) -> None:
    try:
        outcome = exact_survey.esri_program(test.data)
        pieces = permitted.text_pieces(outcome)
        counts["esri texts by program"] += 1
        count_cells(counts, outcome, "esri cells")
    except exact.Refused as refusal:
        pieces = [(f"refused {refusal.number}\n",)]
    check_text(pieces, run.output.decode("ascii", "replace"), run.trouble)
    check_end(run)
