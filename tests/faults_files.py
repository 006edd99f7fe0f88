"""Plants faults in the reading of survey files and in the grid program's input."""

from __future__ import annotations

from struct import unpack

import exact
import exact_files
import exact_survey
from exact import Point
from faults import fault
from outcomes import Outcome


@fault("sum unbounded", "full survey")
def sum_unbounded() -> None:
    """The sum of the record bytes is not taken modulo 65,536 on reading."""
    right = exact_files.check_trailer

    def wrong(data: bytes) -> bytes:
        body = right(data)
        if sum(body) >= 65_536:
            raise exact.Refused(13)
        return body

    exact_files.check_trailer = wrong


@fault("equal locations pass", "damaged files")
def equal_locations_pass() -> None:
    """A location may equal the one before it in a file."""
    right = exact_files.read_survey_file

    def wrong(data: bytes) -> list[Point]:
        try:
            return right(data)
        except exact.Refused as refusal:
            body = exact_files.check_trailer(data) if refusal.number == 15 else b""
            starts = range(0, len(body), exact_files.RECORD_BYTES)
            points = [Point(*unpack(">HHb", body[at : at + 5])) for at in starts]
            if not points or any(b[:2] < a[:2] for a, b in zip(points, points[1:])):
                raise
            return points

    exact_files.read_survey_file = wrong


@fault("domain before order", "damaged files")
def domain_before_order() -> None:
    """Every record is held against the domain before any against the one before it."""
    right = exact_files.read_survey_file

    def wrong(data: bytes) -> list[Point]:
        try:
            return right(data)
        except exact.Refused as refusal:
            body = exact_files.check_trailer(data) if refusal.number == 15 else b""
            pairs = [unpack(">HH", body[at : at + 4]) for at in range(0, len(body), 5)]
            if not all(exact.on_domain(*pair) for pair in pairs):
                raise exact.Refused(14) from None
            raise

    exact_files.read_survey_file = wrong


@fault("13 before 12", "damaged files")
def sum_before_back() -> None:
    """13 is given before 12 where the sum is wrong too."""
    right = exact_files.check_trailer

    def wrong(data: bytes) -> bytes:
        try:
            return right(data)
        except exact.Refused as refusal:
            if refusal.number == 12:
                count, back, total = unpack(">HIH", data[-12:-4])
                if sum(data[:-12][-5 * count :]) % 65_536 != total:
                    raise exact.Refused(13) from None
            raise

    exact_files.check_trailer = wrong


@fault("7 before 9", "damaged grid inputs")
def grid_rule_before_file() -> None:
    """The grid program meets 7 before 9 to 15."""
    right = exact_survey.grid_program

    def wrong(data: bytes) -> Outcome:
        if len(data) >= 12:
            exact_files.check_grid(exact_files.Grid(*unpack(">6H", data[:12])))
        return right(data)

    exact_survey.grid_program = wrong


@fault("short preamble passes", "short preambles")
def short_preamble_passes() -> None:
    """The grid program takes its six numbers from the records where the preamble is short."""
    right = exact_survey.grid_program

    def wrong(data: bytes) -> Outcome:
        try:
            return right(data)
        except exact.Refused as refusal:
            if refusal.number != 7:
                raise
            survey = exact_survey.Survey()
            survey.load(data)
            return survey.grid_file(exact_files.Grid(*unpack(">6H", data[:12])), 65_536)

    exact_survey.grid_program = wrong
