"""Numbers, counts and refusals in the words of the tool."""

from __future__ import annotations

from collections.abc import Sequence

GRID_RULES = (
    "the grid breaks a rule: steps of at least 1, 1 to 64 columns and rows, the last column and row in the domain"
)
TOO_FEW_BYTES = "fewer than 12 bytes stand before its first record; give --grid X0,Y0,SX,SY,C,R"
BROKEN_FRONT = "its first 12 bytes are a grid that breaks a rule; give --grid X0,Y0,SX,SY,C,R"

REFUSALS = {
    1: "the location is off the domain",
    2: "the value is out of range",
    3: "a point is there already",
    4: "no point is there",
    5: "256 points are present",
    6: "no point is present",
    7: GRID_RULES,
    9: "it has under 12 or over 65,536 bytes",
    10: "its last four bytes are not RLS1",
    11: "its count is above 256",
    12: "its back distance does not fit",
    13: "the sum of its record bytes differs",
    14: "a record is off the domain",
    15: "a record is not after the one before",
    16: "the two steps of an Esri ASCII grid differ",
}
GRID_FILE_REFUSALS = {
    7: "its grid breaks a rule",
    9: "no grid file has its length",
    10: "its last four bytes are not RLG1",
    12: "its back distance or its length does not go with its six numbers",
}
TOLD = 80
NEITHER_MAGIC = "its last four bytes are neither RLS1 nor RLG1"


def refused(number: int) -> str:
    return f"refused {number}: {REFUSALS[number]}"


def grid_file_refused(number: int) -> str:
    return f"refused {number}: {GRID_FILE_REFUSALS[number]}"


def steps(number: int) -> str:
    """A number of 256ths as a decimal of steps without trailing zeros."""
    whole, part = divmod(abs(number), 256)
    decimals = f"{part * 390_625:08}".rstrip("0")
    return ("-" if number < 0 else "") + str(whole) + ("." + decimals if decimals else "")


def counted(number: int, one: str, many: str = "") -> str:
    """`1 point`, `2 points`."""
    return f"{number} {one if number == 1 else many or one + 's'}"


def survey_of(count: int) -> str:
    return f"a survey of {counted(count, 'point')}" if count else "a survey of no points"


def grid_of(numbers: Sequence[int], what: str = "a grid") -> str:
    return f"{what} of {counted(numbers[4], 'column')} and {counted(numbers[5], 'row')}"


def six(numbers: Sequence[int]) -> str:
    """A grid's six numbers as the tool takes and shows them."""
    return ",".join(map(str, numbers))


def shown(line: bytes) -> str:
    """A line as a message tells it: first what cannot be shown is spelled out, then it is cut."""
    text = "".join(map(shown_character, line.strip(b" ").decode("utf-8", "surrogateescape")))
    return text if len(text) <= TOLD else text[: TOLD - 3] + "..."


def shown_character(character: str) -> str:
    """Itself, or its byte where it is a control character or none of UTF-8."""
    code = ord(character)
    if 0xDC80 <= code <= 0xDCFF:
        code -= 0xDC00
    elif 0x20 <= code != 0x7F:
        return character
    return f"\\x{code:02x}"
