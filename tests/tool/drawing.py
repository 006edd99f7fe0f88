"""Reads an SVG map: the shapes that have a title, their colours, and where they are drawn."""

from __future__ import annotations

import re
from collections.abc import Iterator
from typing import NamedTuple
from xml.etree.ElementTree import Element

SVG = "{http://www.w3.org/2000/svg}"
NUMBER = re.compile(r"-?[0-9]+(?:\.[0-9]+)?")
CYCLES, HOURS = re.compile(r"([0-9]+) cycles"), re.compile(r"([0-9]+) h(?:ours)?\b")
TRANSFORM = re.compile(r"([a-zA-Z]+)\(([^)]*)\)")
STROKE = re.compile(r"([MmLlHhVvZz])([^MmLlHhVvZz]*)")

Place = tuple[float, float]
# (a, b, c, d, e, f), as in matrix(a b c d e f).
Matrix = tuple[float, float, float, float, float, float]
PLAIN: Matrix = (1, 0, 0, 1, 0, 0)


class Shape(NamedTuple):
    """A shape with a title: the number that the title begins with, where it says that it is, and what is drawn."""

    value: str
    cycles: int
    hours: int
    colour: str
    centre: Place


def numbers_in(text: str) -> list[float]:
    return [float(number) for number in NUMBER.findall(text)]


def moved(place: Place, by: Matrix) -> Place:
    (x, y), (a, b, c, d, e, f) = place, by
    return a * x + c * y + e, b * x + d * y + f


def after(outer: Matrix, inner: Matrix) -> Matrix:
    """The inner one, and then the outer one."""
    origin, across, down = (moved(moved(place, inner), outer) for place in ((0, 0), (1, 0), (0, 1)))
    return (
        across[0] - origin[0],
        across[1] - origin[1],
        down[0] - origin[0],
        down[1] - origin[1],
        *origin,
    )


def transform(element: Element) -> Matrix:
    """How an element is moved; of the kinds that there are, those that only move and stretch."""
    made = PLAIN
    for name, words in TRANSFORM.findall(element.get("transform", "")):
        numbers = numbers_in(words)
        if name == "matrix":
            made = after(made, tuple(numbers))
        elif name == "translate":
            made = after(made, (1, 0, 0, 1, numbers[0], [*numbers, 0][1]))
        elif name == "scale":
            made = after(made, (numbers[0], 0, 0, numbers[-1], 0, 0))
        else:
            raise ValueError(f"{name}: a map has no need of it")
    return made


def corners(path: str) -> Iterator[Place]:
    """The ends of a path's straight strokes."""
    x = y = 0.0
    for letter, words in STROKE.findall(path):
        numbers = numbers_in(words)
        base = (x, y) if letter.islower() else (0.0, 0.0)
        if letter in "MmLl":
            x, y = base[0] + numbers[0], base[1] + numbers[1]
        elif letter in "Hh":
            x = base[0] + numbers[0]
        elif letter in "Vv":
            y = base[1] + numbers[0]
        yield x, y


def centre(element: Element) -> Place:
    """The middle of a shape, before it is moved."""
    read = lambda name: float(element.get(name, "0"))
    if element.tag == SVG + "rect":
        return read("x") + read("width") / 2, read("y") + read("height") / 2
    if element.tag == SVG + "path":
        xs, ys = zip(*corners(element.get("d", "")))
        return (min(xs) + max(xs)) / 2, (min(ys) + max(ys)) / 2
    return read("cx"), read("cy")


def shape_in(element: Element, title: str, colour: str, by: Matrix) -> Shape:
    cycles, hours = (int(pattern.search(title).group(1)) for pattern in (CYCLES, HOURS))
    return Shape(NUMBER.findall(title)[0], cycles, hours, colour, moved(centre(element), by))


def shapes(element: Element, colour: str = "", by: Matrix = PLAIN) -> Iterator[Shape]:
    """All shapes that have a title; a colour may be that of what a shape stands in."""
    own = [element.get(name, "none") for name in ("fill", "stroke")]
    colour = next((each for each in own if each != "none"), colour)
    by = after(by, transform(element))
    title = element.find(SVG + "title")
    if title is not None and element.tag != SVG + "svg":
        yield shape_in(element, title.text or "", colour, by)
    for child in element:
        if child.tag != SVG + "text":
            yield from shapes(child, colour, by)
