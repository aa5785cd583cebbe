"""Reads what `pulsex check --json` printed. docs/PROFILE.md, In JSON, has the form."""

import json
from typing import List, NamedTuple


class Place(NamedTuple):
    file: str
    line: int
    column: int


class Mark(NamedTuple):
    place: Place
    mark: str


class Bug(NamedTuple):
    place: Place
    kind: str
    procedure: str
    trace: List[Mark]


class Drop(NamedTuple):
    procedure: str
    cause: str
    count: int


class LeftOut(NamedTuple):
    place: Place
    name: str
    word: str


class Report(NamedTuple):
    bugs: List[Bug]
    dropped: List[Drop]
    left_out: List[LeftOut]
    procedures: int


class NotAReport(Exception):
    """Says in what the input differs from a report."""


class Part:
    """A part of the input, with where it stands in it, so that each fault names its place."""

    def __init__(self, value, where):
        self.value = value
        self.where = where

    def member(self, name):
        if not isinstance(self.value, dict):
            raise NotAReport(f"{self.where} isn't an object")
        if name not in self.value:
            raise NotAReport(f"{self.where} has no `{name}`")
        return Part(self.value[name], name if self.where == "it" else f"{self.where}.{name}")

    def each(self):
        if not isinstance(self.value, list):
            raise NotAReport(f"{self.where} isn't a list")
        return [Part(value, f"{self.where}[{number}]") for number, value in enumerate(self.value)]

    def text(self):
        if not isinstance(self.value, str):
            raise NotAReport(f"{self.where} isn't a text")
        # (a half of a pair of surrogates is no character, and no output would take it)
        return self.value.encode("utf-16", "surrogatepass").decode("utf-16", "replace")

    def number(self, least):
        value = self.value
        if isinstance(value, bool) or not isinstance(value, int) or not least <= value < 1 << 64:
            raise NotAReport(f"{self.where} isn't a whole number from {least}")
        return value


def place_of(part):
    return Place(part.member("file").text(), part.member("line").number(1), part.member("column").number(1))


def bug_of(part):
    trace = [Mark(place_of(mark), mark.member("mark").text()) for mark in part.member("trace").each()]
    return Bug(place_of(part), part.member("kind").text(), part.member("procedure").text(), trace)


def drop_of(part):
    return Drop(part.member("procedure").text(), part.member("cause").text(), part.member("count").number(1))


def left_out_of(part):
    return LeftOut(place_of(part), part.member("name").text(), part.member("word").text())


def not_a_number(word):
    raise NotAReport(f"{word} is no number of JSON")


def read_report(data):
    """The report that the bytes are; NotAReport where they are none."""
    if not data.strip():
        raise NotAReport("it is empty: `pulsex check` prints nothing where its status is neither 0 nor 1")
    try:
        whole = json.loads(data.decode("utf-8"), parse_constant=not_a_number)
    except UnicodeDecodeError as fault:
        raise NotAReport(f"it isn't UTF-8 (byte {fault.start + 1})") from None
    except json.JSONDecodeError as fault:
        what = "holds more than one object" if fault.msg == "Extra data" else "isn't JSON"
        raise NotAReport(
            f"it {what} (line {fault.lineno}, column {fault.colno}); `pulsex check --json` prints one object"
        ) from None
    except (ValueError, RecursionError):
        raise NotAReport("it isn't JSON that can be read: a number is too long, or too much is nested") from None
    whole = Part(whole, "it")
    return Report(
        [bug_of(part) for part in whole.member("bugs").each()],
        [drop_of(part) for part in whole.member("dropped").each()],
        [left_out_of(part) for part in whole.member("left_out").each()],
        whole.member("procedures").number(0),
    )
