"""The sources that a report names: their lines, and where in a line a column stands.

Lines end at line feeds alone and columns count bytes, as in docs/PROFILE.md, Tokens. What isn't UTF-8 is shown byte by
byte, and a character that can't be seen by its number, so that no source and no name changes what a view shows.
"""

import os
import re
import stat
import unicodedata

# pulsex reads no longer file.
MOST_BYTES = 1_048_576

TAB_WIDTH = 8

TOKEN = re.compile(r"\w+|->|\+\+|--|&&|\|\||[-+*/%&|^<>=!]=|\S")


def is_odd_byte(character):
    """A byte that is no part of UTF-8 is read as one of these."""
    return "\udc80" <= character <= "\udcff"


def visible(character):
    """The character, or what stands for one that can't be seen."""
    if is_odd_byte(character):
        return f"<{ord(character) - 0xDC00:02x}>"
    if character.isprintable():
        return character
    return f"<U+{ord(character):04X}>"


def visible_text(text):
    return "".join(map(visible, text))


def width(text):
    """How many columns of a terminal the text takes."""
    if text.isascii():
        return len(text)
    return sum(
        0 if unicodedata.combining(character) else 2 if unicodedata.east_asian_width(character) in "WF" else 1
        for character in text
    )


def expanded(text, column=0):
    """What a terminal shows of the text from this column on: a tab is blanks up to the next multiple of eight."""
    pieces = []
    for character in text:
        piece = " " * (TAB_WIDTH - column % TAB_WIDTH) if character == "\t" else visible(character)
        column += width(piece)
        pieces.append(piece)
    return "".join(pieces)


class Spot:
    """A token in its line: the line's text, and where the token begins and ends in it."""

    def __init__(self, text, start):
        token = TOKEN.match(text, start)
        self.text = text
        self.start = start
        self.end = token.end() if token else start + 1


def characters(raw):
    return raw.decode("utf-8", "surrogateescape")


def spot_in(raw, column):
    """The token at the byte of this column; None where the line has no such byte."""
    text = characters(raw)
    if raw.isascii():
        return Spot(text, column - 1) if column <= len(raw) else None
    behind = 0
    for start, character in enumerate(text):
        behind += 1 if is_odd_byte(character) else len(character.encode("utf-8"))
        if column <= behind:
            return Spot(text, start)
    return None


def lines_of(data):
    """The lines of a file, without the carriage returns that may end them."""
    lines = data.split(b"\n")
    if lines[-1] == b"":
        lines.pop()
    return [line[:-1] if line.endswith(b"\r") else line for line in lines]


def read_bytes(path):
    """The bytes of a file, or None and why there are none."""
    try:
        if not stat.S_ISREG(os.stat(path).st_mode):
            return None, "isn't a file"
        with open(path, "rb") as file:
            data = file.read(MOST_BYTES + 1)
    except OSError as fault:
        return None, f"can't be read: {fault.strerror}"
    except ValueError:
        return None, "can't be read: its name holds a zero byte"
    if len(data) > MOST_BYTES:
        return None, f"has more than {MOST_BYTES} bytes"
    return data, None


class Source:
    """The lines of a source as bytes; where it can't be read, none, and why."""

    def __init__(self, lines, fault):
        self.lines = lines
        self.fault = fault

    def find(self, place):
        """The token at a place; or None, and why it can't be shown."""
        if self.fault:
            return None, self.fault
        if place.line > len(self.lines):
            return None, f"has no line {place.line}: it was changed since the report"
        spot = spot_in(self.lines[place.line - 1], place.column)
        if spot is None:
            return None, f"has no column {place.column} in line {place.line}: it was changed since the report"
        return spot, None


class Sources:
    """Reads each source once, where it is asked for. What is wrong with one is kept in `notices`: of each name and kind
    of fault the first, by the order in which they were met."""

    def __init__(self, root):
        self.root = root
        self.read = {}
        self.notices = {}

    def open(self, name):
        data, fault = read_bytes(os.path.join(self.root, name))
        if data is None:
            self.notices[name, "unread"] = fault
            return Source([], fault)
        try:
            data.decode("utf-8")
        except UnicodeDecodeError as wrong:
            line = data.count(b"\n", 0, wrong.start) + 1
            self.notices[name, "encoding"] = f"isn't UTF-8 (line {line}): other bytes are shown by their numbers"
        return Source(lines_of(data), None)

    def source(self, name):
        if name not in self.read:
            self.read[name] = self.open(name)
        return self.read[name]

    def find(self, place):
        """The token at a place; or None, and why it can't be shown."""
        source = self.source(place.file)
        spot, fault = source.find(place)
        if fault and not source.fault:
            self.notices.setdefault((place.file, "changed"), fault)
        return spot, fault
