"""Tokens and items of a C file, cut as docs/PROFILE.md says ("Tokens", "Items and grammar"), with their places.

A source is a text in which each character is one byte (latin-1), since columns count bytes.
"""

import re

OPENING = {"(": ")", "[": "]", "{": "}"}

TOKEN = re.compile(
    r"""(?P<line_feed>\n)
    |(?P<blank>[ \t\v\f\r]+)
    |(?P<comment>/\*.*?\*/|//[^\n]*)
    |(?P<directive>\#[^\n]*)
    |(?P<word>[A-Za-z_][A-Za-z0-9_]*)
    |(?P<number>[0-9][A-Za-z0-9_.]*)
    |(?P<string>"(?:[^"\\\n]|\\[^\n])*")
    |(?P<character>'(?:[^'\\\n]|\\[^\n])*')
    |(?P<punctuator>\.\.\.|<<=|>>=|->|\+\+|--|<<|>>|<=|>=|==|!=|&&|\|\||[-*/%+&^|]=|[^\s])""",
    re.VERBOSE | re.DOTALL,
)
INCLUDE = re.compile(r"#(?:[ \t\v\f\r]|/\*(?:[^*\n]|\*(?!/))*\*/)*include\b(.*)")


class Token:
    """A piece of a source: its kind, its text, the offsets of its first byte and behind its last, and its place."""

    def __init__(self, kind, text, start, line, column):
        self.kind = kind
        self.text = text
        self.start = start
        self.end = start + len(text)
        self.line = line
        self.column = column


class Item:
    """A function, struct, prototype or whatever else stands by itself in a file: its tokens."""

    def __init__(self, tokens):
        self.tokens = tokens

    @property
    def start(self):
        return self.tokens[0].start

    @property
    def end(self):
        return self.tokens[-1].end

    def holds(self, line, column):
        first, last = self.tokens[0], self.tokens[-1]
        return (first.line, first.column) <= (line, column) <= (last.line, last.column)

    def is_directive(self):
        return self.tokens[0].kind == "directive"

    def is_function(self):
        return self.tokens[-1].text == "}"

    def structure(self):
        """The name of the struct that the item defines, or None."""
        texts = [token.text for token in self.tokens[:3]]
        return texts[1] if len(texts) == 3 and texts[0] == "struct" and texts[2] == "{" else None

    def name(self):
        """The word before the first parenthesis: the name of a function or a prototype, or None."""
        for place, token in enumerate(self.tokens):
            if token.text == "(" and place > 0 and self.tokens[place - 1].kind == "word":
                return self.tokens[place - 1].text
            if token.text in ("(", "{", "="):
                return None
        return None


def tokens_of(text):
    """The tokens of a source, and its include lines: where each begins and ends, and what stands behind `include`."""
    tokens, includes = [], []
    offset, line, line_start, begins_line = 0, 1, 0, True
    while offset < len(text):
        match = TOKEN.match(text, offset)
        kind, piece = match.lastgroup, match.group()
        if kind == "directive" and not begins_line:
            kind, piece = "punctuator", "#"
        included = INCLUDE.match(piece) if kind == "directive" else None
        if included:
            includes.append((offset, offset + len(piece), included.group(1).strip()))
        elif kind not in ("line_feed", "blank", "comment"):
            tokens.append(Token(kind, piece, offset, line, offset - line_start + 1))
            begins_line = False
        offset += len(piece)
        if "\n" in piece:
            line += piece.count("\n")
            line_start = offset - len(piece) + piece.rindex("\n") + 1
            begins_line = True
    return tokens, includes


def items_of(tokens):
    """The items of a file. What is left over at its end is an item too: nothing is lost here."""
    items, gathered, opened, ends_with_brace = [], [], [], False
    for token in tokens:
        if token.text == "{" and not opened:
            ends_with_brace = bool(gathered) and gathered[-1].text == ")"
        gathered.append(token)
        if token.text in OPENING:
            opened.append(token.text)
        elif opened and token.text == OPENING[opened[-1]]:
            opened.pop()
        if opened:
            continue
        is_alone = token.kind == "directive" and len(gathered) == 1
        if is_alone or token.text == ";" or (token.text == "}" and ends_with_brace):
            items.append(Item(gathered))
            gathered, ends_with_brace = [], False
    return items + ([Item(gathered)] if gathered else [])
