"""What the words of a report mean, and what can be done about them: the tables of docs/PROFILE.md in sentences.

A word that isn't here is shown as it stands.
"""

import re
from typing import NamedTuple


class Kind(NamedTuple):
    """A kind of error: its number in the list of weaknesses (CWE), what it is, and what helps against it."""

    weakness: int
    short: str
    full: str
    help: str


KINDS = {
    "null dereference": Kind(
        476,
        "An access through null",
        "A pointer is followed while it is null.",
        "Test the pointer before it is followed. What malloc gives may be null each time.",
    ),
    "use after free": Kind(
        416,
        "An access to a block that was freed",
        "A pointer is followed whose block was freed before.",
        "Free the block behind its last use, or give the pointer another value before it is followed again.",
    ),
    "double free": Kind(
        415,
        "A block is freed twice",
        "free is called with a pointer whose block was freed before.",
        "Free each block once. A pointer that is set to NULL behind its free may be freed again without harm.",
    ),
    "uninitialised read": Kind(
        457,
        "A use of what was never written",
        "A local, or a cell of a block, is used before anything was written there.",
        "Write the local or the cell on each path before it is used. What malloc gives is not written.",
    ),
    "division by zero": Kind(
        369,
        "A division by zero",
        "What stands behind / or % is 0.",
        "Test what is divided by before it is used. What is read from input may be 0 each time.",
    ),
}

# What a report says of each of its bugs, whatever their kind.
EVERY_CALL = "The function reaches the error by the path that is shown, whatever it is called with."


def kind_of(word):
    return KINDS.get(word) or Kind(0, word, f"{word}.", "")


MARKS = {
    "true": "the condition is true",
    "false": "the condition is false",
    "iteration": "an iteration of the loop begins",
    "loop left": "the loop is left",
    "allocated": "a block is allocated",
    "allocation failed": "the allocation failed: null",
    "input": "some input is read",
    "access": "access to a block",
    "free": "free of a block",
    "free of null": "free of null",
}


def called_by(mark):
    """The function that a mark `call NAME` calls; else None."""
    return mark[len("call ") :] if mark.startswith("call ") else None


def mark_text(mark, function):
    """What happens at a mark in the function."""
    if called_by(mark) is not None:
        return f"call of {called_by(mark)}"
    if mark == "return":
        return f"return from {function}"
    return MARKS.get(mark, mark)


PART = "part the function"
READ_ON = "docs/PROFILE.md says which C is read"

# Why paths were dropped: how the cause is spelt, its name, how what differs from one line to the next is said, and what
# can be done.
CAUSES = [
    (r"undecided", "undecided", "", "nothing yet: the solver can't say whether the path can be taken"),
    (r"paths (\d+) spent", "paths spent", "with --paths {}:", f"give a higher bound with --paths, or {PART}"),
    (r"nodes (\d+) spent", "nodes spent", "with --nodes {}:", f"give a higher bound with --nodes, or {PART}"),
    (r"too long \(trace\)", "too long (trace)", "", "shorten loops, or give a lower --unroll"),
    (r"too long \(steps\)", "too long (steps)", "", "shorten loops, or give a lower --unroll"),
    (r"too long \(conjuncts\)", "too long (conjuncts)", "", PART),
    (r"too long \(atoms\)", "too long (atoms)", "", PART),
    (r"too long \(variables\)", "too long (variables)", "", PART),
    (r"too long \(term\)", "too long (term)", "", PART),
    (
        r"unknown callee (.*)",
        "unknown callee",
        "{}, called by",
        "hand over the file that has its body, or write a short one that stands for it",
    ),
    (r"cycle through (.*)", "cycle", "{}, called by", "nothing yet: a call that leads back to its caller isn't followed"),
    (r"outside (.*)", "outside", "{}, in", f"nothing yet: what is behind it isn't analysed; {PART}, so that it stands alone"),
    (r"callee (.*) left out", "callee left out", "{}, called by", "what the callee's own line, left out, asks for"),
    (
        r"callee (.*) dropped paths",
        "callee dropped paths",
        "{}, called by",
        "what the callee's own lines, dropped paths, ask for",
    ),
]


class Cause(NamedTuple):
    """A cause without what differs from one line to the next, which is its subject."""

    name: str
    subject: str
    advice: str


def cause_of(text):
    for spelling, name, subject, advice in CAUSES:
        found = re.fullmatch(spelling, text, re.DOTALL)
        if found:
            return Cause(name, subject.format(*found.groups()), advice)
    return Cause(text, "", "docs/PROFILE.md says what is known of it")


LEFT_OUT = {
    "size": f"the body has more than 2,000 commands: {PART}",
    "duplicate": "an item before it defines the same name: hand over the files of one program, each once",
    "parameters": "it has more than 16 parameters: hand some over in a struct",
    "fields": "the struct has more than 64 fields: part it",
    "type": f"a typing rule fails, or a struct or a name that it uses isn't in the files: {READ_ON}",
    "form": f"it isn't of the grammar: {READ_ON}",
    "directive": "there is no preprocessor: hand over what it would leave",
    "string": "strings aren't read: move what needs them into a function of its own",
    "character": "characters in quotes aren't read: write their numbers",
    "constant": "only digits alone are read as a number, at most 2147483647: write it so",
}


def left_out_advice(word):
    if word in LEFT_OUT:
        return LEFT_OUT[word]
    if re.fullmatch(r"\w+", word):
        return f"`{word}` isn't read: do without it, or move what needs it into a function of its own"
    return f"`{word}` isn't read: do without it"
