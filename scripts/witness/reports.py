"""What is read of pulsex: the bugs of a report (`check --json`), and their entries in a listing of `summaries`."""

import json
import re


class WitnessError(Exception):
    """What keeps the command from its end, as a line for standard error."""


class Kind:
    """A kind of error: its name in a listing, and whether the memory sanitizer has to show it."""

    def __init__(self, listed, is_of_values):
        self.listed = listed
        self.is_of_values = is_of_values


# after the place of an error that every calling state can reach
MANIFEST = " (manifest)"

KINDS = {
    "null dereference": Kind("NullDereference", False),
    "use after free": Kind("UseAfterFree", False),
    "double free": Kind("DoubleFree", False),
    "uninitialised read": Kind("UninitialisedRead", True),
    "division by zero": Kind("DivisionByZero", False),
}


class Mark:
    """A step of a path, with its place."""

    def __init__(self, told):
        self.text = told["mark"]
        self.file = told["file"]
        self.place = place_of(told)

    def listed(self):
        return self.text.replace(" ", "_") + "@" + self.place


class Bug:
    """A bug of a report."""

    def __init__(self, told):
        self.file, self.line, self.column = told["file"], told["line"], told["column"]
        self.kind, self.procedure = told["kind"], told["procedure"]
        self.place = place_of(told)
        self.trace = [Mark(mark) for mark in told["trace"]]

    def headline(self):
        return f"{self.place}: {self.kind} in {self.procedure}"

    def count(self, *texts):
        return sum(mark.text in texts for mark in self.trace)

    def answers(self):
        """How often the path asks malloc and getchar."""
        return self.count("allocated", "allocation failed", "input")

    def files(self):
        """The files that the path goes through."""
        return {self.file} | {mark.file for mark in self.trace}

    def procedures(self):
        """The functions that the path goes through."""
        called = [mark.text[len("call "):] for mark in self.trace if mark.text.startswith("call ")]
        return [self.procedure] + called


class Report:
    """The bugs of a report, and the places of the items that it leaves out, by file."""

    def __init__(self, told):
        self.bugs = [Bug(bug) for bug in told["bugs"]]
        self.left_out = [(left["file"], left["line"], left["column"], left["word"]) for left in told["left_out"]]


class Entry:
    """An entry of a listing: what a bug is matched by, its variables (sort and type) and their values."""

    def __init__(self, procedure, exit_text):
        self.procedure = procedure
        self.exit = exit_text.removesuffix(MANIFEST)
        self.looks_manifest = exit_text.endswith(MANIFEST)
        self.parts = {}

    def variables(self):
        listed = [words.split(" ", 2)[1:] for words in self.items("vars")]
        return list(zip(listed, self.items("model")))

    def arguments(self):
        """The types and values of the parameters."""
        return [(kind, value) for (sort, kind), value in self.variables() if sort == "given"]

    def quotients(self):
        """The variables that a division gave, each of which a conjunct says to be a quotient."""
        return re.findall(r"\bQuotient\((x\d+),", self.parts["pure"])

    def inputs(self):
        """The values that getchar gives, in order: those of inputs that are no quotients."""
        names, quotients = [words.split(" ", 1)[0] for words in self.items("vars")], self.quotients()
        return [value for name, ((sort, kind), value) in zip(names, self.variables()) if sort == "input" and name not in quotients]

    def items(self, part):
        return [] if self.parts[part] == "-" else self.parts[part].split(", ")


def place_of(told):
    return f"{told['file']}:{told['line']}:{told['column']}"


def read_report(text, name):
    try:
        return Report(json.loads(text))
    except (ValueError, KeyError, TypeError, AttributeError) as fault:
        reason = f"it has no {fault}" if isinstance(fault, KeyError) else str(fault)
        raise WitnessError(f"{name} isn't a report of 'pulsex check --json': {reason}") from None


def read_listing(text):
    """The entries of a listing that end in an error, in order."""
    entries, procedure, entry = [], None, None
    for line in text.split("\n"):
        if line.startswith("procedure "):
            procedure = line[len("procedure "):].split(":", 1)[0]
        elif line.startswith(" entry "):
            entry = Entry(procedure, line.split(": ", 1)[1])
            entries.append(entry)
        elif line.startswith("  ") and entry:
            part, _, value = line[2:].partition(" ")
            entry.parts[part] = value
        else:
            # (a drop has a trace too, which isn't that of the entry before it)
            entry = None
    return [entry for entry in entries if entry.exit != "ok"]


def entry_of(bug, entries):
    """The first entry that has the bug from every calling state: same procedure, kind, place and trace."""
    if bug.kind not in KINDS:
        raise WitnessError(f"{bug.headline()}: there are no witnesses of this kind")
    exit_text = f"{KINDS[bug.kind].listed} at {bug.place}"
    trace = " ".join(mark.listed() for mark in bug.trace) or "-"
    for entry in entries:
        if (entry.procedure, entry.exit, entry.parts["trace"]) == (bug.procedure, exit_text, trace):
            if entry.looks_manifest:
                return checked(bug, entry)
    raise WitnessError(f"{bug.headline()}: the listing has no such entry; were the report's options others?")


def checked(bug, entry):
    listed, marked = len(entry.inputs()), bug.count("input")
    if listed != marked:
        raise WitnessError(f"{bug.headline()}: its entry has {listed} inputs, and its path {marked}")
    return entry
