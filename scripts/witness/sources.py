"""The files of a program: what pulsex read of them, and what a compiler needs to be told besides."""

import os
import re

from .library_names import LIBRARY_NAMES, MATHEMATICAL_NAMES
from .reports import WitnessError
from .tokens import items_of, tokens_of

# Words that stand before a parenthesis without being the name of a function.
NO_FUNCTIONS = {"if", "while", "for", "switch", "return", "sizeof", "malloc", "free", "getchar", "realloc", "calloc"}
# What stands before the name of a function that is renamed.
RENAMED = "program_"

# Why functions are left out whose parameters and result count all the same.
WORDS_WITH_HEAD = {"type", "parameters"}


class Source:
    """A file: its name as the report has it, its text (a character a byte), and its items."""

    def __init__(self, name):
        self.name = name
        self.path = os.path.realpath(name)
        try:
            with open(name, "rb") as file:
                self.text = file.read().decode("latin-1")
        except OSError as fault:
            raise WitnessError(f"cannot read {name}: {fault.strerror}") from None
        tokens, self.includes = tokens_of(self.text)
        self.items = items_of(tokens)

    def item_at(self, line, column):
        return next((item for item in self.items if item.holds(line, column)), None)


class Program:
    """The files of a report, with the items that it leaves out."""

    def __init__(self, names, report):
        twice = [name for name in names if names.count(name) > 1]
        if twice:
            raise WitnessError(f"{twice[0]} stands among the files more than once")
        self.sources = [Source(name) for name in names]
        for name in sorted(set().union(*(bug.files() for bug in report.bugs))):
            self.source(name)
        # The word of each.
        self.left_out = {}
        for file, line, column, word in report.left_out:
            # (what is left out for its size alone was read)
            item = self.source(file).item_at(line, column) if word != "size" else None
            if item:
                self.left_out[item] = word

    def source(self, name):
        for source in self.sources:
            if source.name == name:
                return source
        raise WitnessError(f"the report speaks of {name}, which isn't among the files")

    def all_items(self):
        return [item for source in self.sources for item in source.items]

    def kept_items(self):
        return [item for item in self.all_items() if item not in self.left_out]

    def heads(self):
        """The functions whose parameters and result count, by name: those that are kept, and some that aren't."""
        found = {}
        for item in self.all_items():
            if item.is_function() and self.left_out.get(item, "type") in WORDS_WITH_HEAD:
                found.setdefault(item.name(), item)
        return found

    def declared(self):
        """The functions that items which are kept declare or define, and those whose head counts."""
        return {item.name() for item in self.kept_items() if item.is_function() or is_declaration(item)} | set(self.heads())

    def linked_name(self, name):
        """The name of a function in the linked program."""
        is_renamed = name in self.library_names() or (name == "main" and self.has_main())
        return RENAMED + name if is_renamed else name

    def has_main(self):
        return any(item.is_function() and item.name() == "main" for item in self.all_items())

    def source_of(self, item):
        return next(source for source in self.sources if item in source.items)

    def system_headers(self):
        """The headers in pointed brackets that the files include, each once."""
        texts = [text for source in self.sources for start, end, text in source.includes]
        found = [match.group(0) for match in (re.match(r"<[^>\n]+>", text) for text in texts) if match]
        return list(dict.fromkeys(found))

    def library_names(self):
        """The functions of the program whose names the C library has too."""
        names = [item.name() for item in self.all_items() if item.is_function()]
        return [name for name in dict.fromkeys(names) if name in LIBRARY_NAMES]


def is_declaration(item):
    """Whether a kept item is a prototype."""
    return not item.is_function() and not item.is_directive() and item.name() is not None


def calls_of(item):
    """The names that stand before a parenthesis in an item."""
    pairs = zip(item.tokens, item.tokens[1:])
    return [
        token.text
        for token, behind in pairs
        if token.kind == "word" and behind.text == "(" and token.text not in NO_FUNCTIONS
    ]


def without_body(items, own_names):
    """The names that items call and have no body of. Of what is always linked those that are the program's own."""
    linked = LIBRARY_NAMES - MATHEMATICAL_NAMES - set(own_names)
    bodies = {item.name() for item in items if item.is_function()}
    called = [name for item in items if item.is_function() for name in calls_of(item)]
    return [name for name in dict.fromkeys(called) if name not in bodies | linked]


def undeclared_structures(items):
    """The structs that the parameters of a function name before anything else does."""
    known, found = set(), []
    for item in items:
        named = structures_in(item)
        if item.is_function() or is_declaration(item):
            found += [name for name in named if name not in known]
        known.update(named)
    return list(dict.fromkeys(found))


def called_early(items):
    """The functions among items that are called before they are declared, in the order of their calls."""
    functions = {item.name(): item for item in items if item.is_function()}
    declared, early = set(), []
    for item in items:
        if item.is_function() or is_declaration(item):
            declared.add(item.name())
        if item.is_function():
            for name in calls_of(item):
                if name in functions and name not in declared:
                    declared.add(name)
                    early.append(functions[name])
    return early


def signature(source, item):
    """The head of a function, as a line."""
    brace = next(token for token in item.tokens if token.text == "{")
    head = source.text[item.start : brace.start]
    return " ".join(re.sub(r"/\*.*?\*/|//[^\n]*", " ", head, flags=re.DOTALL).split())


def structures_in(item):
    """The names behind `struct` in an item, of a function in its head."""
    head = [token.text for token in item.tokens]
    head = head[: head.index("{")] if item.is_function() else head
    return [name for word, name in zip(head, head[1:]) if word == "struct"]
