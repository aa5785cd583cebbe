"""Copies of sources: what pulsex read of them alone, each token at its line, with what makes a compiler do the same.

An edit is an offset, a rank among those of the same offset, how many bytes it takes away, and what it puts there.
"""

import re

from .sources import is_declaration

ASSIGNING = {"=", "+=", "-=", "*=", "++", "--"}
# What stands for a byte that is taken away.
GONE = "\0"
# What an operand can end with: a `*` or `-` behind it has a left side.
ENDS_OPERAND = {")", "]"}
HEADS = {"if", "while", "for"}
NO_CALLEES = HEADS | {"return", "else"}

# Of one place: what closes comes first, and from within.
INNER_CLOSING, CLOSING, OUTER_CLOSING, OUTER_OPENING, OPENING, INNER_OPENING = range(6)


class Copy:
    """A copy of a source, as a text with the same lines. Of the functions it has those with the names alone."""

    def __init__(self, source, program, names):
        self.source = source
        self.edits = []
        gone = dropped_declarations(program).union(program.left_out)
        self.items = [
            item
            for item in source.items
            if item not in gone and not item.is_directive() and (item.name() in names or not item.is_function())
        ]
        self.hoisted = set()

    def functions(self):
        return [item for item in self.items if item.is_function()]

    def text(self):
        """The text of the source with the edits, and with `GONE` for what isn't in the copy, but for line feeds."""
        text, pieces, offset = self.source.text, [], 0
        gone = [(start, end) for start, end, included in self.source.includes]
        for before, item in zip([None] + self.source.items, self.source.items):
            if item not in self.items or item in self.hoisted:
                gone.append((self.comment_before(item, before.end if before else 0), item.end))
        blanking = [(start, OPENING, end - start, blanks(text[start:end])) for start, end in merged(gone)]
        for start, rank, length, put in sorted(self.edits + blanking):
            pieces += [text[offset:start], put]
            offset = start + length
        # (no backslash joins lines here; one can only stand in a comment)
        whole = re.sub(r"\\(?=[ \t\v\f\r]*\n)", " ", "".join(pieces) + text[offset:])
        return whole.rstrip("\n" + GONE) + "\n"

    def comment_before(self, item, end):
        """Where the comment begins that stands right above an item, behind an offset; else where the item does."""
        lines = re.split(r"\n[ \t]*\n", self.source.text[end : item.start])
        return item.start - len(lines[-1]) if len(lines) > 1 else item.start

    def wrap(self, first, last, opening, closing, ranks=(OPENING, CLOSING)):
        self.edits += [(first.start, ranks[0], 0, opening), (last.end, ranks[1], 0, closing)]


def merged(spans):
    """Spans in order, without what stands in two of them."""
    found = []
    for start, end in sorted(spans):
        start = max(start, found[-1][1]) if found else start
        if start < end:
            found.append((start, end))
    return found


def blanks(text):
    return "".join("\n" if character == "\n" else GONE for character in text)


def dropped_declarations(program):
    """The prototypes that don't count: those of functions that are defined, and all but the first of others."""
    known, dropped = set(program.heads()), set()
    for item in program.kept_items():
        if is_declaration(item):
            if item.name() in known:
                dropped.add(item)
            known.add(item.name())
    return dropped


def late_structures(copies):
    """The structs of copies that stand behind a function, which may need them."""
    late, has_function = [], False
    for copy in copies:
        for item in copy.items:
            has_function = has_function or item.is_function()
            if has_function and item.structure():
                late.append((copy, item))
    return late


def keep_order(copy, site=None):
    """Edits for assignments that a compiler may order otherwise, and for what it binds otherwise. Answers in which functions.

    Of the assignment in which the value at `site` is checked the order always counts.
    """
    changed = []
    for item in copy.functions():
        before = len(copy.edits)
        for place, token in enumerate(item.tokens):
            if token.text in ASSIGNING:
                order_assignment(copy, item.tokens, place, site)
            elif token.text == "malloc":
                bind_cast(copy, item.tokens, place)
        if len(copy.edits) > before:
            changed.append(item.name())
    return changed


def order_assignment(copy, tokens, place, site):
    """`L = R`, where both use the heap: the pointer of L comes first, then R. `*p++` changes what p points to."""
    left, operator = tokens[statement_start(tokens, place) : place], tokens[place]
    if not left or left[0].text in ("int", "struct"):
        return
    if operator.text in ("++", "--"):
        if left[0].text == "*":
            copy.wrap(left[0], left[-1], "(", ")")
        return
    right = tokens[place + 1 : statement_end(tokens, place)]
    is_update = operator.text != "="
    is_checked = any((token.line, token.column) == site for token in left)
    uses_heap = effects(left) > (0 if is_update else 1)
    if not effects(right) or not (uses_heap or is_checked) or (len(left) == 1 and not is_update):
        return
    copy.wrap(left[0], left[-1], "({ __auto_type witness_left = &(", ");", (OUTER_OPENING, OUTER_CLOSING))
    old = "__typeof__(*witness_left) witness_old = *witness_left; " if is_update else ""
    sum_of = f"witness_old {operator.text[0]} " if is_update else ""
    copy.edits.append((operator.start, OPENING, len(operator.text), f"{old}*witness_left = {sum_of}("))
    copy.edits.append((right[-1].end, OUTER_CLOSING, 0, "); })"))


def bind_cast(copy, tokens, place):
    """`(struct s *)malloc(..)->f` is read as `((struct s *)malloc(..))->f`."""
    last = matching_closing(tokens, place + 1)
    if tokens[place - 1].text == ")" and tokens[last + 1].text == "->":
        copy.wrap(tokens[matching_opening(tokens, place - 1)], tokens[last], "(", ")", (INNER_OPENING, INNER_CLOSING))


def statement_start(tokens, place):
    """Where the statement begins in which an assigning operator stands."""
    place -= 1
    while place >= 0:
        text = tokens[place].text
        if text in (";", "{", "}", "else", "("):
            break
        if text == ")":
            opening = matching_opening(tokens, place)
            if opening and tokens[opening - 1].text in HEADS:
                break
            place = opening
        place -= 1
    return place + 1


def statement_end(tokens, place):
    """Where the right side of an assigning operator ends."""
    opened = 0
    while place < len(tokens):
        text = tokens[place].text
        if text == ";" or (text == ")" and not opened):
            break
        opened += (text == "(") - (text == ")")
        place += 1
    return place


def matching_opening(tokens, place):
    opened = 0
    while place >= 0:
        opened += (tokens[place].text == ")") - (tokens[place].text == "(")
        if not opened:
            break
        place -= 1
    return place


def matching_closing(tokens, place):
    opened = 0
    while place < len(tokens):
        opened += (tokens[place].text == "(") - (tokens[place].text == ")")
        if not opened:
            break
        place += 1
    return place


def is_unary(tokens, place):
    """Whether a `*` or `-` has no left side. (`sizeof(struct s *)` has no value, and isn't asked about.)"""
    before = tokens[place - 1] if place else None
    return before is None or not (before.kind in ("word", "number") or before.text in ENDS_OPERAND)


def effects(tokens):
    """How many accesses and calls stand in tokens."""
    count = 0
    for place, token in enumerate(tokens):
        behind = tokens[place + 1].text if place + 1 < len(tokens) else ""
        is_access = token.text == "->" or (token.text == "*" and is_unary(tokens, place))
        count += is_access or (token.kind == "word" and behind == "(" and token.text != "sizeof")
    return count


def check_read(copy, line, column):
    """Edits that have the value at a place checked before it is used. Answers whether there is one."""
    item = next((item for item in copy.functions() if item.holds(line, column)), None)
    places = [] if item is None else [
        place for place, token in enumerate(item.tokens) if (token.line, token.column) == (line, column)
    ]
    if not places:
        return False
    tokens, place = item.tokens, places[0]
    first, last = place, place
    if tokens[place].text == "->":
        first, last = primary_start(tokens, place - 1), place + 1
    elif tokens[place].text == "*":
        last = unary_end(tokens, place + 1)
    elif tokens[place + 1].text == "(":
        last = matching_closing(tokens, place + 1)
        copy.wrap(tokens[first], tokens[last], "WITNESS_VALUE(", ")")
        return True
    copy.wrap(tokens[first], tokens[last], "WITNESS_PLACE(", ")")
    return True


def primary_start(tokens, place):
    """Where `primary (-> NAME)*` begins that ends at a place."""
    while True:
        if tokens[place].text == ")":
            place = matching_opening(tokens, place)
            if tokens[place - 1].kind == "word" and tokens[place - 1].text not in NO_CALLEES:
                place -= 1
            if tokens[place].text == "malloc" and tokens[place - 1].text == ")":
                place = matching_opening(tokens, place - 1)
        if tokens[place - 1].text != "->":
            return place
        place -= 2


def unary_end(tokens, place):
    """Where `unary (-> NAME)*` ends that begins at a place."""
    while tokens[place].text in ("*", "-", "!"):
        place += 1
    if tokens[place].text == "(":
        place = matching_closing(tokens, place)
    elif tokens[place + 1].text == "(":
        place = matching_closing(tokens, place + 1)
    while tokens[place + 1].text == "->":
        place += 2
    return place
