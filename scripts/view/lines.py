"""The view for a terminal: each bug with its source line and a caret, then its path, and below what wasn't looked at."""

from .paths import steps_of
from .sources import expanded, visible_text, width
from .summary import NO_NAME, counted, drop_groups, dropped_share, left_out_groups, left_out_share
from .words import cause_of

COLOURS = {"place": "1", "error": "1;31", "note": "1;36", "caret": "1;32", "dim": "2"}

# A line is cut to this many columns around its caret.
MOST_COLUMNS = 160

# How many of the lines of one cause are named.
MOST_NAMED = 5


class Painter:
    def __init__(self, colour):
        self.colour = colour

    def paint(self, name, text):
        return f"\033[{COLOURS[name]}m{text}\033[m" if self.colour and text else text


def place_text(place):
    return f"{visible_text(place.file)}:{place.line}:{place.column}"


def cut_around(before, token, behind):
    """The line in three parts, cut where it is too long, so that the token is in sight."""
    if width(before) + width(token) + width(behind) <= MOST_COLUMNS:
        return before, token, behind
    if width(before) > MOST_COLUMNS // 2:
        before = "..." + before[-(MOST_COLUMNS // 2) :]
    room = max(MOST_COLUMNS - width(before), 0)
    if len(token) > room:
        return before, token[:room] + "...", ""
    room -= len(token)
    return before, token, behind if len(behind) <= room else behind[:room] + "..."


def source_lines(place, sources, painter):
    """The line of a place, and below it a caret under the token."""
    spot, fault = sources.find(place)
    if spot is None:
        return [f"      | ({fault})"]
    before = expanded(spot.text[: spot.start])
    token = expanded(spot.text[spot.start : spot.end], width(before))
    behind = expanded(spot.text[spot.end :], width(before) + width(token))
    before, token, behind = cut_around(before, token, behind.rstrip())
    under = " " * width(before) + painter.paint("caret", "^" + "~" * (width(token) - 1))
    return [f"{place.line:>5} | {before}{token}{behind}", f"      | {under}"]


def bug_lines(bug, sources, painter):
    kind, procedure = visible_text(bug.kind), visible_text(bug.procedure)
    yield f"{painter.paint('place', place_text(bug.place) + ':')} {painter.paint('error', 'error:')} {kind} in {procedure}"
    yield from source_lines(bug.place, sources, painter)
    steps = steps_of(bug)
    if len(steps) == 1 and steps[0].place == bug.place:
        steps = []
    for number, step in enumerate(steps, 1):
        text = visible_text(f"{number} of {len(steps)}, in {step.function}: {step.text}")
        yield f"{painter.paint('place', place_text(step.place) + ':')} {painter.paint('note', 'note:')} {text}"
        yield from source_lines(step.place, sources, painter)
    yield ""


def named(texts):
    """The first of the texts, and how many more there are."""
    shown = ", ".join(map(visible_text, texts[:MOST_NAMED]))
    return shown if len(texts) <= MOST_NAMED else f"{shown}, and {len(texts) - MOST_NAMED} more"


def left_out_lines(report, painter):
    share = left_out_share(report)
    items = counted(len(report.left_out), "item")
    functions = f"{share.part} of {counted(share.whole, 'function')} ({share.percent()})"
    yield f"{painter.paint('note', 'left out:')} {items}, among them {functions}"
    for group in left_out_groups(report):
        yield visible_text(f"  {group.name} ({counted(len(group.lines), 'item')}): {group.advice}")
        places = [place_text(item.place) for item in group.lines]
        names = ["" if item.name == NO_NAME else f"{item.name} at " for item in group.lines]
        yield f"      {named([name + place for name, place in zip(names, places)])}"


def drop_subjects(group):
    """The lines of a cause by what they name: a callee with the functions that call it, or the functions alone."""
    by_subject = {}
    for drop in group.lines:
        by_subject.setdefault(cause_of(drop.cause).subject, []).append(drop.procedure)
    for subject, procedures in sorted(by_subject.items(), key=lambda item: -len(item[1])):
        yield f"{visible_text(subject)} {named(procedures)}" if subject else named(procedures)


def drop_lines(report, painter):
    share = dropped_share(report)
    functions = f"{share.part} of {counted(share.whole, 'function')} ({share.percent()})"
    yield f"{painter.paint('note', 'dropped paths:')} in {functions}"
    for group in drop_groups(report):
        functions = counted(len({drop.procedure for drop in group.lines}), "function")
        paths = counted(sum(drop.count for drop in group.lines), "path")
        yield visible_text(f"  {group.name} ({functions}, {paths}): {group.advice}")
        subjects = list(drop_subjects(group))
        yield from (f"      {subject}" for subject in subjects[:MOST_NAMED])
        if len(subjects) > MOST_NAMED:
            yield f"      and {len(subjects) - MOST_NAMED} more"


def render(report, sources, colour):
    """The view as lines."""
    painter = Painter(colour)
    for bug in report.bugs:
        yield from bug_lines(bug, sources, painter)
    if report.left_out:
        yield from left_out_lines(report, painter)
    if report.dropped:
        yield from drop_lines(report, painter)
    yield f"procedures {report.procedures}, left out {len(report.left_out)}, bugs {len(report.bugs)}"
