"""What a report says of what wasn't looked at, put together by cause."""

from typing import Dict, NamedTuple

from .words import cause_of, left_out_advice

# The name of an item that has none.
NO_NAME = "(item)"


class Group(NamedTuple):
    """The lines of one cause: its name, what can be done, and its lines."""

    name: str
    advice: str
    lines: list


def largest_first(groups):
    """(Groups of one size stay in the order in which they were met.)"""
    return sorted(groups, key=lambda group: -len(group.lines))


def left_out_groups(report):
    groups: Dict[str, Group] = {}
    for item in report.left_out:
        groups.setdefault(item.word, Group(item.word, left_out_advice(item.word), [])).lines.append(item)
    return largest_first(groups.values())


def drop_groups(report):
    groups: Dict[str, Group] = {}
    for drop in report.dropped:
        cause = cause_of(drop.cause)
        groups.setdefault(cause.name, Group(cause.name, cause.advice, [])).lines.append(drop)
    return largest_first(groups.values())


class Share(NamedTuple):
    part: int
    whole: int

    def percent(self):
        return f"{100 * self.part / self.whole:.0f} %" if self.whole else "0 %"


def left_out_share(report):
    """How many of all functions were left out. An item with a name is one: no other has a name."""
    functions = sum(item.name != NO_NAME for item in report.left_out)
    return Share(functions, functions + report.procedures)


def dropped_share(report):
    """How many of the functions that were analysed have paths that weren't followed."""
    return Share(len({drop.procedure for drop in report.dropped}), report.procedures)


def counted(number, one, many=None):
    return f"{number} {one if number == 1 else many or one + 's'}"
