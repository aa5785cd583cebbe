"""A bug's path as steps, each with the function that it is in."""

from typing import NamedTuple

from .report import Place
from .words import called_by, mark_text


# The marks that an error itself leaves (docs/PROFILE.md): of the others none fails.
FAILING = ("access", "free")


class Step(NamedTuple):
    place: Place
    mark: str
    function: str
    depth: int
    text: str


def steps_of(bug):
    """The marks of a bug's trace, and the error itself: the last mark, where that is the error's own, and else, as where
    a local is read, a step without a mark."""
    steps = []
    functions = [bug.procedure]
    for place, mark in bug.trace:
        back = functions.pop() if mark == "return" and len(functions) > 1 else functions[-1]
        steps.append(Step(place, mark, functions[-1], len(functions) - 1, mark_text(mark, back)))
        if called_by(mark) is not None:
            functions.append(called_by(mark))
    if steps and steps[-1].place == bug.place and steps[-1].mark in FAILING:
        steps[-1] = steps[-1]._replace(text=bug.kind)
    else:
        steps.append(Step(bug.place, "", functions[-1], len(functions) - 1, bug.kind))
    return steps
