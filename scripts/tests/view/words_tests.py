"""That view has a sentence of its own for each word that docs/PROFILE.md says of a report."""

import os
import re
import sys

from trying import TOP, holds, same, test

sys.path.insert(0, os.path.join(TOP, "scripts"))

from view import words  # noqa: E402


def first_cells(heading):
    """The words in the first cells of the table with this heading."""
    with open(os.path.join(TOP, "docs", "PROFILE.md"), encoding="utf-8") as file:
        rows = file.read().split(heading + "\n", 1)[1].split("\n\n", 1)[0].split("\n")[1:]
    return [word for row in rows for word in re.findall(r"`([^`]+)`", row.split("|")[1])]


@test
def each_kind_is_known():
    same(list(words.KINDS), first_cells("| Error | Where |"))


@test
def each_mark_is_known():
    for mark in first_cells("| Mark | What happens there |"):
        text = words.mark_text(mark, "f")
        holds(mark in words.MARKS or mark in ("call NAME", "return"), f"{mark} has no sentence")
        # (the sentence has the mark's own word, or its stem)
        holds(mark.split()[0][:4] in text, f"{mark} isn't in its sentence: {text}")


@test
def each_cause_is_known():
    unknown = words.cause_of("a cause of later").advice
    for cause in first_cells("| Cause | Means | What can be done |"):
        text = re.sub(r"\bN\b", "64", cause)
        holds(words.cause_of(text).advice != unknown, f"{cause} has no advice")


@test
def each_word_of_an_item_is_known():
    for word in first_cells("| Word | Where |") + ["size", "form", "string", "character", "directive", "constant"]:
        holds(word in words.LEFT_OUT, f"{word} has no advice")
