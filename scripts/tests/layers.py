#!/usr/bin/env python3
"""The tests of `scripts/layers`: that the tables of this repository are current, and what it makes of small ones."""

import os
import subprocess
import sys
import tempfile
import traceback

TOP = os.path.dirname(os.path.dirname(os.path.dirname(os.path.realpath(__file__))))
MADE = "<!-- made by scripts/layers -->\n{}<!-- end of what is made -->\nbehind\n"
CRATES = "# a comment\n## Low ground: what is below\na: thiserror\nb: a\n\n## Tests: tries\nc: b, a\n"
HEADS = {
    "a": "//! One, and\n//! one more | again.\n//!\n//! Another paragraph.\n",
    "b": "//! Two.\n#![tactic(auto)]\n",
    "c": "//! Three.\n",
}
MAP = """\
before
<!-- made by scripts/layers -->

### Low ground: what is below

| Layer | Crate | What it is, and what it promises |
|---|---|---|
| 1 | a | One, and one more \\| again. |
| 2 | b | Two. |

### Tests: tries

| Layer | Crate | What it is, and what it promises |
|---|---|---|
| 3 | c | Three. |
<!-- end of what is made -->
behind
"""
PROVED = """\
<!-- made by scripts/layers -->

### Low ground: what is below

| Crate | What is proved | The contract |
|---|---|---|
| a | One, and one more \\| again. | — |
| b | all, by hand | `b` |
<!-- end of what is made -->
behind
"""


def layers(*words):
    ended = subprocess.run([f"{TOP}/scripts/layers", *words], capture_output=True, text=True)
    return ended.returncode, ended.stdout + ended.stderr


def write(path, text):
    os.makedirs(os.path.dirname(path), exist_ok=True)
    with open(path, "w", encoding="utf-8") as it:
        it.write(text)


def read(path):
    with open(path, encoding="utf-8") as it:
        return it.read()


def on(text, *words, heads=HEADS, rows="| b | all, by hand | `b` |\n| a | One. | — |\n"):
    """Returns the status, what was said and the two documents, of a repository with this crates.txt."""
    with tempfile.TemporaryDirectory() as top:
        write(f"{top}/crates.txt", text)
        for name, head in heads.items():
            write(f"{top}/crates/{name}/src/{'main' if name == 'c' else 'lib'}.rt", head)
        write(f"{top}/docs/ARCHITECTURE.md", "before\n" + MADE.format("an old table\n"))
        write(f"{top}/docs/PROVED.md", MADE.format(rows))
        return *layers(*words, top), read(f"{top}/docs/ARCHITECTURE.md"), read(f"{top}/docs/PROVED.md")


def expect(found, wanted):
    if found != wanted:
        raise AssertionError(f"{wanted!r} is wanted and not {found!r}")


def tables_of_this_repository_are_current():
    expect(layers("--check"), (0, ""))


def tables_are_made():
    status, _, architecture, proved = on(CRATES)
    expect((status, architecture, proved), (0, MAP, PROVED))


def a_check_writes_nothing():
    status, said, architecture, _ = on(CRATES, "--check")
    expect((status, said.count("isn't current"), architecture), (1, 2, "before\n" + MADE.format("an old table\n")))


def refused(text, why, **other):
    status, said, architecture, _ = on(text, **other)
    expect((status, why in said, "an old table" in architecture), (1, True, True))


def what_is_used_stands_above():
    refused("## Low: all\nb: a\na:\nc: a\n", "b uses a, which doesn't stand above it")


def each_crate_has_a_family():
    refused("a:\n## Low: all\nb:\n", "a stands above all families")


def each_crate_says_what_it_is():
    refused(CRATES, "b: its source doesn't begin with `//!`", heads={**HEADS, "b": "mod b;\n"})


def each_row_has_a_crate():
    refused(CRATES, "crates.txt has no d", rows="| d | all | `d` |\n")
    refused(CRATES, "b has two rows", rows="| b | all | `b` |\n| b | all | `c` |\n")


TESTS = (
    tables_of_this_repository_are_current,
    tables_are_made,
    a_check_writes_nothing,
    what_is_used_stands_above,
    each_crate_has_a_family,
    each_crate_says_what_it_is,
    each_row_has_a_crate,
)


def main():
    failed = 0
    for one in TESTS:
        try:
            one()
        except Exception:
            failed += 1
            print(f"{one.__name__} failed:")
            traceback.print_exc(file=sys.stdout)
    print(f"{len(TESTS) - failed} passed, {failed} failed")
    return 1 if failed else 0


if __name__ == "__main__":
    sys.exit(main())
