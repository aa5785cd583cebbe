"""Tests of `view --lines`."""

import json
import os
import subprocess
import tempfile

from trying import DATA, EXAMPLES, TOP, VIEW, example, holds, one_bug, same, stored, test, view


def lines_of(name):
    ran = view(report=example(name))
    same((ran.status, ran.err), (0, ""))
    same(ran.out, stored(f"{name}.lines"))


for one in EXAMPLES:
    test(lambda name=one: lines_of(name)).__name__ = f"lines of {one}"


@test
def the_readme_shows_what_comes():
    with open(os.path.join(TOP, "README.md"), encoding="utf-8") as file:
        readme = file.read()
    holds("| ./view\n" + stored("list.lines") + "```" in readme, "the lines of list aren't those in README.md")
    for line in stored("journal.lines").splitlines()[:3] + stored("journal.lines").splitlines()[5:8]:
        holds(line + "\n" in readme, f"README.md has not: {line}")


@test
def every_kind_mark_cause_and_word():
    ran = view("--lines", os.path.join(DATA, "every.json"), cwd=DATA)
    same(ran.status, 0)
    same(ran.out, stored("every.lines"))
    same(ran.err, "view: every.c has no column 2 in line 11: it was changed since the report\n")


@test
def the_caret_stands_under_its_token():
    """Tabs, letters of two bytes, wide letters, letters that combine, and bytes that are no text."""
    lines = [
        b"\tint x; /* \xc3\xa9 */ x;",
        b"/* \xe6\x97\xa5\xef\xbc\xa1 */ x;",
        b"/* e\xcc\x81 */ x;",
        b"/* \xff\x1b[31m */ x;\r",
        b"a\tb\tx;",
    ]
    wanted = [
        ("        int x; /* é */ x;", 23),
        ("/* 日\uff21 */ x;", 11),
        ("/* e\u0301 */ x;", 8),
        ("/* <ff><U+001B>[31m */ x;", 23),
        ("a       b       x;", 16),
    ]
    with tempfile.TemporaryDirectory() as folder:
        with open(os.path.join(folder, "a.c"), "wb") as file:
            file.write(b"\n".join(lines) + b"\n")
        for number, (line, before) in enumerate(wanted):
            column = lines[number].rindex(b"x") + 1
            ran = view("--root", folder, report=one_bug(line=number + 1, column=column))
            same(ran.out.split("\n")[1:3], [f"    {number + 1} | {line}", "      | " + " " * before + "^"])
            same(ran.err, "view: a.c isn't UTF-8 (line 4): other bytes are shown by their numbers\n")


@test
def a_long_line_is_cut_around_its_caret():
    with tempfile.TemporaryDirectory() as folder:
        with open(os.path.join(folder, "a.c"), "w", encoding="ascii") as file:
            file.write("a" + " " * 998 + "x" + "+" * 5000 + "\n" + "y" * 300 + "\n" + "z;" + " " * 200 + "\n")
        ran = view("--root", folder, report=one_bug(column=1000))
        same(ran.out.split("\n")[1], "    1 | ..." + " " * 80 + "x" + "+" * 76 + "...")
        same(ran.out.split("\n")[2], "      | " + " " * 83 + "^")
        ran = view("--root", folder, report=one_bug(line=2))
        same(ran.out.split("\n")[1], "    2 | " + "y" * 160 + "...")
        ran = view("--root", folder, report=one_bug(line=3))
        same(ran.out.split("\n")[1], "    3 | z;")


@test
def names_cannot_change_a_terminal():
    name = "a\x1b[31m\n\u202e.c"
    ran = view(report=one_bug(file=name, procedure="f\x07", kind="null\rdereference"))
    same(ran.out.split("\n")[0], "a<U+001B>[31m<U+000A><U+202E>.c:1:1: error: null<U+000D>dereference in f<U+0007>")
    same(ran.err, "view: a<U+001B>[31m<U+000A><U+202E>.c can't be read: No such file or directory\n")


@test
def what_is_missing_is_said_and_the_rest_is_shown():
    report = example("list")
    report["bugs"][0]["trace"][0]["file"] = "gone.c"
    ran = view(report=report)
    same(ran.status, 0)
    same(ran.err, "view: gone.c can't be read: No such file or directory\n")
    wanted = stored("list.lines").split("\n")
    wanted[3:6] = [
        "gone.c:10:24: note: 1 of 2, in push: the allocation failed: null",
        "      | (can't be read: No such file or directory)",
    ]
    same(ran.out, "\n".join(wanted))


@test
def a_source_that_is_no_file_is_not_read():
    for name in ("/dev/zero", ".", ""):
        ran = view(report=one_bug(file=name))
        same((ran.status, ran.err), (0, f"view: {name} isn't a file\n"))
    ran = view(report=one_bug(file="a\0.c"))
    same((ran.status, ran.err), (0, "view: a<U+0000>.c can't be read: its name holds a zero byte\n"))
    with tempfile.TemporaryDirectory() as folder:
        with open(os.path.join(folder, "a.c"), "wb") as file:
            file.write(b" " * 1048577)
        ran = view("--root", folder, report=one_bug())
        same(ran.err, "view: a.c has more than 1048576 bytes\n")


@test
def a_line_that_is_not_there_was_changed():
    ran = view(report=one_bug(file="examples/list.c", line=32))
    same(ran.err, "view: examples/list.c has no line 32: it was changed since the report\n")
    same(ran.out.split("\n")[1], "      | (has no line 32: it was changed since the report)")
    ran = view(report=one_bug(file="examples/list.c", line=31, column=1))
    same((ran.err, ran.out.split("\n")[1]), ("", "   31 | }"))


@test
def colours_come_on_a_terminal_alone():
    import pty

    def shown(**environment):
        ours, theirs = pty.openpty()
        path = os.path.join(folder, "report")
        with open(path, "w", encoding="utf-8") as file:
            json.dump(example("list"), file)
        settings = {**os.environ, "TERM": "xterm", **environment}
        subprocess.run([VIEW, path], cwd=TOP, env=settings, stdout=theirs, check=True)
        os.close(theirs)
        text = os.read(ours, 65536).decode("utf-8").replace("\r\n", "\n")
        os.close(ours)
        return text

    with tempfile.TemporaryDirectory() as folder:
        os.environ.pop("NO_COLOR", None)
        first = "\033[1mexamples/list.c:11:8:\033[m \033[1;31merror:\033[m null dereference in push\n"
        same(shown()[: len(first)], first)
        same(shown(NO_COLOR="1"), stored("list.lines"))
        same(shown(TERM="dumb"), stored("list.lines"))
        holds("\033" in shown(NO_COLOR=""), "an empty NO_COLOR counts as none")
