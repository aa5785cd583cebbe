"""Tests of the words of `view`, of what it reads, and of how it ends."""

import json
import os
import subprocess
import tempfile

from trying import TOP, VIEW, example, holds, one_bug, same, stored, test, view


@test
def the_report_comes_from_a_file_or_a_pipe():
    with tempfile.TemporaryDirectory() as folder:
        path = os.path.join(folder, "report.json")
        with open(path, "w", encoding="utf-8") as file:
            json.dump(example("stack"), file)
        for words in ([path], ["--lines", path], ["--", path], [path, "--lines"], ["--root", TOP, path], [f"--root={TOP}", path]):
            same(view(*words).out, stored("stack.lines"))
        same(view("-", report=example("stack")).out, stored("stack.lines"))
        same(view(path, "--root", "..", cwd=os.path.join(TOP, "examples")).out, stored("stack.lines"))


@test
def it_works_through_a_link_and_leaves_the_checkout_alone():
    with tempfile.TemporaryDirectory() as folder:
        link = os.path.join(folder, "v")
        os.symlink(VIEW, link)
        data = json.dumps(example("list")).encode("utf-8")
        ran = subprocess.run([link, "--root", TOP], input=data, cwd=folder, stdout=subprocess.PIPE, check=True)
        same(ran.stdout.decode("utf-8"), stored("list.lines"))
    holds(not os.path.exists(os.path.join(TOP, "scripts", "view", "__pycache__")), "it left compiled files behind")


@test
def wrong_words_end_with_2():
    usage = "usage: view [--lines|--sarif|--html] [--root FOLDER] [REPORT]\n"
    cases = [
        (["--json"], "--json is no option"),
        (["-x"], "-x is no option"),
        (["--lines", "--html"], "--html is one too many"),
        (["a", "b"], "b is one too many"),
        (["--root"], "--root has no FOLDER behind it"),
        (["--root", "/nowhere"], "/nowhere is no folder"),
    ]
    for words, line in cases:
        ran = view(*words)
        same((ran.status, ran.out, ran.err), (2, "", f"view: {line}\n{usage}"))


@test
def help_is_shown():
    ran = view("--help")
    same((ran.status, ran.err), (0, ""))
    for word in ("--lines", "--sarif", "--html", "--root FOLDER", "NO_COLOR", "status"):
        holds(word in ran.out, f"{word} is missing")


@test
def a_report_that_cannot_be_read_ends_with_3():
    same((view("nowhere").status, view("nowhere").err), (3, "view: cannot read nowhere: No such file or directory\n"))
    same((view(".").status, view(".").err), (3, "view: cannot read .: Is a directory\n"))


@test
def a_view_that_cannot_be_written_ends_with_4():
    data = json.dumps(example("list")).encode("utf-8")
    for words in ([], ["--sarif"], ["--html"]):
        with open("/dev/full", "wb") as full:
            ran = subprocess.run([VIEW, *words], input=data, cwd=TOP, stdout=full, stderr=subprocess.PIPE)
        same((ran.returncode, ran.stderr), (4, b"view: cannot write: No space left on device\n"))


@test
def a_reader_that_leaves_early_is_no_error():
    data = json.dumps(one_bug(trace=[{"column": 1, "file": "a.c", "line": 1, "mark": "true"}] * 20000)).encode("utf-8")
    with subprocess.Popen([VIEW], cwd=TOP, stdin=subprocess.PIPE, stdout=subprocess.PIPE, stderr=subprocess.PIPE) as ran:
        ran.stdin.write(data)
        ran.stdin.close()
        ran.stdout.readline()
        ran.stdout.close()
        same(ran.stderr.read(), b"")


@test
def what_is_no_report_ends_with_5():
    whole = one_bug()
    no_column = one_bug(trace=[{"file": "a.c", "line": 1, "mark": "true"}])
    cases = [
        (b"", "it is empty: `pulsex check` prints nothing where its status is neither 0 nor 1"),
        (b" \n", "it is empty: `pulsex check` prints nothing where its status is neither 0 nor 1"),
        (b"a.c:1:1: double free in f\n", "it isn't JSON (line 1, column 1); `pulsex check --json` prints one object"),
        (b"{} {}", "it holds more than one object (line 1, column 4); `pulsex check --json` prints one object"),
        (b'{"bugs": [', "it isn't JSON (line 1, column 11); `pulsex check --json` prints one object"),
        (b"\xff", "it isn't UTF-8 (byte 1)"),
        (b"[" * 100000, "it isn't JSON that can be read: a number is too long, or too much is nested"),
        (b'{"bugs": NaN}', "NaN is no number of JSON"),
        (b"[]", "it isn't an object"),
        (b"{}", "it has no `bugs`"),
        (json.dumps({**whole, "bugs": {}}).encode(), "bugs isn't a list"),
        (json.dumps({**whole, "dropped": [1]}).encode(), "dropped[0] isn't an object"),
        (json.dumps({**whole, "left_out": [{}]}).encode(), "left_out[0] has no `file`"),
        (json.dumps({**whole, "procedures": True}).encode(), "procedures isn't a whole number from 0"),
        (json.dumps({**whole, "procedures": -1}).encode(), "procedures isn't a whole number from 0"),
        (json.dumps(one_bug(line=0)).encode(), "bugs[0].line isn't a whole number from 1"),
        (json.dumps(one_bug(line=1 << 64)).encode(), "bugs[0].line isn't a whole number from 1"),
        (json.dumps(one_bug(kind=None)).encode(), "bugs[0].kind isn't a text"),
        (json.dumps(no_column).encode(), "bugs[0].trace[0] has no `column`"),
    ]
    for number, (data, line) in enumerate(cases):
        ran = view(("--lines", "--sarif", "--html")[number % 3], data=data)
        wanted = f"view: standard input is no report of `pulsex check --json`: {line}\n"
        same((ran.status, ran.out, ran.err), (5, "", wanted))


@test
def more_than_is_known_does_no_harm():
    report = example("list")
    report["later"] = {"a": 1}
    report["bugs"][0]["later"] = [1]
    same(view(report=report).out, stored("list.lines"))
    half = one_bug(file="\ud800.c")
    ran = view(data=json.dumps(half).encode("ascii"))
    same((ran.status, ran.out.split("\n")[0]), (0, "\ufffd.c:1:1: error: null dereference in f"))
