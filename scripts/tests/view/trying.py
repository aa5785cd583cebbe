"""What the tests of `view` share: how they start it, and the reports that they hand over."""

import json
import os
import subprocess
import sys

DATA = os.path.dirname(os.path.realpath(__file__))
TOP = os.path.dirname(os.path.dirname(os.path.dirname(DATA)))
VIEW = os.path.join(TOP, "view")

EXAMPLES = ("counter", "journal", "list", "queue", "record_list", "stack", "table", "tree")

TESTS = []


def test(function):
    TESTS.append(function)
    return function


class Untried(Exception):
    """Says why a test could not be tried."""


def same(got, wanted):
    if got != wanted:
        raise AssertionError(f"this came:\n{got}\nand this is wanted:\n{wanted}")


def holds(fact, what):
    if not fact:
        raise AssertionError(what)


def stored(name):
    with open(os.path.join(DATA, name), encoding="utf-8") as file:
        return file.read()


class Ran:
    def __init__(self, status, out, err):
        self.status = status
        self.out = out
        self.err = err


def view(*words, report=None, cwd=TOP, data=None, **environment):
    """Runs view on a report, which is an object, on standard input."""
    if report is not None:
        data = json.dumps(report).encode("utf-8")
    settings = {**os.environ, "LC_ALL": "C.UTF-8", **environment}
    # (-I -S: with the standard library alone, and at once. That view starts by itself is tried through a link.)
    words = [sys.executable, "-I", "-S", VIEW, *words]
    ran = subprocess.run(words, input=data or b"", cwd=cwd, env=settings, stdout=subprocess.PIPE, stderr=subprocess.PIPE)
    return Ran(ran.returncode, ran.stdout.decode("utf-8"), ran.stderr.decode("utf-8"))


def place_of(text):
    """A place as the report's text has it: FILE:L:C."""
    file, line, column = text.rsplit(":", 2)
    return {"file": file, "line": int(line), "column": int(column)}


def report_of(text):
    """The JSON report that says what the text says, by the two forms of docs/PROFILE.md."""
    report = {"bugs": [], "dropped": [], "left_out": [], "procedures": 0}
    for line in text.splitlines():
        if line.startswith("  "):
            place, mark = line[2:].split(": ", 1)
            report["bugs"][-1]["trace"].append({**place_of(place), "mark": mark})
        elif line.startswith("left out "):
            name, rest = line[len("left out ") :].split(" at ", 1)
            place, word = rest.split(": ", 1)
            report["left_out"].append({**place_of(place), "name": name, "word": word})
        elif line.startswith("dropped "):
            procedure, rest = line[len("dropped ") :].split(": ", 1)
            cause, count = rest.rsplit(", ", 1)
            report["dropped"].append({"cause": cause, "count": int(count), "procedure": procedure})
        elif line.startswith("procedures "):
            report["procedures"] = int(line.split(",")[0].split()[1])
        else:
            place, rest = line.split(": ", 1)
            kind, procedure = rest.rsplit(" in ", 1)
            report["bugs"].append({**place_of(place), "kind": kind, "procedure": procedure, "trace": []})
    return report


def example(name):
    with open(os.path.join(TOP, "examples", f"{name}.report"), encoding="utf-8") as file:
        return report_of(file.read())


def one_bug(file="a.c", line=1, column=1, kind="null dereference", procedure="f", trace=()):
    bug = {"column": column, "file": file, "kind": kind, "line": line, "procedure": procedure, "trace": list(trace)}
    return {"bugs": [bug], "dropped": [], "left_out": [], "procedures": 1}


HOSTILE = "<script>alert(1)</script>\"'&amp;<!--.c"


def hostile(folder):
    """A report with names and a source that would be elements, or end the script's own, were they not escaped."""
    path = os.path.join(folder, HOSTILE)
    os.makedirs(os.path.dirname(path))
    with open(path, "w", encoding="utf-8") as file:
        file.write("/* </script><img src=x onerror=alert(1)> */ int f(void) { return *p; }\n")
    report = one_bug(file=HOSTILE, column=66, procedure="<b>f</b>", kind="<i>kind</i>")
    report["bugs"][0]["trace"] = [{"column": 66, "file": HOSTILE, "line": 1, "mark": "call <u>g</u>"}]
    report["left_out"] = [{"column": 1, "file": HOSTILE, "line": 1, "name": "<a href=x>", "word": "<s>"}]
    report["dropped"] = [{"cause": "unknown callee <em>", "count": 1, "procedure": "<h6>"}]
    return report


def page_of(report, *words, cwd=TOP):
    ran = view("--html", *words, report=report, cwd=cwd)
    same(ran.status, 0)
    return ran.out
