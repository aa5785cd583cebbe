#!/usr/bin/env python3
"""Tests of ./witness, from any folder: 'N passed, M failed' is the last line, and the status 1 where something failed.

  scripts/tests/witness.py            runs them; where no compiler with sanitizers is installed, a line says what wasn't tried
  scripts/tests/witness.py --renew    has pulsex and summaries write the stored reports and listings again

The reports and listings in scripts/tests/witness/ are those of examples/ and of cases.c and more.c beside them;
stack.witness is what is written for examples/stack.c where no compiler is installed.
"""

import contextlib
import io
import json
import os
import shutil
import subprocess
import sys
import tempfile
import traceback

sys.dont_write_bytecode = True
TESTS = os.path.dirname(os.path.realpath(__file__))
TOP = os.path.dirname(os.path.dirname(TESTS))
DATA = os.path.join(TESTS, "witness")
sys.path.insert(0, os.path.join(TOP, "scripts"))

from witness import command, edits, reports, running, sources, tokens  # noqa: E402 (the folder comes first)

EXAMPLES = ("stack", "list", "table", "tree", "record_list")
CASES = ["witness/cases.c", "witness/more.c"]
COMPILERS = running.COMPILERS
# Where the path needs an order of arguments, or the result of a function that gives none, gcc shows nothing.
NOT_BY_GCC = ("order_of_arguments", "unwritten_result")
BY_GCC = NOT_BY_GCC + ("order_of_update", "unwritten_local", "unwritten_in_new_place", "update_through_pointer")


class Failed(Exception):
    """A test whose answer is another than it should be."""


def equal(found, wanted):
    if found != wanted:
        raise Failed(f"found  {found!r}\nwanted {wanted!r}")


def holds(text, part):
    if part not in text:
        raise Failed(f"found  {text!r}\nwithout {part!r}")


def data(name):
    return os.path.join(DATA, name)


@contextlib.contextmanager
def in_folder(folder):
    before = os.getcwd()
    os.chdir(folder)
    try:
        yield
    finally:
        os.chdir(before)


@contextlib.contextmanager
def with_compilers(names):
    """The command as it is where these compilers are installed alone."""
    running.COMPILERS = names
    for found in (running.compiler_of_blocks, running.compiler_of_values):
        found.cache_clear()
    try:
        yield
    finally:
        running.COMPILERS = COMPILERS
        for found in (running.compiler_of_blocks, running.compiler_of_values):
            found.cache_clear()


def answer(words, folder=TOP, top=TOP):
    """The status, output and error output of the command in a folder."""
    out, err = io.StringIO(), io.StringIO()
    with in_folder(folder), contextlib.redirect_stdout(out), contextlib.redirect_stderr(err):
        try:
            status = command.main(top, words)
        except SystemExit as ended:
            status = ended.code
    return status, out.getvalue(), err.getvalue()


def stored(name, *words):
    return ["--listing", data(name + ".listing"), *words, data(name + ".json")]


def verdicts(output):
    """The head and the verdict of each bug."""
    return [tuple(line.rsplit(": ", 1)) for line in output.splitlines()[::2]]


def report_of(text, bugs):
    """A program of one file in a folder of its own, with a report and a listing of it."""
    folder = tempfile.mkdtemp()
    with open(os.path.join(folder, "a.c"), "w", encoding="ascii") as file:
        file.write(text)
    told, listed = [], []
    for line, column, kind, procedure in bugs:
        told.append({"file": "a.c", "line": line, "column": column, "kind": kind, "procedure": procedure, "trace": []})
        listed += [f"procedure {procedure}: entries 1, drops 0, live prefixes 1"]
        listed += [f" entry 0: {reports.KINDS[kind].listed} at a.c:{line}:{column} (manifest)", "  trace -", "  vars -"]
        listed += ["  pure -", "  pre -", "  model -"]
    with open(os.path.join(folder, "report"), "w", encoding="ascii") as file:
        json.dump({"bugs": told, "dropped": [], "left_out": [], "procedures": 1}, file)
    with open(os.path.join(folder, "listing"), "w", encoding="ascii") as file:
        file.write("\n".join(listed) + "\n")
    return folder


def run_of(text, bugs):
    folder = report_of(text, bugs)
    try:
        status, out, err = answer(["--run", "--listing", "listing", "report", "a.c"], folder)
        equal(err, "")
        return status, out
    finally:
        shutil.rmtree(folder)


# Tests of what is read: tokens, items, reports, listings.


def test_tokens_have_the_places_of_a_report():
    found, includes = tokens.tokens_of('#include <a.h> /*\nint f(void) { /* } */ return g("{", \'"\'); }\n')
    equal([(token.text, token.line, token.column) for token in found][:3], [("int", 2, 1), ("f", 2, 5), ("(", 2, 6)])
    equal([token.text for token in found][-6:], ["(", '"{"', ",", "'\"'", ")", ";", "}"][-6:])
    equal([text for start, end, text in includes], ["<a.h> /*"])


def test_items_are_cut_at_brackets():
    text = "struct s { int a; };\n#define A {\nint f(void);\nint g(void) { { } } int x = h;\n"
    items = tokens.items_of(tokens.tokens_of(text)[0])
    equal([item.tokens[0].text for item in items], ["struct", "#define A {", "int", "int", "int"])
    equal([item.name() for item in items], [None, None, "f", "g", None])
    equal([item.is_function() for item in items], [False, False, False, True, False])
    equal(items[0].structure(), "s")
    equal([items[3].holds(4, 1), items[3].holds(4, 19), items[3].holds(4, 21)], [True, True, False])


def test_an_entry_is_that_of_the_bug():
    with open(data("stack.json"), "rb") as file:
        report = reports.read_report(file.read(), "stack.json")
    with open(data("stack.listing"), encoding="utf-8") as file:
        entries = reports.read_listing(file.read())
    entry = reports.entry_of(report.bugs[0], entries)
    equal((entry.procedure, entry.exit, entry.arguments()), ("main", "DoubleFree at examples/stack.c:29:3", []))


def test_values_of_an_entry():
    entry = reports.Entry("f", "ok")
    entry.parts = {
        "vars": "x0 given int, x1 given pointer 2, x2 input int, x3 made pointer 0, x4 input int",
        "model": "-7, block1, 10, block2, -1",
        "pre": "-",
        "pure": "Equal(x2 - 10), Unequal(x14)",
    }
    equal(entry.arguments(), [("int", "-7"), ("pointer 2", "block1")])
    equal(entry.inputs(), ["10", "-1"])
    # a quotient isn't what getchar gives
    entry.parts["pure"] = "Unequal(x2), Quotient(x4, x0 + 1, x2), Equal(x2 - 10)"
    equal(entry.inputs(), ["10"])


def test_exits_of_entries():
    entry = reports.Entry("f", "DoubleFree at d.c:1:24 (manifest)")
    equal((entry.exit, entry.looks_manifest), ("DoubleFree at d.c:1:24", True))
    entry = reports.Entry("f", "DoubleFree at d.c:1:24")
    equal((entry.exit, entry.looks_manifest), ("DoubleFree at d.c:1:24", False))


# Tests of copies: each source beside what stands in its place.

COPIES = [
    ("{ p->a = g(); }", "{ p->a = g(); }"),
    ("{ x = p->a->b; }", "{ x = p->a->b; }"),
    (
        "{ p->q->a = g(p); }",
        "{ ({ __auto_type witness_left = &(p->q->a); *witness_left = ( g(p)); }); }",
    ),
    (
        "{ if (x) f()->a *= 2 + *p; else *q = 1; }",
        "{ if (x) ({ __auto_type witness_left = &(f()->a); __typeof__(*witness_left) witness_old = *witness_left; "
        "*witness_left = witness_old * ( 2 + *p); }); else *q = 1; }",
    ),
    (
        "{ for (*g(p) = p->a; x; x++) ; }",
        "{ for (({ __auto_type witness_left = &(*g(p)); *witness_left = ( p->a); }); x; x++) ; }",
    ),
    ("{ *p++; ++*p; (*p)++; *p->q--; p->a++; }", "{ (*p)++; ++*p; (*p)++; (*p->q)--; p->a++; }"),
    ("{ x = (struct s *)malloc(sizeof(struct s))->a; }", "{ x = ((struct s *)malloc(sizeof(struct s)))->a; }"),
    ("{ int *p = g(p->q->a); x += p->a; }", "{ int *p = g(p->q->a); x += p->a; }"),
]

CHECKS = [
    ("{ return x + y; }", "x", "{ return WITNESS_PLACE(x) + y; }"),
    ("{ return x + f(p->a)->b->c; }", "->b", "{ return x + WITNESS_PLACE(f(p->a)->b)->c; }"),
    ("{ return 2 * * *p->q * y; }", "* *p", "{ return 2 * WITNESS_PLACE(* *p->q) * y; }"),
    ("{ if (*f(1)) return (p)->a; }", "*f", "{ if (WITNESS_PLACE(*f(1))) return (p)->a; }"),
    ("{ if (*f(1)) return (p)->a; }", "->a", "{ if (*f(1)) return WITNESS_PLACE((p)->a); }"),
    (
        "{ x = (struct s *)malloc(sizeof(struct s))->a; }",
        "->a",
        "{ x = WITNESS_PLACE(((struct s *)malloc(sizeof(struct s)))->a); }",
    ),
    ("{ f(g(x, y), 1); }", "g(", "{ f(WITNESS_VALUE(g(x, y)), 1); }"),
    (
        "{ x += getchar(); }",
        "x",
        "{ ({ __auto_type witness_left = &(WITNESS_PLACE(x)); __typeof__(*witness_left) witness_old = *witness_left; "
        "*witness_left = witness_old + ( getchar()); }); }",
    ),
]


def copy_of(body):
    with tempfile.TemporaryDirectory() as folder, in_folder(folder):
        with open("a.c", "w", encoding="ascii") as file:
            file.write(f"void f(void) {body}\n")
        report = reports.Report({"bugs": [], "left_out": []})
        program = sources.Program(["a.c"], report)
        return edits.Copy(program.sources[0], program, ["f"])


def test_copies_keep_the_order():
    for body, wanted in COPIES:
        copy = copy_of(body)
        changed = edits.keep_order(copy)
        equal(copy.text(), f"void f(void) {wanted}\n")
        equal(changed, ["f"] if body != wanted else [])


def test_copies_join_no_lines():
    equal(copy_of("{ // C:\\\n  x = 1; // C:\\ \n}").text(), "void f(void) { // C: \n  x = 1; // C:  \n}\n")


def test_copies_check_a_read():
    for body, place, wanted in CHECKS:
        copy = copy_of(body)
        column = len("void f(void) ") + body.index(place) + 1
        edits.keep_order(copy, (1, column))
        equal(edits.check_read(copy, 1, column), True)
        equal(copy.text(), f"void f(void) {wanted}\n")


# Tests of the command without a compiler.


def test_a_witness_is_the_stored_one():
    with tempfile.TemporaryDirectory() as folder, open(data("stack.witness"), encoding="utf-8") as wanted:
        equal(written(folder), wanted.read())


def test_the_report_comes_from_a_file_or_the_input():
    with open(data("list.json"), "rb") as file:
        report = file.read()
    with tempfile.TemporaryDirectory() as folder:
        link = os.path.join(folder, "link")
        os.symlink(os.path.join(TOP, "witness"), link)
        for name in ([], ["-"], [data("list.json")]):
            words = [link, "--listing", data("list.listing"), "--out", folder, *name, "examples/list.c"]
            ended = subprocess.run(words, input=report, capture_output=True, cwd=TOP, check=False)
            equal((ended.returncode, ended.stderr), (0, b""))
            equal(ended.stdout.decode().split("\n")[0], "examples/list.c:11:8: null dereference in push")
        # (a pipe can be read once)
        pipe = os.path.join(folder, "pipe")
        os.mkfifo(pipe)
        words = ["sh", "-c", f'cat {data("list.json")} >{pipe} & "$@"', "sh", *words[:-2], pipe, "examples/list.c"]
        ended = subprocess.run(words, stdin=subprocess.DEVNULL, capture_output=True, cwd=TOP, check=False)
        equal((ended.returncode, ended.stderr), (0, b""))


def test_what_is_wrong_is_said():
    report, listing = data("stack.json"), ["--listing", data("stack.listing")]
    for words, wanted in (
        ([report, "examples/stack.c", "--listing", "nothing"], "nothing: No such file or directory"),
        ([*listing, report, "nothing.c"], "cannot read nothing.c: No such file or directory"),
        ([*listing, report, "examples/list.c"], "the report speaks of examples/stack.c, which isn't among the files"),
        ([*listing, report, "examples/stack.c", "examples/stack.c"], "examples/stack.c stands among the files more than once"),
        ([*listing, report], "a report needs its files behind it"),
        (["nothing.json", "examples/stack.c"], "cannot read nothing.json: No such file or directory"),
        (
            ["--listing", data("list.listing"), report, "examples/stack.c"],
            "examples/stack.c:29:3: double free in main: the listing has no such entry; were the report's options others?",
        ),
    ):
        equal(answer(words), (3, "", f"witness: {wanted}\n"))
    status, out, err = answer(["--walk", report, "examples/stack.c"])
    equal((status, out, "usage: witness" in err), (2, "", True))


def test_an_entry_that_is_missing_keeps_no_other_back():
    with open(data("record_list.listing"), encoding="utf-8") as file:
        text = file.read()
    with tempfile.TemporaryDirectory() as folder:
        listing = os.path.join(folder, "listing")
        with open(listing, "w", encoding="utf-8") as file:
            file.write(text.replace("NullDereference", "DoubleFree"))
        words = ["--listing", listing, "--out", folder, data("record_list.json"), "examples/record_list.c"]
        status, out, err = answer(words)
    equal((status, out.splitlines()[0]), (3, "examples/record_list.c:18:14: use after free in last_key"))
    holds(err, "witness: examples/record_list.c:18:14: null dereference in last_key: the listing has no such entry")


def test_a_report_has_to_be_one():
    for text, wanted in (
        ("{}", "it has no 'bugs'"),
        ('{"bugs": 1}', "'int' object is not iterable"),
        ("{ nonsense", "Expecting property name"),
        ('{"bugs": [], "left_out": [{"file": "b.c", "line": 1, "column": 1, "word": "["}]}', "b.c, which isn't among"),
    ):
        folder = report_of("", [])
        with open(os.path.join(folder, "report"), "w", encoding="ascii") as file:
            file.write(text)
        status, out, err = answer(["report", "a.c"], folder)
        shutil.rmtree(folder)
        equal((status, out), (3, ""))
        holds(err, wanted)


def test_an_unknown_kind_keeps_no_other_back():
    folder = report_of("void f(void) {\n}\n", [(1, 1, "null dereference", "f"), (1, 1, "double free", "f")])
    with open(os.path.join(folder, "report"), encoding="ascii") as file:
        text = file.read().replace("null dereference", "lost lock")
    with open(os.path.join(folder, "report"), "w", encoding="ascii") as file:
        file.write(text)
    status, out, err = answer(["--listing", "listing", "report", "a.c"], folder)
    equal((status, out), (3, "a.c:1:1: double free in f\n  witnesses/2-double-free-in-f.c\n"))
    equal(err, "witness: a.c:1:1: lost lock in f: there are no witnesses of this kind\n")
    shutil.rmtree(folder)


def test_summaries_has_the_options_of_the_check():
    with tempfile.TemporaryDirectory() as folder:
        summaries = os.path.join(folder, "summaries")
        with open(summaries, "w", encoding="utf-8") as file:
            file.write(f'#!/bin/sh\necho "$@" >{folder}/words\ncat {data("stack.listing")}\n')
        os.chmod(summaries, 0o755)
        words = ["--unroll=2", "--out", folder, "--nodes", "70", data("stack.json"), "--paths", "9", "examples/stack.c"]
        with with_compilers(()):
            equal(answer(words, top=folder)[0::2], (0, ""))
        with open(os.path.join(folder, "words"), encoding="utf-8") as file:
            equal(file.read(), "--unroll=2 --paths=9 --nodes=70 -- examples/stack.c\n")
        with open(summaries, "a", encoding="utf-8") as file:
            file.write("exit 5\n")
        status, out, err = answer(words, top=folder)
        equal((status, out), (3, ""))
        holds(err, "ended with status 5")


# Tests with a compiler.


def test_examples_are_shown():
    for name in EXAMPLES:
        with tempfile.TemporaryDirectory() as folder:
            status, out, err = answer(stored(name, "--run", "--out", folder) + [f"examples/{name}.c"])
            equal((status, err, {word for head, word in verdicts(out)}), (0, "", {"shown"}))


def test_the_lines_of_a_shown_bug():
    with tempfile.TemporaryDirectory() as folder:
        status, out, err = answer(stored("stack", "--run", "--out", folder) + ["examples/stack.c"])
        head, line = out.splitlines()
        equal(head, "examples/stack.c:29:3: double free in main: shown")
        holds(line, "  AddressSanitizer: attempting double-free in main at examples/stack.c:29")
        holds(line, f" ({folder}/1-double-free-in-main.c)")


def cases(names=None):
    """The stored cases, or those of some functions, with the verdicts of the compilers at hand."""
    with open(data("cases.json"), encoding="utf-8") as file:
        report = json.load(file)
    report["bugs"] = [bug for bug in report["bugs"] if names is None or bug["procedure"] in names]
    with tempfile.TemporaryDirectory() as folder:
        name = os.path.join(folder, "report.json")
        with open(name, "w", encoding="utf-8") as file:
            json.dump(report, file)
        words = ["--run", "--out", folder, "--listing", data("cases.listing"), name, *CASES]
        status, out, err = answer(words, TESTS)
        equal(err, "")
        warned = [warnings(os.path.join(folder, file)) for file in sorted(os.listdir(folder)) if file.endswith(".c")]
        return status, [(head.rsplit(" ", 1)[1], word) for head, word in verdicts(out)], warned


def warnings(file):
    """What the compiler warns of outside of the sources."""
    words = [running.COMPILERS[0], "-Wall", "-fsyntax-only", file]
    ended = subprocess.run(words, capture_output=True, cwd=TESTS, check=False)
    return [line for line in ended.stderr.decode().splitlines() if line.startswith(os.path.dirname(file)) and "warning" in line]


def test_cases_are_shown():
    status, found, warned = cases()
    equal([head for head, word in found if word != "shown"], [])
    equal((status, len(found), [line for lines in warned for line in lines]), (0, 25, []))


def test_cases_are_shown_by_gcc():
    with with_compilers(("gcc",)):
        status, found, warned = cases(BY_GCC)
    equal({head for head, word in found if word != "shown"}, set(NOT_BY_GCC))
    equal((status, len(found), [line for lines in warned for line in lines]), (1, 7, []))


def test_another_place_is_not_shown():
    text = "void f(void) {\n  int *none = NULL;\n  *none = 1;\n  *none = 2;\n}\n"
    status, out = run_of(text, [(4, 3, "null dereference", "f"), (3, 3, "use after free", "f")])
    equal((status, [word for head, word in verdicts(out)]), (1, ["not shown", "not shown"]))
    holds(out, "SEGV on unknown address 0x000000000000 in f at a.c:3")


def test_a_path_that_is_another_is_said():
    text = "void f(void) {\n  int *p = malloc(sizeof(int));\n  free(p);\n  free(p);\n}\n"
    status, out = run_of(text, [(4, 3, "double free", "f")])
    equal(status, 1)
    holds(out, "a.c:4:3: double free in f: not shown\n  malloc is called more often than on the path (witnesses/1-")
    status, out = run_of("void f(void) {\n}\n", [(1, 3, "double free", "f")])
    equal(status, 1)
    holds(out, "  the path has ended without an error (")


def test_an_earlier_turn_is_not_the_path():
    text = "void f(void) {\n  int *none = NULL;\n  while (getchar() != 10)\n    *none = 1;\n}\n"
    trace = [("input", 9), ("true", 19), ("iteration", 3), ("input", 9), ("true", 19), ("access", 5)]
    folder = report_of(text, [(4, 5, "null dereference", "f")])
    for name, listed, marks in (
        ("report", '"trace": []', [json.dumps({"file": "a.c", "line": 3, "column": at, "mark": mark}) for mark, at in trace]),
        ("listing", "trace -", [f"{mark}@a.c:3:{at}" for mark, at in trace]),
    ):
        with open(os.path.join(folder, name), encoding="ascii") as file:
            found = file.read().replace("vars -", "vars x0 input int, x1 input int").replace("model -", "model 1, 2")
        put = '"trace": [' + ", ".join(marks) + "]" if name == "report" else "trace " + " ".join(marks)
        with open(os.path.join(folder, name), "w", encoding="ascii") as file:
            file.write(found.replace(listed, put))
    status, out, err = answer(["--run", "--listing", "listing", "report", "a.c"], folder)
    shutil.rmtree(folder)
    equal((status, err), (1, ""))
    holds(out, "not shown\n  AddressSanitizer: SEGV on unknown address 0x000000000000 in f at a.c:4, behind 1 of the path's 2 answers (")


def test_a_division_by_zero_is_shown():
    text = "int f(void) {\n  int none = 0;\n  return 7 % none;\n}\n"
    status, out = run_of(text, [(3, 12, "division by zero", "f")])
    equal((status, [word for head, word in verdicts(out)]), (0, ["shown"]))


def test_an_endless_path_is_ended():
    running.SECONDS, before = 1, running.SECONDS
    try:
        status, out = run_of("void f(void) {\n  while (1) ;\n}\n", [(1, 3, "double free", "f")])
    finally:
        running.SECONDS = before
    equal(status, 1)
    holds(out, "not shown\n  it runs for more than 1 seconds")


def test_what_cant_be_compiled_is_said():
    status, out = run_of("void f(void) {\n  missing = 1;\n}\n", [(1, 3, "double free", "f")])
    equal(status, 1)
    holds(out, "double free in f: can't be compiled\n  a.c:2:3: error: ")


def written(folder):
    """The witness of the stack, with `TOP` for the folder of the checkout."""
    with with_compilers(()):
        found = answer(stored("stack", "--out", folder) + ["examples/stack.c"])
    file = os.path.join(folder, "1-double-free-in-main.c")
    equal(found, (0, f"examples/stack.c:29:3: double free in main\n  {file}\n", ""))
    with open(file, encoding="utf-8") as witness:
        return witness.read().replace(TOP + "/", "TOP/")


def renew():
    """Stores the reports and listings that pulsex and summaries give today, and the witness of the stack."""
    programs = [(name, TOP, [f"examples/{name}.c"]) for name in EXAMPLES]
    for name, folder, files in programs + [("cases", TESTS, ["--unroll=2", *CASES])]:
        for program, end in ((["pulsex", "check", "--json"], ".json"), (["summaries"], ".listing")):
            with open(data(name + end), "wb") as file:
                words = [os.path.join(TOP, program[0]), *program[1:], *files]
                subprocess.run(words, stdout=file, cwd=folder, check=False)
    with tempfile.TemporaryDirectory() as folder, open(data("stack.witness"), "w", encoding="utf-8") as file:
        file.write(written(folder))


WITHOUT_COMPILER = [
    test_tokens_have_the_places_of_a_report,
    test_items_are_cut_at_brackets,
    test_an_entry_is_that_of_the_bug,
    test_values_of_an_entry,
    test_copies_keep_the_order,
    test_copies_join_no_lines,
    test_copies_check_a_read,
    test_a_witness_is_the_stored_one,
    test_the_report_comes_from_a_file_or_the_input,
    test_what_is_wrong_is_said,
    test_an_entry_that_is_missing_keeps_no_other_back,
    test_a_report_has_to_be_one,
    test_an_unknown_kind_keeps_no_other_back,
    test_summaries_has_the_options_of_the_check,
]
WITH_COMPILER = [
    test_examples_are_shown,
    test_the_lines_of_a_shown_bug,
    test_another_place_is_not_shown,
    test_a_path_that_is_another_is_said,
    test_an_earlier_turn_is_not_the_path,
    test_a_division_by_zero_is_shown,
    test_an_endless_path_is_ended,
    test_what_cant_be_compiled_is_said,
]


def tests_to_run():
    """Those that can be tried here; a line says what can't."""
    blocks, values = running.compiler_of_blocks(), running.compiler_of_values()
    if not (blocks and values):
        print("not tried: no compiler with the address sanitizer (clang or gcc) is installed, so no witness is run")
        return WITHOUT_COMPILER
    found = WITHOUT_COMPILER + WITH_COMPILER
    if blocks.name == values.name == "clang":
        found.append(test_cases_are_shown)
    else:
        print("not tried: clang has no address and memory sanitizer here, so the cases are shown by gcc alone")
    if running.Compiler("gcc", "address").works():
        found.append(test_cases_are_shown_by_gcc)
    else:
        print("not tried: gcc has no address sanitizer here")
    return found


def main():
    passed = failed = 0
    for test in tests_to_run():
        try:
            test()
            passed += 1
        except Exception:  # (whatever it is, the others are run)
            failed += 1
            print(f"failed: {test.__name__}\n{traceback.format_exc()}")
    print(f"{passed} passed, {failed} failed")
    return 1 if failed else 0


if __name__ == "__main__":
    sys.exit(renew() if sys.argv[1:] == ["--renew"] else main())
