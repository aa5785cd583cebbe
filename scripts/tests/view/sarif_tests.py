"""Tests of `view --sarif`. Each log is held against the format's rules."""

import json
import os
import tempfile

import sarif_rules
from results import RESULTS
from trying import DATA, EXAMPLES, TOP, example, holds, one_bug, same, stored, test, view


def log_of(report, *words, cwd=TOP):
    """The SARIF of a report, which keeps the format's rules."""
    ran = view("--sarif", *words, report=report, cwd=cwd)
    same(ran.status, 0)
    log = json.loads(ran.out)
    same(sarif_rules.faults(log), [])
    return log["runs"][0]


@test
def sarif_of_list_is_the_one_by_hand():
    ran = view("--sarif", report=example("list"))
    same((ran.status, ran.err), (0, ""))
    same(json.dumps(json.loads(ran.out), indent=1), json.dumps(json.loads(stored("list.sarif")), indent=1))


def seen_result(result):
    """A result of SARIF as the tables above have it."""

    def region_of(location):
        region = location["physicalLocation"]["region"]
        return region["startLine"], region["startColumn"], region["endColumn"]

    steps = []
    for step in result["codeFlows"][0]["threadFlows"][0]["locations"]:
        where = step["location"]
        steps.append((*region_of(where), step["nestingLevel"], where["logicalLocations"][0]["name"], where["message"]["text"]))
    place = result["locations"][0]
    return result["ruleId"], result["ruleIndex"], place["logicalLocations"][0]["name"], region_of(place), steps


def sarif_of(name):
    run = log_of(example(name))
    same([seen_result(result) for result in run["results"]], RESULTS[name])
    if RESULTS[name]:
        same([one["location"]["uri"] for one in run["artifacts"]], [f"examples/{name}.c"])


for one in EXAMPLES:
    test(lambda name=one: sarif_of(name)).__name__ = f"SARIF of {one}"


@test
def what_was_not_looked_at_is_notified():
    said = log_of(example("journal"))["invocations"][0]["toolExecutionNotifications"]
    away = "isn't read: do without it, or move what needs it into a function of its own"
    same(
        [(one["descriptor"]["id"], one["level"], one["message"]["text"]) for one in said],
        [
            ("left-out", "note", f"left out (item): const (`const` {away})"),
            ("left-out", "note", f"left out weight: switch (`switch` {away})"),
            (
                "dropped-paths",
                "note",
                "dropped length: cycle through length, 1 (what can be done: nothing yet: a call that leads back to its caller isn't followed)",
            ),
            (
                "dropped-paths",
                "note",
                "dropped write: callee weight left out, 1 (what can be done: what the callee's own line, left out, asks for)",
            ),
            (
                "dropped-paths",
                "note",
                "dropped main: callee write dropped paths, 1 (what can be done: what the callee's own lines, dropped paths, ask for)",
            ),
        ],
    )
    same(said[1]["locations"][0]["physicalLocation"]["region"], {"startLine": 18, "startColumn": 3, "endLine": 18, "endColumn": 9})
    same(said[1]["locations"][0]["logicalLocations"], [{"name": "weight", "kind": "function"}])
    same(said[2]["locations"], [{"logicalLocations": [{"name": "length", "kind": "function"}]}])


@test
def sarif_of_every_kind_and_cause():
    run = log_of(json.loads(stored("every.json")), cwd=DATA)
    ids = [rule["id"] for rule in run["tool"]["driver"]["rules"]]
    same(ids, ["null-dereference", "use-after-free", "double-free", "uninitialised-read", "division-by-zero", "lost-block"])
    same([result["ruleIndex"] for result in run["results"]], [0, 1, 2, 3, 3, 4, 5])
    said = run["invocations"][0]["toolExecutionNotifications"]
    same([one["descriptor"]["id"] for one in said], ["left-out"] * 17 + ["dropped-paths"] * 16 + ["source"])
    same(said[-1]["message"]["text"], "every.c has no column 2 in line 11: it was changed since the report")
    # a local that is read leaves no mark, and its path is the error alone
    steps = seen_result(run["results"][4])[4]
    same(steps, [(12, 33, 34, 0, "help", "uninitialised read")])


@test
def fingerprints_stay_where_lines_move():
    def prints(text, line, column, twice=False):
        with tempfile.TemporaryDirectory() as folder:
            with open(os.path.join(folder, "a.c"), "w", encoding="utf-8") as file:
                file.write(text)
            report = one_bug(line=line, column=column)
            report["bugs"] *= 2 if twice else 1
            return [result["partialFingerprints"]["kindProcedureLine/v1"] for result in log_of(report, "--root", folder)["results"]]

    before = prints("  x = *p;\n", 1, 7)
    same(prints("\n\n\tx =   *p;\r\n", 3, 8), before)
    holds(prints("  y = *p;\n", 1, 7) != before, "another line has the same fingerprint")
    both = prints("  x = *p;\n", 1, 7, twice=True)
    same(both[0], before[0])
    holds(both[1] != both[0], "two errors of one line have one fingerprint")


@test
def addresses_are_relative_and_escaped():
    names = {
        "a b.c": "a%20b.c",
        "<script>.c": "%3Cscript%3E.c",
        "100%.c": "100%25.c",
        "a#b?c.c": "a%23b%3Fc.c",
        "http:x.c": "http%3Ax.c",
        "./a//b/../c.c": "a/c.c",
        "é.c": "%C3%A9.c",
        "{0}.c": "%7B0%7D.c",
    }
    with tempfile.TemporaryDirectory() as folder:
        wanted = [{"uri": uri, "uriBaseId": "%SRCROOT%"} for uri in names.values()]
        names = [*names, f"{folder}/in.c", "/out side.c", "../out.c"]
        wanted.append({"uri": "in.c", "uriBaseId": "%SRCROOT%"})
        wanted += [{"uri": "file:///out%20side.c"}, {"uri": f"file://{os.path.dirname(folder)}/out.c"}]
        report = {**one_bug(), "bugs": [bug for name in names for bug in one_bug(file=name)["bugs"]]}
        run = log_of(report, "--root", folder)
    same([artifact["location"] for artifact in run["artifacts"]], wanted)
    said = run["invocations"][0]["toolExecutionNotifications"]
    same([(one["descriptor"]["id"], one["level"]) for one in said], [("source", "warning")] * len(names))
    text = log_of(one_bug(file="[a](b){0}.c"))["invocations"][0]["toolExecutionNotifications"][0]["message"]["text"]
    same(text, "\\[a\\](b){{0}}.c can't be read: No such file or directory")


@test
def columns_are_utf16_units():
    with tempfile.TemporaryDirectory() as folder:
        with open(os.path.join(folder, "a.c"), "w", encoding="utf-8") as file:
            file.write("/* é😀 */ name;\n")
        region = log_of(one_bug(column=14), "--root", folder)["results"][0]["locations"][0]["physicalLocation"]["region"]
        # (é is two bytes and one unit, the face four bytes and two)
        same((region["startColumn"], region["endColumn"], region["snippet"]["text"]), (11, 15, "name"))


@test
def the_rules_refuse_what_is_wrong():
    """The rules of SARIF that these tests hold logs against find faults where there are some."""

    def spoil(change):
        log = json.loads(stored("list.sarif"))
        change(log, log["runs"][0], log["runs"][0]["results"][0])
        return sarif_rules.faults(log)

    changes = [
        lambda log, run, result: log.pop("version"),
        lambda log, run, result: log.update(version="2.0.0"),
        lambda log, run, result: run.pop("tool"),
        lambda log, run, result: run.update(result=[]),
        lambda log, run, result: run["tool"]["driver"].pop("name"),
        lambda log, run, result: run["invocations"][0].pop("executionSuccessful"),
        lambda log, run, result: run.update(columnKind="bytes"),
        lambda log, run, result: run.update(originalUriBaseIds={}),
        lambda log, run, result: run["artifacts"].clear(),
        lambda log, run, result: run["tool"]["driver"]["rules"][0].pop("help"),
        lambda log, run, result: result.pop("message"),
        lambda log, run, result: result.update(level="fatal"),
        lambda log, run, result: result.update(ruleIndex=1),
        lambda log, run, result: result.update(ruleIndex=9),
        lambda log, run, result: result.update(partialFingerprints={"a": 1}),
        lambda log, run, result: result["codeFlows"][0].update(threadFlows=[]),
        lambda log, run, result: result["locations"][0]["physicalLocation"]["region"].update(startLine=0),
        lambda log, run, result: result["locations"][0]["physicalLocation"]["region"].update(endColumn=8),
        lambda log, run, result: result["locations"][0]["physicalLocation"]["region"].pop("endColumn"),
        lambda log, run, result: result["locations"][0]["physicalLocation"]["contextRegion"].update(startLine=12),
        lambda log, run, result: result["locations"][0]["physicalLocation"]["artifactLocation"].update(uri="a b.c"),
        lambda log, run, result: result["locations"][0]["physicalLocation"]["artifactLocation"].update(uri="../list.c"),
        lambda log, run, result: result["codeFlows"][0]["threadFlows"][0]["locations"].reverse(),
        lambda log, run, result: run["results"].append(result),
    ]
    same(spoil(lambda log, run, result: None), [])
    for number, change in enumerate(changes):
        holds(spoil(change), f"change {number} is let through")
