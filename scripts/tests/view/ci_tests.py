"""Tests of examples/ci: its make rule and the commands of its workflow, with a program in the place of pulsex that
prints a stored report."""

import json
import os
import shutil
import subprocess
import tempfile

import sarif_rules
from trying import TOP, VIEW, Untried, example, holds, same, stored, test

CI = os.path.join(TOP, "examples", "ci")


def read(folder, name):
    with open(os.path.join(folder, name), encoding="utf-8") as file:
        return file.read()


def project(folder, name, status):
    """A project with the source of an example, and a checkout whose pulsex prints its report and ends with the status."""
    checkout = os.path.join(folder, "checkout")
    os.makedirs(os.path.join(folder, "examples"))
    os.mkdir(checkout)
    os.symlink(VIEW, os.path.join(checkout, "view"))
    shutil.copy(os.path.join(TOP, "examples", f"{name}.c"), os.path.join(folder, "examples"))
    with open(os.path.join(folder, "answer"), "w", encoding="utf-8") as file:
        json.dump(example(name), file)
    with open(os.path.join(checkout, "pulsex"), "w", encoding="utf-8") as file:
        file.write(f'#!/bin/sh\n[ "$*" = "check --json examples/{name}.c" ] || exit 9\n')
        file.write(f"[ {status} -gt 1 ] || cat answer\nexit {status}\n")
    os.chmod(os.path.join(checkout, "pulsex"), 0o755)
    return checkout


def run(words, folder, **environment):
    ran = subprocess.run(words, cwd=folder, env={**os.environ, **environment}, stdout=subprocess.PIPE, stderr=subprocess.DEVNULL)
    return ran.returncode, ran.stdout.decode("utf-8")


def make(name, status):
    """What make's rule ends with and leaves."""
    if not shutil.which("make"):
        raise Untried("make isn't installed")
    with tempfile.TemporaryDirectory() as folder:
        checkout = project(folder, name, status)
        rule = os.path.join(CI, "pulsex.mk")
        ended, out = run(["make", "-f", rule, "pulsex", f"PULSEX={checkout}", f"PULSEX_SOURCES=examples/{name}.c"], folder)
        return ended, out, kept(folder)


def workflow(name, status):
    """The same of the commands in the workflow's step, as the service runs them."""
    text = read(CI, "pulsex.yml")
    block = text[text.index("run: |\n") + len("run: |\n") : text.index("      - name: Hand over")]
    with tempfile.TemporaryDirectory() as folder:
        checkout = project(folder, name, status)
        ended, out = run(["bash", "-e", "-c", block], folder, PULSEX=checkout, SOURCES=f"examples/{name}.c")
        return ended, out, kept(folder)


def kept(folder):
    report = os.path.join(folder, "pulsex-report")
    return {name: read(report, name) for name in os.listdir(report)}


def keeps_its_report(way, failure):
    ended, out, files = way("list", 1)
    same(ended, failure)
    holds(stored("list.lines") in out, "the lines are missing")
    same(sorted(files), ["report.html", "report.json", "report.sarif"])
    same(sarif_rules.faults(json.loads(files["report.sarif"])), [])
    holds("null dereference" in files["report.html"], "the page is missing")
    ended, _, files = way("counter", 0)
    same((ended, sorted(files)), (0, ["report.html", "report.json", "report.sarif"]))
    ended, _, files = way("list", 5)
    holds(ended not in (0, 1), "that there is no report is hidden")
    same(files, {"report.json": ""})


@test
def the_make_rule_fails_on_bugs_and_keeps_the_report():
    keeps_its_report(make, 2)


@test
def the_workflow_fails_on_bugs_and_keeps_the_report():
    keeps_its_report(workflow, 1)
