"""Tests of `view --html`: what the page has."""

import os
import tempfile
from html.parser import HTMLParser

from results import RESULTS
from trying import EXAMPLES, HOSTILE, TOP, example, holds, hostile, one_bug, page_of, same, test, view


class Outline(HTMLParser):
    """The elements of a page with their attributes, and its texts."""

    def __init__(self, text):
        super().__init__()
        self.elements = []
        self.texts = []
        self.feed(text)
        self.close()

    def handle_starttag(self, tag, attributes):
        self.elements.append((tag, dict(attributes)))

    def handle_data(self, data):
        self.texts.append(data)

    def of(self, tag, **wanted):
        return [have for name, have in self.elements if name == tag and all(have.get(k) == v for k, v in wanted.items())]


def page_has_its_bugs(name):
    report = example(name)
    page = Outline(page_of(report))
    same(len(page.of("article", **{"class": "bug"})), len(report["bugs"]))
    for number, (_, _, _, _, steps) in enumerate(RESULTS[name], 1):
        items = [have for tag, have in page.elements if tag == "li" and have.get("id", "").startswith(f"bug-{number}-")]
        wanted = [(f"source-1-{line}", str(start - 1), str(end - 1), str(depth)) for line, start, end, depth, _, _ in steps]
        same([(one["data-line"], one["data-start"], one["data-end"], one["data-depth"]) for one in items], wanted)
        for _, _, _, _, _, text in steps:
            holds(text in page.texts, f"{text} is missing")
    with open(os.path.join(TOP, "examples", f"{name}.c"), encoding="utf-8") as file:
        count = len(file.read().splitlines())
    same(len(page.of("div", **{"class": "line"})), count if report["bugs"] else 0)


for one in EXAMPLES:
    test(lambda name=one: page_has_its_bugs(name)).__name__ = f"page of {one}"


@test
def a_page_has_nothing_from_outside():
    for tag, have in Outline(page_of(example("stack"))).elements:
        holds(tag not in ("link", "img", "iframe", "object", "embed", "base"), f"there is a {tag}")
        holds("src" not in have and "style" not in have, f"{tag} has src or style")
        holds(have.get("href", "#").startswith("#"), f"{tag} leads to {have.get('href')}")
        holds(not any(name.startswith("on") for name in have), f"{tag} has a script")


@test
def names_and_sources_are_escaped():
    with tempfile.TemporaryDirectory() as folder:
        page = Outline(page_of(hostile(folder), "--root", folder))
    same(len(page.of("script")), 1)
    for tag in ("img", "i", "u", "s", "em", "h6"):
        same(page.of(tag), [])
    same([have for have in page.of("a") if have.get("href") == "x"], [])
    holds(HOSTILE in page.texts, "the file's name is missing")
    for text in ("<i>kind</i>", "call of <u>g</u>", "<a href=x>", "unknown callee <em>"):
        holds(text in page.texts, f"{text} is missing")


@test
def a_page_says_what_was_not_looked_at():
    page = Outline(page_of(example("journal")))
    bars = [(have["value"], have["max"]) for have in page.of("progress")]
    same(bars, [("1", "4"), ("3", "3")])
    for text in ("No bug was found in 3 functions.", "weight", "examples/journal.c:18:3", "cycle through length"):
        holds(text in page.texts, f"{text} is missing")


@test
def a_page_says_what_is_missing_or_changed():
    ran = view("--html", report=one_bug(file="gone.c"))
    holds("gone.c can't be read: No such file or directory" in "".join(Outline(ran.out).texts), "gone.c isn't named")
    ran = view("--html", report=one_bug(file="examples/list.c", line=99))
    holds("has no line 99: it was changed since the report" in "".join(Outline(ran.out).texts), "line 99 isn't named")
    same(ran.err, "view: examples/list.c has no line 99: it was changed since the report\n")


@test
def a_long_source_is_shown_around_its_path():
    with tempfile.TemporaryDirectory() as folder:
        with open(os.path.join(folder, "a.c"), "w", encoding="utf-8") as file:
            file.write("int x;\n" * 5000)
        page = Outline(page_of(one_bug(line=2000), "--root", folder))
    same(len(page.of("div", **{"class": "line"})), 81)
    same(len(page.of("div", **{"class": "gap"})), 2)
