"""Tests of `view --html` in a browser, where one is installed."""

import json
import os
import tempfile

import browser
from trying import DATA, HOSTILE, TOP, Untried, example, hostile, page_of, same, stored, test


class Shared:
    """One browser for all tests, and a folder for its pages; or why there is none."""

    browser = None
    folder = None
    missing = None


def start():
    program = browser.installed()
    if not program:
        Shared.missing = "no browser is installed (chromium)"
        return
    try:
        Shared.browser = browser.Browser(program)
        Shared.folder = tempfile.TemporaryDirectory()
    except (RuntimeError, OSError) as fault:
        Shared.missing = f"{program} doesn't start ({fault})"


def close():
    if Shared.browser:
        Shared.browser.close()
        Shared.folder.cleanup()


def opened(report, fragment="", root=TOP):
    """The page of a report, opened in a browser."""
    if not Shared.browser and not Shared.missing:
        start()
    if Shared.missing:
        raise Untried(Shared.missing)
    path = os.path.join(Shared.folder.name, "page.html")
    with open(path, "w", encoding="utf-8") as file:
        file.write(page_of(report, "--root", root))
    Shared.browser.open(path, fragment)
    return Shared.browser


NOW = "document.querySelector('.steps [aria-current] .number').textContent"
HASH = "location.hash"


@test
def keys_go_from_step_to_step():
    shown = opened(example("stack"))
    same(shown.value(NOW), "12")
    for key, number in [("j", "1"), ("j", "2"), ("k", "1"), ("k", "12"), ("k", "11"), ("e", "12")]:
        shown.press(key)
        same(shown.value(NOW), number)
        same(shown.value("document.querySelector('.chip.now').textContent"), number)
        same(shown.value(HASH), f"#bug-1-{number}")
    same(shown.value("document.querySelector('.line.now').id"), "source-1-29")
    # each step has its number in the source, and the twelve are joined by eleven curves
    same(shown.value("document.querySelectorAll('.chip').length"), 12)
    same(shown.value("document.querySelectorAll('#joins > path').length"), 11)
    same(shown.complaints(), [])


@test
def the_token_of_a_step_is_marked():
    shown = opened(example("stack"), "#bug-1-2")
    same(shown.value(NOW), "2")
    same(shown.value("document.querySelector('.line.now').id"), "source-1-10")
    # `malloc` begins behind 23 letters of its line, a keyword among them, and has six
    widths = shown.value(
        "(() => { const t = document.querySelector('.token.now').getBoundingClientRect(),"
        " c = document.querySelector('.line.now code'), r = document.createRange();"
        " r.setStart(c.firstChild, 0); r.setEnd(c.firstChild, 1); const one = r.getBoundingClientRect().width;"
        " return [Math.round((t.left - c.getBoundingClientRect().left) / one), Math.round(t.width / one)]; })()"
    )
    same(widths, [23, 6])


@test
def bugs_are_chosen_and_filtered():
    shown = opened(example("record_list"))
    title = "document.querySelector('.bug:not([hidden]) h2').textContent"
    same(shown.value(title), "null dereference in last_key")
    shown.press("n")
    same(shown.value(title), "use after free in last_key")
    shown.press("n")
    same(shown.value(title), "null dereference in last_key")
    shown.press("p")
    same(shown.value(title), "use after free in last_key")
    choose = "(() => {{ const s = document.getElementById('by-kind'); s.value = '{}'; s.dispatchEvent(new Event('change')); }})()"
    shown.value(choose.format("0"))
    same(shown.value(title), "null dereference in last_key")
    same(shown.value("document.getElementById('count').textContent"), "1 of 2 bugs")
    shown.press("n")
    same(shown.value(title), "null dereference in last_key")
    shown.value(choose.format(""))
    same(shown.value("document.querySelectorAll('#list li:not([hidden])').length"), 2)
    shown.press("u")
    same(shown.value("[document.getElementById('bugs').hidden, document.getElementById('unseen').hidden]"), [True, False])
    shown.press("u")
    same(shown.value("[document.getElementById('bugs').hidden, document.getElementById('unseen').hidden]"), [False, True])
    same(shown.complaints(), [])


@test
def no_page_is_wider_than_its_window():
    reports = [(example("journal"), TOP), (example("table"), TOP), (json.loads(stored("every.json")), DATA)]
    for report, root in reports:
        shown = opened(report, root=root)
        for width in (1500, 800, 380):
            shown.ask("Emulation.setDeviceMetricsOverride", width=width, height=900, deviceScaleFactor=1, mobile=False)
            same(shown.value("document.documentElement.scrollWidth <= innerWidth"), True)
        shown.ask("Emulation.clearDeviceMetricsOverride")
        same(shown.complaints(), [])


@test
def a_hostile_page_runs_nothing():
    with tempfile.TemporaryDirectory() as folder:
        shown = opened(hostile(folder), root=folder)
        shown.value("window.alert = () => { window.struck = true; }")
        same(shown.value("[document.scripts.length, document.images.length, window.struck === undefined]"), [1, 0, True])
        same(shown.value("document.querySelector('#list h2').textContent"), HOSTILE)
        same(shown.complaints(), [])


@test
def a_page_without_sources_works():
    shown = opened(example("tree"), root=DATA)
    shown.press("j")
    same(shown.value(NOW), "1")
    same(shown.complaints(), [])


@test
def light_and_dark():
    shown = opened(example("list"))
    grounds = []
    for scheme in ("light", "dark"):
        shown.ask("Emulation.setEmulatedMedia", features=[{"name": "prefers-color-scheme", "value": scheme}])
        grounds.append(shown.value("getComputedStyle(document.body).backgroundColor"))
    same(grounds, ["rgb(255, 255, 255)", "rgb(22, 25, 29)"])
