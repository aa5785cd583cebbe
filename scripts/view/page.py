"""The view for a browser: one page, with nothing from outside. It reads without its script too: then all bugs, sources
and lists stand one below another."""

import base64
import hashlib
import html
import os
import re

from .paths import steps_of
from .sources import visible
from .summary import counted, drop_groups, dropped_share, left_out_groups, left_out_share
from .words import EVERY_CALL, kind_of

# A source with more lines is shown only around the places of its paths, with this many lines on each side.
MOST_LINES = 3000
AROUND = 40

KEYWORDS = """auto break case char const continue default do double else enum extern float for goto if inline int long
register restrict return short signed sizeof static struct switch typedef union unsigned void volatile while NULL"""

PIECE = re.compile(
    r"(?P<comment>/\*.*?(?:\*/|$)|//.*)"
    r"|(?P<text>\"(?:\\.|[^\"\\])*\"?|'(?:\\.|[^'\\])*'?)"
    r"|(?P<directive>^\s*#\s*\w*)"
    rf"|(?P<keyword>\b(?:{'|'.join(KEYWORDS.split())})\b)"
    r"|\w+"
)


def escape(text):
    return html.escape(seen(text))


def seen(text):
    """The text with what can't be seen by its numbers. Tabs stay, as the page has their width."""
    return "".join(character if character == "\t" else visible(character) for character in text)


def units(text):
    """How many UTF-16 code units the text has on the page: the script counts so."""
    return len(seen(text).encode("utf-16-le")) // 2


def marked(kind, text):
    return f'<span class="{kind}">{html.escape(text)}</span>' if text else ""


def is_open_comment(piece):
    text = piece.group()
    return text.startswith("/*") and not (text.endswith("*/") and len(text) >= 4)


def coloured(line, in_comment):
    """A line as HTML, with its comments, texts and keywords marked; and whether a comment goes on behind it."""
    out = []
    position = 0
    if in_comment:
        end = line.find("*/")
        if end < 0:
            return marked("comment", line), True
        position = end + 2
        out.append(marked("comment", line[:position]))
    while position < len(line):
        piece = PIECE.search(line, position)
        if not piece:
            break
        out.append(html.escape(line[position : piece.start()]))
        out.append(marked(piece.lastgroup, piece.group()) if piece.lastgroup else html.escape(piece.group()))
        position = piece.end()
        if is_open_comment(piece):
            return "".join(out), True
    return "".join(out) + html.escape(line[position:]), False


class Page:
    def __init__(self, report, sources):
        self.report = report
        self.sources = sources
        self.paths = [steps_of(bug) for bug in report.bugs]
        self.files = list(dict.fromkeys(step.place.file for steps in self.paths for step in steps))

    def lines_shown(self, name):
        """The numbers of the lines that are shown of a source."""
        count = len(self.sources.source(name).lines)
        if count <= MOST_LINES:
            return set(range(1, count + 1))
        places = {step.place.line for steps in self.paths for step in steps if step.place.file == name}
        return {n for line in places for n in range(max(line - AROUND, 1), min(line + AROUND, count) + 1)}

    def line_id(self, place):
        return f"source-{self.files.index(place.file) + 1}-{place.line}"


def step_item(page, bug_number, number, step, last):
    spot, fault = page.sources.find(step.place)
    where = f'data-line="{page.line_id(step.place)}"'
    if spot:
        where += f' data-start="{units(spot.text[: spot.start])}" data-end="{units(spot.text[: spot.end])}"'
    # (that the whole source can't be read stands in its place)
    changed = fault and not page.sources.source(step.place.file).fault
    missing = f' <span class="fault">{escape(fault)}</span>' if changed else ""
    kind = "error" if last else "step"
    return (
        f'<li class="{kind}" id="bug-{bug_number}-{number}" data-depth="{min(step.depth, 12)}" {where}>'
        f'<a href="#{page.line_id(step.place)}"><span class="number">{number}</span> '
        f'<span class="said">{escape(step.text)}</span> '
        f'<span class="place">{escape(step.function)}, {escape(os.path.basename(step.place.file))}:{step.place.line}</span>'
        f"</a>{missing}</li>"
    )


def bug_article(page, number, bug, steps):
    words = kind_of(bug.kind)
    items = [step_item(page, number, n, step, n == len(steps)) for n, step in enumerate(steps, 1)]
    return "\n".join(
        [
            f'<article class="bug" id="bug-{number}">',
            f"<h2>{escape(bug.kind)} <small>in {escape(bug.procedure)}</small></h2>",
            f'<p class="place">{escape(bug.place.file)}:{bug.place.line}:{bug.place.column}</p>',
            f"<p>{escape(words.full)} {EVERY_CALL}</p>",
            f'<p class="help">{escape(words.help)}</p>' if words.help else "",
            '<ol class="steps">',
            *items,
            "</ol></article>",
        ]
    )


def bug_entry(number, bug, steps, kinds, files):
    return (
        f'<li data-kind="{kinds.index(bug.kind)}" data-file="{files.index(bug.place.file)}">'
        f'<a href="#bug-{number}"><span class="dot kind-{kinds.index(bug.kind) % 6}"></span>'
        f'<span class="kind">{escape(bug.kind)}</span> '
        f'<span class="place">in {escape(bug.procedure)}, line {bug.place.line}, {counted(len(steps), "step")}</span></a></li>'
    )


def options(name, label, every, texts):
    entries = "".join(f'<option value="{number}">{escape(text)}</option>' for number, text in enumerate(texts))
    return f'<label>{label} <select id="{name}"><option value="">{every}</option>{entries}</select></label>'


def bug_list(page):
    bugs = page.report.bugs
    kinds = list(dict.fromkeys(bug.kind for bug in bugs))
    files = list(dict.fromkeys(bug.place.file for bug in bugs))
    yield '<nav id="list" aria-label="Bugs">'
    yield '<div class="filters" hidden>'
    yield options("by-kind", "Kind", "all kinds", kinds) + options("by-file", "File", "all files", files)
    yield '<p id="count" aria-live="polite"></p></div>'
    for file in files:
        yield f'<section><h2 title="{escape(file)}">{escape(file)}</h2><ul>'
        for number, bug in enumerate(bugs, 1):
            if bug.place.file == file:
                yield bug_entry(number, bug, page.paths[number - 1], kinds, files)
        yield "</ul></section>"
    yield "</nav>"


def source_section(page, number, name):
    source = page.sources.source(name)
    yield f'<section class="source" id="source-{number}"><h3>{escape(name)}</h3>'
    for (file, _), fault in page.sources.notices.items():
        if file == name:
            yield f'<p class="fault">{escape(name)} {escape(fault)}</p>'
    if not source.lines:
        yield "</section>"
        return
    yield '<div class="code">'
    shown = page.lines_shown(name)
    in_comment = False
    for n, raw in enumerate(source.lines, 1):
        text, in_comment = coloured(seen(raw.decode("utf-8", "surrogateescape")), in_comment)
        if n in shown:
            yield f'<div class="line" id="source-{number}-{n}"><span class="gutter">{n}</span><code>{text}</code></div>'
        elif n - 1 in shown or n == 1:
            yield '<div class="gap">lines that no path comes near</div>'
    yield "</div></section>"


def share_line(share, what):
    return (
        f'<p class="share"><progress value="{share.part}" max="{max(share.whole, 1)}"></progress> '
        f"{share.part} of {counted(share.whole, 'function')} ({share.percent()}) {what}</p>"
    )


def table(caption, heads, rows):
    yield f'<div class="table"><table><caption>{caption}</caption><thead><tr>'
    yield "".join(f'<th scope="col">{head}</th>' for head in heads)
    yield "</tr></thead><tbody>"
    for row in rows:
        yield "<tr>" + "".join(f"<td>{escape(cell)}</td>" for cell in row) + "</tr>"
    yield "</tbody></table></div>"


def unseen(page):
    """What wasn't looked at."""
    report = page.report
    yield '<section id="unseen"><h2>Not looked at</h2>'
    yield (
        "<p>Where nothing is reported, nothing is promised: errors that need a certain argument or heap aren't in this "
        "report, and neither are those of what is listed here.</p>"
    )
    yield share_line(left_out_share(report), "left out")
    for group in left_out_groups(report):
        rows = [(item.name, f"{item.place.file}:{item.place.line}:{item.place.column}") for item in group.lines]
        caption = f"<b>{escape(group.name)}</b> {counted(len(rows), 'item')}<span>{escape(group.advice)}</span>"
        yield from table(caption, ("Name", "Place"), rows)
    yield share_line(dropped_share(report), "have paths that weren't followed to their end")
    for group in drop_groups(report):
        rows = [(drop.procedure, drop.cause, str(drop.count)) for drop in group.lines]
        caption = f"<b>{escape(group.name)}</b> {counted(len(rows), 'line')}<span>{escape(group.advice)}</span>"
        yield from table(caption, ("Function", "Cause", "Paths"), rows)
    yield "</section>"


def beside(name):
    with open(os.path.join(os.path.dirname(__file__), name), encoding="utf-8") as file:
        return file.read()


def digest(text):
    """How a page names a script or a style that it lets in: none but its own."""
    return "'sha256-" + base64.b64encode(hashlib.sha256(text.encode("utf-8")).digest()).decode("ascii") + "'"


def head(report, style, script):
    policy = f"default-src 'none'; style-src {digest(style)}; script-src {digest(script)}; base-uri 'none'; form-action 'none'"
    yield '<!DOCTYPE html>\n<html lang="en">\n<head>\n<meta charset="utf-8">'
    yield f'<meta http-equiv="Content-Security-Policy" content="{policy}">'
    yield '<meta name="viewport" content="width=device-width, initial-scale=1">'
    yield '<meta name="color-scheme" content="light dark">'
    yield f"<title>pulsex: {counted(len(report.bugs), 'bug')}</title>"
    yield f"<style>{style}</style>\n</head>"


def header(report):
    left, dropped = left_out_share(report), dropped_share(report)
    yield "<header><h1>pulsex</h1>"
    yield f'<a class="tab" id="to-bugs" href="#bugs"><b>{len(report.bugs)}</b> {"bug" if len(report.bugs) == 1 else "bugs"}</a>'
    yield (
        f'<a class="tab" id="to-unseen" href="#unseen">Not looked at: <b>{left.part}</b> of '
        f'{counted(left.whole, "function")} left out, <b>{dropped.part}</b> with dropped paths</a>'
    )
    yield f"<p>{counted(report.procedures, 'function')} analysed</p></header>"


KEYS = [("j", "next step"), ("k", "step before"), ("e", "the error"), ("n", "next bug"), ("p", "bug before"), ("u", "not looked at")]


def keys():
    return '<p id="keys" hidden>' + " ".join(f"<span><kbd>{key}</kbd> {what}</span>" for key, what in KEYS) + "</p>"


def bugs_view(page):
    if not page.report.bugs:
        yield f'<p class="none">No bug was found in {counted(page.report.procedures, "function")}.</p>'
        return
    yield from bug_list(page)
    # (a source that can't be read is known by now, since each step was looked for)
    articles = [bug_article(page, n, bug, page.paths[n - 1]) for n, bug in enumerate(page.report.bugs, 1)]
    yield '<div id="sources">'
    for number, name in enumerate(page.files, 1):
        yield from source_section(page, number, name)
    yield f'</div><div id="paths">{keys()}'
    yield from articles
    yield "</div>"


def body(page):
    yield "<body>"
    yield from header(page.report)
    yield '<main id="bugs">'
    yield from bugs_view(page)
    yield "</main>"
    yield from unseen(page)


def render(report, sources):
    style, script = beside("page.css"), beside("page.js")
    yield from head(report, style, script)
    yield from (piece + "\n" for piece in body(Page(report, sources)))
    yield f"<script>{script}</script>\n</body>\n</html>\n"
