"""`view`: its words, what it reads, and how it ends."""

import os
import signal
import sys

from .report import NotAReport, read_report
from .sources import Sources, visible_text

USAGE = "usage: view [--lines|--sarif|--html] [--root FOLDER] [REPORT]"

HELP = f"""{USAGE}

Shows a report of `pulsex check --json` with the sources that it names.

  REPORT         the file that holds the report; without it, or as -, standard input
  --lines        text: each bug with its source line, and its path step by step (this is the default)
  --sarif        SARIF 2.1.0, for code scanning services and editors
  --html         one page for a browser, with nothing from outside
  --root FOLDER  the folder that the report's file names start from (default: this one)
  --help         this text

What is shown goes to standard output. A source that is missing, was changed or isn't UTF-8 is named on standard error,
and the rest is shown. Colours come where standard output is a terminal and NO_COLOR isn't set.

status  when
0       the report was shown, with bugs or without
2       the words are none of the above
3       the report can't be read
4       the view can't be written
5       what was read is no report
"""

SHOWN, WRONG_WORDS, UNREAD, UNWRITTEN, NO_REPORT = 0, 2, 3, 4, 5


class Stop(Exception):
    """Ends the command with a status and a line on standard error."""

    def __init__(self, status, line):
        super().__init__(line)
        self.status = status


class Words:
    def __init__(self):
        self.view = None
        self.root = None
        self.report = None


def wrong(what):
    return Stop(WRONG_WORDS, what)


def once(before, word):
    if before is not None:
        raise wrong(f"{word} is one too many")


def read_words(arguments):
    words = Words()
    left = list(arguments)
    options = True
    while left:
        word = left.pop(0)
        if not options or word == "-" or not word.startswith("-"):
            once(words.report, word)
            words.report = word
        elif word == "--":
            options = False
        elif word in ("--lines", "--sarif", "--html"):
            once(words.view, word)
            words.view = word[2:]
        elif word == "--root" or word.startswith("--root="):
            once(words.root, word)
            if word == "--root" and not left:
                raise wrong("--root has no FOLDER behind it")
            words.root = left.pop(0) if word == "--root" else word[len("--root=") :]
        else:
            raise wrong(f"{word} is no option")
    return words


def report_bytes(name):
    if name is None and sys.stdin is not None and sys.stdin.isatty():
        raise wrong("no REPORT is named, and standard input is a terminal")
    try:
        if name is None or name == "-":
            # (a standard input that is closed is none)
            return sys.stdin.buffer.read() if sys.stdin is not None else b""
        with open(name, "rb") as file:
            return file.read()
    except (OSError, ValueError) as fault:
        raise Stop(UNREAD, f"cannot read {name or 'standard input'}: {getattr(fault, 'strerror', None) or fault}") from None


def wants_colour():
    return sys.stdout.isatty() and not os.environ.get("NO_COLOR") and os.environ.get("TERM") != "dumb"


def rendered(view, report, sources):
    """The view as pieces of text. (Only the view that is wanted is loaded.)"""
    if view == "sarif":
        from . import sarif

        return sarif.render(report, sources)
    if view == "html":
        from . import page

        sys.stdout.reconfigure(encoding="utf-8")
        return page.render(report, sources)
    from . import lines

    return (line + "\n" for line in lines.render(report, sources, wants_colour()))


def show(arguments):
    if "--help" in arguments:
        sys.stdout.write(HELP)
        return
    words = read_words(arguments)
    root = words.root if words.root is not None else "."
    if not os.path.isdir(root):
        raise wrong(f"{root} is no folder")
    name = words.report if words.report not in (None, "-") else "standard input"
    try:
        report = read_report(report_bytes(words.report))
    except NotAReport as fault:
        raise Stop(NO_REPORT, f"{name} is no report of `pulsex check --json`: {fault}") from None
    sources = Sources(root)
    for piece in rendered(words.view or "lines", report, sources):
        sys.stdout.write(piece)
    sys.stdout.flush()
    for (source, _), fault in sources.notices.items():
        say(f"{source} {fault}")


def say(line):
    if sys.stderr is not None:
        sys.stderr.write(f"view: {visible_text(line)}\n")


def cannot_write(fault):
    say(f"cannot write: {fault}")
    # (Python's own end would try to write once more, and fail aloud)
    os._exit(UNWRITTEN)


def main(arguments):
    # (whoever reads only the first lines, as `head` does, is done with the rest)
    signal.signal(signal.SIGPIPE, signal.SIG_DFL)
    if sys.stdout is None:
        cannot_write("standard output is closed")
    for stream in (sys.stdout, sys.stderr):
        if stream is not None:
            stream.reconfigure(errors="backslashreplace")
    try:
        show(arguments)
    except Stop as stop:
        say(str(stop))
        if stop.status == WRONG_WORDS and sys.stderr is not None:
            sys.stderr.write(USAGE + "\n")
        return stop.status
    except OSError as fault:
        cannot_write(fault.strerror)
    except KeyboardInterrupt:
        return 130
    return SHOWN
