"""The command `witness`: its words, and what it does with them."""

import argparse
import os
import shlex
import subprocess
import sys

from . import running, writing
from .reports import KINDS, WitnessError, entry_of, read_listing, read_report
from .sources import Program

USAGE = """witness [--run] [--out FOLDER] [--listing FILE]
               [--unroll K] [--paths N] [--nodes N] [REPORT] FILE.."""
ABOUT = """For each bug of a report, writes a C file that takes its path. REPORT is what 'pulsex check --json FILE..' gave, as a
file or '-'; without it the report is read from standard input. FILE.. are the files of that report, in its order, and
--unroll, --paths and --nodes its options. Status: 0, each bug has its C file, and with --run is shown; 1, some bug isn't
shown; 2, the words are wrong; 3, something can't be read, found or written, and standard error says what."""

BOUNDS = ("unroll", "paths", "nodes")


def words_of(arguments):
    parser = argparse.ArgumentParser(prog="witness", usage=USAGE, description=ABOUT, allow_abbrev=False)
    parser.add_argument("--run", action="store_true", help="compile each C file with a sanitizer, run it, say what it shows")
    parser.add_argument("--out", metavar="FOLDER", default="witnesses", help="where they are written (witnesses)")
    parser.add_argument("--listing", metavar="FILE", help="what 'summaries' gave of the files, which is run otherwise")
    for bound in BOUNDS:
        parser.add_argument(f"--{bound}", metavar="N", help="as the check had it")
    parser.add_argument("files", nargs="+", metavar="FILE", help=argparse.SUPPRESS)
    return parser.parse_intermixed_args(arguments)


def main(top, arguments):
    """Does what the words say, and answers the status. `top` is the folder of the checkout."""
    words = words_of(arguments)
    try:
        report, files = report_of(words.files)
        program = Program(files, report)
        entries = read_listing(listing_of(top, words, files)) if report.bugs else []
        os.makedirs(words.out, exist_ok=True)
        return witnesses(words, report, program, entries)
    except WitnessError as fault:
        say(str(fault))
    except OSError as fault:
        say(f"{fault.filename or 'output'}: {fault.strerror}")
    return 3


def say(line):
    print(f"witness: {line}", file=sys.stderr)


def report_of(files):
    """The report, and the files behind it. No C file that pulsex reads begins with a brace, and each report does."""
    name, text = files[0], b""
    if name != "-":
        try:
            with open(name, "rb") as file:
                text = file.read()
        except OSError as fault:
            raise WitnessError(f"cannot read {name}: {fault.strerror}") from None
    is_report = text.startswith(b"{")
    if not is_report:
        text = sys.stdin.buffer.read()
    if is_report or name == "-":
        files = files[1:]
    if not files:
        raise WitnessError("a report needs its files behind it")
    return read_report(text, name if is_report else "standard input"), files


def listing_of(top, words, files):
    if words.listing:
        with open(words.listing, encoding="utf-8", errors="replace") as file:
            return file.read()
    bounds = [f"--{bound}={getattr(words, bound)}" for bound in BOUNDS if getattr(words, bound) is not None]
    command = [os.path.join(top, "summaries"), *bounds, "--", *files]
    ended = subprocess.run(command, stdout=subprocess.PIPE, check=False)
    if ended.returncode != 0:
        raise WitnessError(f"'{shlex.join(command)}' ended with status {ended.returncode}")
    return ended.stdout.decode("utf-8", "replace")


def witnesses(words, report, program, entries):
    """Writes the C file of each bug, runs it where that is asked for, and says so. Answers the status."""
    status = 0
    for number, bug in enumerate(report.bugs, 1):
        try:
            witness = Witness(words.out, number, bug, program, entry_of(bug, entries))
            if words.run and not witness.compiler:
                raise WitnessError(f"{bug.headline()}: no compiler with the address sanitizer (clang or gcc) is installed")
            witness.write()
        except WitnessError as fault:
            say(str(fault))
            status = 3
            continue
        if not words.run:
            print(f"{bug.headline()}\n  {witness.file}", flush=True)
            continue
        verdict = witness.run()
        print(f"{bug.headline()}: {verdict.word}\n  {verdict.line} ({witness.file})", flush=True)
        status = status or int(not verdict.is_shown())
    return status


class Witness:
    """The C file of a bug."""

    def __init__(self, folder, number, bug, program, entry):
        self.base = f"{number}-{bug.kind.replace(' ', '-')}-in-{bug.procedure}"
        self.file = os.path.join(folder, self.base + ".c")
        self.bug, self.program, self.entry = bug, program, entry
        self.compiler = running.compiler_of(bug.kind)
        self.copied = False

    def write(self):
        """Has the C file include the sources, where pulsex reads them as a compiler does; else it has copies."""
        self.copied = writing.order_counts(self.program, self.bug) or "duplicate" in self.program.left_out.values()
        self.put()
        if not self.copied and self.compiler and not running.compiles(self.compiler, self.file):
            self.copied = True
            self.put()

    def put(self):
        compiler = self.compiler or running.Compiler("clang", "address")
        command = shlex.join(compiler.command(self.base + ".c", self.base)) + f" && ./{self.base}"
        text = writing.witness_text(self.program, self.bug, self.entry, self.base + ".c", command, self.copied)
        with open(self.file, "wb") as file:
            file.write(text.encode("latin-1"))

    def run(self):
        verdict = self.verdict()
        if not verdict.is_shown() and not self.copied:
            # (a preprocessor may have dropped what pulsex read)
            self.copied = True
            self.put()
            verdict = self.verdict()
        return verdict

    def verdict(self):
        has_columns = not (self.copied or KINDS[self.bug.kind].is_of_values)
        return running.run(self.compiler, self.file, self.bug, self.program.sources, has_columns)
