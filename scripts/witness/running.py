"""Compiles witnesses, runs them, and says what the sanitizers saw."""

import functools
import os
import re
import shutil
import subprocess
import tempfile

from .reports import KINDS
from .sources import RENAMED

COMPILERS = ("clang", "gcc", "cc")
SECONDS = 10

# The address sanitizer's words for each kind of error; of a null pointer also the address has to be near null. Of a division it
# says the same where the least int is divided by -1, so the place and the path have to be the bug's too.
SIGNS = {
    "null dereference": re.compile(r"SEGV on unknown address (0x0{9}[0-9a-f]{3}\b|\(nil\))"),
    "use after free": re.compile(r"heap-use-after-free\b"),
    "double free": re.compile(r"attempting double-free\b"),
    "uninitialised read": re.compile(r"use-of-uninitialized-value\b|what was never written is read"),
    "division by zero": re.compile(r"FPE on unknown address\b"),
}
SEEN = re.compile(r"^==[0-9]+== ?(?:ERROR|WARNING): ((?:Address|Memory)Sanitizer: .*)$", re.MULTILINE)
FRAME = re.compile(r"^ +#[0-9]+ 0x[0-9a-f]+ in (\S+) (.+?):([0-9]+)(?::([0-9]+))?(?: \(BuildId.*\))?$")
TAKEN = re.compile(r"^path: (?:malloc|getchar) gives ", re.MULTILINE)
OWN = re.compile(r"^witness: (.*)$", re.MULTILINE)
OWN_PLACE = re.compile(r"(.*):([0-9]+): (what was never written is read)$")
SYMBOLIZER = "llvm-symbolizer"


class Compiler:
    """A compiler with the flags that stop at one sort of error."""

    def __init__(self, name, sanitizer, flags=()):
        self.name = name
        self.flags = ["-std=gnu17", "-g", f"-fsanitize={sanitizer}", "-fwrapv", *flags]

    def command(self, file, program):
        return [self.name, *self.flags, file, "-o", program]

    def works(self):
        """Whether a small program can be compiled so, and runs."""
        with tempfile.TemporaryDirectory() as folder:
            file, program = os.path.join(folder, "probe.c"), os.path.join(folder, "probe")
            with open(file, "w", encoding="ascii") as probe:
                probe.write("int main(void) { return 0; }\n")
            try:
                subprocess.run(self.command(file, program), check=True, capture_output=True, timeout=60)
                subprocess.run([program], check=True, capture_output=True, timeout=SECONDS)
            except (OSError, subprocess.SubprocessError):
                return False
        return True


def compiler_of(kind):
    """The compiler that shows a kind of error, the first that works; None where there is none."""
    return compiler_of_values() if KINDS[kind].is_of_values else compiler_of_blocks()


@functools.lru_cache(maxsize=None)
def compiler_of_blocks():
    return first(Compiler(name, "address") for name in COMPILERS)


@functools.lru_cache(maxsize=None)
def compiler_of_values():
    """The memory sanitizer, or else one that fills what is made."""
    # (a flag of later versions: what a call gives is checked where it is used, and not where it returns)
    asked = [Compiler(name, "memory", ["-fno-sanitize-memory-param-retval"]) for name in COMPILERS]
    asked += [Compiler(name, "memory") for name in COMPILERS]
    return first(asked + [Compiler(name, "address", ["-ftrivial-auto-var-init=pattern"]) for name in COMPILERS])


def first(compilers):
    return next((compiler for compiler in compilers if compiler.works()), None)


class Verdict:
    """How a witness ended: `shown`, `not shown` or `can't be compiled`, and the line that says so."""

    def __init__(self, word, line):
        self.word = word
        self.line = line

    def is_shown(self):
        return self.word == "shown"


def compiles(compiler, file):
    """Whether a C file has no error."""
    command = [compiler.name, *compiler.flags, "-w", "-fsyntax-only", file]
    return subprocess.run(command, capture_output=True, check=False).returncode == 0


def run(compiler, file, bug, sources, has_columns):
    """Compiles a witness beside its C file, and runs it. In a copy with edits columns are others than in its source."""
    program = file[: -len(".c")]
    made = subprocess.run([*compiler.command(file, program), "-w"], capture_output=True, check=False)
    if made.returncode != 0:
        return Verdict("can't be compiled", first_error(text_of(made.stderr)))
    try:
        ended = subprocess.run(
            [os.path.abspath(program)],
            stdin=subprocess.DEVNULL,
            capture_output=True,
            timeout=SECONDS,
            check=False,
            env=environment(compiler),
        )
    except subprocess.TimeoutExpired:
        return Verdict("not shown", f"it runs for more than {SECONDS} seconds")
    return judged(text_of(ended.stderr), ended.returncode, bug, sources, has_columns)


def text_of(output):
    return output.decode("utf-8", "replace")


def first_error(text):
    """The first line of a compiler or linker that says what is wrong."""
    lines = text.strip().split("\n")
    return next((line for line in lines if re.search(r"\berror\b|undefined reference", line)), lines[0])


def environment(compiler):
    """Sanitizers that say no more than is read here, and find the names of places."""
    options = "detect_leaks=0:abort_on_error=0:color=never:symbolize=1"
    found = dict(os.environ, ASAN_OPTIONS=options, MSAN_OPTIONS=options)
    place = os.path.join(os.path.dirname(os.path.realpath(shutil.which(compiler.name) or "")), SYMBOLIZER)
    if not shutil.which(SYMBOLIZER) and os.access(place, os.X_OK):
        found.update(ASAN_SYMBOLIZER_PATH=place, MSAN_SYMBOLIZER_PATH=place)
    return found


def judged(text, status, bug, sources, has_columns):
    """What the error output of a witness says of its bug."""
    seen = SEEN.search(text)
    own = OWN.search(text)
    if seen:
        said, place = seen.group(1), place_in(text[seen.end() :], sources)
    elif own and OWN_PLACE.match(own.group(1)):
        file, line, said = OWN_PLACE.match(own.group(1)).groups()
        place = (source_named(file, sources), int(line), None, bug.procedure)
    else:
        return Verdict("not shown", own.group(1) if own else f"it ends with status {status}")
    line = told(said, place, has_columns)
    if SIGNS[bug.kind].search(said) is None or place[:2] != (bug.file, bug.line):
        return Verdict("not shown", line)
    taken = len(TAKEN.findall(text))
    if taken != bug.answers():
        return Verdict("not shown", f"{line}, behind {taken} of the path's {bug.answers()} answers")
    return Verdict("shown", line)


def told(said, place, has_columns):
    file, line, column, procedure = place
    short = re.sub(r" (\(pc|on address|on 0x).*", "", said)
    if file is None:
        return f"{short} at no place of the sources"
    return f"{short} in {unrenamed(procedure)} at {file}:{line}" + (f":{column}" if column and has_columns else "")


def unrenamed(procedure):
    """The name that a function has in the sources."""
    return procedure[len(RENAMED) :] if procedure.startswith(RENAMED) else procedure


def place_in(stack, sources):
    """The first place of a stack that is in a source: its name, line, column and function."""
    for line in stack.lstrip("\n").split("\n"):
        frame = FRAME.match(line)
        if line == "":
            break
        if frame and source_named(frame.group(2), sources):
            column = int(frame.group(4)) if frame.group(4) else None
            return source_named(frame.group(2), sources), int(frame.group(3)), column, frame.group(1)
    return None, None, None, None


def source_named(file, sources):
    path = os.path.realpath(file)
    return next((source.name for source in sources if source.path == path), None)
