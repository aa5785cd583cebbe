#!/usr/bin/env python3
"""The tests of the edge to the system: the built program on real files, pipes and children.

What stands between the program and the system tells no bytes to any contract, so these runs alone say that a file is
read whole, a report written whole, and a child sent and heard whole, and ended. Reports are worked by hand.

  scripts/tests/edge.py             tries the proved program, where there is one of today's sources; else a checked one
  scripts/tests/edge.py PROGRAM     tries this one, as one that was made of changed sources
"""

import contextlib
import os
import subprocess
import sys
import tempfile
import threading
import time

sys.dont_write_bytecode = True
sys.path.insert(0, os.path.dirname(os.path.dirname(os.path.realpath(__file__))))

from programs import built, ended, equal, holds, room_to_run, script, shown, try_all  # noqa: E402

# The most bytes of a file, and the most files.
MOST = 1_048_576
FILES = 64
# Longer than any of these runs takes, on a machine that is busy: one that waits for ever fails.
SECONDS = 120
# A function with a bug, in one line.
BUG = b"void %s(void){int *p=malloc(sizeof(int)); *p=1; free(p);}"
USAGE = b"usage: pulsex check "
# The request for an empty function by a worker with the domains 1, 2 and 3, and its reply (docs/WIRE.md).
REQUEST = bytes.fromhex(
    "00000036 00 01 00000000 00000000 00000000 00 00000000 00000000 00000000 00000003 00000040 00002710"
    "00000003 010203 0000000000000005"
)
REPLY = bytes.fromhex(
    "00000044 01 01 0000000000000005 00000003 010203"
    "00000001 00000000 00000000 00 00 00000000 00000000 00000000 00000000 00000000 00000000"
    "00000001 00000001 14 00000000"
)
# The same in version 2. They have no terms.
SECOND_REQUEST = bytes.fromhex("0000003a 00 02 00000000") + REQUEST[6:]
SECOND_REPLY = bytes.fromhex("00000048 01 02 00000000") + REPLY[6:]


def report(name, line, function="f"):
    """Returns what is said of the bug of such a function in that line of a file."""
    place = f"{name}:{line}"
    allocation, access = len(function) + 20, len(function) + 41
    return (
        f"{place}:{access}: null dereference in {function}\n"
        f"  {place}:{allocation}: allocation failed\n  {place}:{access}: access\n"
    ).encode()


def counts(procedures, bugs):
    return f"procedures {procedures}, left out 0, bugs {bugs}\n".encode()


class Trial:
    """The program, and a folder for files, in which it runs."""

    def __init__(self, folder, program):
        if program:
            room_to_run()
        self.program = os.path.realpath(program) if program else built()[1]
        self.folder = folder

    def run(self, *words, **more):
        return ended([self.program, *words], seconds=SECONDS, cwd=self.folder, **more)

    def path(self, name):
        return f"{self.folder}/{name}"

    def file(self, name, text):
        with open(self.path(name), "wb") as file:
            file.write(text)
        return name

    def script(self, name, text):
        return script(self.path(name), text)

    def with_worker(self, path, name, **more):
        """Returns the answer of a check by one worker that runs this program, with --stats."""
        return self.run("check", "--workers", "1", "--exec", path, "--stats", name, **more)


def stats(by_workers, by_parent, lost):
    return f"workers published {by_workers}, parent published {by_parent}, lost {lost}\n".encode()


# Files


def what_isnt_there_or_cant_be_read_is_status_3(trial):
    trial.file("a.c", BUG % b"f")
    os.mkdir(trial.path("folder"))
    for name in ("none.c", "folder", "none/a.c", "a.c/b.c", ""):
        equal(trial.run("check", "a.c", name), (3, b"", f"cannot read {name}\n".encode()))
        equal(trial.run("check", name, "a.c"), (3, b"", f"cannot read {name}\n".encode()))


def files_are_read_whole(trial):
    """Each has its bug at its end, behind lines that are empty."""
    bug = BUG % b"f"
    for size in (len(bug), 4095, 4096, 4097, 70_000, MOST):
        empty = size - len(bug)
        trial.file("a.c", b"\n" * empty + bug)
        equal(trial.run("check", "a.c"), (1, report("a.c", empty + 1) + counts(1, 1), b""))
    equal(trial.run("check", trial.file("a.c", b"")), (0, counts(0, 0), b""))


def one_byte_more_is_too_long(trial):
    for size in (MOST + 1, MOST + 4096, 2 * MOST):
        trial.file("a.c", b"\n" * size)
        equal(trial.run("check", "a.c"), (5, b"", b"a.c: more than 1048576 bytes\n"))


def a_file_that_comes_in_pieces_is_read_whole(trial):
    os.mkfifo(trial.path("pipe.c"))

    def write():
        with contextlib.suppress(BrokenPipeError), open(trial.path("pipe.c"), "wb", buffering=0) as pipe:
            for part in (b"\n", *halves(BUG % b"f")):
                pipe.write(part)
                time.sleep(0.1)

    with beside(write):
        equal(trial.run("check", "pipe.c"), (1, report("pipe.c", 2) + counts(1, 1), b""))


def halves(text):
    return text[: len(text) // 2], text[len(text) // 2 :]


@contextlib.contextmanager
def beside(work):
    """Does some work while something else is done."""
    it = threading.Thread(target=work, daemon=True)
    it.start()
    yield
    it.join(SECONDS)


# Words, output, and the status


def all_words_are_read(trial):
    names = [trial.file(f"{number}.c", BUG % f"f{number:02}".encode()) for number in range(FILES)]
    said = b"".join(report(f"{number}.c", 1, f"f{number:02}") for number in range(FILES))
    options = ["--unroll", "3", "--paths", "64", "--nodes", "10000"]
    equal(trial.run("check", *options, *names), (1, said + counts(FILES, FILES), b""))
    status, output, error = trial.run("check", *options, *names, names[0])
    equal((status, output, error.startswith(USAGE)), (2, b"", True))
    equal(trial.run("check", *names, "--", "--")[0], 2)


def a_word_that_is_no_text_is_status_2(trial):
    trial.file("a.c", BUG % b"f")
    status, output, error = trial.run("check", "a.c", b"\xff.c")
    equal((status, output, error.startswith(USAGE)), (2, b"", True))


def each_status_is_the_programs(trial):
    name = trial.file("a.c", b"void f(void){}")
    equal(trial.run("check", name), (0, counts(1, 0), b""))
    equal(trial.run("sample", "1", "0")[0], 2)
    equal(trial.run("check", trial.file("b.c", b"{")), (5, b"", b"b.c:1:1: unbalanced bracket\n"))
    equal(trial.run("worker", stdin=subprocess.DEVNULL), (0, b"", b""))


def what_is_said_beside_the_report_is_on_standard_error(trial):
    name = trial.file("a.c", BUG % b"f")
    said = report("a.c", 1) + counts(1, 1)
    equal(trial.run("check", name), (1, said, b""))
    equal(trial.run("check", "--stats", name), (1, said, stats(0, 1, 0)))
    status, output, error = trial.run()
    equal((status, output, error.startswith(USAGE)), (2, b"", True))


def long_report(trial):
    """Returns the name of a file, and the report on it, which is longer than a pipe holds."""
    number = 700
    lines = [BUG % f"f{line:03}".encode() for line in range(1, number + 1)]
    name = trial.file("long.c", b"\n".join(lines))
    said = b"".join(report("long.c", line, f"f{line:03}") for line in range(1, number + 1)) + counts(number, number)
    holds(len(said) > 65_536, f"the report has {len(said)} bytes")
    return name, said


def a_long_report_is_written_whole(trial):
    name, said = long_report(trial)
    equal(trial.run("check", name), (1, said, b""))
    with tempfile.TemporaryFile() as file:
        equal(trial.run("check", name, stdout=file)[0], 1)
        file.seek(0)
        equal(file.read(), said)
    # (and to a reader that takes it slowly)
    words = ["sh", "-c", '"$0" check "$1" | { sleep 0.3; head -c 5000; sleep 0.3; cat; }', trial.program, name]
    equal(ended(words, seconds=SECONDS, cwd=trial.folder), (0, said, b""))


def an_output_that_takes_nothing_is_status_4(trial):
    name = trial.file("a.c", BUG % b"f")
    closed = ["sh", "-c", 'exec "$@" >&-', "sh", trial.program]
    for words in (["check", name], ["sample", "1", "1"]):
        equal(ended([*closed, *words], seconds=SECONDS, cwd=trial.folder), (4, b"", b"cannot write\n"))
        equal(trial.run(*words, stdout=gone()), (4, None, b"cannot write\n"))
        with open("/dev/full", "wb") as full:
            equal(trial.run(*words, stdout=full), (4, None, b"cannot write\n"))
    with open("/dev/full", "wb") as full:
        equal(trial.run("worker", stdin=given(REQUEST), stdout=full), (4, None, b"cannot write\n"))


def gone():
    """Returns the end of a pipe that nobody reads."""
    read, write = os.pipe()
    os.close(read)
    return os.fdopen(write, "wb")


def given(text):
    """Returns the end of a pipe from which this text is read, and then the end."""
    read, write = os.pipe()
    os.write(write, text)
    os.close(write)
    return os.fdopen(read, "rb")


# Standard input


def the_end_of_the_input_is_no_failure(trial):
    equal(trial.run("worker", stdin=subprocess.DEVNULL), (0, b"", b""))
    equal(trial.run("worker", stdin=given(b"")), (0, b"", b""))
    equal(trial.run("worker", stdin=given(REQUEST)), (0, REPLY, b""))


def an_input_that_cant_be_read_is_status_3(trial):
    with open(trial.path("to-write"), "wb") as to_write:
        equal(trial.run("worker", stdin=to_write), (3, b"", b"cannot read input\n"))
    closed = ["sh", "-c", 'exec "$@" <&-', "sh", trial.program, "worker"]
    equal(ended(closed, seconds=SECONDS), (3, b"", b"cannot read input\n"))


def a_worker_reads_all_of_its_input(trial):
    equal(trial.run("worker", stdin=given(REQUEST * 3)), (0, REPLY * 3, b""))
    equal(trial.run("worker", stdin=given(REQUEST * 2 + REQUEST[:-1])), (7, REPLY * 2, b"bad request at byte 116\n"))
    equal(trial.run("worker", stdin=given(SECOND_REQUEST + REQUEST + SECOND_REQUEST)), (0, SECOND_REPLY + REPLY + SECOND_REPLY, b""))
    equal(trial.run("worker", stdin=given(b"\0\0")), (7, b"", b"bad request at byte 0\n"))
    read, write = os.pipe()

    def one_at_a_time():
        for byte in REQUEST:
            os.write(write, bytes([byte]))
            time.sleep(0.005)
        os.close(write)

    with beside(one_at_a_time), os.fdopen(read, "rb") as input_:
        equal(trial.run("worker", stdin=input_), (0, REPLY, b""))


# Domains


def each_domain_rules_something_out(trial):
    """The first is ruled out by the bounds of one variable alone, the second by what is odd, the third by the order of two."""
    ruled_out = {
        "intervals": b"void f(int a){int *z=NULL;if(a<3)if(2<a)*z=1;}",
        "parity": b"void f(int a){int *z=NULL;if(2*a==7)*z=1;}",
        "order": b"void f(int a,int b){int *z=NULL;if(a<b)if(b<=a)*z=1;}",
    }
    for name, text in ruled_out.items():
        said = trial.run("check", trial.file("a.c", text))
        holds(said == (0, counts(1, 0), b""), f"{name}: {shown(said)}")
    left = trial.file("a.c", b"void f(int a){int *z=NULL;if(a*a==7)*z=1;}")
    equal(trial.run("check", left), (0, b"dropped f: undecided, 1\n" + counts(1, 0), b""))


# Children


def a_child_is_sent_and_heard_whole(trial):
    """Two functions that walk down a list: the replies are longer than what is read at a time."""
    body = "if(p==NULL)return;p=p->next;" * 6
    functions = "".join(f"void {name}(struct s *p){{{body}}}" for name in "fg")
    name = trial.file("a.c", f"struct s{{struct s *next;}};{functions}".encode())
    equal(trial.with_worker(trial.program, name), (0, counts(2, 0), stats(2, 0, 0)))
    tee = trial.script("tees", 'tee sent | "$PULSEX_PROGRAM" worker | tee given')
    said = trial.with_worker(tee, name, patience=SECONDS, env={"PULSEX_PROGRAM": trial.program})
    equal(said, (0, counts(2, 0), stats(2, 0, 0)))
    sent, heard = frames_in(trial.path("sent")), frames_in(trial.path("given"))
    equal((len(sent), len(heard)), (2, 2))
    holds(min(heard) > 8192, f"the replies have {heard} bytes")


def frames_in(path):
    """Returns the lengths of the frames in a file that has frames alone."""
    with open(path, "rb") as file:
        text = file.read()
    lengths = []
    while text:
        length = int.from_bytes(text[:4], "big")
        holds(len(text) >= 4 + length, f"{len(text)} bytes are left of a frame of {length}")
        lengths.append(length)
        text = text[4 + length :]
    return lengths


def a_child_is_the_program_with_one_word(trial):
    name = trial.file("a.c", BUG % b"f")
    said = report("a.c", 1) + counts(1, 1)
    notes = trial.script("notes", 'printf "%s\\n" "$0" "$#" "$@" >>noted; exec "$PULSEX_PROGRAM" "$@"')
    environment = {"PULSEX_PROGRAM": trial.program}
    equal(trial.with_worker(notes, name, env=environment), (1, said, stats(1, 0, 0)))
    with open(trial.path("noted"), encoding="utf-8") as file:
        equal(file.read().splitlines(), [notes, "1", "worker"])


def a_child_that_knows_version_1_alone_is_asked_in_it(trial):
    """It ends at a request in version 2, and hands on what is in version 1."""
    name = trial.file("a.c", BUG % b"f")
    old = trial.script(
        "old",
        "exec python3 -c '\n"
        "import os, subprocess\n"
        'head = b""\n'
        "while len(head) < 6 and (more := os.read(0, 6 - len(head))):\n"
        "    head += more\n"
        'if head[5:] == b"\\1":\n'
        '    worker = subprocess.Popen([os.environ["PULSEX_PROGRAM"], "worker"], stdin=subprocess.PIPE)\n'
        "    while head:\n"
        "        worker.stdin.write(head)\n"
        "        worker.stdin.flush()\n"
        "        head = os.read(0, 65536)\n"
        "'",
    )
    said = report("a.c", 1) + counts(1, 1)
    equal(trial.with_worker(old, name, env={"PULSEX_PROGRAM": trial.program}), (1, said, stats(1, 0, 1)))


def what_a_child_says_beside_its_replies_is_let_go(trial):
    name = trial.file("a.c", BUG % b"f")
    said = report("a.c", 1) + counts(1, 1)
    talks = trial.script("talks", 'echo talk >&2; exec "$PULSEX_PROGRAM" worker')
    equal(trial.with_worker(talks, name, env={"PULSEX_PROGRAM": trial.program}), (1, said, stats(1, 0, 0)))


def a_lost_child_is_killed_and_waited_for(trial):
    """Each of these children would go on for ten minutes, and notes which other children its parent has, dead ones too."""
    name = trial.file("a.c", BUG % b"f")
    said = report("a.c", 1) + counts(1, 1)
    stays = trial.script(
        "stays",
        "others=$(cat /proc/[0-9]*/stat 2>/dev/null | sed 's/.*) //' | "
        'awk -v parent="$PPID" \'$2 == parent { n++ } END { print n - 1 }\')\n'
        'echo "$others" >>others\n'
        "printf '\\001\\000\\000\\001'\n"
        "exec sleep 600",
    )
    # (a child that is killed while it counts leaves those that count for it a moment longer)
    equal(trial.with_worker(stays, name, patience=20), (1, said, stats(0, 1, 3)))
    with open(trial.path("others"), encoding="utf-8") as file:
        noted = file.read().split()
    holds(len(noted) >= 3 and set(noted) == {"0"}, f"the other children were {noted}")


def a_child_that_is_left_is_ended(trial):
    """A worker that has done its jobs, and doesn't end when its input does."""
    name = trial.file("a.c", BUG % b"f")
    said = report("a.c", 1) + counts(1, 1)
    stays = trial.script("remains", '"$PULSEX_PROGRAM" worker; exec sleep 600')
    # (the worker within it ends when its input does)
    answer = trial.with_worker(stays, name, patience=20, env={"PULSEX_PROGRAM": trial.program})
    equal(answer, (1, said, stats(1, 0, 0)))


def a_child_that_never_answers_is_ended_from_outside(trial):
    """As docs/WORKERS.md says: by a kill, or by a time that its script gives it."""
    name = trial.file("a.c", BUG % b"f")
    said = report("a.c", 1) + counts(1, 1)
    kill = 'kill -KILL "$(cat hangs)"'
    hangs = trial.script("hangs-until-killed", 'echo $$ >hanging; mv hanging hangs; exec sleep 600')
    words = [trial.program, "check", "--workers", "1", "--exec", hangs, "--stats", name]
    killing = f'"$@" & while kill -0 $! 2>/dev/null; do {kill} 2>/dev/null; sleep 0.1; done; wait $!'
    answer = ended(["sh", "-c", killing, "sh", *words], seconds=SECONDS, cwd=trial.folder)
    equal((*answer[:2], answer[2].splitlines()[-1] + b"\n"), (1, said, stats(0, 1, 3)))
    hangs = trial.script("hangs-for-a-while", "exec timeout 0.2 sleep 600")
    equal(trial.with_worker(hangs, name), (1, said, stats(0, 1, 3)))


TRIED = (
    what_isnt_there_or_cant_be_read_is_status_3,
    files_are_read_whole,
    one_byte_more_is_too_long,
    a_file_that_comes_in_pieces_is_read_whole,
    all_words_are_read,
    a_word_that_is_no_text_is_status_2,
    each_status_is_the_programs,
    what_is_said_beside_the_report_is_on_standard_error,
    a_long_report_is_written_whole,
    an_output_that_takes_nothing_is_status_4,
    the_end_of_the_input_is_no_failure,
    an_input_that_cant_be_read_is_status_3,
    a_worker_reads_all_of_its_input,
    each_domain_rules_something_out,
    a_child_is_sent_and_heard_whole,
    a_child_is_the_program_with_one_word,
    a_child_that_knows_version_1_alone_is_asked_in_it,
    what_a_child_says_beside_its_replies_is_let_go,
    a_lost_child_is_killed_and_waited_for,
    a_child_that_is_left_is_ended,
    a_child_that_never_answers_is_ended_from_outside,
)


def main():
    with tempfile.TemporaryDirectory() as folder:
        return try_all("edge", lambda: Trial(folder, *sys.argv[1:2] or [None]), TRIED)


if __name__ == "__main__":
    sys.exit(main())
