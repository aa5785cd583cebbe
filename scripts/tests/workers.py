#!/usr/bin/env python3
"""The tests of runs with workers: the program that is built, and children that work, die, lie or say nothing.

Whatever the children are, the report and the status must be those of no workers, byte for byte, and no child be left.
The program is the proved one, where there is one of today's sources; else a checked one, which ./pulsex makes in some
minutes where it hasn't yet. That is slower, and so is tried on fewer procedures.
"""

import os
import random
import re
import signal
import subprocess
import sys
import tempfile
import time

sys.dont_write_bytecode = True
sys.path.insert(0, os.path.dirname(os.path.dirname(os.path.realpath(__file__))))

from programs import MARK, SECONDS, TOP, Untried, built, end_all, ended, equal, holds, running, script, shown, try_all  # noqa: E402

WRAPPERS = f"{TOP}/examples/workers"
# How many procedures the sample has, by the kind of the program.
PROCEDURES = {"proved": 1000, "checked": 50}


def children(parent):
    found = []
    for pid in filter(str.isdigit, os.listdir("/proc")):
        try:
            with open(f"/proc/{pid}/stat", encoding="utf-8", errors="replace") as it:
                state, above = it.read().rpartition(")")[2].split()[:2]
        except OSError:
            continue
        if int(above) == parent and state != "Z":
            found.append(int(pid))
    return found


class Trial:
    """The program, a sample, what is said of it without workers and in how many seconds, and a folder for scripts."""

    def __init__(self, folder):
        kind, self.program = built()
        self.folder, self.count = folder, PROCEDURES[kind]
        self.sample = f"{folder}/sample.c"
        with open(self.sample, "wb") as file:
            file.write(ended([self.program, "sample", "7", str(self.count)])[1])
        begun = time.monotonic()
        self.alone = self.check()
        self.seconds = time.monotonic() - begun
        holds(self.alone[0] == 1 and f"procedures {self.count}, ".encode() in self.alone[1], shown(self.alone))

    def words(self, *options):
        return [self.program, "check", *options, self.sample]

    def check(self, *options, **more):
        return ended(self.words(*options), **more)

    def script(self, name, text):
        """Makes a program of this text, and returns its path."""
        return script(f"{self.folder}/{name}", text)

    def counts(self, answer):
        """Returns how much workers and the parent published, and what was lost, where all else is as without workers."""
        status, output, line = answer
        equal((status, output), self.alone[:2])
        found = re.fullmatch(rb"workers published (\d+), parent published (\d+), lost (\d+)\n", line)
        holds(found, f"the line of --stats is {shown(line)}")
        by_workers, by_parent, lost = map(int, found.groups())
        equal(by_workers + by_parent, self.count)
        return by_workers, by_parent, lost

    def by(self, path, workers=4, **more):
        return self.counts(self.check("--workers", str(workers), "--exec", path, "--stats", **more))


def workers_do_all(trial):
    for workers in (1, 4, 16):
        equal(trial.by(trial.program, workers), (trial.count, 0, 0))


def a_report_in_json_is_the_same_too(trial):
    equal(trial.check("--json", "--workers", "4", "--exec", trial.program), trial.check("--json"))


def a_name_is_searched_on_the_path(trial):
    os.symlink(trial.program, f"{trial.folder}/pulsex-by-name")
    path = {"PATH": f"{trial.folder}:{os.environ['PATH']}"}
    equal(trial.by("pulsex-by-name", env=path), (trial.count, 0, 0))


def the_error_output_of_a_child_is_let_go(trial):
    equal(trial.by(trial.script("talks", f"echo talk >&2; exec '{trial.program}' \"$@\"")), (trial.count, 0, 0))


def workers_are_killed(trial):
    """Kills one child after another while there are some, in one run after another."""
    killed = lost = runs = 0
    while killed < 20:
        holds(runs < 100, f"in {runs} runs only {killed} children were killed")
        now, answer = killing(trial)
        killed, lost, runs = killed + now, lost + trial.counts(answer)[2], runs + 1
    holds(lost > 0, f"{killed} children were killed, and none is counted")


def kill_one(found):
    """Kills one of these processes, if there are some, and returns whether it did."""
    try:
        os.kill(random.choice(found), signal.SIGKILL)
    except (IndexError, ProcessLookupError):
        return False
    return True


def killing(trial):
    """Returns how many children of a run were killed, and its answer."""
    words = trial.words("--workers", "4", "--exec", trial.program, "--stats")
    with tempfile.TemporaryFile() as output, tempfile.TemporaryFile() as error:
        it = subprocess.Popen(words, stdin=subprocess.DEVNULL, stdout=output, stderr=error, env={**os.environ, MARK: "1"})
        killed, end = 0, time.monotonic() + SECONDS
        while it.poll() is None:
            if time.monotonic() > end:
                it.kill()
            time.sleep(random.uniform(0, trial.seconds / 8))
            killed += kill_one(children(it.pid))
        equal(running(), [])
        output.seek(0)
        error.seek(0)
        return killed, (it.returncode, output.read(), error.read())


def what_starts_nothing_publishes_nothing(trial):
    text = f"{trial.folder}/text"
    with open(text, "w", encoding="utf-8") as file:
        file.write("no program\n")
    for path in (f"{trial.folder}/none", "no-program-has-this-name", trial.folder, text):
        equal(trial.by(path)[:2], (0, trial.count))


def what_is_no_worker_publishes_nothing(trial):
    scripts = {
        "echoes": "exec cat",
        "echoes-a-little": "exec head -c 9",
        "reads-nothing": "exec sleep 0.2",
        "is-null-without-end": "exec cat /dev/zero",
    }
    for path in ("true", "yes", *(trial.script(*it) for it in scripts.items())):
        by_workers, by_parent, lost = trial.by(path)
        equal((path, by_workers, by_parent), (path, 0, trial.count))
        holds(lost > 0, f"{path} isn't lost")


def the_wrappers_hand_over_what_they_get(trial):
    """In place of the engines stands a script that drops an engine's words, and runs the program here."""
    engine = trial.script("ssh", 'while [ "$1" != "$PULSEX_PROGRAM" ]; do shift; done\nexec "$@"')
    for name in ("srun", "docker"):
        os.symlink(engine, f"{trial.folder}/{name}")
    place = {"PULSEX_HOST": "far", "SLURM_JOB_ID": "1", "PULSEX_IMAGE": "far"}
    path = {"PATH": f"{trial.folder}:{os.environ['PATH']}", "PULSEX_PROGRAM": trial.program}
    for name, variable in (("ssh", "PULSEX_HOST"), ("slurm", "SLURM_JOB_ID"), ("container", "PULSEX_IMAGE")):
        equal(trial.by(f"{WRAPPERS}/{name}", env={**path, **place}), (trial.count, 0, 0))
        equal(ended([f"{WRAPPERS}/{name}", "worker"], env={**path, **place}), (0, b"", b""))
        status, output, error = ended([f"{WRAPPERS}/{name}", "worker"], env={**path, variable: ""})
        holds(status != 0 and output == b"" and variable.encode() in error, f"{name} starts without {variable}")


def what_is_no_command_is_refused(trial):
    usage = ended([trial.program])
    holds(usage[0] == 2 and usage[1] == b"" and usage[2].startswith(b"usage: pulsex check "), shown(usage))
    for options in (
        ["--workers", "4"],
        ["--workers", "4", "--exec", ""],
        ["--workers", "17", "--exec", trial.program],
        ["--workers", "-1", "--exec", trial.program],
    ):
        equal(trial.check(*options), usage)


def a_line_that_cant_be_written_is_status_4(trial):
    with_workers = ["--workers", "2", "--exec", trial.program, "--stats"]
    closed = ended(["sh", "-c", 'exec "$@" 2>&-', "sh", *trial.words(*with_workers)])
    equal(closed, (4, trial.alone[1], b""))
    if not os.path.exists("/dev/full"):
        raise Untried("there is no /dev/full")
    with open("/dev/full", "wb") as full:
        equal(trial.check(*with_workers, stderr=full)[:2], (4, trial.alone[1]))


def a_run_that_is_killed_leaves_no_worker(trial):
    words = trial.words("--workers", "4", "--exec", trial.program)
    statuses = []
    while -signal.SIGKILL not in statuses:
        # (on a busy machine the run may end before it is killed)
        holds(len(statuses) < 10, f"the statuses are {statuses}")
        it = subprocess.Popen(words, stdout=subprocess.DEVNULL, stderr=subprocess.DEVNULL, env={**os.environ, MARK: "1"})
        while it.poll() is None and len(children(it.pid)) < 4:
            time.sleep(0.001)
        it.kill()
        statuses.append(it.wait())
    # (a worker that is at work ends when it wants to write)
    end = time.monotonic() + 60
    while (left := running()) and time.monotonic() < end:
        time.sleep(0.05)
    end_all(left)
    equal(left, [])


TRIED = (
    workers_do_all,
    a_report_in_json_is_the_same_too,
    a_name_is_searched_on_the_path,
    the_error_output_of_a_child_is_let_go,
    workers_are_killed,
    what_starts_nothing_publishes_nothing,
    what_is_no_worker_publishes_nothing,
    the_wrappers_hand_over_what_they_get,
    what_is_no_command_is_refused,
    a_line_that_cant_be_written_is_status_4,
    a_run_that_is_killed_leaves_no_worker,
)


def main():
    with tempfile.TemporaryDirectory() as folder:
        return try_all("workers", lambda: Trial(folder), TRIED)


if __name__ == "__main__":
    sys.exit(main())
