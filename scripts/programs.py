"""What the scripts in Python share that run the built program: which one it is, and what must hold of each run."""

import contextlib
import fcntl
import itertools
import os
import resource
import signal
import subprocess
import sys
import time
import traceback
import uuid

TOP = os.path.dirname(os.path.dirname(os.path.realpath(__file__)))
# By this word in its environment a child is known, also when its parent has ended; by its value, of which run it is.
MARK = f"PULSEX_TRIED_{uuid.uuid4().hex}"
RUNS = itertools.count(1)
# Longer than any run takes, on a machine that is busy.
SECONDS = 300


class Untried(Exception):
    """Why something can't be tried here."""


def kept(kind):
    """Returns where that build of today's sources is kept."""
    words = ["sh", "-c", 'top=$1; . "$1/scripts/programs.sh"; kept pulsex "$2"', "sh", TOP, kind]
    return subprocess.run(words, capture_output=True, text=True, check=True).stdout.strip()


@contextlib.contextmanager
def one_at_a_time():
    """Has one script make a program while the others wait for it."""
    try:
        os.makedirs(f"{TOP}/out", exist_ok=True)
        lock = open(f"{TOP}/out/making", "w", encoding="utf-8")
    except OSError:
        yield
        return
    with lock:
        fcntl.flock(lock, fcntl.LOCK_EX)
        yield


def built():
    """Returns the kind of the program that is built, and the program: the proved one, where there is one of today's
    sources; else a checked one, which ./pulsex makes in some minutes where it hasn't yet."""
    with one_at_a_time():
        for is_made in (False, True):
            if is_made:
                subprocess.run([f"{TOP}/pulsex", "sample", "1", "1"], stdout=subprocess.DEVNULL)
            for kind in ("proved", "checked"):
                if os.access(kept(kind), os.X_OK):
                    if kind == "checked":
                        room_to_run()
                    return kind, kept(kind)
    raise Untried("no program is built, and none was made and kept")


def room_to_run():
    """Gives more of the stack, which a checked program needs, and leaves no core where it stops at a fault."""
    most = resource.getrlimit(resource.RLIMIT_STACK)[1]
    wanted = 1_000_000 * 1024
    resource.setrlimit(resource.RLIMIT_STACK, (wanted if most == resource.RLIM_INFINITY else min(wanted, most), most))
    resource.setrlimit(resource.RLIMIT_CORE, (0, resource.getrlimit(resource.RLIMIT_CORE)[1]))


def ended(words, seconds=SECONDS, patience=0, **more):
    """Returns the status, the output and the error output of a command, of which no child may be left: that of a child, as in a
    script with a pipe, may need these seconds of patience."""
    run = f"{os.getpid()}-{next(RUNS)}"
    environment = {**os.environ, MARK: run, **more.pop("env", {})}
    how = {"stdin": subprocess.DEVNULL, "stdout": subprocess.PIPE, "stderr": subprocess.PIPE, **more}
    try:
        it = subprocess.run(words, env=environment, timeout=seconds, **how)
    finally:
        end = time.monotonic() + patience
        while (left := running(run)) and time.monotonic() < end:
            time.sleep(0.01)
        end_all(left)
    holds(not left, f"left running: {shown(left)}")
    return it.returncode, it.stdout, it.stderr


def running(run=None):
    """Returns the processes that bear the mark, of this run or of any, with their commands."""
    found = []
    mark = f"{MARK}={run or ''}".encode()
    for pid in filter(str.isdigit, os.listdir("/proc")):
        try:
            with open(f"/proc/{pid}/environ", "rb") as environment, open(f"/proc/{pid}/cmdline", "rb") as words:
                marks = [it for it in environment.read().split(b"\0") if it.startswith(mark)]
                if marks and (not run or mark in marks):
                    found.append((int(pid), words.read()))
        except OSError:
            pass
    return found


def end_all(found):
    """Kills these processes."""
    for pid, _ in found:
        with contextlib.suppress(ProcessLookupError):
            os.kill(pid, signal.SIGKILL)


def script(path, text):
    """Makes a program of this text, and returns its path."""
    with open(path, "w", encoding="utf-8") as file:
        file.write(f"#!/bin/sh\n{text}\n")
    os.chmod(path, 0o755)
    return path


def shown(it):
    text = repr(it)
    return text if len(text) < 500 else f"{text[:500]}.."


def equal(found, wanted):
    if found != wanted:
        raise AssertionError(f"{shown(wanted)} is wanted and not {shown(found)}")


def holds(is_so, what):
    if not is_so:
        raise AssertionError(what)


def tried(one, trial):
    """Returns how many passed and failed."""
    try:
        one(trial)
        return 1, 0
    except Untried as why:
        print(f"not tried: {one.__name__}: {why}")
        return 0, 0
    except Exception:
        print(f"{one.__name__} failed:")
        traceback.print_exc(file=sys.stdout)
        return 0, 1


def try_all(name, trial_of, all_of_them):
    """Tries each of them on what `trial_of` gives. Prints the counts, and returns the status."""
    counts = []
    try:
        trial = trial_of()
        counts = [tried(one, trial) for one in all_of_them]
    except Untried as why:
        print(f"not tried: {name}: {why}")
    passed, failed = (sum(it[place] for it in counts) for place in (0, 1))
    print(f"{passed} passed, {failed} failed")
    return 1 if failed else 0
