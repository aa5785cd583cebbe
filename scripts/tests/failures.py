#!/usr/bin/env python3
"""The short forms of scripts/refused-growths and scripts/mutations: a few of each run's allocations are refused, and a few files,
requests and replies are changed at random. Each script is one test, and must end with 0."""

import os
import subprocess
import sys

TOP = os.path.dirname(os.path.dirname(os.path.dirname(os.path.realpath(__file__))))
TRIED = (
    ["refused-growths", "--most", "5", "--procedures", "4", "check", "worker-request", "parent", "children"],
    ["mutations", "--texts", "10", "--files", "40", "--requests", "40", "--replies", "40"],
)
# The status where the program isn't there, and can't be made.
UNTRIED = 2


def main():
    counts = {True: 0, False: 0}
    for name, *words in TRIED:
        it = subprocess.run([f"{TOP}/scripts/{name}", *words], stdin=subprocess.DEVNULL, capture_output=True, text=True)
        if it.returncode == UNTRIED:
            print(f"not tried: {name}: {it.stdout}")
            continue
        counts[it.returncode == 0] += 1
        if it.returncode:
            print(f"{name} ended with {it.returncode}:\n{it.stdout}{it.stderr}")
    print(f"{counts[True]} passed, {counts[False]} failed")
    return 1 if counts[False] else 0


if __name__ == "__main__":
    sys.exit(main())
