#!/usr/bin/env python3
"""The tests of `view`. Each starts it as a user does, on stored reports, and never starts pulsex.

What is expected was written by hand: the lines, the SARIF and the results in view/.
"""

import os
import sys
import traceback

sys.dont_write_bytecode = True
sys.path.insert(0, os.path.join(os.path.dirname(os.path.realpath(__file__)), "view"))

import browser_tests  # noqa: E402
import ci_tests  # noqa: E402, F401
import command_tests  # noqa: E402, F401
import lines_tests  # noqa: E402, F401
import page_tests  # noqa: E402, F401
import sarif_tests  # noqa: E402, F401
import words_tests  # noqa: E402, F401
from trying import TESTS, Untried  # noqa: E402


def main():
    passed = failed = 0
    untried = {}
    for one in TESTS:
        try:
            one()
            passed += 1
        except Untried as why:
            untried.setdefault(str(why), []).append(one.__name__)
        except Exception:
            failed += 1
            print(f"{one.__name__} failed:")
            traceback.print_exc(file=sys.stdout)
    browser_tests.close()
    for why, names in untried.items():
        print(f"not tried, {why}: {', '.join(names)}")
    print(f"{passed} passed, {failed} failed")
    return 1 if failed else 0


if __name__ == "__main__":
    sys.exit(main())
