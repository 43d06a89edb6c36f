"""Tries a running server over real sockets: python3 tests/serve.py PROGRAM [NAME]..

Each test starts `PROGRAM serve` on a free port, plays clients and ends the program. A line is
printed for each, and at last how many passed; the status is 0 exactly where none failed. With names
of tests it runs those alone; a name of none is refused, with the status 2.

Most tests run one after another. Beside them, in processes of their own, run those that do nearly
nothing but wait, most of them for half a minute or more, and those that need no server to be quick.
"""

import sys
import time
from concurrent.futures import ProcessPoolExecutor

import bots
import captures
import carrying
import crowds
import cutting
import digging
import endings
import far
import faults
import floods
import launcher
import mobs
import play
import refusing
import running
import seeing
import silence
import system
import talking
import windows

TESTS = [*play.TESTS, *talking.TESTS, *digging.TESTS, *carrying.TESTS, *faults.TESTS]
TESTS += [*refusing.TESTS, *seeing.TESTS, *crowds.TESTS, *endings.TESTS, *system.TESTS]
TESTS += [*floods.TESTS, *running.TESTS, *windows.TESTS, *mobs.TESTS]
TESTS += [*far.TESTS, *bots.TESTS, *cutting.TESTS, *captures.TESTS]
LONG_TESTS = [*silence.LONG_TESTS, *talking.LONG_TESTS, *system.LONG_TESTS]

# What runs beside the others, and how many of that at a time: more than are long.
BESIDE = [*LONG_TESTS, *launcher.TESTS]
PROCESSES = len(LONG_TESTS) + 2


def run_test(test, path):
    """Run one test and say how it went; answer whether it passed."""
    begun = time.monotonic()
    try:
        remark = test(path)
    except Exception as error:
        print(f"FAILED {test.__name__}: {type(error).__name__}: {error}", flush=True)
        return False
    took = time.monotonic() - begun
    print(f"ok {test.__name__} ({took:.1f} s{', ' + remark if remark else ''})", flush=True)
    return True


def run_tests(path, tests, beside):
    """Run tests one after another, and others beside them; count those that passed."""
    with ProcessPoolExecutor(PROCESSES) as processes:
        going = [processes.submit(run_test, test, path) for test in beside]
        passed = sum(run_test(test, path) for test in tests)
        return passed + sum(done.result() for done in going)


def chosen(tests, names):
    """Answer the tests of these names, or all where there are none."""
    return [test for test in tests if not names or test.__name__ in names]


def main(path, names):
    """Run the tests of these names, or all; answer the status of the script."""
    unknown = set(names) - {test.__name__ for test in TESTS + BESIDE}
    if unknown:
        print(f"no test has the name {', '.join(sorted(unknown))}", file=sys.stderr)
        return 2
    tests, beside = chosen(TESTS, names), chosen(BESIDE, names)
    passed = run_tests(path, tests, beside)
    failed = len(tests) + len(beside) - passed
    print(f"{passed} passed, {failed} failed")
    return 0 if failed == 0 else 1


if __name__ == "__main__":
    if len(sys.argv) < 2:
        sys.exit(__doc__.splitlines()[0])
    sys.exit(main(sys.argv[1], sys.argv[2:]))
