"""Tests of how the tests are run: what was not tried is never said to be well."""

import os
import shutil
import subprocess
import sys
import tempfile
from pathlib import Path

from client import PATIENCE, expect

HERE = Path(__file__).resolve().parent


def begin(*words, path=None):
    """Run a script of the tests to its end; answer its status and what stands on both outputs."""
    environment = {**os.environ, "PATH": path} if path else None
    done = subprocess.run(words, env=environment, stdin=subprocess.DEVNULL, capture_output=True,
                          text=True, timeout=PATIENCE, check=False)
    return done.returncode, done.stdout, done.stderr


def nothing_is_well_without_python(path):
    """Without a Python that is new enough, or without a program, the tests fail and say so."""
    run = str(HERE / "run")
    with tempfile.TemporaryDirectory() as folder:
        there = Path(folder)
        (there / "dirname").symlink_to(shutil.which("dirname"))
        ended = begin("/bin/sh", run, path, path=folder)
        expect(ended[0] == 1 and "no python3" in ended[2], f"without Python it ends with {ended}")
        (there / "python3").write_text("#!/bin/sh\nexit 1\n")
        (there / "python3").chmod(0o755)
        ended = begin("/bin/sh", run, path, path=folder)
        expect(ended[0] == 1 and "older" in ended[2], f"with an old Python it ends with {ended}")
    ended = begin(run, "/nowhere/craft47")
    expect(ended[0] == 1 and "no program" in ended[2], f"without a program it ends with {ended}")


def unknown_tests_are_refused(path):
    """A name of no test is refused and nothing is tried, whatever other names stand beside it."""
    for names in (["no_such_test"], ["usage_is_told", "no_such_test"]):
        ended = begin(sys.executable, "-B", str(HERE / "serve.py"), path, *names)
        due = (2, "", "no test has the name no_such_test\n")
        expect(ended == due, f"{names} ends with {ended}")


def failures_are_told(_path):
    """A test that fails is said to, and so does the whole."""
    ended = begin(sys.executable, "-B", str(HERE / "serve.py"), "/bin/false", "usage_is_told")
    expect(ended[0] == 1 and ended[1].startswith("FAILED usage_is_told: "), f"it ends {ended}")
    expect(ended[1].endswith("\n0 passed, 1 failed\n"), f"it says {ended[1]!r}")


TESTS = [nothing_is_well_without_python, unknown_tests_are_refused, failures_are_told]
