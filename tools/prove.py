#!/usr/bin/env python3
"""Proves and builds the program, and the crates that it stands on, by the toolchain's command `rt`.

usage: prove.py CRATE
       prove.py CRATE --sources
       prove.py CRATE --built SOURCES

Where the program that is there was built from the sources and by the toolchain that are there now,
it does nothing. Else it runs one gate over a copy of what the program needs, without wrong bodies
and without tests. The gate proves crates that don't wait for each other side by side, and keeps on
this machine what it proved. On standard error it says each crate as it is done, how long the rest
is likely to take, and in the end how long all of them took.

What a program was built from stands beside it, in out/NAME.built: the toolchain, the checksum of
the sources, and that of the program. For a gate that builds in place, `--sources` prints the
checksum of the sources, and `--built` notes the program that was built from sources with such a
checksum, if they are still the same.
"""

import contextlib
import fcntl
import hashlib
import os
import re
import shutil
import subprocess
import sys
import tempfile
import time
from pathlib import Path

TOP = Path(__file__).resolve().parent.parent
# How many processors there are.
PROCESSORS = len(os.sched_getaffinity(0))
# How many processors the proof of a crate uses on which all others wait.
ALONG_A_CHAIN = 1.2
# About how many seconds of one processor the proof of a kilobyte of code takes.
SECONDS_OF_KILOBYTE = 2.8
# The folders of a crate that the build of a program does not read.
LEFT_OUT = ("out", "must-fail")


def stands_on():
    """Reads which crates of the repository each of them stands on."""
    crates = {}
    for line in (TOP / "crates.txt").read_text().splitlines():
        name, colon, libraries = line.partition(":")
        if colon and not line.startswith("#"):
            crates[name] = libraries.split()
    return {name: [it for it in libraries if it in crates] for name, libraries in crates.items()}


def needed(crate, crates):
    """Lists a crate and all below it, lowest first."""
    found = []
    for below in crates[crate]:
        found += [it for it in needed(below, crates) if it not in found]
    return found + [crate]


def is_read(name):
    """Whether a build reads a file or folder of a crate: none of tests, and none that is hidden."""
    return name not in LEFT_OUT and not name.startswith(("tests", "."))


def files_of(crate):
    """Lists the files of a crate that a build reads."""
    for folder, folders, names in os.walk(TOP / "crates" / crate):
        folders[:] = filter(is_read, folders)
        yield from (Path(folder, it) for it in filter(is_read, names))


def without_tests(file):
    """Reads a file without the tests that stand last in it."""
    held = file.read_bytes()
    return held.partition(b"\n#[cfg(test)]\n")[0] if file.suffix == ".rt" else held


def sources(names):
    """Reads all that a gate over these crates reads, by its path from the top."""
    lines = (TOP / "crates.txt").read_text().splitlines(keepends=True)
    lines = "".join(it for it in lines if it.partition(":")[0] in names)
    held = {"HANDLES": (TOP / "HANDLES").read_bytes(), "crates.txt": lines.encode()}
    for file in (file for name in names for file in files_of(name)):
        held[str(file.relative_to(TOP))] = without_tests(file)
    return held


def write(held, folder):
    """Writes sources into a folder."""
    for path, data in held.items():
        file = folder / path
        file.parent.mkdir(parents=True, exist_ok=True)
        file.write_bytes(data)


def checksum(held):
    """Answers the checksum of sources, in which each path and each size counts."""
    whole = hashlib.sha256()
    for path, data in sorted(held.items()):
        whole.update(f"{path}\0{len(data)}\0".encode() + data)
    return whole.hexdigest()


def toolchain():
    """Asks the toolchain who it is; None where there is none on the path."""
    if shutil.which("rt") is None:
        return None
    asked = ["rt", "version"]
    return subprocess.run(asked, stdin=subprocess.DEVNULL, capture_output=True, text=True,
                          check=True).stdout.strip()


def out_of(program):
    """Answers the folder in which a program is put."""
    return TOP / "crates" / program / "out"


def mark_of(program, identity, of_sources):
    """Writes down what a program that is there was built from."""
    of_program = hashlib.sha256((out_of(program) / program).read_bytes()).hexdigest()
    return [identity, of_sources, of_program]


def mark(program, identity, of_sources):
    """Puts what a program was built from beside it."""
    text = "".join(f"{it}\n" for it in mark_of(program, identity, of_sources))
    new = out_of(program) / f"{program}.built.new"
    new.write_text(text)
    new.replace(out_of(program) / f"{program}.built")


def is_built(program):
    """Whether a program is there that was built from the sources that are there now, by the
    toolchain that is on the path. Where none is, one that was built by any does."""
    try:
        noted = (out_of(program) / f"{program}.built").read_text().splitlines()
        of_sources = checksum(sources(needed(program, stands_on())))
        identity = toolchain() or noted[0]
        return noted == mark_of(program, identity, of_sources)
    except (FileNotFoundError, IndexError):
        return False


@contextlib.contextmanager
def alone(program):
    """Waits until nobody else builds a program, and keeps others waiting."""
    out_of(program).mkdir(exist_ok=True)
    with open(out_of(program) / "lock", "w") as lock:
        try:
            fcntl.flock(lock, fcntl.LOCK_EX | fcntl.LOCK_NB)
        except BlockingIOError:
            say("waits for another that proves and builds the program")
            fcntl.flock(lock, fcntl.LOCK_EX)
        yield


def work_of(crate):
    """Guesses how many seconds of one processor the proof of a crate takes: its code tells best."""
    files = (TOP / "crates" / crate / "src").rglob("*.rt")
    return SECONDS_OF_KILOBYTE * sum(file.stat().st_size for file in files) / 1000


def clock_of(left, crates):
    """Guesses how many seconds these crates take side by side: no less than the longest chain of
    them, in which a second processor is of little use, nor than all of them on all processors."""
    chains = {}
    for name in left:
        below = max((chains[it] for it in crates[name] if it in chains), default=0)
        chains[name] = below + work_of(name) / ALONG_A_CHAIN
    whole = sum(work_of(name) for name in left) / PROCESSORS
    return max([whole, *chains.values()])


def say(text):
    """Says how far it is."""
    print(f"craft47: {text}", file=sys.stderr, flush=True)


def minutes(seconds):
    """Words for a time that is only guessed."""
    return "less than a minute" if seconds < 60 else f"about {round(seconds / 60)} min"


def follow(gate, names, crates):
    """Says each crate of a running gate as it is done. Returns all that the gate said."""
    began, first = time.monotonic(), clock_of(names, crates)
    say(f"{len(names)} crates to prove, {minutes(first)} where none was proved before")
    left, said, rest, due, kept = list(names), [], first, first, False
    for line in gate.stdout:
        said.append(line)
        done = re.match(r"(?:rt: )?(\w+) (proved|is kept)", line)
        if done is None or done[1] not in left:
            continue
        left.remove(done[1])
        kept = kept or done[2] == "is kept"
        now, still = time.monotonic() - began, clock_of(left, crates) if left else 0
        if still < rest:
            # One of the longest chain is done, which tells how fast this machine is.
            due = now + still * (1 if kept else now / (first - still))
            rest = still
        say(f"{len(names) - len(left)} of {len(names)}: {done[1]}; the rest: {minutes(due - now)}")
    return "".join(said)


def build(program):
    """Proves a program and all that it stands on. Returns what was said where that fails."""
    crates = stands_on()
    names = needed(program, crates)
    held, identity = sources(names), toolchain()
    with tempfile.TemporaryDirectory(prefix="craft47-") as folder:
        write(held, Path(folder))
        gate = subprocess.Popen(
            ["rt", "ci"], cwd=folder, text=True, env={**os.environ, "PYTHONUNBUFFERED": "1"},
            stdin=subprocess.DEVNULL, stdout=subprocess.PIPE, stderr=subprocess.STDOUT)
        with gate:
            said = follow(gate, names, crates)
        if gate.returncode != 0:
            return said
        put(Path(folder) / "crates" / program / "out" / program, program)
        mark(program, identity, checksum(held))
    return None


def put(built, program):
    """Puts a program that was built in the place of the one that is there, which may be running."""
    out_of(program).mkdir(exist_ok=True)
    new = out_of(program) / f"{program}.new"
    shutil.copy(built, new)
    new.replace(out_of(program) / program)


def prove(program):
    """Proves and builds a program where that is needed. Answers the status."""
    began = time.monotonic()
    if is_built(program):
        return 0
    if toolchain() is None:
        say("the toolchain's command rt is not on the path")
        return 1
    with alone(program):
        if is_built(program):
            return 0
        fault = build(program)
    if fault is not None:
        print(fault, file=sys.stderr)
        say("the program was not built")
        return 1
    whole, seconds = divmod(round(time.monotonic() - began), 60)
    say(f"proved and built in {whole} min {seconds} s")
    if not is_built(program):
        say("the sources were changed meanwhile, so the next start proves them again")
    return 0


def main():
    program, *asked = sys.argv[1:] or sys.exit(__doc__)
    if not asked:
        return prove(program)
    of_sources = checksum(sources(needed(program, stands_on())))
    if asked == ["--sources"]:
        print(of_sources)
    elif asked == ["--built", of_sources]:
        mark(program, toolchain(), of_sources)
    else:
        say("what was built is not noted, since the sources were changed meanwhile")
    return 0


if __name__ == "__main__":
    try:
        sys.exit(main())
    except KeyboardInterrupt:
        sys.exit(130)
