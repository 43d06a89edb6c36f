"""Tests of the launcher `craft47`: when it proves and builds the program, and what it starts.

Source: README.md and docs/OPERATING.md, 'Starting'. Each test has a repository of its own, of two
crates, with the launcher of this one and a stand-in for the toolchain's command `rt`. That "builds"
in a moment, by the program that is tried here with the sources behind its end, which change nothing
of what it does. So the sources of which a program was made can be read in it.
"""

import contextlib
import os
import shutil
import subprocess
import sys
import tempfile
from pathlib import Path

from client import PATIENCE, ask_status, expect
from play import status_text
from program import Program

TOP = Path(__file__).resolve().parent.parent

RT = """#!/bin/sh
# A stand-in for the toolchain.
here=$(dirname "$0")
case $1 in
    version) cat "$here/identity" ;;
    ci)
        echo "$PWD" >> "$here/builds"
        sleep 0.3
        [ ! -f "$here/edit" ] || mv "$here/edit" "$here/../crates/low/src/lib.rt"
        [ ! -f "$here/fault" ] || exit 1
        mkdir -p crates/craft47/out
        cp "$here/program" crates/craft47/out/craft47
        cat crates/low/src/*.rt >> crates/craft47/out/craft47
        echo "low proved"
        echo "craft47 proved" ;;
esac
"""

FILES = {
    "HANDLES": "Handles allowed: none.\n",
    "crates.txt": "low:\nother:\ncraft47: low\n",
    "crates/low/src/lib.rt": "mod more;\n",
    "crates/low/src/more.rt": "// More.\n",
    "crates/low/src/tests.rt": "// Tests.\n",
    "crates/low/specs/Lib.antt": "-- A definition.\n",
    "crates/low/must-fail/wrong.edit": "old: a\n",
    "crates/other/src/lib.rt": "// Another crate.\n",
    "crates/craft47/src/main.rt": "// The program.\n",
    "bin/identity": "stand-in 1\n",
    "bin/rt": RT,
}


class Repository:
    """A repository with a launcher, and the folder of a stand-in for the toolchain."""

    def __init__(self, folder, program):
        self.top = Path(folder)
        for path, text in FILES.items():
            self.write(path, text)
        for path in ("craft47", "tools/prove.py", "docs/COMMANDS.md"):
            self.path(path).parent.mkdir(exist_ok=True)
            shutil.copy(TOP / path, self.path(path))
        shutil.copy(program, self.path("bin/program"))
        self.path("bin/rt").chmod(0o755)
        self.launcher = self.path("craft47")
        self.environment = {**os.environ, "PATH": f"{self.path('bin')}:{os.environ['PATH']}"}

    def path(self, path):
        """Answer the path of a file."""
        return self.top / path

    def write(self, path, text):
        """Write a file, which the calendar says is old."""
        file = self.path(path)
        file.parent.mkdir(parents=True, exist_ok=True)
        file.write_text(text)
        os.utime(file, (1e9, 1e9))

    def begin(self, *arguments, launcher=None, environment=None):
        """Start the launcher, with nothing on its standard input."""
        return subprocess.Popen(
            [launcher or self.launcher, *arguments],
            env=environment or self.environment,
            stdin=subprocess.DEVNULL,
            stdout=subprocess.PIPE,
            stderr=subprocess.PIPE,
            text=True,
        )

    def start(self, *arguments, **options):
        """Start the launcher, and answer its status and what stands on both outputs."""
        started = self.begin(*arguments, **options)
        output, errors = started.communicate(timeout=PATIENCE)
        return started.returncode, output, errors

    def builds(self):
        """Count how often the program was built."""
        log = self.path("bin/builds")
        return len(log.read_text().splitlines()) if log.exists() else 0

    def expect_start(self, builds, why):
        """Start `status`, which does nothing here, and find how often was built up to now."""
        status, output, errors = self.start("status")
        expect((status, output) == (0, ""), f"{why}: it ends with {status}: {output!r} {errors!r}")
        expect(self.builds() == builds, f"{why}: {self.builds()} builds, not {builds}")
        self.expect_made_of_sources(why)

    def expect_made_of_sources(self, why):
        """Find that the program was made of the sources that are there now."""
        sources = [self.path(f"crates/low/src/{name}.rt") for name in ("lib", "more")]
        text = b"".join(source.read_bytes() for source in sources if source.exists())
        made = self.path("crates/craft47/out/craft47").read_bytes()
        program = self.path("bin/program").read_bytes()
        expect(made == program + text, f"{why}: the program ends with {made[-40:]!r}")


@contextlib.contextmanager
def repository(path):
    """Make a repository, and take it away again."""
    with tempfile.TemporaryDirectory(prefix="craft47-tests-") as folder:
        yield Repository(folder, path)


def launchers_build_once(path):
    """The first start proves and builds the program, and says so; the next starts it alone."""
    with repository(path) as here:
        status, output, errors = here.start("status")
        expect((status, output) == (0, ""), f"it ends with {status}: {output!r} {errors!r}")
        lines = errors.splitlines()
        expect(len(lines) == 4, f"standard error says {errors!r}")
        expect("1 of 2: low" in lines[1] and "2 of 2: craft47" in lines[2], f"it says {lines}")
        for _ in range(2):
            ended = here.start("status")
            expect(ended == (0, "", ""), f"started again it ends with {ended}")
        ended = here.start("serve", "port=0")
        expect(ended[0] == 2 and ended[1].startswith("usage: "), f"it ends with {ended}")
        here.expect_start(1, "started again")


def launchers_replace_a_running_program(path):
    """Beside a server that it started a launcher builds another program; the server goes on."""
    with repository(path) as here:
        here.expect_start(1, "at first")
        with Program(here.launcher, environment=here.environment) as program:
            expect(ask_status(program.port) == status_text(20, 0), "the status is another")
            here.write("crates/low/src/lib.rt", "mod more; // changed\n")
            here.expect_start(2, "beside a server")
            expect(ask_status(program.port) == status_text(20, 0), "the status is another")
        here.expect_start(2, "after the server")


def launchers_are_started_through_links(path):
    """A link to a link to the launcher, in another folder, is as good as the launcher."""
    with repository(path) as here, tempfile.TemporaryDirectory() as elsewhere:
        first, second = here.path("bin/first"), Path(elsewhere, "second")
        first.symlink_to("../craft47")
        second.symlink_to(first)
        for argument in ("--help", "--version"):
            told = here.start(argument)
            expect(told[0] == 0 and told[1] and not told[2], f"{argument} tells {told}")
            through = here.start(argument, launcher=second)
            expect(through == told, f"through a link {argument} tells {through}")
        status, output, errors = here.start("status", launcher=second)
        expect((status, output) == (0, ""), f"it ends with {status}: {output!r} {errors!r}")
        found = {**here.environment, "PATH": f"{elsewhere}:{here.environment['PATH']}"}
        by_name = subprocess.run(["second", "status"], env=found, stdin=subprocess.DEVNULL,
                                 capture_output=True, timeout=PATIENCE, check=False)
        expect((by_name.returncode, by_name.stderr) == (0, b""), f"by name it ends with {by_name}")
        here.expect_start(1, "without a link")


def changes_during_a_build_are_seen(path):
    """A source that changes while the program is built is in the next one, and not in this."""
    with repository(path) as here:
        here.write("bin/edit", "mod more; // edited meanwhile\n")
        status, _, errors = here.start("status")
        expect(status == 0 and "changed meanwhile" in errors, f"it ends with {status}: {errors!r}")
        made = here.path("crates/craft47/out/craft47").read_bytes()
        expect(b"edited" not in made[-40:], f"the program ends with {made[-40:]!r}")
        here.expect_start(2, "after an edit during a build")
        here.expect_start(2, "started again")


def each_change_of_a_source_is_noticed(path):
    """A source that is deleted, added or changed is noticed, also where the calendar says it is
    old; what no build reads is not."""
    with repository(path) as here:
        here.expect_start(1, "at first")
        here.path("crates/low/src/more.rt").unlink()
        here.expect_start(2, "without a source")
        here.write("crates/low/specs/More.antt", "")
        here.expect_start(3, "with an empty source more")
        here.write("crates/low/specs/Lib.antt", "-- Another.\n")
        here.expect_start(4, "with another definition")
        here.write("crates.txt", FILES["crates.txt"].replace("low:\n", "low: hex\n"))
        here.expect_start(5, "with another library")
        here.write("crates/low/src/tests.rt", "// Other tests.\n")
        here.write("crates/low/src/.lib.rt.swp", "")
        here.write("crates/low/must-fail/wrong.edit", "old: b\n")
        here.write("crates/other/src/lib.rt", "// Changed.\n")
        here.expect_start(5, "with changes that the program does not read")


def other_toolchains_are_noticed(path):
    """A program that another toolchain built is built anew; without any, a built one is started."""
    with repository(path) as here:
        without = {**here.environment, "PATH": str(make_path_without_rt(here))}
        status, output, errors = here.start("status", environment=without)
        expect(status == 1 and "rt is not on the path" in errors, f"without: {status} {errors!r}")
        here.expect_start(1, "at first")
        here.write("bin/identity", "stand-in 2\n")
        here.expect_start(2, "with another toolchain")
        ended = here.start("status", environment=without)
        expect(ended == (0, "", ""), f"built, and without a toolchain it ends with {ended}")


def make_path_without_rt(here):
    """Make a folder in which all commands are that the launcher needs but that of the toolchain."""
    folder = here.path("commands")
    folder.mkdir()
    Path(folder, "python3").symlink_to(sys.executable)
    Path(folder, "readlink").symlink_to(shutil.which("readlink"))
    return folder


def other_programs_are_replaced(path):
    """A program that the launcher does not know is built anew, unless its sources were noted."""
    prove = "tools/prove.py", "craft47"
    with repository(path) as here:
        here.expect_start(1, "at first")
        program = here.path("crates/craft47/out/craft47")
        program.unlink()
        shutil.copy(here.path("bin/program"), program)
        here.expect_start(2, "with a program that came from elsewhere")
        shutil.rmtree(program.parent)
        noting = lambda *words: subprocess.run(["python3", *prove, *words], cwd=here.top,
                                               env=here.environment, capture_output=True,
                                               text=True, check=True).stdout.strip()
        was = noting("--sources")
        program.parent.mkdir()
        text = FILES["crates/low/src/lib.rt"] + FILES["crates/low/src/more.rt"]
        program.write_bytes(here.path("bin/program").read_bytes() + text.encode())
        program.chmod(0o755)
        noting("--built", was)
        here.expect_start(2, "with a program that was noted")
        here.write("crates/low/src/more.rt", "// Changed.\n")
        noting("--built", was)
        here.expect_start(3, "with a program that was noted for other sources")


def launchers_wait_for_each_other(path):
    """Of two that are started at once one builds, and the other waits for it and builds nothing."""
    with repository(path) as here:
        two = [here.begin("status") for _ in range(2)]
        said = [started.communicate(timeout=PATIENCE)[1] for started in two]
        statuses = [started.returncode for started in two]
        expect(statuses == [0, 0], f"they end with {statuses}: {said}")
        waited = sum("waits for another" in errors for errors in said)
        expect((here.builds(), waited) == (1, 1), f"{here.builds()} builds, {waited} waited")
        here.expect_start(1, "started again")


def failed_builds_start_nothing(path):
    """Where the proof fails nothing is started, and the next start tries it again."""
    with repository(path) as here:
        here.expect_start(1, "at first")
        here.write("crates/low/src/lib.rt", "mod less;\n")
        here.write("bin/fault", "")
        for builds in (2, 3):
            status, output, errors = here.start("status")
            told = errors.endswith("craft47: the program was not built\n")
            expect((status, output, told) == (1, "", True), f"it ends with {status}: {errors!r}")
            expect(here.builds() == builds, f"{here.builds()} builds, not {builds}")
        here.path("bin/fault").unlink()
        here.expect_start(4, "without the fault")


TESTS = [
    launchers_build_once,
    launchers_replace_a_running_program,
    launchers_are_started_through_links,
    changes_during_a_build_are_seen,
    each_change_of_a_source_is_noticed,
    other_toolchains_are_noticed,
    other_programs_are_replaced,
    launchers_wait_for_each_other,
    failed_builds_start_nothing,
]
