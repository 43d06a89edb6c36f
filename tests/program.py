"""The program under test, as a process of its own (docs/COMMANDS.md, `serve`)."""

import os
import resource
import selectors
import socket
import subprocess
import time

from client import HOST, PATIENCE, Unexpected, expect

ENDLESS = 1_000_000


def free_port():
    """Ask the system for a port that nothing uses now."""
    with socket.socket() as asked:
        asked.bind((HOST, 0))
        return asked.getsockname()[1]


class Program:
    """One run of `serve`, which is ended in every case when the `with` block is left."""

    def __init__(self, path, environment=None, limits=None, output=subprocess.PIPE, **options):
        self.port = options.get("port") or free_port()
        named = {"port": self.port, "ticks": ENDLESS, **options}
        arguments = [f"{name}={value}" for name, value in named.items()]
        self.errors = b""
        self.is_finished = False
        self.process = subprocess.Popen(
            [path, "serve", *arguments],
            stdin=subprocess.DEVNULL,
            stdout=output,
            stderr=subprocess.PIPE,
            env=environment,
            preexec_fn=limits,
        )
        self.usage = Usage(self.process.pid)

    def __enter__(self):
        try:
            self.wait_for_listening()
        except BaseException:
            self.stop()
            raise
        return self

    def __exit__(self, kind, *_):
        was_running = self.process.poll() is None
        output, errors = self.stop()
        if kind is None and not self.is_finished:
            expect(was_running, f"the program ended by itself with {self.process.returncode}")
            expect(not (output or b"") + errors, f"the program said {output!r} and {errors!r}")

    def wait_for_listening(self):
        """Wait until the program says on standard error that it listens."""
        deadline = time.monotonic() + PATIENCE
        with selectors.DefaultSelector() as selector:
            selector.register(self.process.stderr, selectors.EVENT_READ)
            while not self.errors.endswith(b"\n"):
                expect(selector.select(max(0, deadline - time.monotonic())), "it does not listen")
                said = os.read(self.process.stderr.fileno(), 4096)
                expect(said, f"standard error ends after {self.errors!r}")
                self.errors += said
        said = self.errors.decode()
        expect(said == f"listening on {HOST}:{self.port}\n", f"standard error says {said!r}")

    def finish(self, patience=PATIENCE):
        """Wait for the end; answer the status and what stands on both outputs."""
        self.is_finished = True
        try:
            output, errors = self.process.communicate(timeout=patience)
        except subprocess.TimeoutExpired as error:
            raise Unexpected(f"it still runs after {patience} s") from error
        return self.process.returncode, (output or b"").decode(), (self.errors + errors).decode()

    def kill(self):
        """End the process at once, as nothing can catch."""
        self.is_finished = True
        self.process.kill()
        self.process.communicate()

    def stop(self):
        """End the process where it still runs; answer what it said since it listened."""
        if self.is_finished and self.process.returncode is not None:
            return b"", b""
        self.process.terminate()
        try:
            return self.process.communicate(timeout=PATIENCE)
        except subprocess.TimeoutExpired:
            self.process.kill()
            return self.process.communicate()


def run(path, *arguments, patience=PATIENCE, output=subprocess.PIPE, **options):
    """Run the program to its end, with `input` or `stdin` where one is given; answer its status and
    what stands on both outputs."""
    given = {} if "input" in options else {"stdin": subprocess.DEVNULL}
    try:
        done = subprocess.run(
            [path, *arguments],
            stdout=output,
            stderr=subprocess.PIPE,
            timeout=patience,
            check=False,
            **{**given, **options},
        )
    except subprocess.TimeoutExpired as error:
        raise Unexpected(f"{' '.join(arguments)} still runs after {patience} s") from error
    return done.returncode, (done.stdout or b"").decode(), done.stderr.decode()


def limited(limit, most):
    """Make what gives a process a limit of the system, as `ulimit` does, before it begins."""
    return lambda: resource.setrlimit(limit, (most, most))


class Usage:
    """What the system tells of a process in /proc."""

    def __init__(self, number):
        self.folder = f"/proc/{number}"

    def seconds(self):
        """Answer the processor time up to now, of the process and of the system for it."""
        with open(f"{self.folder}/stat", encoding="ascii") as told:
            fields = told.read().rpartition(")")[2].split()
        return (int(fields[11]) + int(fields[12])) / os.sysconf("SC_CLK_TCK")

    def resident(self):
        """Answer the resident memory in MiB."""
        with open(f"{self.folder}/status", encoding="ascii") as told:
            lines = dict(line.split(":", 1) for line in told)
        return int(lines["VmRSS"].split()[0]) / 1024

    def waited(self):
        """Answer how many seconds it could have run up to now, and waited for a processor."""
        with open(f"{self.folder}/schedstat", encoding="ascii") as told:
            return int(told.read().split()[1]) / 1e9

    def descriptors(self):
        """Answer how many descriptors are open."""
        return len(os.listdir(f"{self.folder}/fd"))

    def state(self):
        """Write memory and descriptors down."""
        return f"{self.resident():.1f} MiB resident, {self.descriptors()} descriptors"
