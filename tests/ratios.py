"""Measures what a server's work grows with: python3 tests/ratios.py PROGRAM [NAME]..

Each row is a ratio of two costs within one run, so that it matters little how busy the machine is:
instructions, counted by `valgrind --tool=callgrind` where that is there, or the processor time of
the program. A line tells each: the ratio, what is asked, and the two costs. The status is 0 where
each ratio that was measured is as asked, 1 where one is not, and 3 where none is missed but some
were left out, by name, for want of `valgrind`. With names of rows it measures those alone.
docs/PERFORMANCE.md has what each is about.
"""

import os
import re
import resource
import shutil
import subprocess
import sys
import tempfile
import time

import protocol
from client import Unexpected

DIG_DROP_ONE = 4
KIT_PLACES = ((0, 64), (1, 64), (2, 64), (3, 4))

TINY = bytes.fromhex("020301")

# The function that shows a tick to all clients: what a tick costs without the text of `replay`.
SHOWING = ("mc_events::server::Server::show::*",)

# And that which takes the bytes of a client.
SERVING = (*SHOWING, "mc_events::server::Server::bytes")

# What the load of 50 clients and 400 ticks hands out, and the piece in which it is copied.
LOAD_BYTES = 62_197_299
PIECE = 65_536


class Script:
    """A script of events for `replay`."""

    def __init__(self, lines=()):
        self.lines = list(lines)

    def and_then(self):
        """Answer a script that begins as this one."""
        return Script(self.lines)

    def join(self, number, name, view=2, place=None):
        """Let a client come, ask for a view, and stand at a place."""
        self.lines.append(f"join {number}")
        packets = protocol.handshake(protocol.WANTS_LOGIN) + protocol.login_start(name)
        packets += protocol.settings(view)
        self.send(number, packets + (protocol.position(*place) if place else b""))

    def send(self, number, data):
        """Let a client send bytes in one event."""
        self.lines.append(f"bytes {number} {data.hex()}")

    def tick(self, count=1):
        """Let ticks come."""
        self.lines.append(f"tick {count}")

    def gone(self, number):
        """Let a client leave."""
        self.lines.append(f"gone {number}")

    def text(self):
        """Write the script."""
        return ("\n".join(self.lines) + "\n").encode()


def instructions(path, words, text, inside=()):
    """Count the instructions of a run, or those inside some functions alone."""
    with tempfile.NamedTemporaryFile() as out:
        options = ["--tool=callgrind", f"--callgrind-out-file={out.name}"]
        options += [f"--toggle-collect={it}" for it in inside]
        done = subprocess.run(
            ["valgrind", *options, path, *words],
            input=text, stdout=subprocess.DEVNULL, stderr=subprocess.PIPE, check=False)
    found = re.search(rb"Collected : (\d+)", done.stderr)
    if done.returncode or not found:
        raise Unexpected(f"{words} ends with {done.returncode}: {done.stderr[-300:]!r}")
    return int(found[1])


def user_seconds(path, words):
    """Measure the processor time of a run, its least of three."""
    least = None
    for _ in range(3):
        before = resource.getrusage(resource.RUSAGE_CHILDREN).ru_utime
        subprocess.run([path, *words], stdout=subprocess.DEVNULL, check=True)
        took = resource.getrusage(resource.RUSAGE_CHILDREN).ru_utime - before
        least = took if least is None else min(least, took)
    return least


def added(path, words, before, after, inside=()):
    """Count the instructions of what a script has more than another."""
    costs = [instructions(path, words, it.text(), inside) for it in (before, after)]
    return costs[1] - costs[0]


def replay(view, land="flat"):
    """The arguments of a replay."""
    return ["replay", "players=50", f"view={view}", f"land={land}"]


def beside_items():
    """Those where items are the measure: a land whose columns have hardly a block to be sent."""
    return replay(2, "isle")


def beside(items, watchers):
    """Items that lie at the spawn place, one by one, and clients that stand still beside them."""
    script, number = Script(), 0
    left = items
    while left:
        script.join(number, f"D{number}")
        script.tick()
        for place, most in KIT_PLACES:
            script.send(number, protocol.held(place))
            drops = min(left, most)
            script.send(number, drops * protocol.digging(DIG_DROP_ONE, (0, 0, 0), 0) or TINY)
            left -= drops
        script.gone(number)
        number += 1
    for watcher in range(watchers):
        script.join(1000 + watcher, f"W{watcher}", place=(14.5, 64.0, 2.5 + watcher % 8))
    script.tick(4)
    return script


def loses_all(script, watchers):
    """The same, and a tick in which the clients go where nobody sees any of it."""
    later = script.and_then()
    for watcher in range(watchers):
        later.send(1000 + watcher, protocol.position(4000.5, 64.0, 8.5))
    later.tick()
    return later


def ticked(script, count=1):
    """The same, and ticks more."""
    later = script.and_then()
    later.tick(count)
    return later


def apart(clients, view):
    """Clients that stand still, none in the view of another."""
    script = Script()
    for number in range(clients):
        script.join(number, f"A{number}", view, (800.5 * number + 8.5, 4.0, 8.5))
    script.tick(2)
    return script


def load_to_copy(path):
    """The user time of a load to that of copying what it hands out once, within the caches."""
    source, copy, least = os.urandom(PIECE), memoryview(bytearray(PIECE)), None
    for _ in range(9):
        begun = time.perf_counter()
        for _ in range(LOAD_BYTES // PIECE):
            copy[:] = source
        took = time.perf_counter() - begun
        least = took if least is None else min(least, took)
    return user_seconds(path, ["load", "n=50", "ticks=400"]), least


def items_lost(path):
    """A tick in which one client loses sight of 4,096 items, to one in which it loses 1,024."""
    costs = []
    for items in (4096, 1024):
        script = beside(items, 1)
        costs.append(added(path, beside_items(), script, loses_all(script, 1)))
    return tuple(costs)


def items_lost_by_all(path):
    """The tick in which 50 clients lose sight of 4,096 items, to the idle tick before it.

    What shows a tick is counted alone: in the first most of a run is the text of new columns.
    """
    script = beside(4096, 50)
    lost = added(path, beside_items(), script, loses_all(script, 50), SHOWING)
    return lost, added(path, beside_items(), script, ticked(script), SHOWING)


def idle_with_items(path):
    """An idle tick of 50 clients that see 4,096 items, to one of 50 that see none."""
    costs = []
    for items in (4096, 0):
        script = beside(items, 50)
        costs.append(added(path, beside_items(), script, ticked(script)))
    return tuple(costs)


def idle_by_view(path, clients):
    """An idle tick at a view of 8 columns to one at a view of 2."""
    costs = []
    for view in (8, 2):
        script = apart(clients, view)
        costs.append(added(path, replay(view), script, ticked(script, 10)) // 10)
    return tuple(costs)


def idle_many_by_view(path):
    """An idle tick of 50 clients apart, at a view of 8 to one of 2."""
    return idle_by_view(path, 50)


def idle_one_by_view(path):
    """An idle tick of one client, at a view of 8 to one of 2."""
    return idle_by_view(path, 1)


def status_to_replay(path):
    """A Request in `status` to a tiny frame in `replay`, of 10,000 in one line."""
    many = 10_000
    hello = protocol.handshake(protocol.WANTS_STATUS)
    asks = added(path, ["status"], Script([hello.hex()]),
                 Script([hello.hex(), (many * protocol.request()).hex()]))
    script = apart(1, 2)
    later = script.and_then()
    later.send(0, many * TINY)
    return asks // many, added(path, replay(2), script, later) // many


def crowd(connections):
    """One client in play, and connections that said nothing."""
    script = apart(1, 2)
    for number in range(1, connections):
        script.lines.append(f"join {number + 100}")
    return script


def frame_by_connections(path):
    """A tiny frame in an event of 2,000, with 66 connections to one with 1."""
    costs = []
    for connections in (66, 1):
        script = crowd(connections)
        one, many = script.and_then(), script.and_then()
        one.send(0, TINY)
        many.send(0, 2000 * TINY)
        costs.append(added(path, replay(2), one, many) // 1999)
    return tuple(costs)


def event_by_connections(path):
    """An event of one byte, with 66 connections to one with 1."""
    costs = []
    for connections in (66, 1):
        script = crowd(connections)
        later = script.and_then()
        for _ in range(200):
            for byte in TINY:
                later.send(0, bytes([byte]))
        costs.append(added(path, replay(2), script, later) // 600)
    return tuple(costs)


def line_by_clients(path):
    """A line of chat, from its coming to the tick that shows it, with 50 clients to one with 1.

    What takes it and shows it is counted alone: else most is the text of what clients are sent.
    """
    costs, many = [], 64
    for clients in (50, 1):
        script = apart(clients, 2)
        later = script.and_then()
        for number in range(many):
            later.send(0, protocol.chat(f"the line of number {number}"))
        costs.append(added(path, replay(2), ticked(script), ticked(later), SERVING) // many)
    return tuple(costs)


# Each row with the most that is asked of it, and whether it counts instructions.
ROWS = (
    (load_to_copy, 35.0, False),
    (items_lost, 4.5, True),
    (items_lost_by_all, 2.0, True),
    (idle_with_items, 25.0, True),
    (idle_many_by_view, 2.5, True),
    (idle_one_by_view, 1.5, True),
    (status_to_replay, 2.5, True),
    (frame_by_connections, 1.15, True),
    (event_by_connections, 2.0, True),
    (line_by_clients, 1.3, True),
)


def main(path, names):
    """Measure the rows of these names, or all; answer the status of the script."""
    missed, left_out = 0, 0
    for row, asked, counts in ROWS:
        if names and row.__name__ not in names:
            continue
        if counts and not shutil.which("valgrind"):
            print(f"{row.__name__} left out: there is no valgrind", flush=True)
            left_out += 1
            continue
        one, other = row(path)
        ratio = one / other
        missed += ratio > asked
        sign = "more than" if ratio > asked else "within"
        print(f"{row.__name__} {ratio:.2f}, {sign} {asked}: {one} to {other}", flush=True)
    return 1 if missed else 3 if left_out else 0


if __name__ == "__main__":
    if len(sys.argv) < 2:
        sys.exit(__doc__.splitlines()[0])
    sys.exit(main(sys.argv[1], sys.argv[2:]))
