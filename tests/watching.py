"""How the ticks of a server come, as clients see it, whatever else the machine has to do.

A busy machine lets a process wait, and what a client sees late need not have come late. So while
ticks are watched a thread notes when this process did not run, and that time is left out; and so is
the time for which the server waited for a processor, where ages are looked at.
"""

import bisect
import multiprocessing
import threading
import time
from typing import NamedTuple

from client import PATIENCE, SMALLEST_VIEW, TICK, Ticker, expect, pump, wait_for_view
from clientbound import Time
from columns import column_at
from program import Usage
from replica import SHOWN_TICKS

LONGEST_WATCH = 86_400.0

# How long the thread sleeps that notes pauses, and what it calls a pause.
NAP = 0.002
PAUSE = 0.01


class Pauses:
    """The times in which this process did not run, noted while the `with` block goes on."""

    def __init__(self):
        self.noted = []
        self.is_over = threading.Event()
        self.thread = threading.Thread(target=self.note, daemon=True)

    def __enter__(self):
        self.thread.start()
        return self

    def __exit__(self, *_):
        self.is_over.set()
        self.thread.join()

    def note(self):
        """Nap again and again, and note each nap that was much too long."""
        before = time.monotonic()
        while not self.is_over.wait(NAP):
            now = time.monotonic()
            if now - before > PAUSE:
                self.noted.append((before, now))
            before = now


class Sighting:
    """When a client saw ticks and times, and when it did not run."""

    def __init__(self, ticks, ages, pauses):
        self.ticks = ticks
        self.ages = ages
        self.pauses = pauses

    def between(self, begun, ended):
        """Answer what was seen between two times."""
        ticks = [tick for tick in self.ticks if begun <= tick <= ended]
        ages = [told for told in self.ages if begun <= told[0] <= ended]
        return Sighting(ticks, ages, self.pauses)

    def paused(self, begun, ended):
        """Answer how long the client did not run between two times; pauses are in their order."""
        first = max(0, bisect.bisect(self.pauses, (begun, begun)) - 1)
        last = bisect.bisect(self.pauses, (ended, ended))
        parts = (min(ended, after) - max(begun, before) for before, after in self.pauses[first:last])
        return sum(part for part in parts if part > 0)

    def gaps(self):
        """Answer the times between ticks in which the client ran."""
        pairs = zip(self.ticks, self.ticks[1:])
        return [after - before - self.paused(before, after) for before, after in pairs]

    def delays(self):
        """Answer by how much later than the one before each time was told than it was due."""
        pairs = zip(self.ages, self.ages[1:])
        return [
            when - before - (age - younger) * TICK - self.paused(before, when) - (waited - less)
            for (before, younger, less), (when, age, waited) in pairs
        ]


class Watcher(Ticker):
    """A client that sees the ticks, notes when each age is told, and drops a frame that floods it.

    To read each of such frames as it reads all others would take it longer than they take to come.
    """

    def __init__(self, program, dropped=b""):
        super().__init__(program.port)
        self.usage = program.usage
        self.dropped = dropped
        self.ages = []

    def take(self, data):
        """Take what came, without the frames that are whole in it and are dropped."""
        super().take(data.replace(self.dropped, b"") if self.dropped else data)

    def take_packet(self, packet):
        """Note when an age came."""
        super().take_packet(packet)
        if type(packet) is Time:
            self.ages.append((time.monotonic(), packet.age, self.usage.waited()))
        self.packets.clear()
        self.replica.chat.clear()


class Watched(NamedTuple):
    """Where a program listens, and what the system tells of it."""

    port: int
    usage: Usage


def watch_ticks(program, dropped, pipe):
    """Watch the ticks, in a process of its own, until it is asked when they came."""
    with Watcher(program, dropped) as watcher, Pauses() as pauses:
        watcher.begin_login("Watcher")
        wait_for_view([watcher], watcher, column_at(8.5, 8.5), SMALLEST_VIEW)
        pipe.send("in play")
        pump([watcher], pipe.poll, LONGEST_WATCH)
        pipe.send((watcher.ticks, watcher.ages, pauses.noted))


class TickWatch:
    """The process that watches the ticks."""

    def __init__(self, program, dropped=b""):
        self.pipe, other = multiprocessing.Pipe()
        watch = (Watched(program.port, program.usage), dropped, other)
        self.process = multiprocessing.Process(target=watch_ticks, args=watch, daemon=True)
        self.process.start()
        expect(self.pipe.poll(PATIENCE) and self.pipe.recv() == "in play", "no ticks are seen")

    def finish(self):
        """Log the watcher out, and answer what it saw."""
        self.pipe.send("stop")
        expect(self.pipe.poll(PATIENCE), "the ticks are not told")
        sighting = Sighting(*self.pipe.recv())
        self.process.join(PATIENCE)
        return sighting


class Beside:
    """Something that is done again and again in a process of its own, while the block goes on."""

    def __init__(self, action, *arguments):
        self.process = multiprocessing.Process(target=action, args=arguments, daemon=True)

    def __enter__(self):
        self.process.start()
        return self

    def __exit__(self, *_):
        self.process.terminate()
        self.process.join()


def check_gaps(sighting, most):
    """Find that no two ticks were further apart than they may be; say how far they were."""
    longest = max(sighting.gaps(), default=None)
    expect(longest is not None, "no ticks are seen")
    expect(longest <= most, f"{longest:.3f} s between two ticks")
    return f"longest time between two ticks {longest:.3f} s"


def check_ages(sighting, most):
    """Find that each age was told in time, so no tick was left out; say how late one was."""
    ages = sighting.ages
    expect(len(ages) > 1, "no ages are told")
    told = [age for _, age, _ in ages]
    due = list(range(told[0], told[0] + SHOWN_TICKS * len(told), SHOWN_TICKS))
    expect(told == due, f"the ages {told} are told, not {due}")
    latest = max(0.0, *sighting.delays())
    expect(latest <= most, f"an age is told {latest:.3f} s too late")
    return f"ages are told at most {latest:.3f} s too late"
