"""Measures a server with 50 players of whom one floods it: python3 tests/soak.py PROGRAM N flood

One run of `PROGRAM serve` has 50 players for N minutes. One says nothing, again and again, at 5 MB
a second; one reads slowly; one watches the ticks; and all others walk in circles in one view and
throw away what they are sent. Figures are printed each minute and at the end. The status is 0 where
all of them stayed, the memory was flat, and no two ticks were too far apart.
"""

import math
import selectors
import time

import protocol
from client import Connection, ask_status, expect, log_in
from crowds import PLAYERS
from floods import TOLD_NOTHING, flood_of_chats, read_slowly
from play import status_text
from program import Program
from watching import LONGEST_WATCH, Beside, TickWatch

# How many walk, in how many processes, and how often a second.
WALKERS = PLAYERS - 3
CROWDS = 2
STEPS_A_SECOND = 20

# How large the circles are, in blocks, and how long a walker takes for one, in seconds.
RADIUS = 6.0
ROUND = 9.0

# How long the server is given until it is measured, and how often its memory is looked at.
WARMING_SECONDS = 10
LOOK_SECONDS = 2

# The longest time between two ticks, in seconds; and by how much more memory may be used in the
# second half of the time than in the first: a part of it, and some MiB.
LONGEST_GAP = 0.15
MORE_PART = 0.02
MORE_MEMORY = 1.0


def circle_step(number, seconds):
    """Say where a walker is that goes round in the first column, and how it looks then."""
    part = seconds / ROUND + number / PLAYERS
    x, z = (RADIUS * side(2 * math.pi * part) for side in (math.cos, math.sin))
    return protocol.position_look(8.0 + x, 4.0, 8.0 + z, 360.0 * (part % 1.0), 0.0)


def walk_in_a_crowd(port, numbers):
    """Let players walk in circles, until this process is ended; what comes is not looked at.

    A beat is answered by any number, so each says one now and then.
    """
    walkers = [Connection(port) for _ in numbers]
    begun = time.monotonic()
    with selectors.DefaultSelector() as selector:
        for number, walker in zip(numbers, walkers):
            login = protocol.login_start(f"Walker_{number}")
            walker.send(protocol.handshake(protocol.WANTS_LOGIN) + login)
            selector.register(walker, selectors.EVENT_READ)
        step = 0
        while True:
            step += 1
            throw_away(selector, begun + step / STEPS_A_SECOND)
            for number, walker in zip(numbers, walkers):
                beat = b"" if step % STEPS_A_SECOND else protocol.keep_alive(0)
                walker.send(circle_step(number, step / STEPS_A_SECOND) + beat)


def throw_away(selector, deadline):
    """Read what comes until some time, and forget it."""
    while (left := deadline - time.monotonic()) > 0:
        for key, _ in selector.select(left):
            key.fileobj.read()
            expect(not key.fileobj.ended, "a walker is closed")


def read_slowly_in_play(port):
    """Log one player in that reads slowly, until this process is ended."""
    read_slowly(log_in(port, "Slow"), LONGEST_WATCH)


def watch_memory(program, seconds):
    """Look at the memory of a server for so long, and find all players there; answer the looks."""
    begun = time.monotonic()
    looks = []
    minute = 0
    while (now := time.monotonic()) < begun + seconds:
        looks.append(program.usage.resident())
        if now >= begun + 60 * minute:
            told = ask_status(program.port)
            expect(told == status_text(PLAYERS, PLAYERS), f"after {minute} minutes: {told}")
            print(f"after {minute} minutes: {program.usage.state()}", flush=True)
            minute += 1
        time.sleep(LOOK_SECONDS)
    told = ask_status(program.port)
    expect(told == status_text(PLAYERS, PLAYERS), f"at the end: {told}")
    return looks


def check_flat(looks):
    """Find that a server used as much memory in the second half of some time as in the first."""
    middle = max(1, len(looks) // 2)
    first, second = max(looks[:middle]), max(looks[middle:] or looks)
    print(f"memory: at most {first:.1f} MiB in the first half, {second:.1f} MiB in the second")
    is_flat = second <= first * (1 + MORE_PART) + MORE_MEMORY
    expect(is_flat, f"the memory is not flat: {first:.1f} MiB, and then {second:.1f} MiB")


def check_ticks(seen):
    """Find that ticks came in time; what is told is less the time in which the watcher waited."""
    raw = max(after - before for before, after in zip(seen.ticks, seen.ticks[1:]))
    longest, latest = max(seen.gaps()), max(0.0, *seen.delays())
    print(f"ticks seen: {len(seen.ticks)}; longest time between two {1000 * longest:.0f} ms "
          f"({1000 * raw:.0f} ms with the watcher's own pauses); "
          f"an age was told at most {1000 * latest:.0f} ms late", flush=True)
    expect(longest <= LONGEST_GAP, f"{1000 * longest:.0f} ms between two ticks")


def soak(path, minutes):
    """Measure one run of the program for so many minutes."""
    crowds = [range(number, WALKERS, CROWDS) for number in range(CROWDS)]
    with Program(path, players=PLAYERS) as program:
        port, usage = program.port, program.usage
        watch = TickWatch(program, TOLD_NOTHING)
        walking = [Beside(walk_in_a_crowd, port, numbers) for numbers in crowds]
        with walking[0], walking[1], Beside(read_slowly_in_play, port):
            with Beside(flood_of_chats, port):
                time.sleep(WARMING_SECONDS)
                begun, before = time.monotonic(), usage.seconds()
                looks = watch_memory(program, 60 * minutes)
                ended, used = time.monotonic(), usage.seconds() - before
                print(f"{100 * used / (ended - begun):.1f} % of a processor", flush=True)
                seen = watch.finish().between(begun, ended)
        check_flat(looks)
        check_ticks(seen)
