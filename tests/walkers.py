"""Measures a server whose clients see much: python3 tests/walkers.py PROGRAM [TICKS]

One run of `PROGRAM serve` has 50 players in one view, of whom 49 walk in circles and turn for TICKS
(400) ticks. Another has 4,096 items lie in the view of two players that do nothing. For both it
prints the times between ticks, how many bytes a tick each client was sent, and the memory of the
server. It reads /proc, so it needs Linux; the status is 0 where nothing that came was wrong.

The ticks are watched by one player more in each run, as in soak.py.
"""

import sys
import time

import protocol
from client import SMALLEST_VIEW, TICK, Unexpected, expect, listen, log_in, pump, wait_for_others
from digging import MOST_ITEMS, dig_until_full
from flooded import circle_step
from program import Program
from soak import PLAYERS, Phases, log_in_walkers, say, walk_together
from watching import TickWatch

TICKS = 400


def walk_in_circles(walkers, steps):
    """Let all walk so many steps."""
    for _ in walk_together(walkers, steps, circle_step):
        pass


def measure_sent(what, phases, clients, action):
    """Measure a phase; answer how many bytes each client was sent in it."""
    before = [client.received for client in clients]
    phases.measure(what, action)
    return [client.received - was for client, was in zip(clients, before)]


def finish(what, phases, watch, clients, sent):
    """Say how ticks came, and how many bytes a tick each client was sent in one of the phases."""
    ticks = watch.finish().ticks
    phases.tell_ticks(ticks)
    count = max(1, len(phases.ticks_of(what, ticks)))
    mean, most = sum(sent) / len(sent) / count, max(sent) / count
    say(f"bytes a tick to each of {len(sent)} while {what}: {mean:.0f}, at most {most:.0f}")
    for client in clients:
        client.close()
    time.sleep(TICK)


def measure_players(path, steps):
    """Measure a server whose players all walk in the view of each other."""
    with Program(path, players=PLAYERS, view=SMALLEST_VIEW) as program:
        phases = Phases(program.usage)
        watch = TickWatch(program)
        logging_in = lambda: log_in_walkers(program.port, SMALLEST_VIEW)
        walkers = phases.measure(f"{PLAYERS - 1} more log in", logging_in)
        own = walkers[0].replica.joined.entity
        wait_for_others(walkers, walkers[0], set(range(1, PLAYERS + 1)) - {own})
        what = f"{PLAYERS - 1} walk in one view"
        sent = measure_sent(what, phases, walkers, lambda: walk_in_circles(walkers, steps))
        finish(what, phases, watch, walkers, sent)


def measure_items(path, steps):
    """Measure a server where as many items lie in the view of idle players as may."""
    with Program(path, players=PLAYERS, view=SMALLEST_VIEW) as program:
        phases = Phases(program.usage)
        watch = TickWatch(program)
        anna = log_in(program.port, "Anna")
        phases.measure(f"{MOST_ITEMS} cells are dug", lambda: dig_until_full(anna))
        logging_in = lambda: log_in(program.port, "Ben", [anna])
        ben = phases.measure("one more logs in", logging_in)
        idle = [anna, ben]
        pump(idle, lambda: len(ben.replica.items) == MOST_ITEMS)
        what = f"{MOST_ITEMS} items lie beside {len(idle)} idle players"
        sent = measure_sent(what, phases, idle, lambda: listen(idle, steps * TICK))
        expect(len(ben.replica.items) == MOST_ITEMS, f"{len(ben.replica.items)} items are shown")
        finish(what, phases, watch, idle, sent)


def main():
    """Read the arguments and measure; answer the status of the script."""
    if len(sys.argv) not in (2, 3):
        sys.exit(__doc__.splitlines()[0])
    steps = int(sys.argv[2]) if len(sys.argv) == 3 else TICKS
    try:
        measure_players(sys.argv[1], steps)
        measure_items(sys.argv[1], steps)
    except (Unexpected, protocol.Malformed) as error:
        say(f"FAILED {error}")
        return 1
    return 0


if __name__ == "__main__":
    sys.exit(main())
