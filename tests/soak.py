"""Measures a running server: python3 tests/soak.py PROGRAM [MINUTES [flood]]

With `flood` see flooded.py. Else one run of `PROGRAM serve` for 50 players is left alone, gets 50
idle players, has 49 of them walk for MINUTES (10) at a view of 6 while one watches the ticks, and
then gets 10,000 connections one after another and as many status pings as it answers. Figures are
printed as they come. It reads /proc, so it needs Linux; the status is 0 where nothing that came was
wrong.

Most ticks send a client nothing of themselves; the one that watches has itself sent its place in
each (see `Ticker` in client.py and watching.py), in a process of its own, and notes when it reads
that. All of them answer their beats.
"""

import math
import selectors
import socket
import sys
import time

import flooded
import protocol
from client import (
    HOST,
    PATIENCE,
    Client,
    Connection,
    Unexpected,
    expect,
    listen,
    wait_for_view,
)
from columns import column_at
from play import status_text
from program import Program
from protocol import Frames
from terrain import Flat
from watching import TickWatch

PLAYERS = 50
VIEW = 6
IDLE_SECONDS = 30
STEPS_A_SECOND = 20
BLOCKS_A_SECOND = 4.0

CONNECTIONS = 10_000
PINGERS = 8
PING_SECONDS = 5

LATE_TICK = 0.1
MINUTES = 10.0
SETTLING_SECONDS = 2


class Walker(Connection):
    """A player whose frames are counted, and not looked into."""

    def __init__(self, port):
        super().__init__(port)
        self.frames = Frames()
        self.count = 0

    def log_in(self, name):
        """Log in, and ask for the largest view."""
        hello = protocol.handshake(protocol.WANTS_LOGIN) + protocol.login_start(name)
        self.send(hello + protocol.settings(VIEW))

    def take(self, data):
        """Count frames; answer a beat by the same bytes, and find that none is a Disconnect."""
        self.frames.feed(data)
        payload = self.frames.take()
        while payload is not None:
            self.count += 1
            expect(self.count > 1 or payload[0] == 0x02, f"no login: {payload}")
            expect(payload[0] != 0x40, f"a farewell: {payload}")
            if payload[0] == 0x00:
                self.send(protocol.frame(payload))
            payload = self.frames.take()


class CheckedWalker(Client):
    """A player whose packets are all folded into a replica."""

    def log_in(self, name):
        """Log in, and ask for the largest view."""
        self.begin_login(name)
        self.send(protocol.settings(VIEW))

    def take_packet(self, packet):
        """Fold a packet, and keep none."""
        super().take_packet(packet)
        self.forget_news()


class Pinger(Connection):
    """A connection that asks for the status and for a Pong, and keeps what comes."""

    asked = protocol.handshake(protocol.WANTS_STATUS) + protocol.request() + protocol.ping(9)

    def __init__(self, port):
        super().__init__(port)
        self.came = b""
        self.send(self.asked)

    def take(self, data):
        """Keep what comes."""
        self.came += data


def say(text):
    """Print a figure at once."""
    print(text, flush=True)


class Phases:
    """What was done with a server, one thing after another, and when."""

    def __init__(self, usage):
        self.usage = usage
        self.times = []

    def measure(self, what, action):
        """Do something, and say how much of a processor the server used meanwhile."""
        begun, before = time.monotonic(), self.usage.seconds()
        answer = action()
        ended, used = time.monotonic(), self.usage.seconds() - before
        share = 100 * used / (ended - begun)
        say(f"{what}: {ended - begun:.1f} s, {share:.2f} % of a processor, {self.usage.state()}")
        self.times.append((what, begun, ended))
        return answer

    def ticks_of(self, what, ticks):
        """Answer the ticks of one of the phases, of the times at which one client saw them."""
        _, begun, ended = next(phase for phase in self.times if phase[0] == what)
        return [tick for tick in ticks if begun <= tick <= ended]

    def tell_ticks(self, ticks):
        """Say of each phase how the ticks came in it, by the times at which one client saw them."""
        for what, _, _ in self.times:
            seen = self.ticks_of(what, ticks)
            gaps = sorted(after - before for before, after in zip(seen, seen[1:]))
            if gaps:
                say(f"ticks while {what}: {len(seen)}, {gaps_text(gaps)}")


def gaps_text(gaps):
    """Write sorted times between ticks down."""
    late = sum(1 for gap in gaps if gap > LATE_TICK)
    longest, middle, mean = gaps[-1], gaps[len(gaps) // 2], sum(gaps) / len(gaps)
    above = f"{late} times above {1000 * LATE_TICK:.0f} ms"
    usual = f"median {1000 * middle:.1f} ms, mean {1000 * mean:.1f} ms"
    return f"longest time between two {1000 * longest:.0f} ms, {above}, {usual}"


def log_in_walkers(port, view=VIEW):
    """Log all in that walk, with a view; the first one's packets are folded into a replica."""
    walkers = [CheckedWalker(port)] + [Walker(port) for _ in range(PLAYERS - 2)]
    for number, walker in enumerate(walkers):
        walker.log_in(f"Walker_{number}")
    checked = walkers[0]
    wait_for_view(walkers, checked, column_at(8.5, 8.5), view)
    listen(walkers, 1)
    return walkers


def place_at(number, seconds):
    """Answer where a walker is that walks straight on in its own direction."""
    direction = 2 * math.pi * number / (PLAYERS - 1)
    way = BLOCKS_A_SECOND * seconds
    return 8.5 + way * math.cos(direction), 4.0, 8.5 + way * math.sin(direction)


def walk_together(walkers, steps, step_of):
    """Let all do so many steps in time, and say by how much one was late; yield behind each.

    `step_of` makes a walker's packet by its number and by how long all have walked.
    """
    begun = time.monotonic()
    latest = 0.0
    for step in range(1, steps + 1):
        due = begun + step / STEPS_A_SECOND
        listen(walkers, max(0.001, due - time.monotonic()))
        latest = max(latest, time.monotonic() - due)
        for number, walker in enumerate(walkers):
            walker.send(step_of(number, step / STEPS_A_SECOND))
        yield step
    ended = [number for number, walker in enumerate(walkers) if walker.ended]
    expect(not ended, f"closed while they walked: {ended}")
    say(f"  the walkers' own latest step was {1000 * latest:.0f} ms late")


def walk(walkers, usage, minutes):
    """Let all walk for so many minutes, and say after each how the server stands."""
    steps = round(60 * minutes * STEPS_A_SECOND)
    step_of = lambda number, seconds: protocol.position(*place_at(number, seconds))
    for step in walk_together(walkers, steps, step_of):
        if step % (60 * STEPS_A_SECOND) == 0:
            say(f"  after minute {step // (60 * STEPS_A_SECOND)}: {usage.state()}")


def check_walkers(walkers, minutes):
    """Find that the first walker was shown just its view, and say what all were sent."""
    checked = walkers[0]
    x, _, z = place_at(0, 60 * minutes)
    wait_for_view(walkers, checked, column_at(x, z), VIEW)
    checked.check_blocks(Flat())
    expect(len(checked.replica.players) == PLAYERS, f"the list is {checked.replica.names()}")
    frames = sum(walker.count for walker in walkers[1:])
    sent = sum(walker.received for walker in walkers) / 2**20
    say(f"the walkers were sent {sent:.0f} MiB, all but one of them {frames} frames")


def drop_connections(port):
    """Open and drop connections one after another."""
    for _ in range(CONNECTIONS):
        socket.create_connection((HOST, port), timeout=PATIENCE).close()


def ping_for(port, seconds):
    """Ask for statuses on some connections at a time; answer how many were answered whole."""
    told = protocol.packet(0x00, protocol.text(status_text(PLAYERS, 0)))
    due = told + protocol.packet(0x01, Pinger.asked[-8:])
    done = 0
    deadline = time.monotonic() + seconds
    with selectors.DefaultSelector() as selector:
        for _ in range(PINGERS):
            selector.register(Pinger(port), selectors.EVENT_READ)
        while time.monotonic() < deadline:
            for key, _ in selector.select(PATIENCE):
                done += next_ping(selector, key.fileobj, port, due)
        for key in list(selector.get_map().values()):
            key.fileobj.close()
    return done


def next_ping(selector, pinger, port, due):
    """Read what came for a ping; where that is all, begin another and count it."""
    pinger.read()
    if not pinger.ended:
        return 0
    expect(pinger.came == due, f"a ping is answered by {pinger.came.hex()}")
    selector.unregister(pinger)
    pinger.close()
    selector.register(Pinger(port), selectors.EVENT_READ)
    return 1


def soak(path, minutes):
    """Measure one run of the program from idle to crowded."""
    with Program(path, players=PLAYERS, view=VIEW) as program:
        port, usage = program.port, program.usage
        phases = Phases(usage)
        phases.measure("nobody is connected", lambda: time.sleep(IDLE_SECONDS))
        soak_players(program, phases, minutes)
        say(f"all have left: {usage.state()}")
        phases.measure(f"{CONNECTIONS} connect and leave", lambda: drop_connections(port))
        time.sleep(SETTLING_SECONDS)
        say(f"all have left: {usage.state()}")
        done = phases.measure("statuses are asked for", lambda: ping_for(port, PING_SECONDS))
        say(f"{done / PING_SECONDS:.0f} statuses with a Pong a second, {PINGERS} at a time")


def soak_players(program, phases, minutes):
    """Measure a server with players: how they get in, stand still and walk."""
    watch = TickWatch(program)
    logging_in = lambda: log_in_walkers(program.port)
    walkers = phases.measure(f"{PLAYERS - 1} more log in", logging_in)
    phases.measure(f"{PLAYERS} stand still", lambda: listen(walkers, IDLE_SECONDS))
    phases.measure(f"{PLAYERS - 1} walk", lambda: walk(walkers, phases.usage, minutes))
    check_walkers(walkers, minutes)
    phases.tell_ticks(watch.finish().ticks)
    for walker in walkers:
        walker.close()
    time.sleep(SETTLING_SECONDS)


def main():
    """Read the arguments and measure; answer the status of the script."""
    path, *words = sys.argv[1:] or sys.exit(__doc__.splitlines()[0])
    minutes = float(words[0]) if words else MINUTES
    measure = {(): soak, ("flood",): flooded.soak}.get(tuple(words[1:]))
    if measure is None:
        sys.exit(__doc__.splitlines()[0])
    try:
        measure(path, minutes)
    except (Unexpected, protocol.Malformed) as error:
        say(f"FAILED {error}")
        return 1
    return 0


if __name__ == "__main__":
    sys.exit(main())
