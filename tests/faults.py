"""Tests of clients that misbehave: each is closed alone, with its reason, and the others go on.

Sources: docs/WORLD.md ('Connections and events', 'Logging in') and docs/PROTOCOL.md ('Frames',
'Packets'). The words of a reason are this server's own.
"""

import math
import random
import time

import protocol
from client import (
    SMALLEST_VIEW,
    TICK,
    Client,
    Connection,
    Ticker,
    ask_status,
    expect,
    expect_farewell,
    expect_refusal,
    log_in,
    listen,
    pump,
    wait_for_end,
    wait_for_names,
    wait_for_view,
)
from columns import column_at
from play import status_text
from program import Program
from watching import Pauses, Sighting, check_gaps

BAD_FRAME = "Bad frame."
BAD_PACKET = "Bad packet."
BAD_NUMBER = "Bad number."

# A length of three bytes that goes on.
LONG_LENGTH = b"\x80\x80\x80"

# Good frames that come behind a bad one, which makes nothing of them.
MANY_MORE = protocol.position(900.0, 5.0, 900.0) * 30_000

# After so many jumps into another view who reads none of them is owed more than may be.
MOST_JUMPS = 100

# The longest time between two ticks while a player jumps from one view to another, in seconds.
IN_TIME = 1.0


def bad_frames_close(path):
    """A bad frame closes its sender alone, whatever comes behind it."""
    with Program(path) as program:
        watcher = log_in(program.port, "Wanda")
        for bad in (LONG_LENGTH + MANY_MORE, LONG_LENGTH, b"\x00", b"\x81\x80"):
            expect_play_closed(program.port, watcher, bad, BAD_FRAME)
        expect_early_closed(program.port, LONG_LENGTH + MANY_MORE, BAD_FRAME)
        expect_early_closed(program.port, b"\x00" + protocol.login_start("Late"), BAD_FRAME)
        expect_goes_on(program.port, watcher)


def bad_packets_close(path):
    """A frame that is no packet of its stage closes its sender alone."""
    no_id = protocol.packet(0x7F)
    behind = protocol.frame(protocol.position(1.0, 2.0, 3.0)[1:] + b"\x00")
    cut = protocol.frame(protocol.position(1.0, 2.0, 3.0)[1:-1])
    no_text = protocol.packet(0x01, b"\x02\xC3\x28")
    with Program(path) as program:
        watcher = log_in(program.port, "Wanda")
        for bad in (no_id, behind, cut, no_text, no_id + MANY_MORE):
            expect_play_closed(program.port, watcher, bad, BAD_PACKET)
        expect_early_closed(program.port, protocol.packet(0x7F), BAD_PACKET)
        expect_early_closed(program.port, protocol.login_start("x" * 17), BAD_PACKET)
        expect_early_closed(program.port, protocol.packet(0x00, b"\x02a"), BAD_PACKET)
        expect_nothing_told(program.port, protocol.handshake(3) + protocol.request())
        expect_goes_on(program.port, watcher)


def bad_numbers_close(path):
    """A move with a number that stands for none closes its sender alone."""
    with Program(path) as program:
        watcher = log_in(program.port, "Wanda")
        for bad in (
            protocol.position(math.nan, 64.0, 0.0),
            protocol.position(0.0, math.inf, 0.0),
            protocol.position_look(0.0, 64.0, -math.inf, 0.0, 0.0),
            protocol.look(math.nan, 0.0) + MANY_MORE,
        ):
            expect_play_closed(program.port, watcher, bad, BAD_NUMBER)
        expect_goes_on(program.port, watcher)


def expect_play_closed(port, watcher, bad, reason):
    """Find that a client in play is closed for bytes, and leaves the list of another."""
    victim = log_in(port, "Victor", [watcher])
    wait_for_names([victim, watcher], watcher, ["Victor", "Wanda"])
    victim.send(bad)
    if bad == b"\x81\x80":
        victim.send(b"\x80")
    expect_farewell(victim, reason, [watcher])
    victim.close()
    wait_for_names([watcher], watcher, ["Wanda"])


def expect_early_closed(port, bad, reason):
    """Find that bytes close a client that logs in, with a reason."""
    with Client(port) as client:
        client.stage = protocol.LOGIN
        client.send(protocol.handshake(protocol.WANTS_LOGIN) + bad)
        expect_refusal(client, reason)


def expect_nothing_told(port, bad):
    """Find that bytes close a client that has no farewell before its first packet."""
    with Client(port) as client:
        client.send(bad)
        wait_for_end([client], client)
        expect(client.received == 0, f"{client.received} bytes of farewell")


def expect_goes_on(port, watcher):
    """Find that early faults are told nothing, and that a client in play is served as before."""
    expect_nothing_told(port, LONG_LENGTH + MANY_MORE)
    with Client(port) as client:
        client.send(protocol.handshake(protocol.WANTS_STATUS) + protocol.request() + b"\x00")
        wait_for_end([client], client)
        told = [protocol.Response(status_text(20, 1))]
        expect(client.packets == told, f"a bad frame behind a status: {client.packets}")
    watcher.send(protocol.position(100.0, 5.0, -100.0))
    wait_for_view([watcher], watcher, column_at(100.0, -100.0), SMALLEST_VIEW)


def resets_are_leavings(path):
    """A connection that is reset in mid-frame leaves the list, and the others go on."""
    with Program(path) as program:
        watcher = log_in(program.port, "Wanda")
        for half in (b"", protocol.position(1.0, 2.0, 3.0)[:9], b"\xFF\xFF\x7F" + bytes(500_000)):
            victim = log_in(program.port, "Victor", [watcher])
            wait_for_names([victim, watcher], watcher, ["Victor", "Wanda"])
            victim.send(half)
            victim.reset()
            wait_for_names([watcher], watcher, ["Wanda"])
        expect_goes_on(program.port, watcher)


def noise_harms_nobody(path):
    """Bytes by chance, as they are or framed, at each stage, change nothing for the others."""
    chance = random.Random(47)
    with Program(path) as program:
        watcher = log_in(program.port, "Wanda")
        for number in range(200):
            with Connection(program.port) as noisy:
                noisy.send(chance.choice(beginnings(f"Noise_{number}")))
                for _ in range(chance.randrange(1, 4)):
                    noise = chance.randbytes(chance.randrange(1, 100))
                    noisy.send(chance.choice((noise, protocol.frame(noise))))
                if chance.randrange(2):
                    noisy.reset()
        listen([watcher], 4 * TICK)
        wait_for_names([watcher], watcher, ["Wanda"])
        expect_goes_on(program.port, watcher)


def beginnings(name):
    """List what a client may have said before the noise, by stage."""
    login = protocol.handshake(protocol.WANTS_LOGIN)
    return b"", protocol.handshake(protocol.WANTS_STATUS), login, login + protocol.login_start(name)


def idle_players_are_closed(path):
    """A player whose view changes and who never reads is closed, and leaves the list."""
    with Program(path, land="hills:9", view=8) as program, Pauses() as pauses:
        ticker = log_in(program.port, "Tick", kind=Ticker)
        idle = log_in(program.port, "Ida", [ticker])
        wait_for_names([ticker, idle], ticker, ["Ida", "Tick"])
        idle.send(protocol.settings(8))
        begun = time.monotonic()
        for jump in range(1, MOST_JUMPS):
            idle.send(protocol.position(1000.0 * jump, 70.0, 0.0))
            wait_for_ticks(ticker, 2)
            if ticker.replica.names() == ["Tick"]:
                break
        expect(ticker.replica.names() == ["Tick"], "who does not read stays in play")
        ticks = [begun, *(tick for tick in ticker.ticks if tick >= begun), time.monotonic()]
        remark = check_gaps(Sighting(ticks, [], pauses.noted), IN_TIME)
        expect(pump([idle, ticker], lambda: idle.ended), "the connection is not closed")
        told = ask_status(program.port, [ticker])
        expect(told == status_text(20, 1), f"the status is {told}")
        return f"closed after {jump} jumps, {remark}"


def wait_for_ticks(ticker, count):
    """Wait until one that sees the ticks saw so many more."""
    due = len(ticker.ticks) + count
    expect(pump([ticker], lambda: len(ticker.ticks) >= due), "no ticks come")


TESTS = [
    bad_frames_close,
    bad_packets_close,
    bad_numbers_close,
    resets_are_leavings,
    noise_harms_nobody,
    idle_players_are_closed,
]
