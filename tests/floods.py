"""Tests of clients that send more than a usual one: the others see each tick, and nobody is closed.

Source: docs/OPERATING.md, 'Limits': how much of one connection is read between two ticks.
"""

import selectors
import socket
import time

import protocol
from client import Connection, ask_status, expect, log_in
from play import status_text
from program import Program
from watching import Beside, TickWatch, check_ages, check_gaps

# The longest time between two ticks, and how much later than it is due an age may be told, in
# seconds. A tick comes every 0.05 s.
LONGEST_GAP = 0.1

# How long a flood lasts, in seconds.
FLOOD_SECONDS = 8

# How many bytes a second are sent by who says something again and again, and read by who reads
# slowly; of what the first sends so much is read that the others are told half of this.
FLOOD_RATE = 5_000_000
SLOW_RATE = 500_000

# How often a second a flood is sent on.
STEPS = 200

# How many ask for statuses at once.
ASKERS = 30

# What these ask, again and again.
ASKED = protocol.request() * 100_000

# A player that says nothing, again and again, and answers a beat now and then.
FLOODER = "F"
SAID = protocol.chat("") * 50_000 + protocol.keep_alive(0)

# What all are told each time that it says nothing.
TOLD_NOTHING = protocol.packet(0x02, protocol.text(f'{{"text":"<{FLOODER}> "}}'), b"\x00")


class Flooder(Connection):
    """A connection that sends the same again and again, and throws away what comes."""

    def __init__(self, port, hello, piece):
        super().__init__(port)
        self.send(hello)
        self.socket.setblocking(False)
        self.piece = piece
        self.sent = 0
        self.begun = time.monotonic()

    def go_on(self):
        """Send as much as is due by now and as is taken, from where the last sending ended."""
        due = int(FLOOD_RATE * (time.monotonic() - self.begun)) - self.sent
        at = self.sent % len(self.piece)
        try:
            self.sent += self.socket.send(self.piece[at : at + max(0, due)])
        except BlockingIOError:
            pass
        except (BrokenPipeError, ConnectionResetError):
            self.ended = True

    def throw_away(self):
        """Read what came, and forget it."""
        try:
            self.ended = self.ended or not self.socket.recv(1 << 20)
        except BlockingIOError:
            pass
        except ConnectionResetError:
            self.ended = True


def flood(port, count, hello, piece):
    """Flood a server over some connections, until all are closed or this process is ended."""
    flooders = [Flooder(port, hello, piece) for _ in range(count)]
    with selectors.DefaultSelector() as selector:
        for flooder in flooders:
            selector.register(flooder, selectors.EVENT_READ)
        while flooders:
            for flooder in flooders:
                flooder.go_on()
            deadline = time.monotonic() + 1 / STEPS
            for key, _ in selector.select(1 / STEPS):
                key.fileobj.throw_away()
            time.sleep(max(0, deadline - time.monotonic()))
            for flooder in [it for it in flooders if it.ended]:
                selector.unregister(flooder)
                flooders.remove(flooder)


def flood_of_chats(port):
    """Log one player in that says nothing, again and again."""
    login = protocol.handshake(protocol.WANTS_LOGIN) + protocol.login_start(FLOODER)
    flood(port, 1, login, SAID)


def flood_of_requests(port):
    """Ask for the status on many connections at once, as often as is answered."""
    flood(port, ASKERS, protocol.handshake(protocol.WANTS_STATUS), ASKED)


def read_slowly(client, seconds):
    """Read so much a second of what comes for a client in play and no more, and answer beats.

    A beat is answered by any number, so what comes is not looked at.
    """
    begun = time.monotonic()
    answered = read = 0
    while (now := time.monotonic()) < begun + seconds and not client.ended:
        if now > begun + answered:
            client.answer(0)
            answered += 1
        due = int(SLOW_RATE * (now - begun)) - read
        client.socket.settimeout(1 / STEPS)
        try:
            data = client.socket.recv(max(1, due))
        except socket.timeout:
            continue
        except ConnectionResetError:
            data = b""
        read += len(data)
        client.ended = not data
        time.sleep(1 / STEPS)


def slow_readers_stay_beside_a_flood(path):
    """While one player says far too much, who reads slowly stays, and the ticks come in time."""
    with Program(path) as program:
        watch = TickWatch(program, TOLD_NOTHING)
        slow = log_in(program.port, "Slow")
        begun = time.monotonic()
        with Beside(flood_of_chats, program.port):
            read_slowly(slow, FLOOD_SECONDS)
            told = ask_status(program.port)
            ended = time.monotonic()
        expect(not slow.ended, f"who reads slowly is closed after {ended - begun:.1f} s")
        expect(told == status_text(20, 3), f"the status is {told}")
        seen = watch.finish().between(begun, ended)
        return f"{check_gaps(seen, LONGEST_GAP)}, {check_ages(seen, LONGEST_GAP)}"


def floods_of_requests_delay_no_tick(path):
    """While many ask for the status as fast as they can each tick comes in time."""
    with Program(path) as program:
        watch = TickWatch(program)
        begun = time.monotonic()
        with Beside(flood_of_requests, program.port):
            time.sleep(FLOOD_SECONDS)
            ended = time.monotonic()
        told = ask_status(program.port)
        expect(told == status_text(20, 1), f"the status is {told}")
        return check_ages(watch.finish().between(begun, ended), LONGEST_GAP)


TESTS = [slow_readers_stay_beside_a_flood, floods_of_requests_delay_no_tick]
