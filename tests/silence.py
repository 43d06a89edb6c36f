"""Tests of clients that hold a place or memory by sending or reading nothing: each is closed.

Source: docs/OPERATING.md, which says how long each of them is waited for. All wait for that, so
they are tried side by side.
"""

import time

import protocol
from client import PATIENCE, Client, Connection, ask_status, expect, log_in, pump
from crowds import MORE_CONNECTIONS
from play import status_text
from program import Program
from watching import TickWatch, check_gaps

# How long a connection stays to which nothing is to be written, and one that takes nothing of what
# is written, and one that sends nothing, in seconds; and how much sooner and later it may be here.
UNASKED = 30
STALLED = 30
UNHEARD = 60
SOONER = 4
LATER = 10

# How often who asks for a status again and again does so, in seconds.
ASKING = 5

# So many answers of 108 bytes are less than the 67,108,864 bytes that a connection is owed at most.
REQUESTS = 600_000
ASKERS = 3
ANSWER = protocol.packet(0x00, protocol.text(status_text(20, 1)))

# How much more memory a server may use that has such askers, in MiB. All answers would be 185.
MORE_MEMORY = 96

# How many answers are twice what the system holds for a client, how long it takes at most until a
# server has read that many are asked for, and how much of them is read.
MANY_REQUESTS = 80_000
ASKED_SECONDS = 25
READ_A_SECOND = 15_000
SMALL_BUFFER = 16_384
STEP = 0.1

# The longest time between two ticks, while all other tests begin, in seconds.
LONGEST_GAP = 1.0


def silent_sockets_lose_their_place(path):
    """Who sends nothing, or no more in mid-login or after a status, loses its place in time."""
    with Program(path, players=1) as program:
        begun = time.monotonic()
        asker = ask_once(Client(program.port))
        silent = [Client(program.port) for _ in range(MORE_CONNECTIONS)]
        silent[0].send(protocol.handshake(protocol.WANTS_STATUS))
        silent[1].send(protocol.handshake(protocol.WANTS_LOGIN))
        silent[2].send(protocol.handshake(protocol.WANTS_LOGIN)[:9])
        ask_once(silent[3])
        with Connection(program.port) as late:
            expect(pump([late], lambda: late.ended), "there is a place more")
        is_early = ask_on(asker, silent, lambda: any(it.ended for it in silent), UNASKED - SOONER)
        expect(not is_early, f"a silent one is closed after {time.monotonic() - begun:.1f} s")
        is_done = ask_on(asker, silent, lambda: all(it.ended for it in silent), SOONER + LATER)
        expect(is_done, f"{sum(not it.ended for it in silent)} silent ones keep their places")
        took = time.monotonic() - begun
        log_in(program.port, "Only", [asker])
        expect(not asker.ended, "who asks for a status again and again is closed")
        return f"all closed after {took:.1f} s"


def ask_once(client):
    """Let a client ask for the status, and wait for it."""
    client.send(protocol.handshake(protocol.WANTS_STATUS) + protocol.request())
    expect(pump([client], lambda: client.packets), "no status comes")
    return client


def ask_on(asker, others, is_done, patience):
    """Wait until something is done, while one client asks for the status again and again."""
    deadline = time.monotonic() + patience
    while time.monotonic() < deadline:
        asker.send(protocol.request())
        left = deadline - time.monotonic()
        if pump([asker, *others], is_done, min(ASKING, max(0, left))):
            return True
    return False


class NeverReading(Connection):
    """A client that asks for many statuses, as fast as they are taken, and reads nothing."""

    def __init__(self, port):
        super().__init__(port)
        self.socket.setblocking(False)
        self.left = protocol.handshake(protocol.WANTS_STATUS) + protocol.request() * REQUESTS

    def go_on(self):
        """Ask for more, and once more where all was asked; note where nobody hears it any more."""
        try:
            sent = self.socket.send(self.left or protocol.request())
            self.left = self.left[sent:]
        except BlockingIOError:
            pass
        except (BrokenPipeError, ConnectionResetError):
            self.ended = True


def readers_of_nothing_are_closed(path):
    """Who asks for many statuses and reads none is closed in time, and memory stays small."""
    with Program(path) as program:
        watch = TickWatch(program)
        before = most = program.usage.resident()
        begun = time.monotonic()
        askers = [NeverReading(program.port) for _ in range(ASKERS)]
        while not all(asker.ended for asker in askers):
            took = time.monotonic() - begun
            expect(took < STALLED + 2 * LATER, f"who reads nothing stays after {took:.1f} s")
            for asker in askers:
                asker.go_on()
            most = max(most, program.usage.resident())
            time.sleep(STEP)
        used = max(most, program.usage.resident()) - before
        for asker in askers:
            check_first_answers(asker)
        expect(used < MORE_MEMORY, f"{used:.0f} MiB are used for who reads nothing")
        expect(ask_status(program.port) == status_text(20, 1), "the status is another")
        remark = check_gaps(watch.finish().between(begun, time.monotonic()), LONGEST_GAP)
        return f"closed after {took:.1f} s, {used:.0f} MiB more, {remark}"


def check_first_answers(asker):
    """Read what came for one that was closed: the first of its answers, and not all of them."""
    came = []
    asker.ended = False
    asker.socket.settimeout(PATIENCE)
    asker.take = came.append
    expect(pump([asker], lambda: asker.ended), f"no end after {asker.received} bytes")
    expect(asker.received < len(ANSWER) * REQUESTS, "all was answered, and nobody was closed")
    many = asker.received // len(ANSWER) + 1
    expect(b"".join(came) == (ANSWER * many)[: asker.received], "the answers are not the status")


class SmallReader(Connection):
    """A client for which the system holds little that it has not read."""

    def __init__(self, port):
        super().__init__(port, SMALL_BUFFER)
        self.socket.setblocking(False)

    def read_some(self, seconds):
        """Read a little of what comes, again and again for so long, and note the end."""
        deadline = time.monotonic() + seconds
        while time.monotonic() < deadline and not self.ended:
            try:
                data = self.socket.recv(int(READ_A_SECOND * STEP))
                self.received += len(data)
                self.ended = not data
            except BlockingIOError:
                pass
            except ConnectionResetError:
                self.ended = True
            time.sleep(STEP)


def senders_of_nothing_are_closed(path):
    """Who reads on what it asked for and sends nothing more is closed in time, before all of it."""
    whole = MANY_REQUESTS * len(ANSWER)
    with Program(path) as program, SmallReader(program.port) as reader:
        time.sleep(STEP)
        held = program.usage.descriptors()
        begun = time.monotonic()
        reader.socket.settimeout(PATIENCE)
        reader.send(protocol.handshake(protocol.WANTS_STATUS) + protocol.request() * MANY_REQUESTS)
        reader.socket.setblocking(False)
        took = 0.0
        while program.usage.descriptors() == held:
            reader.read_some(STEP)
            took = time.monotonic() - begun
            expect(took < ASKED_SECONDS + UNHEARD + LATER, f"it stays after {took:.1f} s")
        expect(took > UNHEARD - SOONER, f"it is closed after {took:.1f} s")
        reader.socket.settimeout(PATIENCE)
        expect(pump([reader], lambda: reader.ended), "it sees no end")
        expect(reader.received < whole, f"all of {whole} bytes came")
        return f"closed after {took:.1f} s, {reader.received} of {whole} bytes came"


LONG_TESTS = [
    silent_sockets_lose_their_place,
    readers_of_nothing_are_closed,
    senders_of_nothing_are_closed,
]
