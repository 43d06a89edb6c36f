"""A client over a socket: it connects, sends whole packets or odd pieces of them, and reads.

Sources: wiki.vg, 'Protocol', 'Server List Ping' and 'Protocol FAQ' (what a client says, in which
order), docs/PROTOCOL.md and docs/WORLD.md. Many clients share one thread: `pump` lets each read
what has come, until something that is waited for is there.
"""

import selectors
import socket
import struct
import time

import protocol
from clientbound import PLAY, Chunk, KeepAlive, Place, Time
from columns import column_at, view_at
from packs import KIT
from protocol import Frames, Pong, Refusal, Response, Success
from replica import Replica

HOST = "127.0.0.1"

# How long anything is waited for, in seconds. A tick comes every 50 milliseconds.
PATIENCE = 10
TICK = 0.05

SMALLEST_VIEW = 2

# Past the 30,000,000 blocks at which docs/WORLD.md ends the world, so it brings a player to the
# spawn place.
PAST_THE_WORLD = 40_000_000.0


class Unexpected(Exception):
    """What came, or did not come, is not what the documents say."""


def expect(holds, why):
    """Fail where something does not hold."""
    if not holds:
        raise Unexpected(why)


class Connection:
    """A socket to the server, and all bytes that came over it."""

    def __init__(self, port, buffer=None):
        """Connect; the system holds so much for it that it has not read, or as much as it likes."""
        self.socket = socket.socket()
        self.socket.settimeout(PATIENCE)
        if buffer is not None:
            self.socket.setsockopt(socket.SOL_SOCKET, socket.SO_RCVBUF, buffer)
        self.socket.connect((HOST, port))
        self.socket.setsockopt(socket.IPPROTO_TCP, socket.TCP_NODELAY, 1)
        self.received = 0
        self.ended = False
        self.was_reset = False

    def fileno(self):
        """Answer the descriptor, by which `selectors` waits for it."""
        return self.socket.fileno()

    def send(self, data):
        """Send bytes at once, or as much of them as the server still takes before it closes."""
        try:
            self.socket.sendall(data)
        except (BrokenPipeError, ConnectionResetError):
            self.was_reset = True

    def send_in_pieces(self, data, sizes, pause=0.0):
        """Send bytes in pieces of the sizes, again and again, with a pause behind each."""
        at = 0
        turn = 0
        while at < len(data):
            size = sizes[turn % len(sizes)]
            self.send(data[at : at + size])
            time.sleep(pause)
            at += size
            turn += 1

    def read(self):
        """Read once what has come, and wait for it where nothing has; note the end."""
        try:
            data = self.socket.recv(1 << 18)
        except ConnectionResetError:
            self.was_reset = True
            data = b""
        self.received += len(data)
        self.ended = not data
        if data:
            self.take(data)

    def take(self, data):
        """Do something with bytes that came; a plain connection only counts them."""

    def close(self):
        """Close the connection the usual way."""
        self.socket.close()

    def reset(self):
        """Close the connection by a reset: what the server sends from now on breaks."""
        self.socket.setsockopt(socket.SOL_SOCKET, socket.SO_LINGER, struct.pack("ii", 1, 0))
        self.socket.close()

    def __enter__(self):
        return self

    def __exit__(self, *_):
        self.close()


class Client(Connection):
    """A connection whose bytes are read as packets, and folded into a replica in play."""

    def __init__(self, port):
        super().__init__(port)
        self.frames = Frames()
        self.stage = protocol.STATUS
        self.packets = []
        self.replica = Replica()

    def take(self, data):
        """Read each frame that is whole now."""
        self.frames.feed(data)
        payload = self.frames.take()
        while payload is not None:
            self.take_packet(protocol.decode(self.stage, payload))
            payload = self.frames.take()

    def take_packet(self, packet):
        """Keep a packet, unless it is a chunk, and do with it what the stage says."""
        if self.stage is PLAY:
            self.replica.fold(packet)
        if type(packet) is Success:
            self.stage = PLAY
        if type(packet) is KeepAlive:
            self.answer(packet.number)
        if type(packet) is not Chunk:
            self.packets.append(packet)

    def answer(self, beat):
        """Answer a beat by its number."""
        self.send(protocol.keep_alive(beat))

    def begin_login(self, name, version=protocol.PROTOCOL, send=None):
        """Send a handshake and a login, by `send` where one is given."""
        self.stage = protocol.LOGIN
        data = protocol.handshake(protocol.WANTS_LOGIN, version) + protocol.login_start(name)
        (send or self.send)(data)

    def is_shown(self, middle, size):
        """Whether the opening came, and the columns are just those of such a view."""
        return self.replica.place is not None and set(self.replica.columns) == view_at(middle, size)

    def check_blocks(self, land):
        """Find the blocks and biomes of the terrain in each column."""
        for place, column in self.replica.columns.items():
            expect(column == land.column(place), f"the column {place} is not that of the terrain")

    def forget_news(self):
        """Clear the packets and the changes of columns that came up to now."""
        self.packets.clear()
        self.replica.changes.clear()

    def news(self):
        """Answer the packets but chunks, beats and times that came since these were forgotten."""
        return [packet for packet in self.packets if type(packet) not in (KeepAlive, Time)]

    def has_news(self):
        """Whether anything but a beat or a time came since the news were forgotten."""
        return bool(self.replica.changes or self.news())


class Ticker(Client):
    """A client in play that sees the ticks.

    Most ticks send nothing of themselves. But a move past the end of the world brings a player to
    the spawn place, and the next tick says so. This client answers each such place by such a move,
    so it is sent at least one packet a tick.
    """

    def __init__(self, port):
        super().__init__(port)
        self.ticks = []

    def take_packet(self, packet):
        """Note when a place came, and ask for the next."""
        super().take_packet(packet)
        if type(packet) is Place:
            self.ticks.append(time.monotonic())
            self.send(protocol.position(PAST_THE_WORLD, 64.0, 0.0))


def pump(clients, is_done, patience=PATIENCE):
    """Let clients read what comes until something is done; answer whether it is in time."""
    deadline = time.monotonic() + patience
    with selectors.DefaultSelector() as selector:
        for client in clients:
            if not client.ended:
                selector.register(client, selectors.EVENT_READ)
        while not is_done():
            left = deadline - time.monotonic()
            if left <= 0:
                return False
            for key, _ in selector.select(left):
                key.fileobj.read()
                if key.fileobj.ended:
                    selector.unregister(key.fileobj)
        return True


def listen(clients, seconds):
    """Let clients read what comes for so long."""
    pump(clients, lambda: False, seconds)


def log_in(port, name, others=(), kind=Client, pack=KIT):
    """Connect a client, log it in, and wait until it is shown the spawn place and its pack."""
    client = kind(port)
    client.begin_login(name)
    wait_for_view([client, *others], client, column_at(8.5, 8.5), SMALLEST_VIEW)
    wait_for_pack([client, *others], client, pack)
    return client


def wait_for_view(clients, client, middle, size):
    """Wait until one of the clients is shown just the columns of such a view."""
    if not pump(clients, lambda: client.is_shown(middle, size)):
        there, due = set(client.replica.columns), view_at(middle, size)
        extra, missing = sorted(there - due), sorted(due - there)
        ending = f", the end came after {client.received} bytes" if client.ended else ""
        raise Unexpected(f"columns too many {extra[:5]}, missing {missing[:5]}{ending}")


def wait_for_pack(clients, client, pack):
    """Wait until one of the clients is told that it carries just this."""
    done = pump(clients, lambda: client.replica.pack == pack)
    expect(done, f"the pack is {client.replica.pack}, not {pack}")


def wait_for_names(clients, client, names):
    """Wait until one of the clients has just these names in its player list."""
    done = pump(clients, lambda: client.replica.names() == sorted(names))
    expect(done, f"the player list is {client.replica.names()}, not {sorted(names)}")


def wait_for_others(clients, client, numbers):
    """Wait until one of the clients sees just the other players of these numbers, and whole."""
    others = client.replica.others
    done = pump(clients, lambda: others.seen.keys() == set(numbers) and others.is_whole())
    expect(done, f"the others {others.seen} are seen, not {numbers}")


def wait_for_end(clients, client):
    """Wait until the server has closed one of the clients, without a reset or a frame cut off.

    A reset could take with it what the client has not read yet.
    """
    expect(pump(clients, lambda: client.ended), "the connection is not closed")
    expect(not client.was_reset, "the connection ends by a reset")
    expect(client.frames.left() == 0, "the connection ends in mid-frame")


def ask_status(port, others=()):
    """Ask for the status on a connection of its own, and answer it."""
    with Client(port) as client:
        client.send(protocol.handshake(protocol.WANTS_STATUS) + protocol.request())
        expect(pump([client, *others], lambda: client.packets), "no status comes")
        expect(type(client.packets[0]) is Response, f"{client.packets[0]} for the status")
        return client.packets[0].status


def ask_pong(client, number):
    """Send a Ping, and wait for its Pong and for the end."""
    client.packets.clear()
    client.send(protocol.ping(number))
    wait_for_end([client], client)
    expect(client.packets == [Pong(number)], f"{client.packets} for a Ping of {number}")


def expect_refusal(client, reason, others=()):
    """Wait until a login is refused for a reason and closed."""
    wait_for_end([client, *others], client)
    expect(client.packets == [Refusal(reason)], f"{client.packets} for '{reason}'")


def expect_farewell(client, reason, others=()):
    """Wait until a client in play is closed for a reason, which is the last that it is told."""
    wait_for_end([client, *others], client)
    said = client.replica.farewell
    expect(said == reason, f"the farewell is {said!r}, not {reason!r}")
