"""Tests of a link that is cut: what stands between a bot and a server hands on only so many bytes
of what the server says, and then ends.

Sources: docs/COMMANDS.md (`bot`, its statuses, and `wait 35` for all of a first tick).
"""

import selectors
import socket
from concurrent.futures import ThreadPoolExecutor

from bots import Bot
from client import HOST, PATIENCE, expect
from program import Program
from protocol import Frames

# How many frames Login Success and Join Game are, those up to the first column, and all of a first
# tick with the answer to the login.
JOINED = 2
SMALL = 8
FIRST_TICK = 36

# More than any login has.
ALL = 1 << 30


class Cut:
    """What hands on all that one bot says to a server, and the first bytes of what it answers."""

    def __init__(self, bot, server, count):
        self.bot, self.server, self.count = bot, server, count
        self.given, self.is_cut = b"", False

    def hand_on(self):
        """Hand on until the bot has ended; answer the bytes that it was given."""
        with selectors.DefaultSelector() as selector:
            selector.register(self.bot, selectors.EVENT_READ, self.take_from_bot)
            selector.register(self.server, selectors.EVENT_READ, self.take_from_server)
            is_going = self.give(b"")
            while is_going:
                ready = selector.select(PATIENCE)
                expect(ready, f"nothing comes behind {len(self.given)} bytes")
                is_going = all([key.data() for key, _ in ready])
        return self.given

    def take_from_bot(self):
        """Hand on what the bot says; answer whether it goes on."""
        try:
            said = self.bot.recv(1 << 16)
        except ConnectionResetError:
            return False
        self.server.sendall(said)
        return said != b""

    def take_from_server(self):
        """Hand on what the server says, as much of it as may be; answer whether the bot goes on."""
        said = self.server.recv(1 << 16)
        expect(said, f"the server ends behind {len(self.given)} bytes")
        return self.give(said[: self.count - len(self.given)])

    def give(self, piece):
        """Give the bot a piece, and the end behind the last byte that it may have; answer whether
        it goes on."""
        if self.is_cut:
            return True
        self.given += piece
        self.is_cut = len(self.given) == self.count
        try:
            self.bot.sendall(piece)
            if self.is_cut:
                self.bot.shutdown(socket.SHUT_WR)
        except OSError:
            return False
        return True


def play_cut(path, port, script, count=ALL):
    """Play a script against a server, of which the bot gets so many bytes; answer how it ends, and
    these bytes."""
    with socket.create_server((HOST, 0)) as listener, ThreadPoolExecutor(1) as reader:
        listener.settimeout(PATIENCE)
        ended = reader.submit(Bot(path, listener.getsockname()[1], script).finish)
        with listener.accept()[0] as bot, socket.create_connection((HOST, port)) as server:
            bot.settimeout(PATIENCE)
            server.settimeout(PATIENCE)
            given = Cut(bot, server, count).hand_on()
        return ended.result(), given


def frame_ends(stream):
    """Answer where the whole frames of a stream end."""
    frames, ends = Frames(), []
    frames.feed(stream)
    while frames.take() is not None:
        ends.append(frames.at)
    return ends


def check_cut(path, port, count, needed):
    """Cut a link behind so many bytes, over which a bot needs so many frames: it ends well exactly
    where these are whole, and else because the link was closed."""
    ended, given = play_cut(path, port, f"join A{count:06}\nwait {needed - 1}\n", count)
    told = f"over {len(given)} bytes of {count} it ends with {ended}"
    if len(frame_ends(given)) < needed:
        expect(len(given) == count and ended == (8, "refused: closed\n", ""), told)
    else:
        expect(ended[0] == 0 and ended[1].startswith("age ") and not ended[2], told)


def cut_links_are_told(path):
    """A link that is cut at each byte up to Join Game, and about the ends of frames behind that,
    closes a bot that waits on, and the server serves on."""
    with Program(path) as program:
        ended, stream = play_cut(path, program.port, f"join Al\nwait {FIRST_TICK - 1}\n")
        expect(ended[0] == 0, f"over all that comes it ends with {ended}")
        ends = frame_ends(stream)
        joined = range(ends[JOINED - 1] + 1)
        about = ends[JOINED:SMALL] + [ends[FIRST_TICK - 1]]
        later = [at + by for at in about for by in (-1, 0, 1)]
        for count in joined:
            check_cut(path, program.port, count, JOINED)
        for count in later:
            check_cut(path, program.port, count, FIRST_TICK)
        ended, _ = play_cut(path, program.port, f"join Al\nwait {FIRST_TICK - 1}\n")
        expect(ended[0] == 0, f"behind them all it ends with {ended}")
        return f"{len(joined) + len(later)} cuts"


TESTS = [cut_links_are_told]
