"""Tests of bots, each a process of its own: scripts against the server, and against a server that
says just what a test wants.

Sources: docs/COMMANDS.md (`bot`), docs/WORLD.md ('A tick' has the order in which a client is told
things, and so what has come before the packet that a script waits for last), docs/CLIENTS.md (the
lines of a dump). The dumps are worked out by hand from these pages.
"""

import re
import socket
import struct
import subprocess
import sys
import time
from concurrent.futures import ThreadPoolExecutor
from pathlib import Path

import protocol
from client import HOST, PATIENCE, ask_status, expect
from endings import USAGE
from play import status_text
from program import Program, free_port, run

EXAMPLES = Path(__file__).resolve().parent.parent / "examples"

# What a column of flat land has in cells that are not air: four layers of 256.
LAND = 1024

# What a player carries that joins for the first time, as a dump says it.
KIT = {27: "1 64 0", 28: "3 64 0", 29: "5 64 0", 30: "54 4 0"}

# Where players enter, and how they look then.
SPAWN = "272 128 272 0 0 0"


def example(name):
    """Read a script of the examples."""
    return (EXAMPLES / name).read_text()


def dump_of(names, changed=0, entities=(), window=(), pack=KIT, chat=()):
    """Write a dump behind its age and its beat: those in play, 25 columns of flat land, of which
    the middle one has so many cells more, and what is seen, carried and heard."""
    listed = sorted((protocol.offline_identifier(name), name) for name in names)
    lines = [f"player {identifier} {name}" for identifier, name in listed]
    for x in range(-2, 3):
        lines += [f"column {x} {z} {LAND + (changed if x == z == 0 else 0)}" for z in range(-2, 3)]
    lines += [f"entity {entity}" for entity in entities]
    lines += window
    lines += [f"pack {place} {pile}" for place, pile in sorted(pack.items())]
    return lines + [f"chat {text}" for text in chat]


def check_dump(ended, due):
    """Find a dump of these lines behind an age and a beat, which depend on when a bot comes."""
    status, output, errors = ended
    expect((status, errors) == (0, ""), f"it ends with {status}: {output!r} {errors!r}")
    lines = output.splitlines()
    age, beat = re.fullmatch(r"age (\d+)", lines[0]), re.fullmatch(r"beat (\d+)", lines[1])
    expect(age and beat and int(age[1]) % 20 == 0, f"it begins with {lines[:2]}")
    expect(lines[2:] == due, f"{set(lines[2:]) ^ set(due)} in the dump {output!r}")


class Bot:
    """A bot that plays a script on a port."""

    def __init__(self, path, port, script, *options):
        self.process = subprocess.Popen([path, "bot", f"port={port}", *options], text=True,
                                        stdin=subprocess.PIPE, stdout=subprocess.PIPE,
                                        stderr=subprocess.PIPE)
        self.process.stdin.write(script)
        self.process.stdin.close()
        self.process.stdin = None

    def finish(self):
        """Wait for its end; answer the status and what stands on both outputs."""
        try:
            output, errors = self.process.communicate(timeout=PATIENCE)
        except subprocess.TimeoutExpired:
            self.process.kill()
            output, errors = self.process.communicate()
        return self.process.returncode, output, errors


def play_alone(path, script):
    """Play a script against a server that ticks as fast as nothing comes, and ends with the bot."""
    with Program(path, pace="turns") as program:
        ended = Bot(path, program.port, script).finish()
        served = program.finish()
    line = re.fullmatch(r"ticks=\d+ joins=1 closed=0\n", served[1])
    expect(served[0] == 0 and line, f"the server ends with {served}")
    return ended


def play_two(path, first, second):
    """Play two scripts against one server, the second once the first has joined."""
    with Program(path) as program:
        one = Bot(path, program.port, first)
        deadline = time.monotonic() + PATIENCE
        while ask_status(program.port) != status_text(20, 1) and time.monotonic() < deadline:
            time.sleep(0.02)
        two = Bot(path, program.port, second)
        return one.finish(), two.finish()


def bots_log_in(path):
    """A bot logs in and is shown the land, what it carries and that it is in play."""
    check_dump(play_alone(path, example("login.bot")), dump_of(["Al"]))


def bots_dig_and_place(path):
    """A bot digs grass, which lies there then, and places dirt, which is gone from what it
    carries; two of three changes leave one cell more."""
    due = dump_of(["Al"], 1, ["2 item 368 96 272 0 0 0 2 1 0"], pack={**KIT, 28: "3 63 0"})
    check_dump(play_alone(path, example("dig_and_place.bot")), due)


def bots_share_a_chest(path):
    """Two bots see the same in a chest, from which one took the half of what the other put there.
    One has placed three planks that the other was told of, and a fourth that both saw last."""
    al, bo = play_two(path, example("chest_al.bot"), example("chest_bo.bot"))
    names, window = ["Al", "Bo"], ["window 1", "chest 0 1 32 0"]
    pack = {28: "3 64 0", 29: "5 61 0", 30: "54 3 0"}
    check_dump(al, dump_of(names, 9, [f"2 player {SPAWN} 3 60 0"], window, pack))
    pack = {**KIT, 3: "1 32 0", 28: "3 60 0"}
    check_dump(bo, dump_of(names, 9, [f"1 player {SPAWN} 5 61 0"], window, pack))


def bots_chat(path):
    """Two bots hear what each of them said, in order."""
    al, bo = play_two(path, example("chat_al.bot"), example("chat_bo.bot"))
    chat = ['{"text":"<Al> Hello, Bo!"}', '{"text":"<Bo> Hello, Al!"}']
    names = ["Al", "Bo"]
    pack = {**KIT, 28: "3 63 0"}
    check_dump(al, dump_of(names, 4, [f"2 player {SPAWN} 3 62 0"], pack=pack, chat=chat))
    pack = {**KIT, 28: "3 62 0"}
    check_dump(bo, dump_of(names, 4, [f"1 player {SPAWN} 3 63 0"], pack=pack, chat=chat))


def bots_see_each_other_dig(path):
    """What one bot digs the other sees: the cell is air, and what it was lies there."""
    digger = "join Al\nuntil 6 4 5 48\ndig 11 3 8 1\nuntil 10 4 5 48\n"
    seer = "join Bo\nuntil 6 3 5 32\nheld 1\nplace 6 3 5 1\nuntil 11 3 8 0\nexpect 11 3 8 0\n"
    al, bo = play_two(path, digger, seer + "place 10 3 5 1\nuntil 10 4 5 48\n")
    names, item = ["Al", "Bo"], "3 item 368 96 272 0 0 0 2 1 0"
    check_dump(al, dump_of(names, 1, [f"2 player {SPAWN} 3 63 0", item]))
    pack = {**KIT, 28: "3 63 0"}
    check_dump(bo, dump_of(names, 1, [f"1 player {SPAWN} 1 64 0", item], pack=pack))


def the_rig_runs(path):
    """The rig of the examples starts a server, plays two bots, and finds what it looks for."""
    words = [sys.executable, "-B", str(EXAMPLES / "rig.py"), path, str(free_port())]
    done = subprocess.run(words, capture_output=True, text=True, timeout=3 * PATIENCE, check=False)
    ended = done.returncode, done.stdout, done.stderr
    expect(ended == (0, "both saw it\n", ""), f"the rig ends with {ended}")


def bots_are_refused(path):
    """What is not as a script wants it, or not in time, ends it. Each has a name of its own, since
    the one before may be in play still."""
    with Program(path) as program:
        for script, options, due in (
            ("join A-l\nwait 1\n", (), (8, "refused: closed\n")),
            ("join Al\nexpect 8 3 8 2\n", (), (8, "refused: expect line 2 want 2 have none\n")),
            ("join Bo\nwait 35\nexpect 8 3 8 7\n", (),
             (8, "refused: expect line 3 want 7 have 32\n")),
            ("join Cy\nuntil 8 3 8 7\n", ("patience=500",), (7, "budget 500\n")),
        ):
            ended = Bot(path, program.port, script, *options).finish()
            expect(ended == (*due, ""), f"{script!r} ends with {ended}")


def bad_scripts_connect_nobody(path):
    """A text that is no script, or arguments that say no bot, end before anybody connects."""
    with socket.create_server((HOST, 0)) as nobody:
        nobody.settimeout(0.2)
        port = f"port={nobody.getsockname()[1]}"
        for script, due in (("jump Al\n", "1: Word"), ("join Al\nwait 0\n", "2: Number"),
                            ("# none\n\n", "1: Order"), ("join Al\n#\njoin Al", "3: Order")):
            ended = run(path, "bot", port, input=script.encode())
            expect(ended == (6, f"bad input at {due}\n", ""), f"{script!r} ends with {ended}")
        for words in ((), ("port=0",), (port, "patience=0"), (port, "patience=1000000001"),
                      (port, port), (port, "ticks=1"), ("patience=5",)):
            ended = run(path, "bot", *words, input=b"join Al\n")
            expect(ended == (2, USAGE, ""), f"{words} end with {ended}")
        try:
            nobody.accept()
        except TimeoutError:
            return
        expect(False, "somebody connects")


HELLO = bytes.fromhex("0f002f096c6f63616c686f7374")
LOGIN = bytes.fromhex("02040002416c")
# Login Success of Al, the beat 0 and the age 0.
IDENTIFIER = str(protocol.offline_identifier("Al")).encode()
WELCOME = protocol.frame(bytes([2, len(IDENTIFIER)]) + IDENTIFIER + b"\x02Al")
FIRST = bytes.fromhex("020000") + bytes.fromhex("1103") + bytes(16)


def bots_say_what_they_say(path):
    """A bot says a handshake with its port, its name, and the answers to what it waits for; a
    stream that ends, is cut wrongly, spells no packet or breaks is told as what it is."""
    for sent, script, due in (
        (WELCOME + FIRST, "join Al\nwait 2\n", (0, "age 0\nbeat 0\n")),
        (WELCOME + FIRST, "join Al\nwait 3\n", (8, "refused: closed\n")),
        (b"", "join Al\nwait 1\n", (8, "refused: closed\n")),
        (WELCOME + b"\x80\x80\x80", "join Al\nwait 1\n", (8, "refused: frame\n")),
        (WELCOME + b"\x01\x7f", "join Al\nwait 1\n", (8, "refused: packet\n")),
    ):
        ended, heard, port = play_against(path, sent, script)
        expect(ended == (*due, ""), f"{script!r} over {sent.hex()} ends with {ended}")
        answers = b"\x02\x00\x00" if sent.startswith(WELCOME + FIRST) else b""
        said = HELLO + port.to_bytes(2, "big") + LOGIN + answers
        expect(heard == said, f"{script!r} over {sent.hex()} says {heard.hex()}")


def play_against(path, sent, script):
    """Play a script against a server that sends these bytes and ends; answer how the bot ends, all
    that it said, and the port. What it prints is read beside that, however long it is."""
    with socket.create_server((HOST, 0)) as server, ThreadPoolExecutor(1) as reader:
        server.settimeout(PATIENCE)
        port = server.getsockname()[1]
        ended = reader.submit(Bot(path, port, script).finish)
        with server.accept()[0] as stream:
            stream.settimeout(PATIENCE)
            stream.sendall(sent)
            stream.shutdown(socket.SHUT_WR)
            heard = b""
            while data := stream.recv(4096):
                heard += data
        return ended.result(), heard, port


def bots_dump_much(path):
    """A dump that is longer than one write of it is whole: 700 texts of more than 100 bytes."""
    said = [f'{{"text":"{number:0100}"}}' for number in range(700)]
    chat = b"".join(protocol.packet(2, protocol.text(text), b"\0") for text in said)
    ended, _, _ = play_against(path, WELCOME + chat, "join Al\nwait 700\n")
    due = "age none\nbeat none\n" + "".join(f"chat {text}\n" for text in said)
    expect(ended == (0, due, ""), f"a dump of {len(due)} bytes ends with {ended[0]}, {ended[2]!r}")


def broken_links_are_told(path):
    """A connection that is reset is a fault of the link, in writing as in reading."""
    with socket.create_server((HOST, 0)) as server:
        server.settimeout(PATIENCE)
        bot = Bot(path, server.getsockname()[1], "join Al\nwait 1\n")
        stream = server.accept()[0]
        stream.setsockopt(socket.SOL_SOCKET, socket.SO_LINGER, struct.pack("ii", 1, 0))
        stream.close()
        ended = bot.finish()
    expect(ended == (5, "net fault\n", ""), f"it ends with {ended}")


TESTS = [bots_log_in, bots_dig_and_place, bots_share_a_chest, bots_chat, bots_see_each_other_dig]
TESTS += [the_rig_runs, bots_are_refused, bad_scripts_connect_nobody, bots_say_what_they_say]
TESTS += [bots_dump_much, broken_links_are_told]
