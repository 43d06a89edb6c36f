"""Tests of captures: what a server writes with `capture=yes`, and what `view` and `show` make of it.

Source: docs/CAPTURES.md (records, faults and lines), docs/COMMANDS.md (`serve`, `view`, `show`).
Captures are read here by a reader of their own.
"""

import re
import subprocess
import tempfile
import time

import protocol
from bots import KIT, Bot, check_dump, dump_of, example
from client import PATIENCE, Client, ask_pong, expect, log_in, pump, wait_for_end
from protocol import Frames
from program import Program, free_port, run

HEAD = b"MC47CAP\x01"
JOIN, CAME, GONE, TICK, SENT, BROKE, CLOSED = range(7)
PLAIN = {JOIN: "join", GONE: "gone", BROKE: "broke", CLOSED: "closed"}


def records_of(capture):
    """Read the whole records of a capture; answer them and where they end."""
    expect(capture.startswith(HEAD), f"the capture begins with {capture[:8]!r}")
    at, records = len(HEAD), []
    while at + 9 <= len(capture):
        kind, size = capture[at], int.from_bytes(capture[at + 5 : at + 9], "big")
        if at + 9 + size > len(capture):
            break
        connection = int.from_bytes(capture[at + 1 : at + 5], "big")
        records.append((kind, connection, capture[at + 9 : at + 9 + size]))
        at += 9 + size
    return records, at


def plain_lines(records):
    """Write the lines of the records that carry nothing."""
    lines = []
    for kind, connection, _ in records:
        if kind in PLAIN:
            lines.append(f"{PLAIN[kind]} {connection}")
        elif kind == TICK:
            lines.append("tick")
    return lines


def view(path, capture):
    """View a capture; answer the status and the lines."""
    status, text, errors = run(path, "view", input=capture)
    expect(errors == "", f"view says {errors!r}")
    return status, text.splitlines()


def check_view(path, capture):
    """View the first bytes of what a server wrote, and find each whole record and the cut."""
    records, end = records_of(capture)
    status, lines = view(path, capture)
    if end < len(capture):
        expect(status == 6 and lines.pop() == f"bad input at {end}: Short", f"it ends with {status}")
    expect(status in (0, 6), f"view ends with {status}")
    plain = [line for line in lines if not line.startswith(("up ", "down "))]
    expect(plain == plain_lines(records), "the records without bytes are others")
    return lines


def recorded(path, play, **options):
    """Serve with a capture while something is played; answer that and the capture."""
    with tempfile.TemporaryFile() as file:
        with Program(path, output=file, capture="yes", **options) as program:
            played = play(program)
        file.seek(0)
        return played, file.read()


def frame_of(line):
    """Read the number of a connection and its frame out of a line of `up` or `down`."""
    _way, connection, _state, packet, _name, fields = line.split(" ")
    payload = bytes.fromhex(packet + ("" if fields == "-" else fields))
    return connection, protocol.frame(payload)


def script_of(lines):
    """Write the script of events that happened as a capture's lines tell it. Bytes that were no
    frame are not told; a length that no frame has stands for them."""
    script = []
    for line in lines:
        if re.fullmatch(r"up \d+ fault", line):
            script.append(f"bytes {line.split(' ')[1]} 808080")
        elif line.startswith("up "):
            connection, frame = frame_of(line)
            script.append(f"bytes {connection} {frame.hex()}")
        elif line == "tick" or line.startswith(("join ", "gone ")):
            script.append(line)
    return "\n".join(script) + "\n"


def frames_to(pairs):
    """Cut the bytes that each connection took into frames."""
    streams = {}
    for connection, data in pairs:
        streams[connection] = streams.get(connection, b"") + data
    cut = {}
    for connection, data in streams.items():
        frames = Frames()
        frames.feed(data)
        cut[connection] = list(iter(frames.take, None))
    return cut


def a_bot_is_seen_in_a_capture(path):
    """The capture of a run in which a bot digs and places: who joined, how far both ways come, and
    what it was shown. The bot leaves at a cell that it sees; behind that comes what it carries."""
    def play(program):
        ended = Bot(path, program.port, example("dig_and_place.bot")).finish()
        expect(program.finish()[0] == 0, "the server does not end with the bot")
        return ended

    ended, capture = recorded(path, play, pace="turns")
    expect(ended[0] == 0, f"the bot ends with {ended}")
    lines = check_view(path, capture)
    expect(lines[0] == "join 0", f"the first line is {lines[0]}")
    expect(lines[-2:] == ["gone 0", "closed 0"], f"the last lines are {lines[-2:]}")
    ups = [line.split(" ")[2:5] for line in lines if line.startswith("up ")]
    expect(ups[:2] == [["hand", "00", "Handshake"], ["login", "00", "Start"]], f"it says {ups[:2]}")
    expect(all(up[0] == "play" for up in ups[2:]), f"then it says {ups[2:]}")
    downs = [line.split(" ")[2:5] for line in lines if line.startswith("down ")]
    expect(downs[0] == ["login", "02", "Success"], f"it is answered {downs[0]}")
    expect(downs[1] == ["play", "01", "JoinGame"], f"it is told {downs[1]}")
    shown = run(path, "show", "client=0", input=capture)
    check_dump(shown, dump_of(["Al"], 1, ["2 item 368 96 272 0 0 0 2 1 0"],
                              pack={**KIT, 28: "3 62 0"}))
    expect(run(path, "show", "client=1", input=capture) == (0, "age none\nbeat none\n", ""), "nobody")


def what_came_is_replayed_to_the_same(path):
    """What clients sent, frame by frame as `view` tells it, is answered by `replay` as it was."""
    def play(program):
        with log_in(program.port, "Al") as al, log_in(program.port, "Bo", [al]) as bo:
            al.send(protocol.position(9.5, 4.0, 8.5))
            bo.send_in_pieces(protocol.chat("Hello"), [1, 2])
            expect(pump([al, bo], lambda: any("Hello" in str(it) for it in al.packets)), "no chat")
            with Client(program.port) as asks:
                asks.send(protocol.handshake(protocol.WANTS_STATUS) + protocol.request())
                pump([asks], lambda: asks.packets)
                ask_pong(asks, 7)
            bo.send(b"\x80\x80\x80")
            wait_for_end([bo, al], bo)
        time.sleep(0.2)

    _, capture = recorded(path, play, view=2)
    lines = check_view(path, capture)
    status, text, _ = run(path, "replay", "view=2", input=script_of(lines).encode())
    expect(status == 0, f"replay ends with {status}: {text[-80:]!r}")
    words = [line.split(" ") for line in text.splitlines() if line.startswith("sent ")]
    sent = frames_to((number, bytes.fromhex(data)) for _, number, data in words)
    told = frames_to(frame_of(line) for line in lines if line.startswith("down "))
    expect(set(told) == {"0", "1", "2"}, f"the connections {set(told)} took something")
    for number, frames in told.items():
        expect(sent[number][: len(frames)] == frames, f"connection {number} is sent other frames")
    expect("shut 1" in text.splitlines(), "who sent no frame is not closed")
    expect(any(line == "closed 1" for line in lines), "nor was it")


def a_killed_server_leaves_whole_records(path):
    """A server that is killed leaves a capture up to its last whole record, and `view` tells where
    it is cut; so does each capture that is cut behind that by hand."""
    def play(program):
        with log_in(program.port, "Al") as al:
            for step in range(20):
                al.send(protocol.position(8.5 + step / 4, 4.0, 8.5))
                pump([al], lambda: False, 0.02)
            program.kill()
        return len(al.packets)

    _, capture = recorded(path, play, view=2)
    lines = check_view(path, capture)
    moved = [line for line in lines if line.startswith("up 0 play 04 Position ")]
    expect(moved, "no move is there")
    expect(lines.count("tick") >= 2, "no ticks are there")
    for cut in range(1, 40):
        check_view(path, capture[:-cut])


def a_capture_that_cannot_be_written_ends_the_run(path):
    """Where the output takes nothing, the server serves nothing and ends with 4."""
    with open("/dev/full", "wb") as full:
        words = [path, "serve", f"port={free_port()}", "ticks=1000000", "capture=yes"]
        done = subprocess.run(words, stdin=subprocess.DEVNULL, stdout=full, stderr=subprocess.PIPE,
                              timeout=PATIENCE, check=False)
    expect(done.returncode == 4, f"it ends with {done.returncode}")


def captures_are_asked_for_by_yes(path):
    """Nothing else is an answer than `yes` and `no`, and `no` is the one where none stands."""
    begun = ["serve", f"port={free_port()}", "ticks=1"]
    for value in ("", "NO", "no ", "out.txt", "Yes"):
        status, output, _ = run(path, *begun, f"capture={value}")
        expect((status, output[:6]) == (2, "usage:"), f"capture={value} ends with {status}")
    for options in (["capture=no"], []):
        ended = run(path, *begun, *options)
        expect(ended[:2] == (0, "ticks=1 joins=0 closed=0\n"), f"{options} ends with {ended}")
    with tempfile.TemporaryFile() as file:
        done = run(path, *begun, "capture=yes", output=file)
        file.seek(0)
        expect(done[0] == 0 and file.read() == HEAD + bytes([TICK]) + bytes(8), "one tick is not it")


def what_an_operator_asks_is_found(path):
    """The filters of docs/OPERATING.md: who came, who left, who was closed, and what it was told."""
    def play(program):
        with log_in(program.port, "Al") as al, Client(program.port) as wrong:
            wrong.begin_login("no name")
            wait_for_end([wrong, al], wrong)
        time.sleep(0.2)

    _, capture = recorded(path, play, view=2)
    text = "\n".join(check_view(path, capture))
    names = re.findall(r"^up (\d+) login 00 Start (\S+)$", text, re.M)
    expect([(k, bytes.fromhex(name)[1:]) for k, name in names] == [("0", b"Al"), ("1", b"no name")],
           f"the names are {names}")
    expect(re.findall(r"^(gone|closed) (\d+)$", text, re.M).count(("closed", "1")) == 1, "not closed")
    said = re.findall(r"^down 1 login 00 \S+ (\S+)$", text, re.M)
    expect(said and b"That name is not allowed." in bytes.fromhex(said[0]), f"it was told {said}")


TESTS = [a_bot_is_seen_in_a_capture, what_came_is_replayed_to_the_same]
TESTS += [a_killed_server_leaves_whole_records, a_capture_that_cannot_be_written_ends_the_run]
TESTS += [captures_are_asked_for_by_yes, what_an_operator_asks_is_found]
