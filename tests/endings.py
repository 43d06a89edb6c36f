"""Tests of how a run begins and ends: its statuses, its last lines, its pace and its port.

Source: docs/COMMANDS.md, `serve` and 'Statuses'.
"""

import re
import signal
import socket
import time

import protocol
from client import HOST, TICK, Client, ask_pong, ask_status, expect, log_in, pump
from client import expect_refusal, wait_for_end
from crowds import WRONG_VERSION
from play import status_text
from program import Program, free_port, run

USAGE = "usage: craft47 status, serve, replay, bot, view, show or load\n"


def usage_is_told(path):
    """Arguments that say no run end with the line of usage and 2."""
    good = ["serve", f"port={free_port()}", "ticks=1"]
    bad = [good[:1], good[:2], ["serve", good[2]], good + ["port=1"], good + ["depth=1"]]
    bad += [good + [option] for option in ("players=0", "players=51", "view=1", "view=9")]
    bad += [good + [option] for option in ("land=sea", "pace=slow", "events=0", "events", "view=")]
    for arguments in bad:
        status, output, errors = run(path, *arguments)
        expect((status, output) == (2, USAGE), f"{arguments} ends with {status}: {output!r}")
        expect(errors == "", f"{arguments}: {errors!r} on standard error")


def ports_in_use_are_told(path):
    """A port that another listens on ends the run with 5, and says why."""
    with socket.create_server((HOST, 0)) as taken:
        port = taken.getsockname()[1]
        status, output, errors = run(path, "serve", f"port={port}", "ticks=5")
    expect((status, output) == (5, "net fault\n"), f"it ends with {status}: {output!r}")
    line = re.fullmatch(rf"[^\n]*{HOST}:{port}[^\n]*\n", errors)
    expect(line is not None, f"standard error says {errors!r}")


def runs_end_by_their_ticks(path):
    """A run ends after its ticks, with the number of those that joined and that were closed."""
    with Program(path, ticks=5) as program:
        ended = program.finish()
        expect(ended[:2] == (0, "ticks=5 joins=0 closed=0\n"), f"it ends with {ended}")
        expect(ended[2] == f"listening on {HOST}:{program.port}\n", f"it says {ended[2]!r}")
    begun = time.monotonic()
    with Program(path, ticks=60) as program:
        with say_some_things(program.port) as stayer:
            ended = program.finish()
            expect(ended[:2] == (0, "ticks=60 joins=5 closed=2\n"), f"it ends with {ended}")
            took = time.monotonic() - begun
            expect(pump([stayer], lambda: stayer.ended), "who is there sees no end")
            expect(stayer.replica.farewell is None, f"it is told {stayer.replica.farewell}")
    expect(60 * TICK * 0.9 < took < 60 * TICK * 2, f"60 ticks take {took:.2f} s")


def say_some_things(port):
    """Join five times: two are closed for a fault, one by its Ping, one leaves, and one is there,
    which is answered."""
    with Client(port) as pinger:
        pinger.send(protocol.handshake(protocol.WANTS_STATUS))
        ask_pong(pinger, 5)
    with Client(port) as faulty:
        faulty.send(b"\x00")
        wait_for_end([faulty], faulty)
    with Client(port) as old:
        old.begin_login("Old", 46)
        expect_refusal(old, WRONG_VERSION)
    log_in(port, "Leaver").close()
    return log_in(port, "Stayer")


def budgets_end_runs(path):
    """A run ends with 7 after its number of events; a join and the bytes that come are such."""
    with Program(path, ticks=100, events=10) as program:
        with Client(program.port) as talker:
            talker.send(protocol.handshake(protocol.WANTS_STATUS))
            for _ in range(40):
                talker.send(protocol.request())
                pump([talker], lambda: talker.ended, TICK / 2)
            ended = program.finish()
    expect(ended[:2] == (7, "budget 10\n"), f"it ends with {ended}")
    answers = len(talker.packets)
    expect(0 < answers < 10, f"{answers} answers after a join, within 10 events")


def ended_runs_free_their_port(path):
    """A run that is ended by a signal leaves no process, and its port can be used at once."""
    with Program(path) as program:
        client = log_in(program.port, "Sig")
        program.process.send_signal(signal.SIGTERM)
        status, output, _ = program.finish()
        expect(status != 0 and output == "", f"it ends with {status}: {output!r}")
        expect(pump([client], lambda: client.ended), "its clients see no end")
    with Program(path, port=program.port) as again:
        told = ask_status(again.port)
        expect(told == status_text(20, 0), f"the status is {told}")


def turns_end_with_their_lobby(path):
    """By turns ticks come while somebody is there, and the run ends when all have left.

    Nobody is in play for long here: by turns a beat is to be answered within milliseconds.
    """
    with Program(path, pace="turns", ticks=1_000_000_000) as program:
        with Client(program.port) as client:
            for answers in (1, 2):
                hello = protocol.handshake(protocol.WANTS_STATUS) if answers == 1 else b""
                client.send(hello + protocol.request())
                came = pump([client], lambda: len(client.packets) == answers)
                expect(came, f"{client.packets} where {answers} statuses are due")
                time.sleep(10 * TICK)
            player = log_in(program.port, "Paula")
            player.close()
        status, output, _ = program.finish()
    line = re.fullmatch(r"ticks=(\d+) joins=2 closed=[01]\n", output)
    expect(status == 0 and line is not None, f"it ends with {status}: {output!r}")
    expect(int(line[1]) > 20, f"few ticks came: {output!r}")


def turns_wait_for_a_join(path):
    """By turns no tick comes before the first join, and the run ends after its ticks."""
    with Program(path, pace="turns", ticks=50) as program:
        time.sleep(10 * TICK)
        expect(program.process.poll() is None, "the run ended before anybody joined")
        with Client(program.port) as client:
            ended = program.finish()
            expect(ended[:2] == (0, "ticks=50 joins=1 closed=0\n"), f"it ends with {ended}")
            expect(pump([client], lambda: client.ended), "its client sees no end")


TESTS = [
    usage_is_told,
    ports_in_use_are_told,
    runs_end_by_their_ticks,
    budgets_end_runs,
    ended_runs_free_their_port,
    turns_end_with_their_lobby,
    turns_wait_for_a_join,
]
