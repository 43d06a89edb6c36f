"""Tests of what lies between the program and the system: sockets, signals, memory, input, output.

Sources: docs/COMMANDS.md, 'Statuses', and docs/OPERATING.md, 'Limits' and 'When the system runs
short'. What a process holds is read in /proc, so these tests need Linux.
"""

import os
import resource
import signal
import socket
import time

import protocol
from client import PATIENCE, TICK, Client, Connection, ask_pong, ask_status, expect, log_in, pump
from client import wait_for_end, wait_for_names
from crowds import MORE_CONNECTIONS, PLAYERS
from play import status_text
from program import Program, free_port, limited, run
from protocol import Pong

# How many descriptors the program may have, and how many of them it has of its own, with one that
# is spared.
DESCRIPTORS = 24
OWN_DESCRIPTORS = 5
SERVED = DESCRIPTORS - OWN_DESCRIPTORS

# How many connections linger at most, and how long.
LINGERING = 64
LINGERING_SECONDS = 20 * TICK

# A run of so many ticks is stopped so often, for times in which three ticks and 20 ticks are due;
# five ticks come at once at most.
STOPPED_TICKS = 80
SHORT_STOPS, SHORT_STOP = 8, 0.15
LONG_STOPS, LONG_STOP = 3, 1.0
MOST_AT_ONCE = 5

# How much later a run may end than it should, in seconds.
LATER = 0.8

# How much memory the program may have where it is to run short of it, and an input that is more.
MEMORY = 64 << 20
LONG_INPUT = (b"00" * 32_000 + b"\n") * 1_000

STATUS_INPUT = (protocol.handshake(protocol.WANTS_STATUS) + protocol.request()).hex().encode()
ANSWER = protocol.packet(0x00, protocol.text(status_text(20, 0))).hex() + "\n"


def crowds_use_descriptors_up(path):
    """Where no descriptor is left the next is closed at once, and the others are served on."""
    limits = limited(resource.RLIMIT_NOFILE, DESCRIPTORS)
    with Program(path, limits=limits, players=PLAYERS) as program:
        served = [ask_first(program.port) for _ in range(SERVED)]
        expect(program.usage.descriptors() == DESCRIPTORS, f"{program.usage.state()}")
        for _ in range(2 * SERVED):
            with Connection(program.port) as late:
                expect(pump([late, *served], lambda: late.ended), "one too many is not closed")
                expect(late.received == 0, f"{late.received} bytes for one too many")
        for client in served:
            client.packets.clear()
            client.send(protocol.request())
        expect(pump(served, lambda: all(it.packets for it in served)), "not all are served on")
        ended = [client.ended for client in served]
        expect(not any(ended), f"{ended.count(True)} of those before were closed")
        ask_pong(served.pop(), 3)
        come_in = lambda: ask_first(program.port) is not None
        expect(wait_until(come_in, PATIENCE), "a descriptor that is free again is not used")


def ask_first(port):
    """Connect and ask for the status; answer the client, or None where it is closed instead."""
    client = Client(port)
    client.send(protocol.handshake(protocol.WANTS_STATUS) + protocol.request())
    expect(pump([client], lambda: client.packets or client.ended), "no status and no end")
    return None if client.ended else client


def who_half_closes_is_gone(path):
    """Who ends its sending is answered what it asked before, and is gone then."""
    with Program(path) as program:
        wanda = log_in(program.port, "Wanda")
        anna = log_in(program.port, "Anna", [wanda])
        wait_for_names([wanda, anna], wanda, ["Anna", "Wanda"])
        anna.socket.shutdown(socket.SHUT_WR)
        wait_for_names([wanda], wanda, ["Wanda"])
        expect(pump([anna], lambda: anna.ended), "its connection is not closed")
        with Client(program.port) as asker:
            asker.send(protocol.handshake(protocol.WANTS_STATUS) + protocol.request())
            asker.socket.shutdown(socket.SHUT_WR)
            wait_for_end([asker, wanda], asker)
            told = [protocol.Response(status_text(20, 1))]
            expect(asker.packets == told, f"it is told {asker.packets}")


def few_linger(path):
    """Of those that are closed and don't end at most 64 are kept, and none for long; all are told
    why they were closed."""
    with Program(path, players=PLAYERS) as program:
        before = program.usage.descriptors()
        pingers = [Client(program.port) for _ in range(PLAYERS + MORE_CONNECTIONS)]
        for pinger in pingers:
            pinger.send(protocol.handshake(protocol.WANTS_STATUS) + protocol.request())
        expect(pump(pingers, lambda: all(it.packets for it in pingers)), "not all join")
        for pinger in pingers:
            pinger.packets.clear()
            pinger.send(protocol.ping(7))
        begun = time.monotonic()
        for pinger in pingers:
            wait_for_end(pingers, pinger)
            expect(pinger.packets == [Pong(7)], f"{pinger.packets} for a Ping")
        # A peer sees its end just before the oldest is cut off for it.
        time.sleep(TICK)
        kept = program.usage.descriptors() - before
        expect(kept <= LINGERING, f"{kept} connections linger")
        is_soon = time.monotonic() - begun < LINGERING_SECONDS / 2
        expect(kept > 0 or not is_soon, "none lingers")
        left = lambda: program.usage.descriptors() == before
        expect(wait_until(left, LINGERING_SECONDS + PATIENCE), f"{program.usage.state()} are left")
        for pinger in pingers:
            pinger.close()
        expect(ask_status(program.port) == status_text(PLAYERS, 0), "the status is another")
        return f"{kept} of {len(pingers)} lingered"


def wait_until(is_done, patience):
    """Wait until something is done; answer whether it is in time."""
    deadline = time.monotonic() + patience
    while not is_done():
        if time.monotonic() > deadline:
            return False
        time.sleep(TICK / 5)
    return True


def late_ticks_are_caught_up(path):
    """After a stop ticks that are late come at once, but five at most; the others are left out."""
    due = STOPPED_TICKS * TICK
    short = run_with_stops(path, SHORT_STOPS, SHORT_STOP)
    expect(due - TICK < short < due + LATER, f"{due:.1f} s of ticks take {short:.2f} s with stops")
    left_out = LONG_STOPS * (LONG_STOP - (MOST_AT_ONCE - 1) * TICK)
    least = due + left_out - LONG_STOPS * 2 * TICK
    long = run_with_stops(path, LONG_STOPS, LONG_STOP)
    expect(least < long < due + left_out + LATER, f"{due:.1f} s of ticks take {long:.2f} s")
    return f"{short:.2f} s with short stops, {long:.2f} s with long ones"


def run_with_stops(path, stops, seconds):
    """Stop a run of the program some times, for so long each; answer how long the run took."""
    with Program(path, ticks=STOPPED_TICKS) as program:
        begun = time.monotonic()
        for _ in range(stops):
            time.sleep(2 * TICK)
            program.process.send_signal(signal.SIGSTOP)
            time.sleep(seconds)
            program.process.send_signal(signal.SIGCONT)
        ended = program.finish()
        expect(ended[:2] == (0, f"ticks={STOPPED_TICKS} joins=0 closed=0\n"), f"it ends {ended}")
        return time.monotonic() - begun


def faults_of_input_are_told(path):
    """An input that can't be read ends a run with 3, and one with a fault with 6, as it is said."""
    folder = os.open("/", os.O_RDONLY)
    for command in ("status", "replay"):
        ended = run(path, command, stdin=folder)
        expect(ended == (3, "read fault\n", ""), f"{command} of a folder ends with {ended}")
    os.close(folder)
    rows = [("status", b"0", "", "bad input at 1: Hex\n")]
    rows += [("status", STATUS_INPUT + b"\n\n#\n00\n", ANSWER, "bad input at 4: Frame\n")]
    rows += [("status", STATUS_INPUT + b"05", ANSWER, "bad input at 1: Cut\n")]
    rows += [("replay", b"join 0\njump 0\n", "", "bad input at 2: Word\n")]
    rows += [("replay", b"join 1\njoin 1\n", "", "bad input at 2: Order\n")]
    for command, given, answers, line in rows:
        ended = run(path, command, input=given)
        expect(ended == (6, answers + line, ""), f"{command} of {given} ends with {ended}")
    ended = run(path, "status", input=STATUS_INPUT)
    expect(ended == (0, ANSWER, ""), f"without a fault it ends with {ended}")


def faults_of_output_are_told(path):
    """An output that takes nothing ends a run with 4."""
    listening = f"port={free_port()}"
    with open("/dev/full", "wb") as full:
        ended = run(path, "status", input=STATUS_INPUT, output=full)
        expect(ended == (4, "", ""), f"status ends with {ended}")
        ended = run(path, "replay", input=b"join 0\nbytes 0 00\n", output=full)
        expect(ended == (4, "", ""), f"replay ends with {ended}")
        ended = run(path, "serve", listening, "ticks=1", output=full)
        expect(ended[:2] == (4, ""), f"serve ends with {ended}")


def want_of_memory_is_told(path):
    """Where no memory is left for the input a run ends with 1, and says nothing."""
    limits = limited(resource.RLIMIT_AS, MEMORY)
    for command in ("status", "replay"):
        ended = run(path, command, input=LONG_INPUT, preexec_fn=limits)
        expect(ended == (1, "", ""), f"{command} ends with {ended}")
    ended = run(path, "status", input=STATUS_INPUT, preexec_fn=limits)
    expect(ended == (0, ANSWER, ""), f"a short input ends with {ended}")


TESTS = [
    crowds_use_descriptors_up,
    who_half_closes_is_gone,
    few_linger,
    faults_of_input_are_told,
    faults_of_output_are_told,
    want_of_memory_is_told,
]

LONG_TESTS = [late_ticks_are_caught_up]
