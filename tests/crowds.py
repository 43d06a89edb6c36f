"""Tests of many clients at once: a full server, refusals, and more connections than are kept.

Source: docs/WORLD.md, 'Connections and events' and 'Logging in'. The words of a refusal are this
server's own.
"""

import functools

import protocol
from client import (
    SMALLEST_VIEW,
    Client,
    Connection,
    ask_pong,
    ask_status,
    expect,
    expect_refusal,
    log_in,
    pump,
)
from play import check_opening, status_text
from program import Program
from terrain import Flat

PLAYERS = 50
MORE_CONNECTIONS = 16

WRONG_VERSION = "This server speaks protocol 47."
WRONG_NAME = "That name is not allowed."
TAKEN_NAME = "That name is in play."
FULL = "The server is full."


def fifty_get_in(path):
    """Fifty clients log in at once; one more is refused, and gets in when one has left."""
    names = [f"Player_{number}" for number in range(PLAYERS)]
    with Program(path, players=PLAYERS) as program:
        clients = [Client(program.port) for _ in names]
        for client, name in zip(clients, names):
            client.begin_login(name)
        in_play = functools.partial(are_in_play, clients)
        expect(pump(clients, in_play), "not all fifty were shown the land and the others")
        for client, name in zip(clients, names):
            check_opening(client, name, Flat, PLAYERS)
            client.check_blocks(Flat())
            expect(client.replica.names() == sorted(names), f"{name} sees {client.replica.names()}")
        entities = {client.replica.joined.entity for client in clients}
        expect(len(entities) == PLAYERS, "two players have one entity number")
        check_refusals(program.port, clients)
        clients.pop().close()
        told = [status_text(PLAYERS, PLAYERS - 1)]
        expect(pump(clients, lambda: ask_status(program.port) in told), "a place stays taken")
        log_in(program.port, "Player_50", clients)


def are_in_play(clients):
    """Whether each client is shown the land, a list of all of them, and all others."""
    return all(
        client.is_shown((0, 0), SMALLEST_VIEW)
        and len(client.replica.players) == len(clients)
        and len(client.replica.others.seen) == len(clients) - 1
        for client in clients
    )


def check_refusals(port, clients):
    """Find each refusal of a full server, in the order in which they are tested."""
    expect_refused(port, "Late", FULL, clients)
    expect_refused(port, "Player_7", TAKEN_NAME, clients)
    expect_refused(port, "Bad name", WRONG_NAME, clients)
    expect_refused(port, "Bad name", WRONG_VERSION, clients, version=46)


def refusals_are_told(path):
    """A version, a name or a player that may not come in is refused with its reason."""
    with Program(path) as program:
        player = log_in(program.port, "Paula")
        for version in (46, 48, 0, -1):
            expect_refused(program.port, "Paula", WRONG_VERSION, [player], version)
        for name in ("", "a b", "a-b", "Zoë", "Zo\u00eb\U0001F600", "a" * 15 + "."):
            expect_refused(program.port, name, WRONG_NAME, [player])
        expect_refused(program.port, "Paula", TAKEN_NAME, [player])
        for name in ("a", "_", "0", "paula", "Abcdefgh_1234567"):
            log_in(program.port, name, [player]).close()


def expect_refused(port, name, reason, others, version=protocol.PROTOCOL):
    """Find that a login is refused with a reason, and that nobody else is told."""
    with Client(port) as client:
        client.begin_login(name, version)
        expect_refusal(client, reason, others)


def crowds_are_turned_away(path):
    """Past `players + 16` connections the next is closed at once, until one of them goes."""
    with Program(path, players=1) as program:
        kept = [Client(program.port) for _ in range(1 + MORE_CONNECTIONS)]
        kept[0].begin_login("Only")
        expect(pump(kept, lambda: kept[0].is_shown((0, 0), SMALLEST_VIEW)), "none gets in")
        for _ in range(3):
            with Connection(program.port) as late:
                expect(pump([late, *kept], lambda: late.ended), "the crowd grows")
                expect(late.received == 0, f"{late.received} bytes for one too many")
        open_still = [not client.ended for client in kept]
        expect(all(open_still), f"{open_still.count(False)} of those before were closed")
        for client in kept[1:]:
            client.send(protocol.handshake(protocol.WANTS_STATUS))
            ask_pong(client, 1)
            client.close()
        expect(ask_status(program.port) == status_text(1, 1), "the status is another")


TESTS = [fifty_get_in, refusals_are_told, crowds_are_turned_away]
