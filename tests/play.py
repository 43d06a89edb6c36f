"""Tests of clients that behave: status, logins in pieces, opening, views and moves.

Sources: docs/WORLD.md ('Logging in', 'Spots, moves and views', 'A tick', 'Terrain') and
docs/COMMANDS.md (`status` has the text of the status).
"""

import protocol
from client import (
    SMALLEST_VIEW,
    TICK,
    Client,
    ask_pong,
    ask_status,
    expect,
    listen,
    log_in,
    pump,
    wait_for_names,
    wait_for_others,
    wait_for_view,
)
from clientbound import JoinGame, KeepAlive, Place, SpawnPosition, Time
from columns import column_at, view_at
from program import Program
from terrain import Flat, Hills, Isle

ODD_SIZES = (1, 2, 3, 5, 7, 11, 13)

# Where nobody walks who is shown another's view.
OUT_OF_SIGHT = 90_000.5, 70.0, 90_000.5


def status_text(most, online):
    """Write the status that is told."""
    players = f'"players":{{"max":{most},"online":{online}}}'
    version = '"version":{"name":"1.8","protocol":47}'
    return f'{{"description":{{"text":"craft47"}},{players},{version}}}'


def status_is_told(path):
    """A status, a Pong with the number of the Ping, and the end."""
    with Program(path, players=7) as program, Client(program.port) as client:
        asked = protocol.handshake(protocol.WANTS_STATUS) + protocol.request() * 2
        client.send_in_pieces(asked, (4, 1, 9), 0.01)
        expect(pump([client], lambda: len(client.packets) == 2), "no two statuses come")
        answer = protocol.Response(status_text(7, 0))
        expect(client.packets == [answer] * 2, f"the status is {client.packets}")
        ask_pong(client, -0x0123456789ABCDEF)


def logins_come_in_pieces(path):
    """Two logins, mixed and in odd pieces with pauses; each is shown the land and the other."""
    land = Hills(5)
    with Program(path, land=land.argument) as program:
        anna, ben = Client(program.port), Client(program.port)
        anna.begin_login("Anna", send=lambda data: anna.send_in_pieces(data[:-4], ODD_SIZES, 0.01))
        ben.begin_login("Ben", send=lambda data: ben.send_in_pieces(data, ODD_SIZES, 0.01))
        anna.send_in_pieces(protocol.login_start("Anna")[-4:], ODD_SIZES, 0.01)
        both = [anna, ben]
        for client, name in ((anna, "Anna"), (ben, "Ben")):
            wait_for_names(both, client, ["Anna", "Ben"])
            wait_for_view(both, client, column_at(8.5, 8.5), SMALLEST_VIEW)
            check_opening(client, name, land, 20)
            client.check_blocks(land)
        entities = [client.replica.joined.entity for client in both]
        expect(entities[0] != entities[1], f"both have the entity number {entities[0]}")
        told = ask_status(program.port)
        expect(told == status_text(20, 2), f"the status is {told}")


def check_opening(client, name, land, most):
    """Find the success of the login, the opening of a player at the spawn place, and the beat."""
    success = protocol.Success(protocol.offline_identifier(name), name)
    expect(client.packets[0] == success, f"{client.packets[0]} for the login of {name}")
    order = [type(packet) for packet in client.packets[1:6]]
    opening = [JoinGame, SpawnPosition, Place, KeepAlive, Time]
    expect(order == opening, f"the opening is {order}")
    expect(client.replica.joined.most_players == most, f"{client.replica.joined}")
    place = Place(*land.spawn, 0.0, 0.0, 0)
    expect(client.replica.place == place, f"{client.replica.place}, not {place}")
    compass = SpawnPosition(*(int(part) for part in land.spawn))
    expect(client.replica.compass == compass, f"{client.replica.compass}, not {compass}")


def every_land_is_shown(path):
    """Flat land and the isle, in the largest view that the server gives."""
    for land in (Flat(), Isle(), Hills(2**64 - 1)):
        with Program(path, land=land.argument, view=8) as program:
            client = log_in(program.port, "Cora")
            expect(client.replica.place[:3] == land.spawn, f"{client.replica.place}")
            for asked, given in ((127, 8), (-1, 2), (5, 5)):
                client.send_in_pieces(protocol.settings(asked), ODD_SIZES)
                wait_for_view([client], client, (0, 0), given)
            client.check_blocks(land)


def moves_change_the_view(path):
    """Moves over the borders of columns load and unload just what came and went."""
    land = Hills(77)
    with Program(path, land=land.argument, view=3) as program:
        other = log_in(program.port, "Otto")
        walker = log_in(program.port, "Walda", [other])
        both = [other, walker]
        wait_for_names(both, other, ["Otto", "Walda"])
        walker.send(protocol.settings(8))
        wait_for_view(both, walker, (0, 0), 3)
        other.send(protocol.position(*OUT_OF_SIGHT))
        wait_for_view(both, other, column_at(OUT_OF_SIGHT[0], OUT_OF_SIGHT[2]), SMALLEST_VIEW)
        for client in both:
            wait_for_others(both, client, [])
        forget_news(both)
        for x, z in ((16.0, 8.5), (32.5, 16.5), (-0.03125, 40.0), (-4000.5, 3000.25), (8.5, 8.5)):
            check_move(both, walker, (x, z), protocol.position(x, 70.0, z))
        moves = protocol.look(180.0, -90.0) + protocol.position(15.96875, 4.0, 0.0)
        check_move(both, walker, (15.96875, 0.0), moves)
        there_and_back = protocol.position_look(500.0, 70.0, 500.0, 1.0, 2.0)
        moves = there_and_back + protocol.position(1.0, 70.0, 1.0)
        check_move(both, walker, (1.0, 1.0), moves)
        walker.check_blocks(land)
        expect(not other.has_news(), f"the other was sent {other.packets} {other.replica.changes}")


def forget_news(clients):
    """Clear what clients were sent up to now."""
    for client in clients:
        client.forget_news()


def check_move(clients, walker, target, moves):
    """Send moves that end at a target, and find just the unloads and then the loads."""
    before = set(walker.replica.columns)
    after = view_at(column_at(*target), 3)
    walker.forget_news()
    walker.send(moves)
    wait_for_view(clients, walker, column_at(*target), 3)
    listen(clients, 3 * TICK)
    due = [("unload", place) for place in sorted(before - after)]
    due += [("load", place) for place in sorted(after - before)]
    sent = walker.replica.changes
    expect(sent == due, f"a move to {target}: {len(sent)} changes, {len(due)} are due")
    expect(not walker.news(), f"a move to {target} brings {walker.news()}")


def far_places_bring_back(path):
    """A move past the end of the world brings a player to the spawn place, and tells it so."""
    with Program(path) as program:
        client = log_in(program.port, "Dora")
        past = (3.1e7, 5.0, 0.0), (0.0, -65.0, 0.0), (0.0, 4097.0, 0.0), (0.0, 5.0, -1e300)
        for x, y, z in past:
            client.send(protocol.position(400.0, 5.0, 0.0))
            wait_for_view([client], client, (25, 0), SMALLEST_VIEW)
            client.forget_news()
            client.send(protocol.position(x, y, z))
            wait_for_view([client], client, (0, 0), SMALLEST_VIEW)
            listen([client], 2 * TICK)
            places = client.news()
            expect(places == [Place(*Flat.spawn, 0.0, 0.0, 0)], f"sent back by {places}")


TESTS = [
    status_is_told,
    logins_come_in_pieces,
    every_land_is_shown,
    moves_change_the_view,
    far_places_bring_back,
]
