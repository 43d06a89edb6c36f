"""Tests of clients that see each other: who comes into view and goes, moves, turns, and holds what.

Sources: wiki.vg, 'Protocol' ('Spawn Player', 'Entity Relative Move', 'Entity Look', 'Entity Look
And Relative Move', 'Entity Teleport', 'Entity Head Look', 'Entity Equipment'), docs/WORLD.md, 'A
tick' and 'Entities'. Places are in 1/32 blocks and looks in 1/256 of a turn, as packets have them.
"""

import protocol
from carrying import CHEST_PILE, DIRT_PILE, PLANKS_PILE, STONE_PILE
from client import PAST_THE_WORLD, SMALLEST_VIEW, Client, Unexpected, expect, expect_farewell
from client import log_in, pump, wait_for_names, wait_for_others, wait_for_view
from clientbound import Change, Destroy, Equipment, HeadLook, Look, Place, PlayersCame, PlayersLeft
from clientbound import Step, StepLook, Teleport
from faults import BAD_FRAME
from news import BENEATH, CHEST_STATE, DROP_ONE, DROP_STACK, FACES, FLAT_FEET, TRIES, UP
from news import at_face, drop, expect_sent, hand_news, item_news, log_in_two, player_news
from news import settle, until_between_ticks
from others import PARTS, column_of_place
from packs import CHEST, DIRT, STONE
from play import forget_news
from program import Program
from protocol import Stack, offline_identifier
from terrain import Flat

# What one unit of a look is in degrees.
TURN = 360 / 256

# The last places on the x axis whose columns a view of two shows from the spawn place, and the
# first that it does not.
LAST_EAST, FIRST_EAST = 16 * 3 * PARTS - 1, 16 * 3 * PARTS
LAST_WEST, FIRST_WEST = -16 * 2 * PARTS, -16 * 2 * PARTS - 1

# Changes of a player, one after another in one column: how far it moves, how it looks then, and
# what is told of it, where a jump is told by its place and look.
ROWS = [
    ((1, 0, 0), (0, 0), [Step(1, (1, 0, 0))]),
    ((0, -1, 0), (0, 0), [Step(1, (0, -1, 0))]),
    ((0, 0, 127), (0, 0), [Step(1, (0, 0, 127))]),
    ((-128, -128, -128), (0, 0), [Step(1, (-128, -128, -128))]),
    ((127, 127, 127), (0, 0), [Step(1, (127, 127, 127))]),
    ((0, 0, 0), (0, 0), []),
    ((0, 0, 0), (1, 0), [Look(1, 1, 0), HeadLook(1, 1)]),
    ((0, 0, 0), (1, 255), [Look(1, 1, 255)]),
    ((0, 0, 0), (128, 64), [Look(1, 128, 64), HeadLook(1, 128)]),
    ((-1, 2, -3), (128, 63), [StepLook(1, (-1, 2, -3), 128, 63)]),
    ((-128, 127, 0), (255, 63), [StepLook(1, (-128, 127, 0), 255, 63), HeadLook(1, 255)]),
    ((0, 0, -128), (0, 0), [StepLook(1, (0, 0, -128), 0, 0), HeadLook(1, 0)]),
    ((128, 0, 0), (0, 0), [Teleport]),
    ((-129, 0, 0), (0, 0), [Teleport]),
    ((1, 128, 1), (0, 0), [Teleport]),
    ((1, -129, 1), (0, 0), [Teleport]),
    ((0, 0, 128), (0, 7), [Teleport]),
    ((127, 127, -129), (9, 7), [Teleport, HeadLook(1, 9)]),
    ((-256, 256, -256), (0, 0), [Teleport, HeadLook(1, 0)]),
]


def move_to(place, look=None):
    """Say where a player stands, and how it looks where a look is given."""
    spot = [part / PARTS for part in place]
    return protocol.position(*spot) if look is None else protocol.position_look(*spot, *turn(look))


def turn(look):
    """Answer a look in degrees."""
    return [TURN * part for part in look]


def players_come_into_view(path):
    """Who comes is told who is there, in rising number, and they are told of it."""
    place, look = (200, 192, 300), (32, 240)
    with Program(path) as program:
        anna = log_in(program.port, "Anna")
        anna.send(move_to(place, look) + protocol.held(1))
        settle([anna])
        forget_news([anna])
        ben = log_in(program.port, "Ben", [anna])
        wait_for_others([anna, ben], anna, [2])
        due = player_news(1, "Anna", place, DIRT_PILE, look)
        expect_seen(ben, due)
        expect_seen(anna, player_news(2, "Ben", FLAT_FEET, STONE_PILE))
        ben.send(protocol.held(8) + protocol.look(*turn((255, 1))))
        settle([anna, ben])
        forget_news([anna, ben])
        cora = log_in(program.port, "Cora", [anna, ben])
        for client in (anna, ben):
            wait_for_others([anna, ben, cora], client, [3, 2 if client is anna else 1])
            expect_seen(client, player_news(3, "Cora", FLAT_FEET, STONE_PILE))
        expect_seen(cora, due + player_news(2, "Ben", FLAT_FEET, None, (255, 1)))
        expect_sent({anna: [], ben: [], cora: []})


def expect_seen(client, due):
    """Find that a client was sent just these packets of others, and forget its news."""
    kinds = {type(packet) for packet in due}
    sent = [packet for packet in client.news() if type(packet) in kinds]
    expect(sent == due, f"{sent} of others, and {due} is due")
    client.forget_news()


def each_form_is_told(path):
    """A step, a turn, both or a jump is told by where a player and its look are and were."""
    with Program(path) as program:
        anna, ben = log_in_two(program.port)
        place, before = FLAT_FEET, (0, 0)
        for by, look, due in ROWS:
            place = tuple(part + step for part, step in zip(place, by))
            anna.send(saying(by, look, place, before))
            jump = Teleport(1, place, *look)
            expect_sent({anna: [], ben: [jump if told is Teleport else told for told in due]})
            before = look
        anna.send(protocol.position(PAST_THE_WORLD, 64.0, 0.0))
        due = [Place(*Flat.spawn, 0.0, 0.0, 0)]
        expect_sent({anna: due, ben: [Teleport(1, FLAT_FEET, 0, 0)]})


def saying(by, look, place, before):
    """Make the packet that says no more than what is new."""
    if by == (0, 0, 0):
        return protocol.look(*turn(look))
    return move_to(place, look if look != before else None)


def moves_are_not_added_up(path):
    """Moves between two ticks are told as one, from where the player was to where it is.

    A server that adds up sends what one sends that has a tick between the moves, so that alone
    shows nothing; but nothing parts moves that come in one write each time.
    """
    x, y, z = FLAT_FEET
    there = x + 100, y, z
    with Program(path) as program:
        anna, ben = log_in_two(program.port)
        jumps = until_between_ticks(lambda: jump_by_two_steps(anna, ben))
        turns = until_between_ticks(lambda: walk_there_and_back(anna, ben))
        anna.send(move_to(FLAT_FEET) + protocol.look(*turn((1, 2))) + move_to(there))
        settle([anna, ben])
        other = ben.replica.others.seen[1]
        expect((other.place, other.look()) == (there, (1, 2)), f"{other}")
        return f"at once the {jumps}. and {turns}. time"


def jump_by_two_steps(anna, ben):
    """Let Anna move twice by as much as a step can tell; answer whether one jump was told."""
    x, y, z = ben.replica.others.seen[1].place
    by = 100 if x == FLAT_FEET[0] else -100
    far = x + 2 * by, y, z
    anna.send(move_to((x + by, y, z)) + move_to(far))
    return expect_either(anna, ben, [Teleport(1, far, 0, 0)], [Step(1, (by, 0, 0))] * 2)


def walk_there_and_back(anna, ben):
    """Let Anna go and turn, and then go and turn back; answer whether nothing was told."""
    x, y, z = place = ben.replica.others.seen[1].place
    anna.send(move_to((x - 100, y, z), (9, 9)) + move_to(place, (0, 0)))
    there = [StepLook(1, (-100, 0, 0), 9, 9), HeadLook(1, 9)]
    return expect_either(anna, ben, [], [*there, StepLook(1, (100, 0, 0), 0, 0), HeadLook(1, 0)])


def expect_either(anna, ben, at_once, in_two):
    """Find that Ben is sent one of two lists, and Anna nothing; answer whether it is the first."""
    settle([anna, ben])
    sent = ben.news()
    expect(sent in (at_once, in_two), f"{sent} is sent, and {at_once} or {in_two} is due")
    expect(not anna.news(), f"{anna.news()} is sent of the own moves")
    forget_news([anna, ben])
    return sent == at_once


def hands_are_seen(path):
    """Another stack in the hand is told, and an empty hand; the same stack again is not."""
    with Program(path) as program:
        anna, ben = log_in_two(program.port)
        held = (1, DIRT_PILE), (2, PLANKS_PILE), (3, CHEST_PILE), (8, None), (0, STONE_PILE)
        for place, stack in held:
            anna.send(protocol.held(place))
            expect_sent({anna: [], ben: [Equipment(1, stack)]})
        anna.send(protocol.held(0) + protocol.held(9) + protocol.held(-1))
        expect_sent({anna: [], ben: []})
        anna.send(protocol.held(4))
        expect_sent({anna: [], ben: [Equipment(1, None)]})
        anna.send(protocol.held(5))
        expect_sent({anna: [], ben: []})
        anna.send(protocol.held(1))
        expect_sent({anna: [], ben: [Equipment(1, DIRT_PILE)]})
        anna.send(drop(DROP_ONE))
        item, left = item_news(3, FLAT_FEET, Stack(DIRT, 1, 0)), Stack(DIRT, 63, 0)
        expect_sent({anna: [*item, hand_news(1, left)], ben: [Equipment(1, left), *item]})
        ben.send(drop(DROP_STACK))
        item = item_news(4, FLAT_FEET, STONE_PILE)
        expect_sent({anna: [Equipment(2, None), *item], ben: [*item, hand_news(0, None)]})
        anna.send(drop(DROP_STACK))
        item = item_news(5, FLAT_FEET, left)
        expect_sent({anna: [*item, hand_news(1, None)], ben: [Equipment(1, None), *item]})


def placements_are_seen_in_the_hand(path):
    """A block that is placed comes before the hand of who placed it, down to the last."""
    middle = (8, 8, 8)
    with Program(path) as program:
        anna, ben = log_in_two(program.port)
        anna.send(protocol.held(3))
        expect_sent({anna: [], ben: [Equipment(1, CHEST_PILE)]})
        for face, count in zip(FACES, (3, 2, 1, 0)):
            left = Stack(CHEST, count, 0) if count else None
            anna.send(protocol.placement(middle, face))
            put = Change(at_face(middle, face), CHEST_STATE)
            expect_sent({anna: [put, hand_news(3, left)], ben: [put, Equipment(1, left)]})
        put, left = Change(at_face(BENEATH, UP), 16 * STONE), Stack(STONE, 63, 0)
        ben.send(protocol.placement(BENEATH, UP))
        expect_sent({anna: [put, Equipment(2, left)], ben: [put, hand_news(0, left)]})


def moves_and_hands_come_in_order(path):
    """The move of one player comes before its hand, and that before the next player's."""
    with Program(path) as program:
        anna, ben = log_in_two(program.port)
        cora = log_in(program.port, "Cora", [anna, ben])
        everybody = [anna, ben, cora]
        wait_for_others(everybody, anna, [2, 3])
        wait_for_others(everybody, ben, [1, 3])
        settle(everybody)
        forget_news(everybody)
        tries = until_between_ticks(lambda: move_and_hold(anna, ben, cora))
        return f"at once the {tries}. time"


def move_and_hold(anna, ben, cora):
    """Let Anna and Ben go, turn and hold something else; answer whether Cora saw it in one tick."""
    seen = cora.replica.others.seen
    x, y, z = seen[1].place
    yaw = seen[1].yaw + 3
    is_first = seen[1].stack == STONE_PILE
    place, stack = (1, DIRT_PILE) if is_first else (0, STONE_PILE)
    anna.send(move_to((x + 10, y, z), (yaw, 4)) + protocol.held(place))
    ben.send(protocol.held(8 if is_first else 0) + protocol.look(*turn((yaw + 2, 0))))
    settle([anna, ben, cora])
    of_anna = [StepLook(1, (10, 0, 0), yaw, 4), HeadLook(1, yaw), Equipment(1, stack)]
    held = Equipment(2, None if is_first else STONE_PILE)
    of_ben = [Look(2, yaw + 2, 0), HeadLook(2, yaw + 2), held]
    for client, due in ((anna, of_ben), (ben, of_anna), (cora, of_anna + of_ben)):
        sent = client.news()
        expect(sorted(map(repr, sent)) == sorted(map(repr, due)), f"{sent}, not {due}")
    for due in (of_anna, of_ben):
        sent = [packet for packet in cora.news() if packet.entity == due[0].entity]
        expect(sent == due, f"{sent}, not {due}")
    is_one = cora.news() == of_anna + of_ben
    forget_news([anna, ben, cora])
    return is_one


def who_leaves_the_view_goes(path):
    """Who walks out of a view is destroyed there and told of no more, until it comes back."""
    x, y, z = FLAT_FEET
    walks = [(LAST_EAST, True), (FIRST_EAST, False), (LAST_EAST, True)]
    walks += [(16 * 500, False), (16 * 700, False), (LAST_WEST, True), (FIRST_WEST, False)]
    with Program(path, view=8) as program:
        anna, ben = log_in_two(program.port)
        anna.send(protocol.settings(8))
        wait_for_view([anna, ben], anna, (0, 0), 8)
        forget_news([anna, ben])
        before, was_seen = x, True
        for to, is_seen in walks:
            walk(anna, ben, (to, y, z), 8)
            expect_seen_walking(ben, before, to, was_seen, is_seen)
            before, was_seen = to, is_seen
        expect(set(anna.replica.others.seen) == {2}, "the larger view shows no other")
        anna.send(protocol.settings(SMALLEST_VIEW))
        wait_for_others([anna, ben], anna, [])
        settle([anna, ben])
        expect(anna.news() == [Destroy([2])], f"{anna.news()} for a smaller view")
        anna.replica.changes.clear()
        forget_news([anna, ben])
        anna.send(protocol.held(2) + protocol.look(*turn((7, 7))))
        expect_sent({anna: [], ben: []})
        walk(anna, ben, FLAT_FEET)
        due = player_news(1, "Anna", FLAT_FEET, PLANKS_PILE, (7, 7))
        expect(ben.news() == due, f"{ben.news()} for who comes back, not {due}")
        due = player_news(2, "Ben", FLAT_FEET, STONE_PILE)
        expect(anna.news() == due, f"{anna.news()} for who comes back, not {due}")


def walk(walker, watcher, place, size=SMALLEST_VIEW):
    """Let one walk to a place, and wait until both were sent what comes of it."""
    forget_news([walker, watcher])
    walker.send(move_to(place))
    wait_for_view([walker, watcher], walker, column_of_place(place), size)
    settle([walker, watcher])
    for client in (walker, watcher):
        client.replica.changes.clear()


def expect_seen_walking(ben, before, to, was_seen, is_seen):
    """Find what Ben is sent of Anna, who walked along the x axis in or out of its view."""
    place = (to, *FLAT_FEET[1:])
    due = []
    if is_seen:
        due = player_news(1, "Anna", place, STONE_PILE)
        due = [Teleport(1, place, 0, 0)] if was_seen else due
    elif was_seen:
        due = [Destroy([1])]
    expect(ben.news() == due, f"{ben.news()} for a walk from {before} to {to}, not {due}")


def views_and_players_move_at_once(path):
    """Who walks along with a view is seen in it, also where the column that it was in goes."""
    with Program(path) as program:
        anna, ben = log_in_two(program.port)
        x, y, z = LAST_WEST, FLAT_FEET[1], FLAT_FEET[2]
        walk(anna, ben, (x, y, z))
        forget_news([anna, ben])
        for step in range(1, TRIES):
            x += 16 * PARTS
            anna.send(move_to((x, y, z)))
            ben.send(move_to((FLAT_FEET[0] + 16 * PARTS * step, y, z)))
            settle([anna, ben])
            for client, number in ((anna, 2), (ben, 1)):
                shown = set(client.replica.others.seen)
                expect(shown == {number}, f"{shown} are seen of who walks along")
            expect(ben.replica.others.seen[1].place == (x, y, z), f"{ben.replica.others.seen}")
        kept = sum(type(packet) is Teleport for packet in ben.packets)
        expect(kept > 0, f"never seen in one tick, of {TRIES - 1} times")
        return f"{kept} of {TRIES - 1} moves in one tick"


def who_leaves_the_game_goes(path):
    """Who leaves is destroyed behind its line of the list, and has another number when it joins."""
    with Program(path) as program:
        anna, ben = log_in_two(program.port)
        anna.close()
        wait_for_others([ben], ben, [])
        gone = [PlayersLeft([offline_identifier("Anna")]), Destroy([1])]
        expect_sent({ben: gone})
        anna = log_in(program.port, "Anna", [ben])
        wait_for_others([anna, ben], ben, [3])
        came = [PlayersCame({offline_identifier("Anna"): "Anna"})]
        expect_sent({ben: came + player_news(3, "Anna", FLAT_FEET, STONE_PILE)})
        anna.send(b"\x00")
        expect_farewell(anna, BAD_FRAME, [ben])
        wait_for_others([ben], ben, [])
        expect_sent({ben: [gone[0], Destroy([3])]})


def who_comes_back_at_once_is_another(path):
    """Who leaves and joins again between two ticks is destroyed and comes under another number."""
    identifier = offline_identifier("Anna")
    at_once = 0
    with Program(path) as program:
        anna, ben = log_in_two(program.port)
        before = 1
        for number in range(3, 3 + TRIES):
            settle([anna, ben])
            forget_news([anna, ben])
            anna.close()
            anna = join_again(program.port, ben)
            wait_for_others([anna, ben], ben, [number])
            spawn = player_news(number, "Anna", FLAT_FEET, STONE_PILE)
            one = [Destroy([before]), *spawn]
            more = [PlayersLeft([identifier]), Destroy([before])]
            more += [PlayersCame({identifier: "Anna"}), *spawn]
            sent = ben.news()
            expect(sent in (one, more), f"{sent} is sent, and {one} or {more} is due")
            at_once += sent == one
            before = number
    expect(at_once > 0, f"never seen between two ticks, of {TRIES} times")
    return f"{at_once} of {TRIES} times between two ticks"


def join_again(port, other):
    """Log Anna in as soon as its name is free."""
    for _ in range(TRIES):
        anna = Client(port)
        anna.begin_login("Anna")
        pump([anna, other], lambda: anna.ended or anna.replica.place is not None)
        if not anna.ended:
            wait_for_view([anna, other], anna, (0, 0), SMALLEST_VIEW)
            return anna
    raise Unexpected("the name stays taken")


def nobody_sees_itself(path):
    """Moves, turns, hands and drops of its own tell a player nothing of its entity."""
    with Program(path) as program:
        anna = log_in(program.port, "Anna")
        anna.forget_news()
        moves = move_to((273, 128, 272)), move_to((500, 300, 272), (9, 9))
        turns = protocol.look(*turn((200, 100))), protocol.look(*turn((200, 101)))
        for said in (*moves, *turns, protocol.held(1), protocol.held(8)):
            anna.send(said)
            expect_sent({anna: []})
        anna.send(protocol.held(0) + drop(DROP_ONE))
        item = item_news(2, (500, 300, 272), Stack(STONE, 1, 0))
        expect_sent({anna: [*item, hand_news(0, Stack(STONE, 63, 0))]})
        expect(not anna.replica.others.seen, f"{anna.replica.others.seen} are seen")


def those_apart_see_nothing(path):
    """Who stands out of view is in the list and is not seen, whatever it does."""
    with Program(path) as program:
        anna, ben = log_in_two(program.port)
        walk(anna, ben, (FIRST_EAST + 16 * PARTS, 128, 272))
        for client, number in ((anna, 2), (ben, 1)):
            expect(client.news() == [Destroy([number])], f"{client.news()}")
        forget_news([anna, ben])
        for said in (move_to((FIRST_EAST, 128, 272)), protocol.held(1), drop(DROP_STACK)):
            anna.send(said)
            settle([anna, ben])
            expect(not ben.news(), f"{ben.news()} of who is out of view")
        for client in (anna, ben):
            wait_for_names([anna, ben], client, ["Anna", "Ben"])


TESTS = [
    players_come_into_view,
    each_form_is_told,
    moves_are_not_added_up,
    hands_are_seen,
    placements_are_seen_in_the_hand,
    moves_and_hands_come_in_order,
    who_leaves_the_view_goes,
    views_and_players_move_at_once,
    who_leaves_the_game_goes,
    who_comes_back_at_once_is_another,
    nobody_sees_itself,
    those_apart_see_nothing,
]
