"""Tests of what players carry, place, drop and pick up.

Sources: wiki.vg, 'Protocol' ('Player Digging' for what is dropped, 'Player Block Placement', 'Held
Item Change' and 'Creative Inventory Action'), docs/PROTOCOL.md and docs/WORLD.md.
"""

import time

import protocol
from client import expect, log_in, pump, wait_for_pack
from clientbound import Change, CloseWindow, Destroy, Equipment, HeadLook, SetSlot, Teleport
from clientbound import WindowItems
from news import AIR, BENEATH, CHEST_STATE, DOWN, DROP_ONE, DROP_STACK, FACES, FLAT_FEET, NORTH
from news import PLANKS_STATE, SOUTH, UP, at_face, dig, drop, floor_of, leave, log_in_two, one_of
from news import chest_news, dig_news, expect_items, expect_sent, hand_news, item_news, pack_news
from news import settle, until_between_ticks, window_news
from packs import CHEST, DIRT, KIT, STONE, pack_of
from program import Program
from protocol import Stack
from terrain import BEDROCK, GRASS, Changed, Flat
from terrain import DIRT as DIRT_STATE
from terrain import STONE as STONE_STATE

STONE_PILE, DIRT_PILE, PLANKS_PILE, CHEST_PILE = KIT[27:31]

# A cell of grass from which an item lies too far off for who enters to pick it up.
APART = (10, 3, 8)

# An item lies there for two seconds before it is picked up; a time that is surely less.
SHORTEST = 1.0


def kits_come_once(path):
    """The kit comes at the first join alone; who comes back finds the pack that it had."""
    with Program(path) as program:
        wanda = log_in(program.port, "Wanda")
        expect_pack_told(wanda, KIT)
        anna = log_in(program.port, "Anna", [wanda])
        expect_pack_told(anna, KIT)
        anna.send(protocol.held(1) + protocol.placement(BENEATH, UP))
        anna.send(protocol.held(2) + stand(12.5) + drop(DROP_STACK))
        left = pack_of(STONE_PILE, Stack(DIRT, 63, 0), None, CHEST_PILE)
        wait_for_pack([wanda, anna], anna, left)
        anna = come_back(program.port, anna, wanda, left)
        anna.check_blocks(Changed(Flat(), {at_face(BENEATH, UP): DIRT_STATE}))
        expect_items([anna, wanda], {3: ((400, 128, 272), PLANKS_PILE)})
        anna.send(stand(14.5) + drop(DROP_ONE))
        left = pack_of(Stack(STONE, 63, 0), *left[28:31])
        wait_for_pack([wanda, anna], anna, left)
        anna = come_back(program.port, anna, wanda, left)
        for place in range(4):
            anna.send(stand(16.5) + protocol.held(place) + drop(DROP_STACK))
        wait_for_pack([wanda, anna], anna, pack_of())
        come_back(program.port, anna, wanda, pack_of())
        expect_pack_told(log_in(program.port, "anna", [wanda]), KIT)


def stand(x):
    """Stand at an x of flat land, apart from who enters."""
    return protocol.position(x, 4.0, 8.5)


def come_back(port, client, watcher, pack):
    """Let Anna leave and log in again, and find that she is told just this pack."""
    leave(client, watcher, "Wanda")
    client = log_in(port, "Anna", [watcher], pack=pack)
    settle([client, watcher])
    expect_pack_told(client, pack)
    return client


def expect_pack_told(client, pack):
    """Find that what is not empty of a pack was told to a client that came, and behind all else."""
    due = pack_news(pack)
    sent = client.news()
    told = [packet for packet in sent if type(packet) in (SetSlot, WindowItems)]
    expect(told == due, f"the slots {told} are told, not {due}")
    expect(sent[len(sent) - len(due) :] == due, f"the pack is not told last: {sent}")


def placements_take_one(path):
    """A block that is placed takes one of the stack; what the client says to hold says nothing."""
    middle = (8, 8, 8)
    claims = None, Stack(DIRT, 64, 0), Stack(CHEST, 1, 0), None, Stack(STONE, 1, 15), None
    changed = {at_face(middle, face): STONE_STATE for face in FACES}
    with Program(path) as program:
        anna, ben = log_in_two(program.port)
        for face, claim in enumerate(claims):
            anna.send(protocol.placement(middle, face, claim))
            change = Change(at_face(middle, face), STONE_STATE)
            left = Stack(STONE, 63 - face, 0)
            due = {anna: [change, hand_news(0, left)], ben: [change, Equipment(1, left)]}
            expect_sent(due)
        for face in (-1, 6, 127, -128):
            anna.send(protocol.placement(middle, face))
        anna.send(protocol.placement((-1, -1, -1), -1, STONE_PILE))
        expect_sent({anna: [], ben: []})
        for client in (anna, ben):
            client.check_blocks(Changed(Flat(), changed))


def refused_placements_show_both_cells(path):
    """A placement that may not be is answered by its two cells and by the window."""
    above = at_face(BENEATH, UP)
    refused = [((8, 2, 8), UP, DIRT_STATE, GRASS), (above, DOWN, AIR, GRASS)]
    refused += [((15, 3, 8), UP, GRASS, AIR), ((8, 3, 1), SOUTH, GRASS, GRASS)]
    refused += [((8, 0, 8), DOWN, BEDROCK, AIR), ((8, -1, 8), UP, AIR, BEDROCK)]
    with Program(path) as program:
        anna, ben = log_in_two(program.port)
        for cell, face, clicked, target in refused:
            anna.send(protocol.placement(cell, face))
            due = [Change(cell, clicked), Change(at_face(cell, face), target)]
            expect_sent({anna: due + window_news(KIT), ben: []})
        anna.send(protocol.held(4) + protocol.placement(BENEATH, UP, STONE_PILE))
        due = [Change(BENEATH, GRASS), Change(above, AIR)]
        expect_sent({anna: due + window_news(KIT), ben: [Equipment(1, None)]})
        anna.check_blocks(Flat())


def the_highest_cell_is_filled(path):
    """A block is placed at y 255 and none above, of which the window tells what is left."""
    highest = (8, 255, 8)
    with Program(path) as program:
        anna, ben = log_in_two(program.port)
        anna.send(protocol.position(8.5, 255.0, 8.5))
        expect_sent({anna: [], ben: [Teleport(1, (272, 8160, 272), 0, 0)]})
        anna.send(protocol.placement((8, 254, 8), UP))
        put, left = Change(highest, STONE_STATE), Stack(STONE, 63, 0)
        expect_sent({anna: [put, hand_news(0, left)], ben: [put, Equipment(1, left)]})
        anna.send(protocol.placement(highest, UP))
        due = [put, Change(at_face(highest, UP), AIR)]
        due += window_news(pack_of(left, DIRT_PILE, PLANKS_PILE, CHEST_PILE))
        expect_sent({anna: due, ben: []})
        anna.check_blocks(Changed(Flat(), {highest: STONE_STATE}))


def windows_are_sent_again(path):
    """A creative action changes nothing, and is answered by the window, once in a tick."""
    with Program(path) as program:
        anna, ben = log_in_two(program.port)
        for index, stack in ((36, Stack(CHEST, 64, 0)), (-1, STONE_PILE), (0, None), (44, None)):
            anna.send(protocol.creative(index, stack))
            expect_sent({anna: window_news(KIT), ben: []})
        tries = until_between_ticks(lambda: act_twice(anna, ben))
        return f"at once the {tries}. time"


def act_twice(anna, ben):
    """Let Anna act twice; answer whether one window came for both."""
    anna.send(protocol.creative(9, STONE_PILE) + protocol.creative(36, None))
    settle([anna, ben])
    sent, due = anna.news(), window_news(KIT)
    expect(sent in (due, due * 2), f"{sent} for two creative actions")
    anna.forget_news()
    return sent == due


def chests_are_not_built_on(path):
    """A chest is placed and dug; a click at one opens it, and places nothing, whatever is held."""
    chest = at_face(BENEATH, UP)
    with Program(path) as program:
        anna, ben = log_in_two(program.port)
        anna.send(protocol.held(3))
        expect_sent({anna: [], ben: [Equipment(1, CHEST_PILE)]})
        anna.send(protocol.placement(BENEATH, UP))
        put, left = Change(chest, CHEST_STATE), Stack(CHEST, 3, 0)
        expect_sent({anna: [put, hand_news(3, left)], ben: [put, Equipment(1, left)]})
        pack, windows = pack_of(STONE_PILE, DIRT_PILE, PLANKS_PILE, left), 0
        for place, stack in ((0, STONE_PILE), (3, left), (8, None)):
            anna.send(protocol.held(place))
            expect_sent({anna: [], ben: [Equipment(1, stack)]})
            anna.send(b"".join(protocol.placement(chest, face) for face in FACES))
            windows += len(FACES)
            expect_sent({anna: chest_news(windows, [], pack), ben: []})
        anna.send(dig(chest))
        due = dig_news(3, chest, CHEST_STATE)
        expect_sent({anna: [*due, CloseWindow(windows)], ben: due})
        anna.check_blocks(Flat())


def hands_choose_what_is_placed(path):
    """A place of the hotbar from 0 to 8 changes what is placed and dropped; another does not."""
    states = {1: DIRT_STATE, 2: PLANKS_STATE, 0: STONE_STATE, 3: CHEST_STATE}
    with Program(path) as program:
        anna = log_in(program.port, "Anna")
        anna.forget_news()
        for place, state in states.items():
            floor = (4 + place, 3, 8)
            others = (9, -1, 36, 32767, -32768)
            anna.send(b"".join(protocol.held(other) for other in (place, *others)))
            anna.send(protocol.placement(floor, UP))
            pile = KIT[27 + place]
            hand = hand_news(place, pile._replace(count=pile.count - 1))
            expect_sent({anna: [Change(at_face(floor, UP), state), hand]})
        anna.send(protocol.held(1) + drop(DROP_ONE))
        item = item_news(2, FLAT_FEET, Stack(DIRT, 1, 0))
        expect_sent({anna: item + [hand_news(1, Stack(DIRT, 62, 0))]})


def stacks_are_used_up(path):
    """The last of a stack leaves an empty slot, out of which nothing is placed."""
    middle = (8, 8, 8)
    with Program(path) as program:
        anna = log_in(program.port, "Anna")
        anna.forget_news()
        anna.send(protocol.held(3))
        for face, left in ((UP, 3), (DOWN, 2), (SOUTH, 1), (NORTH, 0)):
            anna.send(protocol.placement(middle, face))
            hand = hand_news(3, Stack(CHEST, left, 0) if left else None)
            expect_sent({anna: [Change(at_face(middle, face), CHEST_STATE), hand]})
        anna.send(protocol.placement(BENEATH, UP))
        due = [Change(BENEATH, GRASS), Change(at_face(BENEATH, UP), AIR)]
        left = pack_of(STONE_PILE, DIRT_PILE, PLANKS_PILE)
        expect_sent({anna: due + window_news(left)})


def drops_lie_where_the_player_is(path):
    """One of the stack in the hand or all of it lies where the player is; of nothing, nothing."""
    place = (-17, 229, 304)
    lying = {3: (FLAT_FEET, Stack(STONE, 1, 0)), 4: (place, Stack(STONE, 63, 0))}
    with Program(path) as program:
        anna, ben = log_in_two(program.port)
        ben.send(stand(12.5))
        expect_sent({anna: [Teleport(2, (400, 128, 272), 0, 0)], ben: []})
        anna.send(drop(DROP_ONE))
        item, left = item_news(3, *lying[3]), Stack(STONE, 63, 0)
        expect_sent({anna: item + [hand_news(0, left)], ben: [Equipment(1, left), *item]})
        anna.send(protocol.position_look(-0.53125, 7.17, 9.5, 90.0, 45.0))
        settle([anna, ben])
        anna.replica.changes.clear()
        expect_sent({anna: [], ben: [Teleport(1, place, 64, 32), HeadLook(1, 64)]})
        anna.send(drop(DROP_STACK))
        item = item_news(4, *lying[4])
        expect_sent({anna: item + [hand_news(0, None)], ben: [Equipment(1, None), *item]})
        anna.send(drop(DROP_ONE) + drop(DROP_STACK) + protocol.held(7) + drop(DROP_STACK))
        expect_sent({anna: [], ben: []})
        expect_items([anna, ben], lying)
        leave(anna, ben, "Ben")
        settle([ben])
        expect_items([ben], lying)


def items_are_picked_up(path):
    """What lies beside players for two seconds goes to the one that came first, and is seen so."""
    grass, left = one_of(GRASS), Stack(STONE, 63, 0)
    with Program(path) as program:
        anna, ben = log_in_two(program.port)
        anna.send(dig(APART))
        expect_sent(dict.fromkeys((anna, ben), dig_news(3, APART, GRASS)))
        anna.send(dig(BENEATH))
        expect_sent(dict.fromkeys((anna, ben), dig_news(4, BENEATH, GRASS)))
        expect_picked_up(anna, ben, 4, [hand_news(4, grass)], [])
        anna.send(drop(DROP_ONE))
        item = item_news(5, FLAT_FEET, Stack(STONE, 1, 0))
        expect_sent({anna: [*item, hand_news(0, left)], ben: [Equipment(1, left), *item]})
        expect_picked_up(anna, ben, 5, [hand_news(0, STONE_PILE)], [Equipment(1, STONE_PILE)])
        expect_items([anna, ben], {3: (floor_of(APART), grass)})


def expect_picked_up(picker, watcher, number, own, seen):
    """Find that an item goes, not at once, and that both are told of nothing but this."""
    begun = time.monotonic()
    both = [picker, watcher]
    done = pump(both, lambda: all(client.has_news() for client in both))
    expect(done, f"nobody picks the item {number} up")
    expect(time.monotonic() - begun > SHORTEST, f"the item {number} is picked up at once")
    expect_sent({picker: [Destroy([number]), *own], watcher: [Destroy([number]), *seen]})


TESTS = [
    kits_come_once,
    placements_take_one,
    refused_placements_show_both_cells,
    the_highest_cell_is_filled,
    windows_are_sent_again,
    chests_are_not_built_on,
    hands_choose_what_is_placed,
    stacks_are_used_up,
    drops_lie_where_the_player_is,
    items_are_picked_up,
]
