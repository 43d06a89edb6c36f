"""Tests of clicks in a player's own window and in that of a chest.

Sources: wiki.vg, 'Protocol' ('Click Window', 'Close Window' and 'Confirm Transaction', both ways),
docs/PROTOCOL.md and docs/WORLD.md, 'A click' and 'Windows that are shown, and pickups'.
"""

import protocol
from client import log_in, wait_for_pack
from clientbound import Change, CloseWindow, Confirm, Destroy, Equipment, PlayersLeft, SetSlot
from news import AIR, BENEATH, CHEST_STATE, FLAT_FEET, UP, at_face, chest_news, cursor_news, dig
from news import expect_items, expect_sent, floor_of, hand_news, item_news, log_in_two, one_of
from news import settle, slot_news, window_news
from packs import CHEST, CHEST_SIZE, DIRT, FIRST_SLOT, HOTBAR, KIT, STONE
from program import Program
from protocol import Stack, offline_identifier

STONE_PILE, DIRT_PILE = KIT[27:29]

# The modes of a click: by a button, with shift, by a key with a number, and by the key that drops.
BUTTON, SHIFT, KEY, DROP = 0, 1, 2, 4
LEFT, RIGHT = 0, 1
OUTSIDE = -999

# Where a chest stands, and the first slot of the hotbar in its window.
CHEST_CELL = at_face(BENEATH, UP)
CHEST_HOTBAR = CHEST_SIZE + 27


def clicks_move_piles(path):
    """A stack is taken up, put down and split; others see what is in the hand then."""
    half = Stack(STONE, 32, 0)
    with Program(path) as program:
        anna, ben = log_in_two(program.port)
        anna.send(protocol.click(HOTBAR, LEFT, 1, BUTTON, STONE_PILE))
        taken = [hand_news(0, None), cursor_news(STONE_PILE), Confirm(0, 1, True)]
        expect_sent({anna: taken, ben: [Equipment(1, None)]})
        anna.send(protocol.click(HOTBAR + 8, LEFT, 2, BUTTON, None))
        put = [hand_news(8, STONE_PILE), cursor_news(None), Confirm(0, 2, True)]
        expect_sent({anna: put, ben: []})
        anna.send(protocol.click(HOTBAR + 8, RIGHT, 3, BUTTON, STONE_PILE))
        split = [hand_news(8, half), cursor_news(half), Confirm(0, 3, True)]
        expect_sent({anna: split, ben: []})
        anna.send(protocol.click(HOTBAR, LEFT, 4, BUTTON, None))
        put = [hand_news(0, half), cursor_news(None), Confirm(0, 4, True)]
        expect_sent({anna: put, ben: [Equipment(1, half)]})


def refused_clicks_wait(path):
    """A click on another item is refused, as all that follow until the last is confirmed."""
    with Program(path) as program:
        anna = log_in(program.port, "Anna")
        anna.forget_news()
        anna.send(protocol.click(HOTBAR, LEFT, 1, BUTTON, DIRT_PILE))
        expect_sent({anna: [Confirm(0, 1, False), *window_news(KIT)]})
        anna.send(protocol.click(HOTBAR, LEFT, 2, BUTTON, STONE_PILE) + protocol.confirm(1))
        expect_sent({anna: [Confirm(0, 2, False), *window_news(KIT)]})
        anna.send(protocol.click(HOTBAR, LEFT, 3, BUTTON, STONE_PILE) + protocol.confirm(3))
        expect_sent({anna: [Confirm(0, 3, False), *window_news(KIT)]})
        anna.send(protocol.click(HOTBAR, LEFT, 4, BUTTON, STONE_PILE))
        expect_sent({anna: [hand_news(0, None), cursor_news(STONE_PILE), Confirm(0, 4, True)]})


def keys_exchange_and_drop(path):
    """A number key exchanges two piles and has the window sent; a drop lies at the feet."""
    moved, left = list(KIT), Stack(DIRT, 63, 0)
    moved[0], moved[28] = DIRT_PILE, None
    with Program(path) as program:
        anna = log_in(program.port, "Anna")
        anna.forget_news()
        anna.send(protocol.click(FIRST_SLOT, 1, 1, KEY, None))
        told = [slot_news(FIRST_SLOT, DIRT_PILE), hand_news(1, None), Confirm(0, 1, True)]
        expect_sent({anna: told + window_news(moved)})
        anna.send(protocol.click(FIRST_SLOT, 0, 2, DROP, None))
        item = item_news(2, FLAT_FEET, Stack(DIRT, 1, 0))
        expect_sent({anna: [*item, slot_news(FIRST_SLOT, left), Confirm(0, 2, True)]})


def closing_drops_the_cursor(path):
    """What hangs on the cursor lies at the feet once it is thrown out or the window closed."""
    one, rest = Stack(STONE, 1, 0), Stack(STONE, 63, 0)
    with Program(path) as program:
        anna = log_in(program.port, "Anna")
        anna.forget_news()
        anna.send(protocol.click(HOTBAR, LEFT, 1, BUTTON, STONE_PILE))
        taken = [hand_news(0, None), cursor_news(STONE_PILE), Confirm(0, 1, True)]
        expect_sent({anna: taken})
        anna.send(protocol.click(OUTSIDE, RIGHT, 2, BUTTON, None))
        item = item_news(2, FLAT_FEET, one)
        expect_sent({anna: [*item, cursor_news(rest), Confirm(0, 2, True)]})
        anna.send(protocol.close_window(1))
        expect_sent({anna: []})
        anna.send(protocol.close_window(0))
        expect_sent({anna: [*item_news(3, FLAT_FEET, rest), cursor_news(None)]})
        wait_for_pack([anna], anna, KIT)
        expect_items([anna], {})


def two_at_a_chest(port):
    """Log Anna and Ben in, have Anna place a chest, and let both look into it."""
    anna, ben = log_in_two(port)
    anna.send(protocol.held(3) + protocol.placement(BENEATH, UP) + protocol.held(8))
    ben.send(protocol.held(8))
    settle([anna, ben])
    for client in (anna, ben):
        client.forget_news()
        client.send(protocol.placement(CHEST_CELL, UP))
    pack = list(KIT)
    pack[30] = Stack(CHEST, 3, 0)
    expect_sent({anna: chest_news(1, [], pack), ben: chest_news(1, [], KIT)})
    return anna, ben


def two_share_a_chest(path):
    """What one puts into a chest the other is told, and takes; a click on what was is refused."""
    half = Stack(STONE, 32, 0)
    with Program(path) as program:
        anna, ben = two_at_a_chest(program.port)
        anna.send(protocol.click(CHEST_HOTBAR, LEFT, 1, SHIFT, STONE_PILE, 1))
        put = SetSlot(1, 0, STONE_PILE)
        expect_sent({anna: [put, SetSlot(1, CHEST_HOTBAR, None), Confirm(1, 1, True)], ben: [put]})
        ben.send(protocol.click(0, RIGHT, 1, BUTTON, STONE_PILE, 1))
        took = SetSlot(1, 0, half)
        expect_sent({anna: [took], ben: [took, cursor_news(half), Confirm(1, 1, True)]})
        anna.send(protocol.click(0, LEFT, 2, BUTTON, STONE_PILE, 1) + protocol.confirm(2, 1))
        expect_sent({anna: [Confirm(1, 2, False), *again(anna)], ben: []})
        anna.send(protocol.click(0, LEFT, 3, SHIFT, half, 1))
        gone = SetSlot(1, 0, None)
        back = SetSlot(1, CHEST_HOTBAR + 8, half)
        held = Equipment(1, half)
        expect_sent({anna: [gone, back, Confirm(1, 3, True)], ben: [held, gone]})


def again(client):
    """List the packets of the chest's window that a client is shown, as it was told."""
    shown = client.replica
    opened = chest_news(shown.window, shown.chest, shown.pack)
    return [opened[1], cursor_news(shown.cursor)]


def chests_close(path):
    """A dug chest drops what lay in it, and closes for all; who leaves lets go of its cursor."""
    with Program(path) as program:
        anna, ben = two_at_a_chest(program.port)
        anna.send(protocol.click(CHEST_HOTBAR, LEFT, 1, SHIFT, STONE_PILE, 1))
        ben.send(protocol.click(CHEST_HOTBAR + 1, LEFT, 1, BUTTON, DIRT_PILE, 1))
        settle([anna, ben])
        anna.forget_news()
        ben.forget_news()
        ben.send(dig(CHEST_CELL))
        items = [*item_news(3, floor_of(CHEST_CELL), one_of(CHEST_STATE))]
        items += item_news(4, floor_of(CHEST_CELL), STONE_PILE)
        items += item_news(5, FLAT_FEET, DIRT_PILE)
        told = [Change(CHEST_CELL, AIR), *items, CloseWindow(1)]
        expect_sent({anna: told, ben: [*told, cursor_news(None)]})
        ben.send(protocol.click(HOTBAR + 2, LEFT, 2, BUTTON, KIT[29]))
        expect_sent({ben: [hand_news(2, None), cursor_news(KIT[29]), Confirm(0, 2, True)]})
        ben.close()
        left = [PlayersLeft([offline_identifier("Ben")]), Destroy([2])]
        expect_sent({anna: [*left, *item_news(6, FLAT_FEET, KIT[29])]})


TESTS = [
    clicks_move_piles,
    refused_clicks_wait,
    keys_exchange_and_drop,
    closing_drops_the_cursor,
    two_share_a_chest,
    chests_close,
]
