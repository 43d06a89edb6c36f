"""What clients are to be sent of cells, items, players and packs, and how that is found.

Sources: wiki.vg, 'Protocol', 'Play', and docs/WORLD.md, 'A tick'. What is listed below is in the
order in which a tick sends it.
"""

import protocol
from client import Unexpected, expect, log_in, pump, wait_for_names, wait_for_others
from clientbound import Change, Equipment, HeadLook, ItemIs, SetSlot, SpawnItem, SpawnPlayer
from clientbound import OpenWindow, WindowItems
from others import PARTS
from packs import CHEST, CHEST_SIZE, FIRST_SLOT, HOTBAR, PLANKS
from play import forget_news
from protocol import Stack, offline_identifier
from replica import CURSOR_SLOT, CURSOR_WINDOW, Item

# What is done by a Player Digging: a cell is dug, or the stack in the hand or one of it is dropped.
DIG = 2
DROP_STACK = 3
DROP_ONE = 4

DOWN, UP, NORTH, SOUTH, WEST, EAST = range(6)
FACES = {
    DOWN: (0, -1, 0),
    UP: (0, 1, 0),
    NORTH: (0, 0, -1),
    SOUTH: (0, 0, 1),
    WEST: (-1, 0, 0),
    EAST: (1, 0, 0),
}

AIR = 0
PLANKS_STATE = 16 * PLANKS
CHEST_STATE = 16 * CHEST

# How often it is tried at most to do two things between two ticks.
TRIES = 20

# A height at which no cell is. A dig there changes nothing and is answered at the next tick.
NOWHERE = -1000

# Where players enter flat land, in 1/32 blocks, and a cell of grass beneath.
FLAT_FEET = (272, 128, 272)
BENEATH = (8, 3, 8)


def dig(cell):
    """Dig a cell."""
    return protocol.digging(DIG, cell)


def drop(status):
    """Drop the stack in the hand, or one of it; the cell says nothing."""
    return protocol.digging(status, (0, 0, 0), 0)


def at_face(cell, face):
    """Answer the cell at a face of another."""
    return tuple(part + step for part, step in zip(cell, FACES[face]))


def floor_of(cell):
    """Answer the middle of the floor of a cell, in 1/32 blocks."""
    x, y, z = cell
    return PARTS * x + PARTS // 2, PARTS * y, PARTS * z + PARTS // 2


def one_of(state):
    """Answer the stack that lies there where a cell of a state was dug."""
    return Stack(state // 16, 1, state % 16)


def item_news(number, place, stack):
    """List the packets of an item that comes into view."""
    return [SpawnItem(number, place, 0, 0), ItemIs(number, stack)]


def player_news(number, name, place, stack, look=(0, 0)):
    """List the packets of another player that comes into view, with what is in its hand."""
    held = stack.item if stack else 0
    spawn = SpawnPlayer(number, offline_identifier(name), place, *look, held)
    hand = [Equipment(number, stack)] if stack else []
    return [spawn, HeadLook(number, look[0]), *hand]


def dig_news(number, cell, state):
    """List the packets of a cell that is dug alone in a tick, and of its item."""
    return [Change(cell, AIR), *item_news(number, floor_of(cell), one_of(state))]


def slot_news(index, stack):
    """Make the packet of another stack in a slot of the own window."""
    return SetSlot(0, index, stack)


def hand_news(place, stack):
    """Make the packet of another stack at a place of the hotbar."""
    return slot_news(HOTBAR + place, stack)


def pack_news(pack):
    """List the packets of a pack that is told for the first time."""
    return [SetSlot(0, FIRST_SLOT + at, stack) for at, stack in enumerate(pack) if stack]


def cursor_news(stack):
    """Make the packet of what hangs on the cursor."""
    return SetSlot(CURSOR_WINDOW, CURSOR_SLOT, stack)


def window_news(pack, cursor=None):
    """List the packets of the whole window of a player, with what hangs on the cursor."""
    return [WindowItems(0, [None] * FIRST_SLOT + pack), cursor_news(cursor)]


def chest_news(window, chest, pack):
    """List the packets of a chest's window that opens, with what lies in its first slots."""
    stacks = chest + [None] * (CHEST_SIZE - len(chest)) + pack
    return [OpenWindow(window, "minecraft:chest", "Chest", CHEST_SIZE), WindowItems(window, stacks)]


def log_in_two(port):
    """Log Anna in, the player 1, and Ben, the player 2, and let both see the other."""
    anna = log_in(port, "Anna")
    ben = log_in(port, "Ben", [anna])
    wait_for_names([anna, ben], anna, ["Anna", "Ben"])
    wait_for_others([anna, ben], anna, [2])
    wait_for_others([anna, ben], ben, [1])
    forget_news([anna, ben])
    return anna, ben


def leave(client, watcher, *left):
    """Let a client leave, and wait until another has only these in its list."""
    client.close()
    wait_for_names([watcher], watcher, left)


def settle(clients):
    """Wait until clients were sent all that comes of what each of them did up to now.

    Each digs where no cell is, and is answered behind all else of a tick. When all have their first
    answers, all was done; the second ones come in later ticks.
    """
    for _ in range(2):
        for client in clients:
            columns = sorted(client.replica.columns)
            east, south = columns[len(columns) // 2]
            client.send(dig((16 * east, NOWHERE, 16 * south)))
        done = pump(clients, lambda: all(any(map(is_answer, c.packets)) for c in clients))
        expect(done, "a dig where no cell is is not answered by the state of that")
        for client in clients:
            client.packets = [packet for packet in client.packets if not is_answer(packet)]


def until_between_ticks(attempt):
    """Try something until it fell between two ticks, as `attempt` answers; say how often."""
    for number in range(1, TRIES + 1):
        if attempt():
            return number
    raise Unexpected(f"never seen between two ticks, of {TRIES} times")


def is_answer(packet):
    """Whether a packet answers a dig where no cell is."""
    return type(packet) is Change and packet.cell[1] == NOWHERE


def expect_sent(due):
    """Find that each client is sent just the packets that are due to it, and no column moves."""
    settle(list(due))
    for client, packets in due.items():
        sent, moved = client.news(), client.replica.changes
        expect(sent == packets, f"{sent} is sent, and {packets} is due")
        expect(not moved, f"columns come and go: {moved}")
        client.forget_news()


def expect_items(clients, items):
    """Find that just these items are shown to clients, each a place and a stack by its number."""
    due = {number: Item(*item) for number, item in items.items()}
    for client in clients:
        shown = client.replica.items
        expect(shown == due, f"the items {shown} are shown, not {due}")
