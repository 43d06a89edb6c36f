"""Tests of players that dig: what becomes of the land, what lies there then, and who is shown it.

Sources: wiki.vg, 'Protocol' ('Player Digging'), docs/PROTOCOL.md and docs/WORLD.md. What comes in
one write may still be read in two ticks; where that would change what is sent, both are good.
"""

import protocol
from client import PATIENCE, SMALLEST_VIEW, expect, log_in, pump, wait_for_names, wait_for_view
from client import wait_for_others
from clientbound import Change, Destroy, Equipment, ItemIs, MultiChange, SpawnItem
from columns import column_at
from news import AIR, BENEATH, DIG, DROP_ONE, DROP_STACK, EAST, FLAT_FEET, UP
from news import at_face, dig, drop, floor_of, log_in_two, one_of, settle
from news import dig_news, expect_items, expect_sent, hand_news, item_news, player_news
from news import until_between_ticks, window_news
from others import PARTS
from packs import KIT, STONE
from play import forget_news
from program import Program
from protocol import Stack
from terrain import BEDROCK, DIRT, GRASS, Changed, Flat, Hills, Isle, height
from terrain import STONE as STONE_STATE

MOST_ITEMS = 4096

# Places whose reaches lie side by side, 507 cells of dirt and grass each; the last sees all. None
# is near where players enter, and whoever stands there is too high to pick up what is dug.
STANDS = [(x, z) for x in (-26, -13, 0) for z in (-5, 21, 8)]
HIGH = 7.0

# A cell of grass within reach of who enters, and too far off for its item to be picked up.
AWAY = (12, 3, 8)


def changes_are_shown_in_views(path):
    """Who sees a column is told of its cells and items; who comes later gets them in the load."""
    land = Hills(5)
    near, alone, beside = ((x, height(5, x, z), z) for x, z in ((18, 8), (10, 8), (18, 9)))
    above = at_face(beside, UP)
    changed = Changed(land, {near: AIR, alone: AIR, above: STONE_STATE})
    feet, left = (496, 32 * int(land.spawn[1]), 272), Stack(STONE, 63, 0)
    items = {3: (floor_of(near), one_of(GRASS)), 4: (floor_of(alone), one_of(GRASS))}
    with Program(path, land=land.argument, view=SMALLEST_VIEW) as program:
        anna, ben = log_in_two(program.port)
        anna.send(protocol.position(15.5, land.spawn[1], 8.5))
        settle([anna, ben])
        walk([anna, ben], ben, 56.5)
        expect_sent({anna: [Destroy([2])], ben: [Destroy([1])]})
        anna.send(dig(near))
        expect_sent({anna: dig_news(3, near, GRASS), ben: dig_news(3, near, GRASS)})
        anna.send(dig(alone))
        expect_sent({anna: dig_news(4, alone, GRASS), ben: []})
        anna.send(protocol.placement(beside, UP))
        stone = Change(above, STONE_STATE)
        expect_sent({anna: [stone, hand_news(0, left)], ben: [stone]})
        expect_items([ben], {3: items[3]})
        cora = log_in(program.port, "Cora", [anna, ben])
        told = changes_in(cora)
        expect(not told, f"{told} of columns that were just loaded")
        everybody = [anna, ben, cora]
        wait_for_names(everybody, ben, ["Anna", "Ben", "Cora"])
        walk(everybody, ben, 8.5)
        due = player_news(1, "Anna", feet, left) + item_news(4, *items[4])
        due += player_news(5, "Cora", (272, feet[1], 272), KIT[27])
        expect(ben.news() == due, f"{ben.news()} for a view that moves, not {due}")
        expect_items(everybody, items)
        for client in everybody:
            client.check_blocks(changed)


def walk(clients, walker, x):
    """Move one of the clients to another x, and wait until it is shown the view of that."""
    forget_news(clients)
    walker.send(protocol.position(x, 4.0, 8.5))
    wait_for_view(clients, walker, column_at(x, 8.5), SMALLEST_VIEW)
    settle(clients)
    for client in clients:
        client.replica.changes.clear()


def changes_in(client):
    """List the packets about cells that a client was sent."""
    return [packet for packet in client.news() if type(packet) in (Change, MultiChange)]


def cells_of_a_tick_come_together(path):
    """Cells that are dug in one tick come as one packet for each column, and then their items."""
    dug = {(17, 3, 8): GRASS, (14, 3, 8): GRASS, (15, 3, 9): GRASS, (14, 2, 8): DIRT}
    dug[16, 3, 7] = GRASS
    tries = until_between_ticks(lambda: dig_together(path, dug))
    return f"in one tick the {tries}. time"


def dig_together(path, dug):
    """Let a player dig cells of two columns; answer whether all of them came in one tick."""
    with Program(path) as program:
        anna = log_in(program.port, "Anna")
        walk([anna], anna, 15.5)
        high = protocol.position(15.5, HIGH, 8.5)
        anna.send(high + b"".join(dig(cell) for cell in dug))
        expect(pump([anna], lambda: len(anna.replica.items) == len(dug)), "not all is dug")
        settle([anna])
        anna.check_blocks(Changed(Flat(), dict.fromkeys(dug, AIR)))
        items = [(floor_of(cell), one_of(state)) for cell, state in dug.items()]
        expect_items([anna], dict(enumerate(items, 2)))
        sizes = [len(p.records) if type(p) is MultiChange else 1 for p in changes_in(anna)]
        expect(sum(sizes) == len(dug), f"{changes_in(anna)} for {len(dug)} cells")
        kinds = [type(packet) for packet in anna.news()]
        return kinds == [MultiChange] * 2 + [SpawnItem, ItemIs] * len(dug)


def what_is_undone_is_no_change(path):
    """A cell that is filled and dug in one tick is not told, and its item lies there."""
    with Program(path) as program:
        anna = log_in(program.port, "Anna")
        tries = until_between_ticks(lambda: fill_and_dig(anna))
        return f"in one tick the {tries}. time"


def fill_and_dig(client):
    """Let a player fill a cell and dig it; answer whether its item and its hand alone were told."""
    cell = at_face(AWAY, UP)
    number = max(client.replica.items, default=1) + 1
    left = 64 - len(client.replica.items) - 1
    settle([client])
    client.forget_news()
    client.send(protocol.placement(AWAY, UP) + dig(cell))
    expect(pump([client], lambda: number in client.replica.items), "the stone is not dug")
    settle([client])
    item = item_news(number, floor_of(cell), Stack(STONE, 1, 0))
    hand = [hand_news(0, Stack(STONE, left, 0))]
    in_two_ticks = [Change(cell, STONE_STATE), *hand, Change(cell, AIR), *item]
    sent = client.news()
    expect(sent in (item + hand, in_two_ticks), f"{sent} for a stone that is put and dug")
    return sent == item + hand


def refused_digs_show_the_cell(path):
    """Digging bedrock, air, what is out of reach or not in the world is answered by the cell."""
    refused = {(8, 0, 8): BEDROCK, (8, 5, 8): AIR, (8, 10, 8): AIR, (8, 11, 8): AIR}
    refused |= {(15, 3, 8): GRASS, (1, 2, 8): DIRT, (8, 3, 15): GRASS, (8, 1, 1): DIRT}
    refused |= {(8, -1, 8): AIR, (8, -2048, 8): AIR, (8, 256, 8): AIR, (8, 2047, 8): AIR}
    refused |= {(47, 3, 47): GRASS, (-32, 0, -32): BEDROCK}
    unseen = (48, 3, 8), (8, 3, -33), (33_554_431, 3, -33_554_432)
    with Program(path) as program:
        anna, ben = log_in_two(program.port)
        anna.send(b"".join(dig(cell) for cell in (*refused, *unseen, *refused)))
        due = [Change(cell, state) for cell, state in refused.items()]
        expect_sent({anna: due * 2, ben: []})
        for status in (0, 1, 5, 6, -1, -128, 127):
            anna.send(protocol.digging(status, BENEATH) + protocol.digging(status, (8, 5, 8)))
        expect_sent({anna: [], ben: []})
        anna.check_blocks(Flat())
        expect_items([anna, ben], {})


def digs_reach_six_blocks(path):
    """A cell is dug that is six blocks off on each axis, and no further; and at the world's end."""
    with Program(path) as program:
        anna = log_in(program.port, "Anna")
        anna.forget_news()
        anna.send(protocol.position(8.0, 10.0, 8.96875) + dig(BENEATH))
        expect_sent({anna: [Change(BENEATH, GRASS)]})
        anna.send(protocol.position(8.0, 9.96875, 8.96875))
        for number, cell in enumerate(((8, 3, 8), (2, 3, 2), (14, 3, 14), (2, 3, 14)), 2):
            anna.send(protocol.digging(DIG, cell, 77))
            expect_sent({anna: dig_news(number, cell, GRASS)})
        walk([anna], anna, -0.03125)
        for cell in ((-8, 3, 8), (6, 3, 8), (-1, 3, 1), (-1, 3, 15)):
            anna.send(dig(cell))
            expect_sent({anna: [Change(cell, GRASS)]})
        for number, cell in enumerate(((-7, 3, 8), (5, 3, 8), (-1, 3, 2), (-1, 3, 14)), 6):
            anna.send(dig(cell))
            expect_sent({anna: dig_news(number, cell, GRASS)})
        for number, sign in ((10, 1), (11, -1)):
            walk([anna], anna, sign * 29_999_999.5)
            anna.forget_news()
            past, last = (sign * 30_000_001, 3, 8), (sign * 30_000_000, 3, 8)
            anna.send(dig(past))
            expect_sent({anna: [Change(past, GRASS)]})
            anna.send(dig(last))
            expect_sent({anna: dig_news(number, last, GRASS)})


def items_come_and_go_with_the_view(path):
    """Who walks away is told that the items went, and who comes back that they are there."""
    near, corner = (11, 3, 11), (2, 3, 2)
    far = PARTS * 40 + 16, FLAT_FEET[1], FLAT_FEET[2]
    items = {2: (floor_of(near), one_of(GRASS)), 3: (far, Stack(STONE, 1, 0))}
    items[4] = floor_of(corner), one_of(GRASS)
    with Program(path) as program:
        anna = log_in(program.port, "Anna")
        anna.send(dig(near) + protocol.position(40.5, 4.0, 8.5) + drop(DROP_ONE))
        anna.send(protocol.position(8.5, 4.0, 8.5) + dig(corner))
        expect(pump([anna], lambda: len(anna.replica.items) == 3), "not all items come")
        settle([anna])
        shown = {2, 3, 4}
        walks = (56.5, {3}), (500.5, set()), (8.5, {2, 3, 4}), (-400.0, set()), (-24.5, {2, 4})
        for x, there in (*walks, (56.5, {3}), (8.5, {2, 3, 4})):
            walk([anna], anna, x)
            gone = sorted(shown - there)
            due = [Destroy(gone)] if gone else []
            for number in sorted(there - shown):
                due += item_news(number, *items[number])
            expect(anna.news() == due, f"a walk to {x} brings {anna.news()}, not {due}")
            expect_items([anna], {number: items[number] for number in there})
            shown = there
        anna.check_blocks(Changed(Flat(), {near: AIR, corner: AIR}))


def items_find_no_room(path):
    """Where 4,096 items lie nothing is dug or dropped; blocks are placed all the same."""
    with Program(path) as program:
        anna = log_in(program.port, "Anna")
        dug = dig_until_full(anna)
        settle([anna])
        anna.forget_news()
        left = reach_of(*STANDS[-1])[-1]
        expect_no_room(anna, left)
        ben = log_in(program.port, "Ben", [anna])
        expect(ben.replica.items == anna.replica.items, "the two see other items")
        above = {at_face(left, UP): STONE_STATE}
        for client in (anna, ben):
            client.check_blocks(Changed(Flat(), dict.fromkeys(dug, AIR) | above))
        walk([anna, ben], ben, 500.5)
        due = [Destroy(list(range(1, 2 + MOST_ITEMS)))]
        expect(ben.news() == due, f"{len(ben.news())} packets for a walk away from all items")


def dig_until_full(client):
    """Let a client dig as many cells as items find room; answer them."""
    dug = []
    for x, z in STANDS:
        here = reach_of(x, z)[: MOST_ITEMS - len(dug)]
        client.send(protocol.position(x + 0.5, HIGH, z + 0.5) + b"".join(map(dig, here)))
        dug += here
    is_full = pump([client], lambda: len(client.replica.items) == MOST_ITEMS, 6 * PATIENCE)
    expect(is_full, f"{len(client.replica.items)} items lie")
    return dug


def reach_of(x, z):
    """List the cells of dirt and grass that are dug from a place on flat land."""
    around = range(-6, 7)
    return [(x + east, y, z + south) for y in (1, 2, 3) for east in around for south in around]


def expect_no_room(client, cell):
    """Find that no item more finds room where grass is dug or a stack is dropped."""
    client.send(dig(cell))
    expect_sent({client: [Change(cell, GRASS)]})
    for status in (DROP_ONE, DROP_STACK):
        client.send(drop(status))
        expect_sent({client: window_news(KIT)})
    client.send(protocol.placement(cell, UP))
    due = [Change(at_face(cell, UP), STONE_STATE), hand_news(0, Stack(STONE, 63, 0))]
    expect_sent({client: due})


def empty_columns_fill_and_empty(path):
    """The first block of a column comes and goes, for who sees it and for who comes later."""
    stone, beside = (15, 63, 8), (16, 63, 8)
    with Program(path, land=Isle.argument) as program:
        anna, ben = log_in_two(program.port)
        anna.send(protocol.position(12.5, 64.0, 8.5))
        settle([anna, ben])
        forget_news([anna, ben])
        anna.send(protocol.placement(stone, EAST))
        put, left = Change(beside, STONE_STATE), Stack(STONE, 63, 0)
        expect_sent({anna: [put, hand_news(0, left)], ben: [put, Equipment(1, left)]})
        cora = log_in(program.port, "Cora", [anna, ben])
        cora.check_blocks(Changed(Isle(), {beside: STONE_STATE}))
        wait_for_names([anna, ben, cora], ben, ["Anna", "Ben", "Cora"])
        everybody = [anna, ben, cora]
        wait_for_others(everybody, ben, [1, 3])
        settle(everybody)
        forget_news(everybody)
        anna.send(dig(beside))
        expect_sent(dict.fromkeys(everybody, dig_news(4, beside, STONE_STATE)))
        everybody.append(log_in(program.port, "Dora", everybody))
        for client in everybody:
            client.check_blocks(Isle())
        expect_items(everybody, {4: (floor_of(beside), one_of(STONE_STATE))})


TESTS = [
    changes_are_shown_in_views,
    cells_of_a_tick_come_together,
    what_is_undone_is_no_change,
    refused_digs_show_the_cell,
    digs_reach_six_blocks,
    items_come_and_go_with_the_view,
    items_find_no_room,
    empty_columns_fill_and_empty,
]
