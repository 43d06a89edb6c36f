#!/usr/bin/env python3
"""Makes the rows of a trade for `mc_trade`, and what it is to print for them.

usage: trade.py SEED [EVENTS] > crates/mc_trade/stdin 2> crates/mc_trade/stdout

What is there was made with the seed 47.

Four clients dig, place, open, click, close, drop, walk, leave and come back by chance, at a few
cells of flat land with a few chests. By a reading of its own of docs/WORLD.md it plays what they do
and says, before each tick, which cells are others then and what each client is to be told of its
window, what falls where a chest is dug, and now and then how many items there are and lie in its
view. It counts the packets that tell that, and asserts at each tick that no item was lost or made
but by kits, digging and placing.
"""

import random
import sys
from collections import Counter
from dataclasses import dataclass, field

CLIENTS = (1, 2, 3, 4)
EVENTS = 20_000
# How many events there are for a tick, and how many ticks for a count of all items.
EVENTS_A_TICK = 4
TICKS_A_COUNT = 50

# Sorts of items, as their id and damage, and what a name has when it first comes.
STONE, GRASS, DIRT, PLANKS, CHEST = (1, 0), (2, 0), (3, 0), (5, 0), (54, 0)
SORTS = STONE, GRASS, DIRT, PLANKS, CHEST
KIT = {STONE: 64, DIRT: 64, PLANKS: 64, CHEST: 4}
BEDROCK_ID, CHEST_ID = 7, 54
AIR = 0

# The land by its layers, which are air above these, and the cells that are played with.
LAYERS = 7 * 16, 3 * 16, 3 * 16, 2 * 16
EAST, UP, SOUTH = range(4, 20), range(1, 7), range(4, 12)
CHEST_CELLS = (7, 4, 7), (9, 4, 7), (7, 4, 10), (10, 4, 9), (15, 4, 8), (16, 4, 9), (8, 5, 8)
FACES = {0: (0, -1, 0), 1: (0, 1, 0), 2: (0, 0, -1), 3: (0, 0, 1), 4: (-1, 0, 0), 5: (1, 0, 0)}
NO_FACE = -1
REACH = 6

# In 1/32 blocks: where players enter, a column, and how near an item is that is picked up.
ENTRY = 272, 128, 272
COLUMN = 512
BESIDE = 32, 48, 32
# How many columns are seen on each side, and the columns that are played with.
VIEW = 2
COLUMNS = (0, 0), (1, 0)

FULL = 64
CHEST_SLOTS, PACK_SLOTS, MAIN_SLOTS = 27, 36, 27
LAST_WINDOW = 100
MOST_LYING = 4096
RIPE_TICKS = 40
OUTSIDE = -999


@dataclass
class Pack:
    """What a name carries, its window, the last one, and the click for which it waits."""

    slots: list
    cursor: tuple = None
    window: int = 0
    last: int = 0
    waiting: int = None


@dataclass
class Player:
    """A client in play: its entity, and what it is to be sent beside what differs."""

    client: int
    eid: int
    pack: Pack
    place: tuple = ENTRY
    hand: int = 0
    chest: tuple = None
    clicks: int = 0
    answers: list = field(default_factory=list)
    noted: list = field(default_factory=list)
    is_again: bool = False
    # What it was told at the last tick: its window, the piles in it, and the columns in view.
    window: int = 0
    piles: list = field(default_factory=lambda: [None] * (CHEST_SLOTS + PACK_SLOTS + 1))
    view: int = 0


@dataclass
class Lying:
    """An item that lies somewhere since a tick."""

    pile: tuple
    place: tuple
    born: int


# ---- piles: none, or an id, a count and a damage


def sort_of(pile):
    """Answer the id and damage of a pile."""
    return pile and (pile[0], pile[2])


def counted(pile):
    """Answer how many items a pile has."""
    return pile[1] if pile else 0


def some(pile, count):
    """Answer so many of a pile's item."""
    return (pile[0], count, pile[2]) if count else None


def put(most, source, target):
    """Move so many at most onto nothing or onto the same sort."""
    if source is None or (target is not None and sort_of(source) != sort_of(target)):
        return source, target
    count = min(most, FULL - counted(target), counted(source))
    return some(source, counted(source) - count), some(source, counted(target) + count)


def sent(pile, slots, order):
    """Move a pile to stacks of its sort and then to an empty slot; answer what is left of it."""
    for is_empty in (False, True):
        for slot in order:
            if pile is not None and (slots[slot] is None) == is_empty:
                pile, slots[slot] = put(FULL, pile, slots[slot])
    return pile


class World:
    """The land, its chests, what lies there, what names carry, and who is in play."""

    def __init__(self):
        self.age = 0
        self.eids = 0
        self.cells = {}
        self.chests = {}
        self.lying = {}
        # The items that fell since the last tick where a chest was dug, by their numbers.
        self.spilled = []
        self.packs = {}
        self.players = {}

    # ---- the land

    def state(self, cell):
        """Answer the state of a cell."""
        return self.cells.get(cell, terrain(cell))

    def set(self, cell, state):
        """Set a cell, which may become a chest, or be none any more."""
        self.cells[cell] = state
        self.chests.pop(cell, None)
        if state // 16 == CHEST_ID:
            self.chests[cell] = [None] * CHEST_SLOTS

    def reaches(self, player, cell):
        """Whether a player reaches a cell."""
        block = [part // 32 for part in player.place]
        return 0 <= cell[1] <= 255 and all(abs(a - b) <= REACH for a, b in zip(cell, block))

    # ---- what lies there

    def room(self):
        """Answer how many more items may lie."""
        return MOST_LYING - len(self.lying)

    def entity(self):
        """Answer the next number of an entity."""
        self.eids += 1
        return self.eids

    def throw(self, pile, place):
        """Let a pile lie somewhere, if it is one."""
        if pile is not None:
            self.lying[self.entity()] = Lying(pile, place, self.age)

    # ---- coming and going

    def join(self, client):
        """Let a client come, with the kit or with what its name carries."""
        if client not in self.packs:
            kit = [(id, count, damage) for (id, damage), count in KIT.items()]
            self.packs[client] = Pack([None] * MAIN_SLOTS + kit + [None] * (9 - len(kit)))
        self.players[client] = Player(client, self.entity(), self.packs[client])

    def leave(self, player):
        """Let a client go, whose window closes first."""
        self.shut(player)
        del self.players[player.client]

    # ---- cells

    def dig(self, player, cell):
        """Dig a cell, and close the windows on it; where it is not dug, it is sent again."""
        state = self.state(cell)
        piles = [(state // 16, 1, state % 16)] + [it for it in self.chests.get(cell, ()) if it]
        is_hard = state == AIR or state // 16 == BEDROCK_ID
        if is_hard or not self.reaches(player, cell) or len(piles) > self.room():
            player.noted.append(cell)
            return
        watching = [it for it in self.players.values() if it.chest == cell]
        is_chest, first = cell in self.chests, self.eids
        self.set(cell, AIR)
        x, y, z = cell
        for pile in piles:
            self.throw(pile, (32 * x + 16, 32 * y, 32 * z + 16))
        for other in sorted(watching, key=lambda it: it.eid):
            self.shut(other)
        if is_chest:
            self.spilled += range(first + 1, self.eids + 1)

    def place(self, player, cell, face):
        """Place what is held at a face, or open a chest."""
        if face not in FACES:
            return
        target = tuple(a + b for a, b in zip(cell, FACES[face]))
        if self.reaches(player, cell) and self.state(cell) // 16 == CHEST_ID:
            self.open(player, cell)
            return
        held = player.pack.slots[MAIN_SLOTS + player.hand]
        is_free = 0 <= target[1] <= 255 and self.state(target) == AIR
        if held is None or not is_free or not self.reaches(player, cell):
            player.noted += [cell, target]
            player.is_again = True
            return
        player.pack.slots[MAIN_SLOTS + player.hand] = some(held, held[1] - 1)
        self.set(target, held[0] * 16 + held[2])

    def drop(self, player, most):
        """Drop so many at most of what is held."""
        held = player.pack.slots[MAIN_SLOTS + player.hand]
        if held is not None and not self.room():
            player.is_again = True
        elif held is not None:
            count = min(most, held[1])
            player.pack.slots[MAIN_SLOTS + player.hand] = some(held, held[1] - count)
            self.throw(some(held, count), player.place)

    # ---- windows

    def shut(self, player):
        """Close what is shown; what hangs on the cursor falls, if it may lie there."""
        pack = player.pack
        pack.window, pack.waiting, player.chest = 0, None, None
        if self.room():
            self.throw(pack.cursor, player.place)
            pack.cursor = None
        else:
            player.is_again = True

    def open(self, player, cell):
        """Open the window of a chest, behind which none else is shown."""
        if player.chest is not None:
            self.shut(player)
        pack = player.pack
        pack.window = pack.last = pack.last % LAST_WINDOW + 1
        pack.waiting, player.chest = None, cell

    def close(self, player, window):
        """Close a window, if it is the one that is shown."""
        if window == player.pack.window:
            self.shut(player)

    def confirm(self, player, window, number):
        """End the wait for a number."""
        if (window, number) == (player.pack.window, player.pack.waiting):
            player.pack.waiting = None

    def slots(self, player):
        """Answer what lies in each slot of the window that a player is shown."""
        piles = player.pack.slots
        if player.chest is None:
            return dict(enumerate(piles, 9))
        return dict(enumerate(self.chests[player.chest] + piles))

    def click(self, player, window, slot, button, number, mode, item):
        """Click in a window; answer whether it was accepted."""
        is_shown = window == player.pack.window
        is_done = is_shown and self.click_shown(player, slot, button, mode, item)
        if is_shown and not is_done:
            player.pack.waiting = number
        player.answers.append((window, number, is_done))
        player.is_again |= not is_done or mode == 2

    def click_shown(self, player, slot, button, mode, item):
        """Click in the window that is shown; answer whether it was accepted."""
        slots = self.slots(player)
        if player.pack.waiting is not None or (slot != OUTSIDE and slot not in slots):
            return False
        if not is_click(slot, button, mode) or not is_seen(slots, slot, mode, item):
            return False
        is_chest = player.chest is not None
        cursor, falls = clicked(slots, player.pack.cursor, is_chest, slot, button, mode)
        if falls is not None and not self.room():
            return False
        player.pack.cursor = cursor
        piles = [slots[slot] for slot in sorted(slots)]
        if is_chest:
            self.chests[player.chest] = piles[:CHEST_SLOTS]
        player.pack.slots = piles[-PACK_SLOTS:]
        self.throw(falls, player.place)
        return True

    # ---- ticks

    def tick(self):
        """Let a tick pass: players pick up what lay beside them for long enough."""
        self.age += 1
        for player in sorted(self.players.values(), key=lambda it: it.eid):
            for eid, lying in list(self.lying.items()):
                ways = [abs(a - b) for a, b in zip(lying.place, player.place)]
                is_near = all(way <= most for way, most in zip(ways, BESIDE))
                if is_near and lying.born + RIPE_TICKS <= self.age:
                    self.pick_up(player, eid)

    def pick_up(self, player, eid):
        """Pick up what lies there, as far as there is room for it."""
        order = [*range(MAIN_SLOTS, PACK_SLOTS), *range(MAIN_SLOTS)]
        left = sent(self.lying[eid].pile, player.pack.slots, order)
        if left is None:
            del self.lying[eid]
        else:
            self.lying[eid].pile = left

    # ---- all items

    def items(self):
        """Answer how many items of each sort there are."""
        count = Counter()
        piles = [it.pile for it in self.lying.values()]
        for pack in self.packs.values():
            piles += pack.slots + [pack.cursor]
        for chest in self.chests.values():
            piles += chest
        for pile in piles:
            count[sort_of(pile)] += counted(pile)
        return count

    def check_items(self):
        """Assert that no item was lost or made but by kits, digging and placing."""
        wanted = Counter({sort: count * len(self.packs) for sort, count in KIT.items()})
        for cell, state in self.cells.items():
            wanted[terrain(cell) // 16, terrain(cell) % 16] += 1
            wanted[state // 16, state % 16] -= 1
        count = self.items()
        assert all(count[sort] == wanted[sort] for sort in SORTS), (count, wanted)
        assert not count.keys() - {*SORTS, None}, count


def terrain(cell):
    """Answer the state that a cell has where nothing was done."""
    return LAYERS[cell[1]] if 0 <= cell[1] < len(LAYERS) else AIR


def is_click(slot, button, mode):
    """Whether a mode and a button mean something on a slot, or outside."""
    if slot == OUTSIDE:
        return mode in (0, 4) and button in (0, 1)
    return button in {0: (0, 1), 1: (0, 1), 2: range(9), 4: (0, 1)}.get(mode, ())


def is_seen(slots, slot, mode, item):
    """Whether the client saw in the slot what lies there, where that is asked for."""
    if slot == OUTSIDE or mode not in (0, 1):
        return True
    return item == slots[slot] or (mode == 1 and item is None)


def clicked(slots, cursor, is_chest, slot, button, mode):
    """Do what a click means to slots; answer the cursor and what falls."""
    if slot == OUTSIDE:
        if mode == 4 or cursor is None:
            return cursor, None
        count = 1 if button == 1 else cursor[1]
        return some(cursor, cursor[1] - count), some(cursor, count)
    pile = slots[slot]
    if mode == 0:
        cursor, slots[slot] = swapped(cursor, pile, button)
    elif mode == 1:
        slots[slot] = sent(pile, slots, order_from(slot, is_chest))
    elif mode == 2:
        key = (MAIN_SLOTS + (CHEST_SLOTS if is_chest else 9)) + button
        slots[slot], slots[key] = slots[key], slots[slot]
    elif cursor is None and pile is not None:
        count = 1 if button == 0 else pile[1]
        slots[slot] = some(pile, pile[1] - count)
        return cursor, some(pile, count)
    return cursor, None


def swapped(cursor, pile, button):
    """Answer the cursor and the pile of a slot after a click with a button of the mouse."""
    is_right = button == 1
    if is_right and cursor is None:
        pile, cursor = put((counted(pile) + 1) // 2, pile, None)
        return cursor, pile
    if sort_of(cursor) == sort_of(pile) or (is_right and pile is None):
        return put(1 if is_right else FULL, cursor, pile)
    return pile, cursor


def order_from(slot, is_chest):
    """Answer where a pile goes that is sent from a slot."""
    if is_chest:
        return range(62, 26, -1) if slot < CHEST_SLOTS else range(CHEST_SLOTS)
    return range(36, 45) if slot < 36 else range(9, 36)


class Trade:
    """What clients do by chance, and what is told of it."""

    def __init__(self, seed):
        self.chance = random.Random(seed)
        self.world = World()
        self.told = {}
        self.counts = Counter()

    def rows(self, events):
        """Yield the rows: so many events, and about a tick for every four, with one at the end."""
        for number in range(1, events + 1):
            yield self.event()
            if number == events or self.chance.random() < 1 / EVENTS_A_TICK:
                yield from self.tick()

    # ---- events

    def event(self):
        """Let one of the clients do something; answer its row."""
        client = self.chance.choice(CLIENTS)
        player = self.world.players.get(client)
        if player is None:
            self.world.join(client)
            return f"{client} join"
        return f"{client} {self.act(player)}"

    def act(self, player):
        """Let a player do something; answer its words."""
        chance = self.chance
        if player.pack.waiting is not None and chance.random() < 0.4:
            return self.confirm(player)
        acts = {
            self.click: 65 if player.chest else 40 if player.pack.cursor else 16,
            self.open: 3 if player.chest else 24,
            self.close: 3,
            self.dig: 11,
            self.place: 13,
            self.take: 6,
            self.drop: 3,
            self.walk: 7,
            self.leave: 0.8,
        }
        return chance.choices(list(acts), acts.values())[0](player)

    def leave(self, player):
        """Leave."""
        self.world.leave(player)
        return "leave"

    def walk(self, player):
        """Walk some way, mostly near the chests, seldom far off."""
        chance = self.chance
        if chance.random() < 0.04:
            place = [chance.choice((-3, 3, 4)) * COLUMN + 9, 128, chance.choice((0, 5)) * COLUMN]
        else:
            x = chance.choice((chance.randrange(160, 352), chance.randrange(160, 620)))
            place = [x, chance.choice((128, 128, 160, 96)), chance.randrange(192, 340)]
        player.place = tuple(place)
        return f"walk {spelled(player.place)}"

    def take(self, player):
        """Put the hand on a place of the hotbar, mostly one with something, seldom on none."""
        hotbar = player.pack.slots[MAIN_SLOTS:]
        full = [hand for hand in range(9) if hotbar[hand]]
        chests = [hand for hand in full if sort_of(hotbar[hand]) == CHEST]
        hand = self.chance.choice(self.chance.choice((full or [9], chests or [0], range(-1, 10))))
        if 0 <= hand < 9:
            player.hand = hand
        return f"take {hand}"

    def drop(self, player):
        """Drop what is held, or one of it."""
        is_all = self.chance.random() < 0.2
        self.world.drop(player, FULL if is_all else 1)
        return "drop all" if is_all else "drop one"

    # ---- cells

    def near(self, cells, player):
        """Choose one of some cells, mostly one that a player reaches."""
        cells = sorted(cells)
        reached = [cell for cell in cells if self.world.reaches(player, cell)]
        return self.chance.choice(reached if reached and self.chance.random() < 0.95 else cells)

    def any_cell(self, player, is_air):
        """Choose a cell of those that are played with, mostly one that is air, or is none."""
        cells = [tuple(self.chance.choice(axis) for axis in (EAST, UP, SOUTH)) for _ in range(12)]
        wanted = [cell for cell in cells if (self.world.state(cell) == AIR) == is_air]
        return self.near(wanted if wanted and self.chance.random() < 0.92 else cells, player)

    def dig(self, player):
        """Dig a cell: often a chest, and one that is shown, or what was built."""
        world, chance = self.world, self.chance
        shown = {it.chest for it in world.players.values()} - {None}
        built = {cell for cell, state in world.cells.items() if state != AIR} - world.chests.keys()
        sorts = shown, world.chests.keys(), built, None
        cells = chance.choices(sorts, (3, 2, 45, 50))[0] or [self.any_cell(player, False)]
        cell = self.near(cells, player)
        if chance.random() < 0.03:
            cell = cell[0], chance.choice((0, -1, cell[1])), cell[2]
        world.dig(player, cell)
        return f"dig {spelled(cell)}"

    def place(self, player):
        """Place what is held, a chest mostly at the cells for chests."""
        world, chance = self.world, self.chance
        target = self.any_cell(player, True)
        held = player.pack.slots[MAIN_SLOTS + player.hand]
        if sort_of(held) == CHEST:
            target = self.near(CHEST_CELLS, player)
        face = chance.choice(tuple(FACES))
        cell = tuple(a - b for a, b in zip(target, FACES[face]))
        if chance.random() < 0.02:
            face = NO_FACE
        world.place(player, cell, face)
        return f"place {spelled(cell)} {face}"

    def open(self, player):
        """Open a chest, often the one that another is shown."""
        world, chance = self.world, self.chance
        shown = {it.chest for it in world.players.values() if it.chest != player.chest} - {None}
        cells = shown if chance.random() < 0.5 else world.chests.keys()
        cell = self.near(cells or CHEST_CELLS, player)
        face = chance.choice(tuple(FACES))
        world.place(player, cell, face)
        return f"place {spelled(cell)} {face}"

    # ---- windows

    def close(self, player):
        """Close a window, mostly the one that is shown."""
        window = self.window(player)
        self.world.close(player, window)
        return f"close {window}"

    def confirm(self, player):
        """Confirm a refusal, mostly the one that is waited for."""
        window, number = self.window(player), player.pack.waiting
        if self.chance.random() < 0.1:
            number += self.chance.choice((-1, 1))
        self.world.confirm(player, window, number)
        return f"confirm {window} {number}"

    def window(self, player):
        """Choose a window, mostly the one that is shown."""
        others = player.pack.last, (player.pack.window + 1) % 128, 0, 200
        return self.chance.choice(others if self.chance.random() < 0.06 else (player.pack.window,))

    def click(self, player):
        """Click somewhere in a window."""
        chance, slots = self.chance, self.world.slots(player)
        player.clicks += 1
        slot = self.slot(player, slots)
        mode = chance.choices((0, 1, 2, 4, 3), (58, 20, 9, 9, 1))[0]
        button = chance.choice(range(9) if mode == 2 else (0, 1))
        if chance.random() < 0.01:
            button = chance.choice((-1, 2, 9))
        item = slots.get(slot)
        if chance.random() < 0.04:
            item = chance.choice((None, (1, 64, 0), (54, 1, 1), item and (item[0], 1, item[2])))
        window = self.window(player)
        self.world.click(player, window, slot, button, player.clicks, mode, item)
        return f"click {window} {slot} {button} {player.clicks} {mode} {spelled_pile(item)}"

    def slot(self, player, slots):
        """Choose a slot: one with something, one of the first of a part, any, outside or none."""
        chance = self.chance
        full = [slot for slot, pile in slots.items() if pile]
        firsts = [*range(9), *range(54, 59)] if player.chest else [*range(9, 14), *range(36, 42)]
        wrong = -1, 8, 45, 63, -998
        sorts = full or [OUTSIDE], firsts, tuple(slots), (OUTSIDE,), wrong
        parts = (25, 45, 24, 5, 1) if player.pack.cursor else (65, 15, 15, 4, 1)
        return chance.choice(chance.choices(sorts, parts)[0])

    # ---- ticks

    def tick(self):
        """Let a tick pass, and yield what it is to tell; the tick itself stands behind that."""
        world = self.world
        changed = [cell for cell in world.cells if world.cells[cell] != self.state_told(cell)]
        for cell in changed:
            yield f"set {spelled(cell)} {world.cells[cell]}"
        world.tick()
        world.check_items()
        for client in sorted(world.players):
            yield from self.tell(world.players[client], changed)
        self.told.update({cell: world.cells[cell] for cell in changed})
        self.counts["ticks"] += 1
        yield "tick"
        yield from self.spill()
        if world.age % TICKS_A_COUNT == 0:
            yield from self.count_items()

    def spill(self):
        """Yield what fell where chests were dug, for the first client that sees it."""
        world = self.world
        for eid in world.spilled:
            lying = world.lying[eid]
            x, _, z = lying.place
            for client, player in sorted(world.players.items()):
                if is_near(player.place, (x // COLUMN, z // COLUMN)):
                    item = f"{spelled(lying.place)} {spelled_pile(lying.pile)}"
                    yield f"told {client} finds {eid} {item}"
                    break
        world.spilled = []

    def count_items(self):
        """Yield how many items of each sort there are, and lie where each client sees them."""
        world, count = self.world, self.world.items()
        yield from (f"count {spelled(sort)} {count[sort]}" for sort in SORTS)
        for client in sorted(world.players):
            place, count = world.players[client].place, Counter()
            for lying in world.lying.values():
                x, _, z = lying.place
                if is_near(place, (x // COLUMN, z // COLUMN)):
                    count[sort_of(lying.pile)] += counted(lying.pile)
            yield from (f"told {client} lies {spelled(sort)} {count[sort]}" for sort in SORTS)

    def state_told(self, cell):
        """Answer the state of a cell at the last tick."""
        return self.told.get(cell, terrain(cell))

    def tell(self, player, changed):
        """Yield what a player is to be told, and count by which packets."""
        client, counts = player.client, self.counts
        for window, number, is_done in player.answers:
            counts["answers"] += 1
            yield f"told {client} {'yes' if is_done else 'no'} {window} {number}"
        view = sum(1 << i for i, column in enumerate(COLUMNS) if is_near(player.place, column))
        self.count_cells(player, changed, player.view & view)
        if view != player.view:
            yield f"told {client} views {view}"
        window = player.pack.window if player.chest else 0
        old = player.piles
        if window != player.window:
            old = [None] * CHEST_SLOTS + old[CHEST_SLOTS:]
            yield f"told {client} sees {window}"
        chest = self.world.chests[player.chest] if player.chest else [None] * CHEST_SLOTS
        new = [*chest, *player.pack.slots, player.pack.cursor]
        others = [i for i, pile in enumerate(new) if pile != old[i]]
        if others:
            piles = " ".join(f"{i} {spelled_pile(new[i])}" for i in others)
            yield f"told {client} holds {piles}"
        self.count_slots(player, window, others)
        player.window, player.piles, player.view = window, new, view
        player.answers, player.noted, player.is_again = [], [], False

    def count_cells(self, player, changed, view):
        """Count what tells a player of cells that changed, and of those that were noted."""
        for i, column in enumerate(COLUMNS):
            cells = [cell for cell in changed if (cell[0] // 16, cell[2] // 16) == column]
            if view >> i & 1 and cells:
                self.counts["changes" if len(cells) == 1 else "several"] += 1
        for x, y, z in player.noted:
            self.counts["changes"] += is_near(player.place, (x // 16, z // 16))

    def count_slots(self, player, window, others):
        """Count what tells a player of its window and of the slots that differ."""
        counts = self.counts
        is_opened = window not in (0, player.window)
        counts["opened"] += is_opened
        counts["closed"] += window == 0 and player.window != 0
        counts["windows"] += is_opened + player.is_again
        cursor = CHEST_SLOTS + PACK_SLOTS
        counts["slots"] += sum(i == cursor or not is_opened for i in others) + player.is_again

    def line(self, events):
        """Write what is to be printed."""
        counts = self.counts
        return (
            f"{events} events, {counts['ticks']} ticks: each client was told its window and the "
            f"cells, by {counts['opened']} windows that opened, {counts['closed']} that closed, "
            f"{counts['windows']} whole ones, {counts['slots']} slots, "
            f"{counts['answers']} answers, {counts['changes']} cells, "
            f"{counts['several']} of several"
        )


def is_near(place, column):
    """Whether a column is seen from a place."""
    return all(abs(place[axis] // COLUMN - part) <= VIEW for axis, part in zip((0, 2), column))


def spelled(numbers):
    """Write numbers with a space between them."""
    return " ".join(str(number) for number in numbers)


def spelled_pile(pile):
    """Write a pile: its id, count and damage."""
    return spelled(pile) if pile else "-"


def main():
    events = int(sys.argv[2]) if len(sys.argv) > 2 else EVENTS
    trade = Trade(int(sys.argv[1]))
    for row in trade.rows(events):
        print(row)
    print(trade.line(events), file=sys.stderr)


if __name__ == "__main__":
    if len(sys.argv) not in (2, 3):
        sys.exit(__doc__.split("\n")[2])
    main()
