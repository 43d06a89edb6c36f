"""A client's world: what the packets of play make of it, one after the other.

Sources: wiki.vg, 'Protocol', 'Play', 'Clientbound', and docs/WORLD.md, 'A tick' and 'The land'. The
fold is strict: it refuses what those pages never have sent, such as an unload of a column that is
not there.
"""

from typing import NamedTuple

from clientbound import (
    Change,
    Chat,
    Chunk,
    CloseWindow,
    Confirm,
    Destroy,
    Disconnect,
    Equipment,
    HeadLook,
    ItemIs,
    JoinGame,
    KeepAlive,
    Look,
    MultiChange,
    OpenWindow,
    Place,
    PlayersCame,
    PlayersLeft,
    SetSlot,
    SpawnItem,
    SpawnMob,
    SpawnPlayer,
    SpawnPosition,
    Step,
    StepLook,
    Teleport,
    Time,
    WindowItems,
)
from columns import HEIGHT, column_at, index_of, read_column
from others import Others, column_of_place
from packs import CHEST_SIZE, FIRST_SLOT, SLOTS, pack_of
from protocol import Malformed, Stack, offline_identifier

CURSOR_WINDOW = -1
CURSOR_SLOT = -1

# The numbers of the windows of chests.
WINDOWS = range(1, 101)

# How many ticks there are in a beat, from one age that is told to the next, and in a day.
BEAT_TICKS = 100
SHOWN_TICKS = 20
DAY_TICKS = 24_000


class Item(NamedTuple):
    """A dropped item: its place in 1/32 blocks, and what lies there."""

    place: tuple
    stack: Stack


class Replica:
    """All that a client is shown: place, columns, others, items, pack, players, time and chat."""

    def __init__(self):
        self.joined = None
        self.compass = None
        self.place = None
        self.columns = {}
        self.others = Others()
        # Who stood in a column that was unloaded, and is to be told to have moved.
        self.strays = set()
        self.items = {}
        self.pack = pack_of()
        # What hangs on the cursor.
        self.cursor = None
        # The number of the window that is shown, 0 for the own one, and what lies in its chest.
        self.window = 0
        self.chest = []
        self.players = {}
        self.time = None
        self.beat = None
        self.chat = []
        self.farewell = None
        # What was loaded and unloaded, in order; a test clears it when it likes.
        self.changes = []
        self.previous = None
        # What kind of packet comes next, where that is known.
        self.due = None

    def fold(self, packet):
        """Take a packet of play into account."""
        if self.farewell is not None:
            raise Malformed(f"{type(packet).__name__} behind the farewell")
        if type(packet) not in OPENING and self.place is None and type(packet) is not Disconnect:
            raise Malformed(f"{type(packet).__name__} before the opening")
        if type(packet) not in BEGINNING and self.beat is None:
            raise Malformed(f"{type(packet).__name__} before the first beat")
        if type(packet) is not (self.due or type(packet)):
            raise Malformed(f"{type(packet).__name__} where {self.due.__name__} is due")
        self.due = NEXT.get(type(packet))
        self.others.check_next(packet)
        self.check_others(packet)
        FOLDS[type(packet)](self, packet)
        self.previous = packet

    def check_others(self, packet):
        """Find that who is seen is in the list, and in a column that is there, where due."""
        if type(packet) not in LEADING_TO_MOVES and self.strays:
            raise Malformed(f"{packet} where {self.strays} stand in columns that went")
        if type(packet) not in LEADING_TO_DESTROYS and self.unlisted():
            raise Malformed(f"{packet} where {self.unlisted()} have left and are seen")

    def unlisted(self):
        """Answer the numbers of those that are seen and in no line of the player list."""
        listed = {None, *self.players}
        seen = self.others.seen.items()
        return {number for number, other in seen if other.identifier not in listed}

    def join(self, packet):
        """Begin; that comes once, before all else."""
        if self.joined is not None:
            raise Malformed("a second JoinGame")
        if packet.dimension != 0 or packet.mode not in range(4) or packet.entity < 1:
            raise Malformed(f"a strange {packet}")
        self.joined = packet

    def set_compass(self, packet):
        """Keep where the compass points; that comes once, behind the JoinGame."""
        if self.joined is None or self.compass is not None:
            raise Malformed("a SpawnPosition out of turn")
        self.compass = packet

    def set_place(self, packet):
        """Keep the client's own place."""
        if self.compass is None:
            raise Malformed("a place before the SpawnPosition")
        if packet.flags != 0:
            raise Malformed(f"a place with the flags {packet.flags}")
        self.place = packet

    def set_column(self, packet):
        """Load or unload a column. A ground-up chunk with mask 0 is an unload, without a body."""
        if not packet.ground_up:
            raise Malformed(f"a chunk of {packet.place} that is not ground-up")
        change = "load" if packet.mask != 0 else "unload"
        if (change == "load") == (packet.place in self.columns):
            raise Malformed(f"the {change} of {packet.place} out of turn")
        if change == "load":
            self.columns[packet.place] = read_column(packet.mask, packet.body)
        else:
            self.unload(packet)
        self.changes.append((change, packet.place))

    def unload(self, packet):
        """Give a column up; the items in it went before."""
        if packet.body:
            raise Malformed(f"an unload of {packet.place} with {len(packet.body)} bytes")
        if any(column_of_place(item.place) == packet.place for item in self.items.values()):
            raise Malformed(f"an unload of {packet.place}, where items lie")
        seen = self.others.seen.items()
        self.strays |= {number for number, other in seen if other.column() == packet.place}
        del self.columns[packet.place]

    def set_cell(self, packet):
        """Change a cell of a column that is there; below and above the world all is air."""
        place = column_at(packet.cell[0], packet.cell[2])
        if packet.cell[1] in range(HEIGHT):
            self.set_states(place, {index_of(packet.cell): packet.state})
        elif packet.state != 0 or place not in self.columns:
            raise Malformed(f"{packet}, which is no cell that is there")

    def set_cells(self, packet):
        """Change several cells of a column, in rising index, each to a state that it had not."""
        indices = [index for index, _ in packet.records]
        if len(indices) < 2 or indices != sorted(set(indices)):
            raise Malformed(f"changes of {packet.place} that are not several in order: {indices}")
        before = self.columns.get(packet.place)
        if before and any(before.state_at(index) == state for index, state in packet.records):
            raise Malformed(f"changes of {packet.place} that change nothing: {packet.records}")
        self.set_states(packet.place, dict(packet.records))

    def set_states(self, place, states):
        """Give cells of a column that is there other states, by their indices."""
        if place not in self.columns:
            raise Malformed(f"changes of {place}, which is not there")
        self.columns[place] = self.columns[place].with_states(states)

    def state_at(self, cell):
        """Answer the state of a cell of a column that is there."""
        return self.columns[column_at(cell[0], cell[2])].state_at(index_of(cell))

    def check_new(self, packet):
        """Find that an entity that comes has a number of its own, and a column that is there."""
        known = self.items.keys() | self.others.seen.keys() | {self.joined.entity}
        if packet.entity in known or packet.entity < 1:
            raise Malformed(f"{packet} of a number that stands for another")
        if column_of_place(packet.place) not in self.columns:
            raise Malformed(f"{packet} in a column that is not there")

    def add_other(self, packet):
        """See another player, of which the list says who it is."""
        self.check_new(packet)
        if packet.identifier not in self.players:
            raise Malformed(f"{packet} of nobody in the list")
        self.others.add(packet)

    def add_mob(self, packet):
        """See a mob, which is in no list."""
        self.check_new(packet)
        self.others.add_mob(packet)

    def change_other(self, packet):
        """Change how another player is seen, which is in a column that is there then."""
        CHANGES[type(packet)](self.others, packet)
        if self.others.seen[packet.entity].column() not in self.columns:
            raise Malformed(f"{packet} of who is in a column that is not there")
        self.strays.discard(packet.entity)

    def add_item(self, packet):
        """Put a new item into a column that is there; what it is comes next."""
        self.check_new(packet)
        self.items[packet.entity] = Item(packet.place, None)

    def name_item(self, packet):
        """Keep what a new item is."""
        if type(self.previous) is not SpawnItem or self.previous.entity != packet.entity:
            raise Malformed(f"{packet} of no item that just came")
        self.items[packet.entity] = Item(self.items[packet.entity].place, packet.stack)

    def destroy(self, packet):
        """Give items and other players up, in rising numbers."""
        if not packet.entities or packet.entities != sorted(set(packet.entities)):
            raise Malformed(f"{packet} of none, or in no order")
        for entity in packet.entities:
            if self.items.pop(entity, None) or self.others.seen.pop(entity, None):
                continue
            raise Malformed(f"{packet} of {entity}, which is not there")

    def set_slot(self, packet):
        """Keep what a slot holds now, or the cursor, which is told behind a window too."""
        if type(self.previous) is WindowItems and packet.index == CURSOR_SLOT:
            if packet != SetSlot(CURSOR_WINDOW, CURSOR_SLOT, self.cursor):
                raise Malformed(f"{packet} behind the slots of a window")
        elif (packet.window, packet.index) == (CURSOR_WINDOW, CURSOR_SLOT):
            if self.cursor == packet.stack:
                raise Malformed(f"{packet}, as it was before")
            self.cursor = packet.stack
        else:
            stacks, at = self.place_of(packet)
            if stacks[at] == packet.stack:
                raise Malformed(f"{packet}, as it was before")
            stacks[at] = packet.stack

    def place_of(self, packet):
        """Answer the chest or the pack, and a place of it, that a slot of the shown window is."""
        first = CHEST_SIZE if self.window else FIRST_SLOT
        if packet.window != self.window or packet.index not in range(first + len(self.pack)):
            raise Malformed(f"{packet} of no slot of the window {self.window}")
        if packet.index >= first:
            return self.pack, packet.index - first
        if not self.window:
            raise Malformed(f"{packet} of no slot of the pack")
        return self.chest, packet.index

    def open_window(self, packet):
        """Keep the number of a chest's window that opens; all of its slots come next."""
        if packet != OpenWindow(packet.window, "minecraft:chest", "Chest", CHEST_SIZE):
            raise Malformed(f"{packet}, which is no chest")
        if packet.window not in WINDOWS or packet.window == self.window:
            raise Malformed(f"{packet} behind the window {self.window}")
        self.window, self.chest = packet.window, []

    def close_window(self, packet):
        """Show the own window again."""
        if packet.window == 0 or packet.window != self.window:
            raise Malformed(f"{packet} where the window {self.window} is shown")
        self.window, self.chest = 0, []

    def set_window(self, packet):
        """Keep all slots of a window that opened, or find those of one that is sent again."""
        if packet.window != self.window:
            raise Malformed(f"{packet} where the window {self.window} is shown")
        if type(self.previous) is OpenWindow:
            self.chest, self.pack = packet.stacks[:CHEST_SIZE], packet.stacks[CHEST_SIZE:]
            if len(packet.stacks) != CHEST_SIZE + len(SLOTS):
                raise Malformed(f"{packet} of {len(packet.stacks)} slots")
            return
        before = self.chest if self.window else [None] * FIRST_SLOT
        if packet.stacks != before + self.pack:
            raise Malformed(f"{packet} for {before} and the pack {self.pack}")
        self.due = SetSlot

    def check_answer(self, packet):
        """Find that an answer to a click is of a window that is shown, or was."""
        if packet.window not in (0, *WINDOWS):
            raise Malformed(f"{packet} of no window")

    def add_players(self, packet):
        """Put new lines into the player list, in rising identifiers."""
        if list(packet.names) != sorted(packet.names) or packet.names.keys() & self.players.keys():
            raise Malformed(f"new players that are not in order, or not new: {packet}")
        for identifier, name in packet.names.items():
            if identifier != offline_identifier(name):
                raise Malformed(f"the identifier {identifier} for {name}")
        self.players.update(packet.names)

    def remove_players(self, packet):
        """Take lines out of the player list, in rising identifiers."""
        if packet.identifiers != sorted(set(packet.identifiers)):
            raise Malformed(f"players that leave in no order: {packet}")
        for identifier in packet.identifiers:
            if self.players.pop(identifier, None) is None:
                raise Malformed(f"a player that leaves and was not there: {identifier}")

    def set_beat(self, packet):
        """Keep the beat, which is the next one; the time comes behind it."""
        if self.beat is not None and packet.number != self.beat + 1:
            raise Malformed(f"{packet} behind the beat {self.beat}")
        self.beat = packet.number

    def set_time(self, packet):
        """Keep the time, the next that is told, which is of the beat that was told last."""
        if self.time is not None and packet.age != self.time.age + SHOWN_TICKS:
            raise Malformed(f"{packet} behind {self.time}")
        if packet.age % SHOWN_TICKS != 0 or packet.age // BEAT_TICKS != self.beat:
            raise Malformed(f"{packet} in the beat {self.beat}")
        if packet.of_day != packet.age % DAY_TICKS:
            raise Malformed(f"{packet} for a day of {DAY_TICKS}")
        self.time = packet

    def hear(self, packet):
        """Keep what was said."""
        self.chat.append(packet.words)

    def end(self, packet):
        """Keep the farewell, behind which nothing comes."""
        self.farewell = packet.reason

    def names(self):
        """Answer the names of the player list, sorted."""
        return sorted(self.players.values())


OPENING = (JoinGame, SpawnPosition, Place)

# What may come before all else: the opening with the first beat, or a farewell.
BEGINNING = (*OPENING, KeepAlive, Disconnect)

# What comes next behind a packet of one kind, always.
NEXT = {KeepAlive: Time, SpawnItem: ItemIs, OpenWindow: WindowItems}

# What comes of another player that is seen.
CHANGES = {
    HeadLook: Others.set_head,
    Equipment: Others.set_hand,
    Step: Others.step,
    StepLook: Others.step_and_turn,
    Look: Others.turn,
    Teleport: Others.jump,
}

# What a tick sends from the unload of a column on, up to the move of who stood there; and from the
# leaving of a player on, up to the end of its entity.
LEADING_TO_MOVES = {Chunk, Change, MultiChange, SpawnItem, ItemIs, SpawnPlayer, SpawnMob, *CHANGES}
LEADING_TO_DESTROYS = {PlayersLeft, PlayersCame, Destroy}

FOLDS = {
    **dict.fromkeys(CHANGES, Replica.change_other),
    SpawnPlayer: Replica.add_other,
    SpawnMob: Replica.add_mob,
    JoinGame: Replica.join,
    SpawnPosition: Replica.set_compass,
    Place: Replica.set_place,
    Chunk: Replica.set_column,
    Change: Replica.set_cell,
    MultiChange: Replica.set_cells,
    SpawnItem: Replica.add_item,
    ItemIs: Replica.name_item,
    Destroy: Replica.destroy,
    SetSlot: Replica.set_slot,
    OpenWindow: Replica.open_window,
    CloseWindow: Replica.close_window,
    WindowItems: Replica.set_window,
    Confirm: Replica.check_answer,
    PlayersCame: Replica.add_players,
    PlayersLeft: Replica.remove_players,
    KeepAlive: Replica.set_beat,
    Time: Replica.set_time,
    Chat: Replica.hear,
    Disconnect: Replica.end,
}
