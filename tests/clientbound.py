"""The packets that the server sends in play, as these tests read them.

Sources: wiki.vg for protocol 47, 'Protocol', 'Play', 'Clientbound', with 'Data types', 'Slot Data'
and 'Entities' (the metadata of a player and of a dropped item), and docs/PROTOCOL.md, 'Packets to
the client in play', as far as docs/WORLD.md has it sent. They are read as strictly as those of
protocol.py: of objects only dropped items, of metadata only what such an item is and that no flag
of a player is set, and of what players wear only what is in the hand.
"""

import uuid
from typing import NamedTuple

from protocol import LONGEST_NAME, Malformed, Stack, read_words

# A state is 16 times an id of at most 255, and a metadata of at most 15.
STATES = range(4096)

# What tells a dropped item: its kind of object, and the entry of its metadata with a Slot (5) at
# the index 10, behind which the metadata ends.
DROPPED_ITEM = 2

# The kind of a mob: a pig.
MOB = 90
ITEM_ENTRY = 5 << 5 | 10
NO_MORE_ENTRIES = 0x7F

# The metadata of a player that comes: its flags, a Byte (0) at the index 0, of which none is set.
NO_FLAGS = bytes((0, 0, NO_MORE_ENTRIES))

# Where a player wears what is in its hand.
IN_HAND = 0

# Where a Chat is shown that a player says.
SAID = 0


class KeepAlive(NamedTuple):
    """A beat, which is to be answered."""

    number: int


class JoinGame(NamedTuple):
    """The first packet of play."""

    entity: int
    mode: int
    dimension: int
    difficulty: int
    most_players: int
    level: str
    reduced: bool


class Chat(NamedTuple):
    """What a player says."""

    words: str


class Time(NamedTuple):
    """The age of the world and the time of the day."""

    age: int
    of_day: int


class SpawnPosition(NamedTuple):
    """The block at which a compass points."""

    x: int
    y: int
    z: int


class Place(NamedTuple):
    """The client's own place and look, as the server has them."""

    x: float
    y: float
    z: float
    yaw: float
    pitch: float
    flags: int


class Chunk(NamedTuple):
    """One column's sections, or with mask 0 its unload."""

    place: tuple
    ground_up: bool
    mask: int
    body: bytes


class Change(NamedTuple):
    """The state of one cell."""

    cell: tuple
    state: int


class MultiChange(NamedTuple):
    """The states of several cells of a column, each as (index in the column, state)."""

    place: tuple
    records: list


class Equipment(NamedTuple):
    """What another player has in its hand now."""

    entity: int
    stack: Stack


class SpawnPlayer(NamedTuple):
    """Another player that comes into view, in 1/32 blocks, with the id of what it holds, or 0."""

    entity: int
    identifier: uuid.UUID
    place: tuple
    yaw: int
    pitch: int
    held: int


class SpawnMob(NamedTuple):
    """A mob that comes into view, in 1/32 blocks; its head looks as it does."""

    entity: int
    place: tuple
    yaw: int
    pitch: int


class Step(NamedTuple):
    """How far another player went, in 1/32 blocks; Entity Relative Move on the pages."""

    entity: int
    by: tuple


class Look(NamedTuple):
    """How another player looks now, in 1/256 of a turn."""

    entity: int
    yaw: int
    pitch: int


class StepLook(NamedTuple):
    """How far another player went, and how it looks now."""

    entity: int
    by: tuple
    yaw: int
    pitch: int


class Teleport(NamedTuple):
    """Where another player is now, in 1/32 blocks, and how it looks."""

    entity: int
    place: tuple
    yaw: int
    pitch: int


class HeadLook(NamedTuple):
    """How the head of another player looks now."""

    entity: int
    yaw: int


class SpawnItem(NamedTuple):
    """A dropped item that comes into view, in 1/32 blocks; SpawnObject on the pages."""

    entity: int
    place: tuple
    pitch: int
    yaw: int


class ItemIs(NamedTuple):
    """What a dropped item is; Entity Metadata on the pages."""

    entity: int
    stack: Stack


class Destroy(NamedTuple):
    """Entities that are seen no more."""

    entities: list


class SetSlot(NamedTuple):
    """What a slot of a window holds now; slot -1 of window -1 is what hangs on the cursor."""

    window: int
    index: int
    stack: Stack


class OpenWindow(NamedTuple):
    """A window that opens: its kind, its title, and how many slots it has beside the pack."""

    window: int
    kind: str
    title: str
    count: int


class CloseWindow(NamedTuple):
    """A window that closes."""

    window: int


class WindowItems(NamedTuple):
    """What all slots of a window hold."""

    window: int
    stacks: list


class Confirm(NamedTuple):
    """Whether a click in a window was accepted, by the byte of the window and its number."""

    window: int
    number: int
    accepted: bool


class PlayersCame(NamedTuple):
    """New lines of the player list: a name for each identifier."""

    names: dict


class PlayersLeft(NamedTuple):
    """Lines of the player list that go."""

    identifiers: list


class Disconnect(NamedTuple):
    """The farewell in play."""

    reason: str


def read_join_game(reader):
    """Take the fields of Join Game."""
    numbers = reader.number("i"), reader.number("B"), reader.number("b"), reader.number("B")
    return JoinGame(*numbers, reader.number("B"), reader.text(), reader.boolean())


def read_chat(reader):
    """Take the fields of Chat Message, which is what a player says."""
    words, place = read_words(reader), reader.number("b")
    if place != SAID:
        raise Malformed(f"a Chat for the place {place}")
    return Chat(words)


def read_place(reader):
    """Take the fields of Player Position And Look."""
    numbers = [reader.number(form) for form in "dddff"]
    return Place(*numbers, reader.number("b"))


def read_chunk(reader):
    """Take the fields of Chunk Data; its body is looked into elsewhere."""
    place = reader.number("i"), reader.number("i")
    ground_up, mask = reader.boolean(), reader.number("H")
    return Chunk(place, ground_up, mask, reader.take(reader.varint()))


def read_state(reader):
    """Take the VarInt of a state."""
    state = reader.varint()
    if state not in STATES:
        raise Malformed(f"the state {state}")
    return state


def read_multi_change(reader):
    """Take the fields of Multi Block Change; a cell's first byte is 16 times its x, and its z."""
    place = reader.number("i"), reader.number("i")
    return MultiChange(place, [read_record(reader) for _ in range(reader.varint())])


def read_record(reader):
    """Take a cell of a column with its state; answer its index, y * 256 + z * 16 + x."""
    across, y = reader.number("B"), reader.number("B")
    return y * 256 + across % 16 * 16 + across // 16, read_state(reader)


def read_equipment(reader):
    """Take the fields of Entity Equipment, which is what is in the hand."""
    entity, worn = reader.varint(), reader.number("h")
    if worn != IN_HAND:
        raise Malformed(f"{entity} wears something at {worn}")
    return Equipment(entity, reader.slot())


def read_triple(reader, form):
    """Take three numbers of a form: a place, or how far something went."""
    return reader.number(form), reader.number(form), reader.number(form)


def read_spawn_player(reader):
    """Take the fields of Spawn Player, which is one without flags."""
    entity, identifier, place = reader.varint(), reader.identifier(), read_triple(reader, "i")
    spawn = SpawnPlayer(entity, identifier, place, *read_look(reader), reader.number("h"))
    flags = reader.take(len(NO_FLAGS))
    if flags != NO_FLAGS or spawn.held < 0:
        raise Malformed(f"{spawn} with the metadata {flags.hex()}")
    return spawn


def read_spawn_mob(reader):
    """Take the fields of Spawn Mob, which is of the one kind, without a speed or flags."""
    entity, kind, place = reader.varint(), reader.number("B"), read_triple(reader, "i")
    spawn = SpawnMob(entity, place, *read_look(reader))
    head, speed = reader.number("B"), read_triple(reader, "h")
    rest = reader.take(len(NO_FLAGS))
    if (kind, head, speed, rest) != (MOB, spawn.yaw, (0, 0, 0), NO_FLAGS):
        raise Malformed(f"{spawn} of the kind {kind} with the head {head} and the speed {speed}")
    return spawn


def read_look(reader):
    """Take a yaw and a pitch in 1/256 of a turn."""
    return reader.number("B"), reader.number("B")


def on_ground(reader, packet):
    """Take the last field of a packet that moves a player, which is always on the ground."""
    if not reader.boolean():
        raise Malformed(f"{packet} in the air")
    return packet


def read_step(reader):
    """Take the fields of Entity Relative Move."""
    return on_ground(reader, Step(reader.varint(), read_triple(reader, "b")))


def read_turn(reader):
    """Take the fields of Entity Look."""
    return on_ground(reader, Look(reader.varint(), *read_look(reader)))


def read_step_look(reader):
    """Take the fields of Entity Look And Relative Move."""
    entity, by = reader.varint(), read_triple(reader, "b")
    return on_ground(reader, StepLook(entity, by, *read_look(reader)))


def read_teleport(reader):
    """Take the fields of Entity Teleport."""
    entity, place = reader.varint(), read_triple(reader, "i")
    return on_ground(reader, Teleport(entity, place, *read_look(reader)))


def read_spawn_item(reader):
    """Take the fields of Spawn Object, which is a dropped item without a speed."""
    entity, kind = reader.varint(), reader.number("b")
    place = read_triple(reader, "i")
    pitch, yaw, extra = reader.number("B"), reader.number("B"), reader.number("i")
    if kind != DROPPED_ITEM or extra != 0:
        raise Malformed(f"an object of the kind {kind} with the extra {extra}")
    return SpawnItem(entity, place, pitch, yaw)


def read_item_is(reader):
    """Take the fields of Entity Metadata: one entry, the stack that lies there."""
    entity, entry, stack = reader.varint(), reader.number("B"), None
    if entry == ITEM_ENTRY:
        stack = reader.slot()
    if stack is None or reader.number("B") != NO_MORE_ENTRIES:
        raise Malformed(f"metadata of {entity} that is not one stack, and begins by {entry:02X}")
    return ItemIs(entity, stack)


def read_destroy(reader):
    """Take the fields of Destroy Entities."""
    return Destroy([reader.varint() for _ in range(reader.varint())])


def read_set_slot(reader):
    """Take the fields of Set Slot."""
    return SetSlot(reader.number("b"), reader.number("h"), reader.slot())


def read_open_window(reader):
    """Take the fields of Open Window, which is not that of a horse."""
    window, kind, title = reader.number("B"), reader.text(), read_words(reader)
    return OpenWindow(window, kind, title, reader.number("B"))


def read_window_items(reader):
    """Take the fields of Window Items."""
    window, count = reader.number("B"), reader.number("h")
    return WindowItems(window, [reader.slot() for _ in range(count)])


def read_player_list(reader):
    """Take a Player List Item that adds players (action 0) or removes them (action 4)."""
    action, count = reader.varint(), reader.varint()
    if count < 1:
        raise Malformed(f"a list of {count} players")
    if action == 0:
        names = dict(read_new_player(reader) for _ in range(count))
        if len(names) < count:
            raise Malformed("a list that names a player twice")
        return PlayersCame(names)
    if action == 4:
        return PlayersLeft([reader.identifier() for _ in range(count)])
    raise Malformed(f"the action {action} of a player list")


def read_new_player(reader):
    """Take one line of a player list that is new: its identifier and its name."""
    identifier, name = reader.identifier(), reader.text(LONGEST_NAME)
    for _ in range(reader.varint()):
        reader.text()
        reader.text()
        if reader.boolean():
            reader.text()
    mode, _ping = reader.varint(), reader.varint()
    if mode not in range(4):
        raise Malformed(f"a player of mode {mode}")
    if reader.boolean():
        reader.text()
    return identifier, name


PLAY = {
    0x00: lambda reader: KeepAlive(reader.varint()),
    0x01: read_join_game,
    0x02: read_chat,
    0x03: lambda reader: Time(reader.number("q"), reader.number("q")),
    0x04: read_equipment,
    0x05: lambda reader: SpawnPosition(*reader.block_position()),
    0x08: read_place,
    0x0C: read_spawn_player,
    0x0E: read_spawn_item,
    0x0F: read_spawn_mob,
    0x13: read_destroy,
    0x15: read_step,
    0x16: read_turn,
    0x17: read_step_look,
    0x18: read_teleport,
    0x19: lambda reader: HeadLook(reader.varint(), reader.number("B")),
    0x1C: read_item_is,
    0x21: read_chunk,
    0x22: read_multi_change,
    0x23: lambda reader: Change(reader.block_position(), read_state(reader)),
    0x2D: read_open_window,
    0x2E: lambda reader: CloseWindow(reader.number("B")),
    0x2F: read_set_slot,
    0x30: read_window_items,
    0x32: lambda reader: Confirm(reader.number("b"), reader.number("h"), reader.boolean()),
    0x38: read_player_list,
    0x40: lambda reader: Disconnect(read_words(reader)),
}
