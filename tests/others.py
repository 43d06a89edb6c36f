"""The other players that a client sees, and what packets make of them.

Sources: wiki.vg, 'Protocol', 'Play', 'Clientbound', and docs/WORLD.md, 'A tick' and 'Entities'. The
fold is strict: it refuses a change of a player that is not seen or that says nothing new, a form
that another is due for, and a head or a hand that is not where it is due.
"""

from typing import NamedTuple
from uuid import UUID

from clientbound import Equipment, HeadLook
from columns import column_at
from protocol import Malformed, Stack

# A block is so many of the parts in which places of entities are told.
PARTS = 32

# How far a step goes at most on each axis.
STEPS = range(-128, 128)
NO_STEP = (0, 0, 0)


class Other(NamedTuple):
    """Another player: who it is, its place in 1/32 blocks, how it looks, what is in its hand. A mob
    is nobody."""

    identifier: UUID
    place: tuple
    yaw: int
    pitch: int
    stack: Stack

    def look(self):
        """Answer how it looks."""
        return self.yaw, self.pitch

    def column(self):
        """Answer the column in which it stands."""
        return column_of_place(self.place)


class Others:
    """The other players in view by their numbers, and which packet is due next about one."""

    def __init__(self):
        self.seen = {}
        # The head that is to come next, and whose spawn is to be told what it holds, with the id.
        self.head = None
        self.hand = None

    def is_whole(self):
        """Whether no packet is due that belongs to the one that came last."""
        return self.head is None and self.hand is None

    def check_next(self, packet):
        """Find the head or the hand that is due next, where one is."""
        if self.head is not None and packet != self.head:
            raise Malformed(f"{packet} where {self.head} is due")
        if self.head is None and self.hand is not None:
            entity, held = self.hand
            is_it = type(packet) is Equipment and packet.entity == entity and packet.stack
            if not is_it or packet.stack.item != held:
                raise Malformed(f"{packet} where the {held} in the hand of {entity} is due")

    def add(self, packet):
        """See a player that was not seen before; its head comes next, and then what it holds."""
        if any(other.identifier == packet.identifier for other in self.seen.values()):
            raise Malformed(f"{packet} of a player that is seen already")
        look = packet.yaw, packet.pitch
        self.seen[packet.entity] = Other(packet.identifier, packet.place, *look, None)
        self.head = HeadLook(packet.entity, packet.yaw)
        self.hand = (packet.entity, packet.held) if packet.held else None

    def add_mob(self, packet):
        """See a mob that was not seen before; nothing more comes of it."""
        self.seen[packet.entity] = Other(None, packet.place, packet.yaw, packet.pitch, None)

    def set_head(self, packet):
        """Turn a head, which is due where its player came or its yaw changed, and only there."""
        if packet != self.head:
            raise Malformed(f"{packet} that is not due")
        self.head = None

    def set_hand(self, packet):
        """Keep what is in a hand, which is something else than before."""
        other = self.find(packet)
        if other.stack == packet.stack:
            raise Malformed(f"{packet}, as it was before")
        self.seen[packet.entity] = other._replace(stack=packet.stack)
        self.hand = None

    def step(self, packet):
        """Move a player without a turn."""
        other = self.find(packet)
        self.move(packet, going(packet, other.place), other.look())

    def step_and_turn(self, packet):
        """Move and turn a player."""
        other = self.find(packet)
        if (packet.yaw, packet.pitch) == other.look():
            raise Malformed(f"{packet}, which turns nothing")
        self.move(packet, going(packet, other.place), (packet.yaw, packet.pitch))

    def turn(self, packet):
        """Turn a player that stays where it is."""
        other = self.find(packet)
        if (packet.yaw, packet.pitch) == other.look():
            raise Malformed(f"{packet}, which turns nothing")
        self.move(packet, other.place, (packet.yaw, packet.pitch))

    def jump(self, packet):
        """Move a player by more than a step can tell."""
        other = self.find(packet)
        if all(new - old in STEPS for new, old in zip(packet.place, other.place)):
            raise Malformed(f"{packet} from {other.place}, which is a step")
        self.move(packet, packet.place, (packet.yaw, packet.pitch))

    def find(self, packet):
        """Answer the player that a packet is about."""
        if packet.entity not in self.seen:
            raise Malformed(f"{packet} of no player that is seen")
        return self.seen[packet.entity]

    def move(self, packet, place, look):
        """Keep where a player is and looks; its head is due where its yaw is another."""
        other = self.seen[packet.entity]
        if look[0] != other.yaw:
            self.head = HeadLook(packet.entity, look[0])
        self.seen[packet.entity] = other._replace(place=place, yaw=look[0], pitch=look[1])


def going(packet, place):
    """Answer where a step leads to, which is somewhere else."""
    if packet.by == NO_STEP:
        raise Malformed(f"{packet}, which goes nowhere")
    return tuple(part + step for part, step in zip(place, packet.by))


def column_of_place(place):
    """Answer the column in which a place lies that is told in 1/32 blocks."""
    return column_at(place[0] // PARTS, place[2] // PARTS)

