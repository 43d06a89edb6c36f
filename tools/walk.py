#!/usr/bin/env python3
"""Makes the rows of a walk for `mc_walk`, and what it is to print for them.

usage: walk.py SEED [MOVES] > crates/mc_walk/stdin 2> crates/mc_walk/stdout

What is there was made with the seed 47.

Three clients move and look about by chance, mostly near each other: small steps, steps at the edge
of what a step can tell and past it, jumps, out of view and back, turns with and without a step, and
several of these between two ticks. Three mobs go by plans of legs, one of them to the lowest place
and against it, one to and fro over the edge of what is seen, and one until its plan is spent. By a
reading of its own of docs/WORLD.md, 'Entities' and 'Mobs', it counts the packets that tell each
client of the others.
"""

import random
import sys
from collections import Counter

CLIENTS = (1, 2, 3)
MOVES = 10_000
# How many moves there are for a tick.
MOVES_A_TICK = 4

# In 1/32 blocks: a column, where players enter flat land, and the last places of players.
COLUMN = 512
ENTRY = 272, 128, 272
FAR = 960_000_000
LOWEST, HIGHEST = -2048, 131_072
# How many columns are seen on each side, and how far a step goes.
VIEW = 2
STEPS = range(-128, 128)
EDGES = -129, -128, -127, 0, 126, 127, 128

# The plans of the mobs: legs of so many moves alike. A mob begins two blocks east of the one before.
PLANS = (
    [(20, (0, -128, 0)), (300, (1, -1, 1)), (40, (0, 127, -3)), (400, (-2, 0, 1))],
    [leg for _ in range(60) for leg in ((25, (64, 0, 0)), (25, (-64, 0, 0)))],
    [(9, (0, 0, 0)), (150, (-3, 2, -5)), (1, (-128, 127, -128)), (30, (10, 0, 127))],
)
BETWEEN_MOBS = 64

# How often a client does what, in parts of the whole.
SORTS = {"small": 34, "edge": 25, "look": 16, "both": 19, "jump": 1, "leave": 1, "meet": 1}


class Walk:
    """Where the clients are and look, where they were at the last tick, and what was told of it."""

    def __init__(self, seed):
        self.chance = random.Random(seed)
        self.now = {client: (ENTRY, (0, 0)) for client in CLIENTS}
        # Where each mob is, and the moves that it is still to make, the next one last.
        self.mobs = [[ENTRY[0] + BETWEEN_MOBS * at, *ENTRY[1:]] for at in range(len(PLANS))]
        self.plans = [[move for count, move in plan for _ in range(count)][::-1] for plan in PLANS]
        # Where each client was told at the last tick that the others are that it sees.
        self.told = {client: {} for client in CLIENTS}
        self.counts = Counter()

    def rows(self, moves):
        """Yield the rows: the plans of the mobs, so many moves, and about a tick for every four, with
        where the mobs are then, and one at the end."""
        for plan in PLANS:
            yield spelled(*[(count, *move) for count, move in plan])
        for number in range(1, moves + 1):
            yield self.move()
            if number == moves or self.chance.random() < 1 / MOVES_A_TICK:
                self.tick()
                yield f"tick {spelled(*self.mobs)}"

    def move(self):
        """Let one of the clients do something; answer its row."""
        client = self.chance.choice(CLIENTS)
        sort = self.chance.choices(list(SORTS), SORTS.values())[0]
        if not any(client in told for told in self.told.values()) and self.chance.random() < 0.12:
            sort = "meet"
        place, look = self.now[client]
        if sort in ("look", "both"):
            look = self.look(look)
        if sort == "both":
            sort = self.chance.choice(("small", "small", "edge", "edge", "stay"))
            self.now[client] = held(self.place(sort, client)), look
            return f"{client} both {spelled(*self.now[client])}"
        if sort == "look":
            self.now[client] = place, look
            return f"{client} look {spelled(look)}"
        self.now[client] = held(self.place(sort, client)), look
        return f"{client} move {spelled(self.now[client][0])}"

    def look(self, look):
        """Choose a look: both angles are others, or one of them, or none."""
        yaw, pitch = self.chance.randrange(256), self.chance.randrange(256)
        both = yaw, pitch
        return self.chance.choice((both, both, (yaw, look[1]), (look[0], pitch), look))

    def place(self, sort, client):
        """Choose a place of a sort for a client."""
        chance, place = self.chance, self.now[client][0]
        other = self.now[chance.choice([it for it in CLIENTS if it != client])][0]
        if sort == "small":
            return [part + chance.randrange(-9, 10) for part in place]
        if sort == "edge":
            ways = [chance.choice(EDGES), chance.randrange(-128, 128), chance.choice((0, -128, 127))]
            chance.shuffle(ways)
            return [part + way for part, way in zip(self.last(client), ways)]
        if sort == "jump":
            return [part + chance.randrange(-600, 601) for part in place]
        if sort == "leave":
            return self.far_place(place)
        if sort == "meet":
            # At the edge of the other's view, on both sides of it, or beside the other.
            across = [chance.choice((-3, -2, 0, 0, 0, 2, 3)) * COLUMN for _ in range(2)]
            ends = [chance.choice((0, COLUMN - 1)) for _ in range(2)]
            x, z = (o // COLUMN * COLUMN + a + e for o, a, e in zip(other[::2], across, ends))
            return [x, other[1] + chance.randrange(-200, 201), z]
        return place

    def last(self, client):
        """Answer where a client was told to be at the last tick, or where it is if nowhere."""
        told = [told[client][0] for told in self.told.values() if client in told]
        return told[0] if told else self.now[client][0]

    def far_place(self, place):
        """Choose a place that is out of view: not far, far off, or at the ends of the world."""
        chance = self.chance
        x, y, z = place
        return chance.choice(
            (
                [x + chance.choice((-5, 5)) * COLUMN, y, z],
                [x, y, z + chance.choice((-4, 4)) * COLUMN],
                [chance.randrange(-FAR, FAR), y, chance.randrange(-FAR, FAR)],
                [chance.choice((-FAR, FAR)), chance.choice((LOWEST, HIGHEST)), z],
                ENTRY,
                ENTRY,
            )
        )

    def tick(self):
        """Count what tells each client of the others at a tick."""
        self.counts["ticks"] += 1
        for mob, plan in enumerate(self.plans):
            self.mobs[mob] = moved(self.mobs[mob], plan.pop() if plan else (0, 0, 0))
        for client in CLIENTS:
            told, now = self.told[client], {}
            for mob, place in enumerate(self.mobs):
                if are_near(self.now[client][0], place):
                    now["mob", mob] = tuple(place), (0, 0)
            for other in CLIENTS:
                if other != client and are_near(self.now[client][0], self.now[other][0]):
                    now[other] = self.now[other]
            self.counts["ends"] += len(told.keys() - now.keys())
            for other, spot in now.items():
                self.count(told.get(other), spot, other in CLIENTS)
            self.told[client] = now

    def count(self, old, new, is_client):
        """Count what tells of one that was seen at a spot, or not, and is at another now."""
        if old is None:
            self.counts.update(("spawns", "heads") if is_client else ("spawns",))
            return
        ways = [now - before for now, before in zip(new[0], old[0])]
        if any(way not in STEPS for way in ways):
            self.counts["jumps"] += 1
        elif any(ways):
            self.counts["steps" if new[1] == old[1] else "turned"] += 1
        elif new[1] != old[1]:
            self.counts["looks"] += 1
        self.counts["heads"] += new[1][0] != old[1][0]

    def line(self, moves):
        """Write what is to be printed."""
        counts = self.counts
        return (
            f"{moves} moves, {counts['ticks']} ticks: "
            "each client was told where the others are, by "
            f"{counts['spawns']} spawns, {counts['ends']} ends, {counts['steps']} steps, "
            f"{counts['turned']} steps with a look, {counts['looks']} looks, "
            f"{counts['jumps']} jumps, {counts['heads']} heads"
        )


def moved(place, way):
    """Move a mob, but where that would leave the last places."""
    there = [part + step for part, step in zip(place, way)]
    return there if there == list(held(there)) else place


def held(place):
    """Keep a place within the last places of players."""
    x, y, z = place
    return hold(x, -FAR, FAR), hold(y, LOWEST, HIGHEST), hold(z, -FAR, FAR)


def hold(part, least, most):
    """Keep a number between two others."""
    return max(least, min(most, part))


def are_near(a, b):
    """Whether two places lie in columns that are seen from each other."""
    return all(abs(a[axis] // COLUMN - b[axis] // COLUMN) <= VIEW for axis in (0, 2))


def spelled(*numbers):
    """Write groups of numbers with a space between them."""
    return " ".join(str(number) for group in numbers for number in group)


def main():
    moves = int(sys.argv[2]) if len(sys.argv) > 2 else MOVES
    walk = Walk(int(sys.argv[1]))
    for row in walk.rows(moves):
        print(row)
    print(walk.line(moves), file=sys.stderr)


if __name__ == "__main__":
    if len(sys.argv) not in (2, 3):
        sys.exit(__doc__.split("\n")[2])
    main()
