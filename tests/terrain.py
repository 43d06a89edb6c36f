"""The land before anybody changed it (docs/WORLD.md, 'Terrain'), and with changes.

A land answers the column of a place, where players enter, and how it is asked for on the command
line. All is worked out from that page's formulas; columns that are alike are worked out once.
"""

import functools

from columns import LAYER, SECTIONS, column_at, column_of, index_of

STONE = 1 << 4
GRASS = 2 << 4
DIRT = 3 << 4
BEDROCK = 7 << 4

PLAINS = 1
HIGH_BIOME = 3
HIGH_FROM = 47


class Flat:
    """Bedrock, two layers of dirt and one of grass, everywhere."""

    argument = "flat"
    spawn = (8.5, 4.0, 8.5)

    def column(self, _place):
        """Answer the column of a place."""
        return flat_column()


class Isle:
    """One layer of stone at y 63 in the column (0, 0), and nothing elsewhere."""

    argument = "isle"
    spawn = (8.5, 64.0, 8.5)

    def column(self, place):
        """Answer the column of a place."""
        return isle_column(place == (0, 0))


class Hills:
    """Heights that are the sum of two waves, which a seed shifts."""

    def __init__(self, seed):
        self.seed = seed
        self.argument = f"hills:{seed}"
        self.spawn = (8.5, float(height(seed, 8, 8) + 1), 8.5)

    def column(self, place):
        """Answer the column of a place; they repeat every 128 cells of x and every 96 of z."""
        return hills_column(self.seed, place[0] % 8, place[1] % 6)


class Changed:
    """A land in which cells have other states, by (x, y, z)."""

    def __init__(self, land, cells):
        self.land = land
        self.states = {}
        for cell, state in cells.items():
            place = column_at(cell[0], cell[2])
            self.states.setdefault(place, {})[index_of(cell)] = state

    def column(self, place):
        """Answer the column of a place."""
        return self.land.column(place).with_states(self.states.get(place, {}))


@functools.lru_cache(maxsize=1)
def flat_column():
    """Make the one column of flat land."""
    layers = [BEDROCK, DIRT, DIRT, GRASS] + [0] * (16 * SECTIONS - 4)
    return column_of([state for state in layers for _ in range(LAYER)], bytes([PLAINS]) * LAYER)


@functools.lru_cache(maxsize=2)
def isle_column(is_stone):
    """Make the column of the isle, or one of those around it."""
    states = [0] * (16 * SECTIONS * LAYER)
    if is_stone:
        states[63 * LAYER : 64 * LAYER] = [STONE] * LAYER
    return column_of(states, bytes([PLAINS]) * LAYER)


@functools.lru_cache(maxsize=96)
def hills_column(seed, east, south):
    """Make the column (east, south) of hills with a seed."""
    states = [0] * (16 * SECTIONS * LAYER)
    biomes = bytearray()
    for cell in range(LAYER):
        top = height(seed, 16 * east + cell % 16, 16 * south + cell // 16)
        states[cell : (top + 1) * LAYER : LAYER] = hill(top)
        biomes.append(PLAINS if top < HIGH_FROM else HIGH_BIOME)
    return column_of(states, bytes(biomes))


def hill(top):
    """List the states from bedrock up to the grass at `top`."""
    return [BEDROCK] + [STONE] * (top - 4) + [DIRT] * 3 + [GRASS]


def height(seed, x, z):
    """Answer the y of the grass of hills at (x, z)."""
    return 40 + wave(x + seed % 128, 64) // 8 + wave(z + seed // 128 % 96, 48) // 8


def wave(value, half):
    """Answer how far a value lies from the middle of its period of 2 `half`."""
    return abs(value % (2 * half) - half)
