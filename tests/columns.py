"""Columns of blocks, and how a Chunk Data's body spells them.

Sources: wiki.vg, 'SMP Map Format' and 'Chunk Format' for protocol 47, and docs/PROTOCOL.md, 'Chunk
bodies', which also has the rules for the mask and for the light that this server sends.
"""

import functools
import struct
from typing import NamedTuple

from protocol import Malformed

SECTIONS = 16
CELLS = 4096
LAYER = 256
HEIGHT = 256
AIR_SECTION = (0,) * CELLS

STATE_BYTES = 2 * CELLS
LIGHT_BYTES = CELLS // 2
BIOME_BYTES = 256


class Column(NamedTuple):
    """Sixteen sections from the bottom up, each 4,096 states, and 256 biomes."""

    sections: tuple
    biomes: bytes

    def state_at(self, index):
        """Answer the state of a cell by its index."""
        return self.sections[index // CELLS][index % CELLS]

    def with_states(self, states):
        """Make a column that has other states by the indices of their cells, and is else alike."""
        changed = {}
        for index, state in states.items():
            changed.setdefault(index // CELLS, {})[index % CELLS] = state
        sections = list(self.sections)
        for section, cells in changed.items():
            kept = sections[section]
            sections[section] = tuple(cells.get(cell, kept[cell]) for cell in range(CELLS))
        return Column(tuple(sections), self.biomes)


def column_of(states, biomes):
    """Make a column of the list of its 65,536 states, in the order y, z, x."""
    starts = range(0, SECTIONS * CELLS, CELLS)
    return Column(tuple(tuple(states[start : start + CELLS]) for start in starts), biomes)


@functools.lru_cache(maxsize=256)
def read_column(mask, body):
    """Read the body of a chunk that is sent ground-up with sky light, and check mask and light."""
    named = [section for section in range(SECTIONS) if mask >> section & 1]
    count = len(named)
    size = count * (STATE_BYTES + 2 * LIGHT_BYTES) + BIOME_BYTES
    if len(body) != size:
        raise Malformed(f"a body of {len(body)} bytes for the mask {mask:04X}, not {size}")
    sections = read_sections(named, body)
    check_mask(mask, sections)
    start = count * STATE_BYTES
    check_light(named, sections, body[start : size - BIOME_BYTES])
    return Column(tuple(sections), body[size - BIOME_BYTES :])


def read_sections(named, body):
    """Read the states of the sections that the mask names; all others are air."""
    sections = [AIR_SECTION] * SECTIONS
    for place, section in enumerate(named):
        start = place * STATE_BYTES
        sections[section] = struct.unpack(f"<{CELLS}H", body[start : start + STATE_BYTES])
    return sections


def check_mask(mask, sections):
    """Find that the mask names just the sections with a block, or the lowest where none has."""
    filled = sum(1 << place for place, states in enumerate(sections) if any(states))
    if mask != (filled or 1):
        raise Malformed(f"the mask {mask:04X} for blocks in the sections of {filled:04X}")


def check_light(named, sections, light):
    """Find no block light, and sky light 15 in air under nothing but air, 0 elsewhere."""
    middle = len(named) * LIGHT_BYTES
    if any(light[:middle]):
        raise Malformed("block light that is not 0")
    sky = sky_light(sections)
    expected = b"".join(sky[section] for section in named)
    if light[middle:] != expected:
        raise Malformed("sky light that is not that of the blocks")


def sky_light(sections):
    """Work out the bytes of sky light of each section, from the top down."""
    is_open = [True] * LAYER
    sky = [b""] * SECTIONS
    for section in reversed(range(SECTIONS)):
        if sections[section] is AIR_SECTION:
            sky[section] = half_bytes([15 if place else 0 for place in is_open] * 16)
        else:
            sky[section] = half_bytes(light_of_section(sections[section], is_open))
    return sky


def light_of_section(states, is_open):
    """Work out the sky light of a section's cells; `is_open` says where only air was above."""
    light = [0] * CELLS
    for start in reversed(range(0, CELLS, LAYER)):
        for place in range(LAYER):
            if states[start + place]:
                is_open[place] = False
            elif is_open[place]:
                light[start + place] = 15
    return light


def half_bytes(values):
    """Put two cells into a byte, the one of even index into its low half."""
    return bytes(low | high << 4 for low, high in zip(values[::2], values[1::2]))


def column_at(x, z):
    """Answer the column in which a place lies, rounded down."""
    return int(x // 16), int(z // 16)


def index_of(cell):
    """Answer the index of a cell in its column."""
    x, y, z = cell
    return y * LAYER + z % 16 * 16 + x % 16


def view_at(middle, size):
    """Answer the set of the columns that are at most `size` off the middle on both axes."""
    across = range(-size, size + 1)
    return {(middle[0] + east, middle[1] + south) for east in across for south in across}
