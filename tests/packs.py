"""What players carry: 36 slots, 9 to 44 of a player's own window and 27 to 62 of a chest's.

Source: docs/WORLD.md, 'Windows and items'. The hotbar is the last nine of them, slots 36 to 44.
"""

from protocol import Stack

FIRST_SLOT = 9
HOTBAR = 36
SLOTS = range(FIRST_SLOT, 45)
HOTBAR_SIZE = 9

STONE = 1
DIRT = 3
PLANKS = 5
CHEST = 54

# How many slots a chest has, behind which its window has those of the pack.
CHEST_SIZE = 27


def pack_of(*hotbar):
    """Make a pack of what lies in the first slots of the hotbar; all else is empty."""
    main, rest = HOTBAR - FIRST_SLOT, HOTBAR_SIZE - len(hotbar)
    return [None] * main + list(hotbar) + [None] * rest


# What a player has that joins for the first time.
KIT = pack_of(Stack(STONE, 64, 0), Stack(DIRT, 64, 0), Stack(PLANKS, 64, 0), Stack(CHEST, 4, 0))
