"""Tests of the tests: what the readers and the replica take and refuse of what tells of others.

Each row is some frames in hex, worked out from the pages of wiki.vg that clientbound.py names. Of
what is refused the last frame is, and all before it are taken.
"""

from client import expect
from clientbound import PLAY, JoinGame, Time
from protocol import Malformed, decode, offline_identifier
from replica import Replica

ANNA, BEN = (offline_identifier(name).hex for name in ("Anna", "Ben"))

# Where players enter flat land, its y and z alone, and how Anna comes there as the player 1.
LEFT = "0000008000000110"
FEET = "00000110" + LEFT
SPAWN = f"0C01{ANNA}{FEET}0000000100007F"
HEAD = "190100"
HAND = "04010000000140000000"
SEEN = [SPAWN, HEAD, HAND]
UNLOAD = "21 00000000 00000000 01 0000 00"

TAKEN = [
    SEEN,
    [f"0C01{ANNA}{FEET}0000000000007F", HEAD, "1501 7F8001 01"],
    [*SEEN, "1501 7F8001 01"],
    [*SEEN, "1701 010000 0005 01"],
    [*SEEN, "1701 010000 0500 01", "190105", "1501 FF0000 01"],
    [*SEEN, "1601 0001 01"],
    [*SEEN, f"1801 00000190 {LEFT} 0000 01"],
    [*SEEN, f"1801 0000008F {LEFT} 0000 01"],
    [*SEEN, "04010000FFFF"],
    [*SEEN, "130101"],
    [*SEEN, f"380401{ANNA}", "130101"],
    [*SEEN, UNLOAD, f"1801 FFFFFFF0 {LEFT} 0000 01", "0001"],
]

REFUSED = {
    "a spawn of the own entity": [f"0C05{ANNA}{FEET}0000000100007F"],
    "a spawn of nobody in the list": [f"0C01{'00' * 16}{FEET}0000000100007F"],
    "a spawn out of view": [f"0C01{ANNA}00000600{LEFT}0000000100007F"],
    "a spawn with a flag": [f"0C01{ANNA}{FEET}0000000100017F"],
    "a spawn of a number that is seen": [*SEEN, f"0C01{BEN}{FEET}0000000100007F"],
    "a spawn of a player that is seen": [*SEEN, f"0C02{ANNA}{FEET}0000000100007F"],
    "no head behind a spawn": [SPAWN, HAND],
    "no hand behind a spawn": [SPAWN, HEAD, "1501 010000 01"],
    "another hand than a spawn has": [SPAWN, HEAD, "04010000000340000000"],
    "a step of nobody": [*SEEN, "1502 010000 01"],
    "a step of the own entity": [*SEEN, "1505 010000 01"],
    "a step to nowhere": [*SEEN, "1501 000000 01"],
    "a step in the air": [*SEEN, "1501 010000 00"],
    "a step with a look as before": [*SEEN, "1701 010000 0000 01"],
    "a turn as a step": [*SEEN, "1701 000000 0005 01"],
    "a turn to the look as before": [*SEEN, "1601 0000 01"],
    "a step as a jump to the east": [*SEEN, f"1801 0000018F {LEFT} 0000 01"],
    "a step as a jump to the west": [*SEEN, f"1801 00000090 {LEFT} 0000 01"],
    "a jump out of view": [*SEEN, f"1801 00000600 {LEFT} 0000 01"],
    "no head behind a turn": [*SEEN, "1701 010000 0500 01", "1501 010000 01"],
    "another head than a turn has": [*SEEN, "1601 0500 01", "190106"],
    "a head alone": [*SEEN, "190105"],
    "a hand as before": [*SEEN, HAND],
    "a hat": [*SEEN, "04010001FFFF"],
    "an end of nobody": [*SEEN, "130102"],
    "a second end": [*SEEN, "130101", "130101"],
    "a step of who has left": [*SEEN, f"380401{ANNA}", "1501 010000 01"],
    "a stand in a column that went": [*SEEN, UNLOAD, "0001"],
}


def others_are_read_strictly(_path):
    """What tells of others is taken where it is due, and refused where it is not."""
    for frames in TAKEN:
        fold_all(new_replica(), frames)
    for why, frames in REFUSED.items():
        replica = new_replica()
        fold_all(replica, frames[:-1])
        try:
            fold_all(replica, frames[-1:])
        except Malformed:
            continue
        expect(False, f"{why} is taken")


def new_replica():
    """Make the replica of the player 5 in the middle of a view, with Anna and Ben in its list."""
    replica = Replica()
    replica.joined = JoinGame(5, 0, 0, 1, 20, "flat", False)
    replica.beat, replica.previous = 0, Time(0, 0)
    replica.compass = replica.place = replica.joined
    across = range(-2, 3)
    replica.columns = {(east, south): None for east in across for south in across}
    replica.players = {offline_identifier(name): name for name in ("Anna", "Ben")}
    return replica


def fold_all(replica, frames):
    """Read frames and take them into account."""
    for frame in frames:
        replica.fold(decode(PLAY, bytes.fromhex(frame)))


TESTS = [others_are_read_strictly]
