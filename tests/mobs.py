"""Tests of mobs: where they begin, how they go, and how clients are told.

Sources: wiki.vg, 'Protocol' ('Spawn Mob', 'Entity Relative Move'), docs/WORLD.md, 'Mobs', and
docs/COMMANDS.md, `mobs`.
"""

import subprocess

from client import PATIENCE, expect, log_in, pump, wait_for_others
from program import Program

# Where the two mobs begin, in 1/32 blocks, and how far they go to the east.
PLACES = {1: (272, 128, 272), 2: (336, 128, 272)}
FAR = 20 * 4

# A client that logs in, and three ticks.
SCRIPT = """join 0
bytes 0 0f002f096c6f63616c686f737463dd02040002416c
tick
tick
tick 19
"""


def mobs_go_to_and_fro(path):
    """Both mobs are seen by who is there and by who comes later, at the same places."""
    with Program(path, mobs=2) as program:
        first = log_in(program.port, "Al")
        wait_for_others([first], first, {1, 2})
        wait_at([first], first, FAR)
        second = log_in(program.port, "Bo", [first])
        wait_for_others([first, second], second, {1, 2, 3})
        wait_at([first, second], second, 0)
        wait_at([first, second], first, FAR)
        first.close()
        second.close()


def wait_at(clients, client, way):
    """Wait until one of the clients sees both mobs so far from where they began."""
    seen = client.replica.others.seen
    due = {number: (x + way, y, z) for number, (x, y, z) in PLACES.items()}
    done = pump(clients, lambda: all(seen[number].place == due[number] for number in due))
    expect(done, f"the mobs are seen at {[seen[number].place for number in due]}, not {due}")


def mobs_are_told_as_frames(path):
    """A replay tells each mob's spawn behind its first step, and then a step a tick."""
    spawn = "1b0f015a" + "00000114" + "00000080" + "00000110" + "00" * 11 + "7f"
    for mobs, player in ((1, 2), (2, 3), (64, 3)):
        lines = replay(path, f"mobs={mobs}", "view=2")
        expect(lines[1].startswith(f"sent 0 0f01{player:08x}"), f"the player is not {player}")
        expect(lines[1].count("5a00000") == player - 1, f"of {mobs} mobs not {player - 1} come")
        expect(spawn in lines[1], "the first mob is not told as it is")
        steps = "".join(f"0615{number:02x}040000" + "01" for number in range(1, player))
        back = steps.replace("040000", "fc0000")
        due = [steps] * 19 + [back]
        told = [line.removeprefix("sent 0 ") for line in lines[2:]]
        expect(drop_times(told) == due, f"the steps are {told}")
    lines = replay(path, "view=2")
    expect(lines[1].startswith("sent 0 0f0100000001") and len(lines) == 3, "there are mobs")


def drop_times(told):
    """Leave the frames of the time out of lines, which is told at the twentieth tick."""
    return [line[36:] if line.startswith("1103") else line for line in told]


def replay(path, *words):
    """Play the script; answer the lines that are written."""
    done = subprocess.run([path, "replay", *words], input=SCRIPT, capture_output=True, text=True,
                          timeout=PATIENCE, check=True)
    return done.stdout.splitlines()


TESTS = [mobs_go_to_and_fro, mobs_are_told_as_frames]
