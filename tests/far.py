"""A test of memory: who walks far leaves no columns behind.

Sources: docs/WORLD.md, 'The land', and docs/COMMANDS.md, `replay`.
"""

import struct
import subprocess
import sys
import tempfile

import protocol
from client import PATIENCE, expect

# How far a column is along an axis, in blocks, and where players enter.
COLUMN = 16
ENTRY = 8.5

# How many columns are walked to the east, one a tick; of the memory that the longer walk takes more
# than the shorter, so many bytes are its script's. The columns of 9,000 ticks would be some 90 MB.
SHORT, LONG = 1_000, 10_000
SCRIPT_BYTES = 6 * 2**20

# A beat comes every so many ticks.
BEAT = 100

# A program of its own, since what a process took before it became another one counts as that one's:
# it plays the script, and prints the most memory that this took, in KiB.
MEASURE = """
import resource, subprocess, sys
subprocess.run([sys.argv[1], "replay", "view=2"], stdout=subprocess.DEVNULL, check=True)
print(resource.getrusage(resource.RUSAGE_CHILDREN).ru_maxrss)
"""


def far_walks_leave_no_columns(path):
    """A walk over ten times as many columns takes no more memory, but for its script."""
    short, long = memory_of_walk(path, SHORT), memory_of_walk(path, LONG)
    expect(long - short <= SCRIPT_BYTES, f"{LONG} columns take {long - short} bytes more")
    return f"{short / 2**20:.1f} and {long / 2**20:.1f} MiB"


def memory_of_walk(path, columns):
    """Play a walk over so many columns; answer the most memory that it took, in bytes."""
    with tempfile.TemporaryFile("w+") as script:
        script.writelines(script_of_walk(columns))
        script.seek(0)
        done = subprocess.run([sys.executable, "-c", MEASURE, path], stdin=script,
                              capture_output=True, text=True, timeout=PATIENCE, check=True)
    return int(done.stdout) * 1024


def script_of_walk(columns):
    """Make the lines of a client that walks east by a column a tick, and answers each beat."""
    yield "join 0\n"
    yield f"bytes 0 {login().hex()}\n"
    for tick in range(1, columns + 1):
        yield f"bytes 0 {place_at(ENTRY + COLUMN * tick).hex()}\n"
        yield "tick\n"
        if tick % BEAT == 0:
            yield f"bytes 0 {protocol.frame(bytes([0]) + protocol.varint(tick // BEAT)).hex()}\n"


def login():
    """Make the frames by which Al is in play."""
    return bytes.fromhex("0f002f096c6f63616c686f737463dd02" + "040002416c")


def place_at(x):
    """Make the frame by which a client says that it stands on flat land, at a place of that x."""
    return protocol.frame(bytes([4]) + struct.pack(">ddd", x, 4.0, ENTRY) + bytes([1]))


TESTS = [far_walks_leave_no_columns]
