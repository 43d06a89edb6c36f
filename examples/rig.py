"""A test rig to copy: python3 rig.py PROGRAM [PORT] starts a server, plays two bots on it, and looks
into both dumps for what one of them did. It ends with 0 where all is well."""

import subprocess
import sys

# Bo shows by a block of dirt that it is there, Al digs, and Bo shows by another that it saw that.
AL = "join Al\nuntil 6 4 5 48\ndig 11 3 8 1\nuntil 6 4 6 48\n"
BO = "join Bo\nuntil 6 3 5 32\nheld 1\nplace 6 3 5 1\n"
BO += "until 11 3 8 0\nplace 6 3 6 1\nuntil 6 4 6 48\n"

# The grass that was dug lies at the middle of the floor of its cell, as the third entity.
DUG = "entity 3 item 368 96 272 0 0 0 2 1 0\n"


def start(*words):
    """Start a program that is spoken to over pipes."""
    pipes = dict.fromkeys(("stdin", "stdout", "stderr"), subprocess.PIPE)
    return subprocess.Popen(words, text=True, **pipes)


def expect(holds, why):
    """End with 1 where something does not hold."""
    if not holds:
        sys.exit(why)


def main(program, port="25599"):
    """Play both scripts on one server, which ends once both bots left."""
    server = start(program, "serve", f"port={port}", "ticks=1000000", "pace=turns")
    expect("listening" in server.stderr.readline(), "the server does not listen")
    bots = [(start(program, "bot", f"port={port}"), script) for script in (AL, BO)]
    for bot, script in bots:
        bot.stdin.write(script)
        bot.stdin.close()
    for bot, script in bots:
        dump = bot.stdout.read()
        expect(bot.wait() == 0 and DUG in dump, f"{script} ends with {dump}")
    expect(server.wait(10) == 0, "the server does not end well")
    print("both saw it")


if __name__ == "__main__":
    main(*sys.argv[1:])
