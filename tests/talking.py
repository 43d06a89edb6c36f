"""Tests of beats, of clients that never answer them, and of what players say.

Sources: wiki.vg, 'Protocol' ('Keep Alive', 'Time Update', 'Chat Message'), docs/PROTOCOL.md and
docs/WORLD.md ('Connections and events', 'A tick'). The words of a farewell are this server's own.
"""

import protocol
from client import PATIENCE, TICK, Client, ask_status, expect, expect_farewell, log_in, pump
from client import wait_for_names
from clientbound import Chat, KeepAlive, PlayersCame, PlayersLeft, Time
from faults import BAD_PACKET
from news import BENEATH, UP, log_in_two, settle
from program import Program
from replica import BEAT_TICKS, DAY_TICKS, SHOWN_TICKS

NO_ANSWER = "No answer."

# How many beats a client may leave without an answer.
MISSED = 7

# So many beats are more than twice as many.
MANY_BEATS = 2 * MISSED + 1

# How long so many beats take, and how long until one is closed that leaves them.
MANY_BEATS_PATIENCE = MANY_BEATS * BEAT_TICKS * TICK + PATIENCE
MISSED_TICKS = (MISSED + 2) * BEAT_TICKS
MISSED_PATIENCE = MISSED_TICKS * TICK + PATIENCE

LONGEST_SAID = 100

# So many come while somebody talks, of whom some come within the tick of a text.
LATE_COMERS = 10

# What is said: blanks and nothing, what is escaped and what is not, and as much as may be.
TEXTS = ["hi", "", " ", "/help", '"\\/', "".join(map(chr, range(32))), "\x7f\x80", "Zoë €"]
TEXTS += ["\U0001F600", "x" * LONGEST_SAID, "é" * LONGEST_SAID, "\U0001F600" * LONGEST_SAID]


class Mute(Client):
    """A client that answers no beat."""

    def answer(self, beat):
        """Say nothing."""


class Odd(Client):
    """A client that answers each beat by another number."""

    def answer(self, beat):
        """Answer by a number that is no beat's."""
        self.send(protocol.keep_alive(-1 - beat))


class Slow(Client):
    """A client that answers only where it left as many beats as it may."""

    def answer(self, beat):
        """Answer each seventh of the beats that came."""
        if sum(type(packet) is KeepAlive for packet in self.packets) % MISSED == MISSED - 1:
            super().answer(beat)


def beats_are_told_and_answered(path):
    """Who answers in time and by any number stays, beat after beat."""
    with Program(path) as program:
        clients = []
        for name, kind in (("Anna", Client), ("Odd", Odd), ("Slow", Slow)):
            clients.append(log_in(program.port, name, clients, kind))
        first = clients[-1].replica.beat
        last = first + MANY_BEATS
        were_told = lambda: all(client.replica.beat >= last or client.ended for client in clients)
        pump(clients, were_told, MANY_BEATS_PATIENCE)
        ends = [(client.replica.beat, client.replica.farewell) for client in clients]
        expect(all(beat >= last and not said for beat, said in ends), f"beats, farewells: {ends}")


def silent_clients_are_closed(path):
    """Who leaves seven beats is closed at the eighth, and the others see it leave in that tick."""
    with Program(path, ticks=MISSED_TICKS) as program:
        wanda = log_in(program.port, "Wanda")
        mute = log_in(program.port, "Mute", [wanda], Mute)
        mute.send(protocol.chat("I am here") + protocol.held(1))
        pump([mute, wanda], lambda: mute.ended, MISSED_PATIENCE)
        expect_farewell(mute, NO_ANSWER, [wanda])
        told = [packet.number for packet in mute.packets if type(packet) is KeepAlive]
        expect(len(told) == MISSED, f"closed after the beats {told}")
        end = BEAT_TICKS * (told[-1] + 1)
        expect(mute.replica.time.age == end - SHOWN_TICKS, f"{mute.replica.time}, not {end}")
        wait_for_names([wanda], wanda, ["Wanda"])
        at = [type(packet) for packet in wanda.packets].index(PlayersLeft)
        before = wanda.packets[at - 2 : at]
        due = [KeepAlive(told[-1] + 1), Time(end, end % DAY_TICKS)]
        expect(before == due, f"Mute leaves behind {before}, not {due}")
        pump([wanda], lambda: wanda.ended, MISSED_PATIENCE)
        ended = program.finish()
    expect(ended[:2] == (0, f"ticks={MISSED_TICKS} joins=2 closed=1\n"), f"it ends with {ended}")


def texts_are_heard_by_all(path):
    """What one says both hear, as it is and in the order in which it was said."""
    said = []
    with Program(path) as program:
        both = anna, ben = log_in_two(program.port)
        for text in TEXTS:
            for client, name in ((anna, "Anna"), (ben, "Ben")):
                client.send(protocol.chat(text))
                said.append(f"<{name}> {text}")
                expect_heard(both, said)
        anna.send(b"".join(map(protocol.chat, TEXTS)))
        said += [f"<Anna> {text}" for text in TEXTS]
        expect_heard(both, said)
        anna.forget_news()
        anna.send(protocol.chat("stone") + protocol.placement(BENEATH, UP))
        said.append("<Anna> stone")
        expect_heard(both, said)
        expect(type(anna.news()[-1]) is Chat, f"a text is not last of {anna.news()}")


def expect_heard(clients, said):
    """Wait until clients heard just these texts."""
    done = pump(clients, lambda: all(len(client.replica.chat) >= len(said) for client in clients))
    for client in clients:
        expect(client.replica.chat == said, f"heard {client.replica.chat[-3:]}, not {said[-3:]}")
    expect(done, f"not heard in time: {said[-3:]}")


def long_texts_close(path):
    """A text of a character too many closes its sender, and nobody hears it."""
    with Program(path) as program:
        anna = log_in(program.port, "Anna")
        for letter in ("x", "é", "\U0001F600"):
            ben = log_in(program.port, "Ben", [anna])
            wait_for_names([anna, ben], anna, ["Anna", "Ben"])
            ben.send(protocol.chat("bye") + protocol.chat(letter * (LONGEST_SAID + 1)))
            expect_farewell(ben, BAD_PACKET, [anna])
            wait_for_names([anna], anna, ["Anna"])
        expect_heard([anna], ["<Ben> bye"] * 3)


def late_comers_hear_what_follows(path):
    """Who enters behind a text does not hear it, also where both lie between two ticks."""
    said = []
    at_once = 0
    with Program(path) as program:
        anna = log_in(program.port, "Anna")
        for number in range(LATE_COMERS):
            settle([anna])
            anna.forget_news()
            anna.send(protocol.chat(f"before {number}"))
            said.append(f"<Anna> before {number}")
            # Once a status is told, that text was read before anything that is sent from now on.
            ask_status(program.port, [anna])
            late = log_in(program.port, f"Late_{number}", [anna])
            expect(late.replica.chat == [], f"{late.replica.chat} was said before")
            late.send(protocol.chat("bye"))
            late.close()
            said.append(f"<Late_{number}> bye")
            expect_heard([anna], said)
            # What is said comes last in a tick.
            kinds = [type(packet) for packet in anna.packets]
            at_once += kinds.index(PlayersCame) < kinds.index(Chat)
    expect(at_once > 0, f"never between two ticks, of {LATE_COMERS} times")
    return f"{at_once} of {LATE_COMERS} times between two ticks"


TESTS = [
    texts_are_heard_by_all,
    long_texts_close,
    late_comers_hear_what_follows,
]

# These wait for beats, of which one comes in five seconds.
LONG_TESTS = [beats_are_told_and_answered, silent_clients_are_closed]
