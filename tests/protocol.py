"""The bytes of Minecraft 1.8 (protocol 47), as these tests read and write them.

This is a reading of its own that shares nothing with the server. Its sources are the public pages
of wiki.vg for protocol 47, 'Protocol', 'Data types', 'Slot Data', 'Server List Ping' and 'Chat',
and docs/PROTOCOL.md. What comes from the server is read strictly: an unknown id, a field that does
not read, a VarInt that is not the shortest and bytes behind the last field are each `Malformed`.
The packets that it sends in play stand in clientbound.py.
"""

import hashlib
import json
import struct
import uuid
from typing import NamedTuple

PROTOCOL = 47
WANTS_STATUS = 1
WANTS_LOGIN = 2

LONGEST_TEXT = 32767
LONGEST_NAME = 16


# What a stack of the world may have (docs/PROTOCOL.md, 'Slots'): an id, a count and a damage.
ITEMS = range(1, 256)
COUNTS = range(1, 65)
DAMAGES = range(16)


class Malformed(Exception):
    """Bytes that are nothing that the server may send."""


class Stack(NamedTuple):
    """So many of an item, without a tag. The empty slot is None."""

    item: int
    count: int
    damage: int


# Writing fields ('Data types')


def varint(number):
    """Spell a number of 32 bits as the shortest VarInt."""
    rest = number & 0xFFFFFFFF
    spelled = bytearray()
    while rest > 0x7F:
        spelled.append(rest & 0x7F | 0x80)
        rest >>= 7
    spelled.append(rest)
    return bytes(spelled)


def text(value):
    """Spell a String: the length of its UTF-8 in bytes, and that."""
    encoded = value.encode("utf-8")
    return varint(len(encoded)) + encoded


def block_position(cell):
    """Spell a Position: 26 bits of x, 12 of y and 26 of z."""
    x, y, z = cell
    return struct.pack(">Q", (x & 0x3FFFFFF) << 38 | (y & 0xFFF) << 26 | z & 0x3FFFFFF)


def slot(stack):
    """Spell a Slot ('Slot Data'): a stack without a tag, or the empty one."""
    return b"\xFF\xFF" if stack is None else struct.pack(">hbhB", *stack, 0)


def frame(payload):
    """Put a packet's length before it ('Protocol', 'Packet format', without compression)."""
    return varint(len(payload)) + payload


def packet(number, *fields):
    """Make the frame of a packet from its id and the bytes of its fields."""
    return frame(varint(number) + b"".join(fields))


# Packets to the server ('Protocol', 'Serverbound')


def handshake(wants, protocol=PROTOCOL, address="localhost", port=25565):
    """Ask for the status or for a login, by the number in `wants`."""
    port_field = struct.pack(">H", port)
    return packet(0x00, varint(protocol), text(address), port_field, varint(wants))


def request():
    """Ask for the status."""
    return packet(0x00)


def ping(number):
    """Ask for a Pong with the same number."""
    return packet(0x01, struct.pack(">q", number))


def login_start(name):
    """Say under which name to log in."""
    return packet(0x00, text(name))


def keep_alive(number):
    """Answer a KeepAlive of the server."""
    return packet(0x00, varint(number))


def chat(said):
    """Say something, of at most 100 code points."""
    return packet(0x01, text(said))


def position(x, y, z):
    """Say where the player stands: the Doubles of its feet, and that it is on the ground."""
    return packet(0x04, struct.pack(">ddd?", x, y, z, True))


def look(yaw, pitch):
    """Say how the player looks, in degrees."""
    return packet(0x05, struct.pack(">ff?", yaw, pitch, True))


def position_look(x, y, z, yaw, pitch):
    """Say where the player stands and how it looks."""
    return packet(0x06, struct.pack(">dddff?", x, y, z, yaw, pitch, True))


def digging(status, cell, face=1):
    """Say by Player Digging what is done to a cell, or by status 3 and 4 what is dropped."""
    return packet(0x07, struct.pack(">b", status), block_position(cell), struct.pack(">b", face))


def placement(cell, face, stack=None):
    """Say by Player Block Placement that a face of a cell was clicked, with a stack in the hand."""
    clicked = struct.pack(">b", face), slot(stack), struct.pack(">bbb", 8, 16, 8)
    return packet(0x08, block_position(cell), *clicked)


def held(place):
    """Say by Held Item Change which place of the hotbar the hand is on, from 0 to 8."""
    return packet(0x09, struct.pack(">h", place))


def close_window(window):
    """Say by Close Window that a window was closed."""
    return packet(0x0D, struct.pack(">B", window))


def click(index, button, number, mode, stack, window=0):
    """Click by Click Window into a slot of a window, which holds a stack as the client sees.

    The slot -999 is outside it.
    """
    return packet(0x0E, struct.pack(">BhbhB", window, index, button, number, mode), slot(stack))


def confirm(number, window=0):
    """Say by Confirm Transaction that a refused click in a window is known to be so."""
    return packet(0x0F, struct.pack(">bh?", window, number, False))


def creative(index, stack):
    """Say by Creative Inventory Action that a slot shall hold a stack."""
    return packet(0x10, struct.pack(">h", index), slot(stack))


def settings(view):
    """Say by Client Settings how many columns to show on each side."""
    return packet(0x15, text("en_US"), struct.pack(">bb?B", view, 0, True, 0x7F))


# Reading fields


class Reader:
    """Takes the fields of one packet off its front."""

    def __init__(self, data):
        self.data = data
        self.at = 0

    def take(self, count):
        """Take so many bytes."""
        piece = self.data[self.at : self.at + count]
        if count < 0 or len(piece) < count:
            raise Malformed(f"{count} bytes wanted at {self.at} of {len(self.data)}")
        self.at += count
        return piece

    def number(self, form):
        """Take one number of a form of `struct`, its highest byte first."""
        layout = struct.Struct(">" + form)
        return layout.unpack(self.take(layout.size))[0]

    def boolean(self):
        """Take a Boolean, 0 or 1."""
        byte = self.number("B")
        if byte > 1:
            raise Malformed(f"a Boolean of {byte}")
        return byte == 1

    def varint(self):
        """Take a VarInt, spelled the shortest way, as a signed number of 32 bits."""
        value = 0
        for place in range(5):
            byte = self.number("B")
            value |= (byte & 0x7F) << 7 * place
            if byte < 0x80:
                if byte == 0 and place > 0 or value >= 1 << 32:
                    raise Malformed("a VarInt that is not the shortest")
                return value - (1 << 32) if value >= 1 << 31 else value
        raise Malformed("a VarInt of more than five bytes")

    def text(self, limit=LONGEST_TEXT):
        """Take a String of at most `limit` code points."""
        try:
            value = self.take(self.varint()).decode("utf-8")
        except UnicodeDecodeError as error:
            raise Malformed(f"a String that is no UTF-8: {error}") from error
        if len(value) > limit:
            raise Malformed(f"a String of {len(value)} code points, and {limit} are the most")
        return value

    def identifier(self):
        """Take a UUID of 16 bytes."""
        return uuid.UUID(bytes=bytes(self.take(16)))

    def block_position(self):
        """Take a Position: 26 bits of x, 12 of y and 26 of z, in two's complement."""
        bits = self.number("Q")
        return signed(bits >> 38, 26), signed(bits >> 26, 12), signed(bits, 26)

    def slot(self):
        """Take a Slot: a stack that the world may hold, without a tag, or None for an empty one."""
        item = self.number("h")
        if item == -1:
            return None
        stack = Stack(item, self.number("b"), self.number("h"))
        if item not in ITEMS or stack.count not in COUNTS or stack.damage not in DAMAGES:
            raise Malformed(f"a strange {stack}")
        if self.number("B") != 0:
            raise Malformed(f"a {stack} with a tag")
        return stack

    def finish(self):
        """Find nothing left."""
        left = len(self.data) - self.at
        if left:
            raise Malformed(f"{left} bytes behind the last field")


def signed(bits, width):
    """Read the low `width` bits in two's complement."""
    value = bits & (1 << width) - 1
    return value - (1 << width) if value >> width - 1 else value


# Packets to the client before play


class Response(NamedTuple):
    """The status, a text of JSON."""

    status: str


class Pong(NamedTuple):
    """The number of a Ping."""

    number: int


class Refusal(NamedTuple):
    """The Disconnect before play: why no login comes of it."""

    reason: str


class Success(NamedTuple):
    """A login that went well."""

    identifier: uuid.UUID
    name: str


def read_words(reader):
    """Take a Chat and answer its words; no other part of 'Chat' is sent, and no blank between."""
    said = reader.text()
    try:
        value = json.loads(said)
    except ValueError as error:
        raise Malformed(f"a Chat that is no JSON: {said}") from error
    if not isinstance(value, dict) or list(value) != ["text"]:
        raise Malformed(f"a Chat with more than a text: {said}")
    if said != json.dumps(value, ensure_ascii=False, separators=(",", ":")):
        raise Malformed(f"a Chat that is not compact: {said}")
    return value["text"]


def read_success(reader):
    """Take the fields of Login Success; its identifier is a text with hyphens."""
    spelled = reader.text(36)
    name = reader.text(LONGEST_NAME)
    identifier = uuid.UUID(spelled)
    if str(identifier) != spelled:
        raise Malformed(f"an identifier that is not spelled with hyphens: {spelled}")
    return Success(identifier, name)


# What the server sends by the stage of a connection (docs/PROTOCOL.md, 'Packets').

STATUS = {
    0x00: lambda reader: Response(reader.text()),
    0x01: lambda reader: Pong(reader.number("q")),
}

LOGIN = {
    0x00: lambda reader: Refusal(read_words(reader)),
    0x02: read_success,
}

def decode(stage, payload):
    """Read a frame's payload as a packet of `STATUS`, `LOGIN`, or `PLAY` of clientbound.py."""
    reader = Reader(payload)
    number = reader.varint()
    if number not in stage:
        raise Malformed(f"a packet of id {number:02X}: {bytes(payload[:40]).hex()}")
    read = stage[number](reader)
    reader.finish()
    return read


def offline_identifier(name):
    """Work out the UUID of a player by its name, as servers without accounts do."""
    digest = hashlib.md5(b"OfflinePlayer:" + name.encode("utf-8")).digest()
    return uuid.UUID(bytes=digest, version=3)


class Frames:
    """A stream that is cut into frames while it comes."""

    def __init__(self):
        self.held = bytearray()
        self.at = 0

    def feed(self, data):
        """Put bytes behind those that are held."""
        del self.held[: self.at]
        self.at = 0
        self.held += data

    def take(self):
        """Take the next whole frame's payload; None where there is none yet."""
        length = 0
        for place, byte in enumerate(self.held[self.at : self.at + 3]):
            length |= (byte & 0x7F) << 7 * place
            if byte < 0x80:
                return self.take_payload(self.at + place + 1, length)
        if len(self.held) - self.at >= 3:
            raise Malformed("a frame's length of more than three bytes")
        return None

    def take_payload(self, start, length):
        """Take a payload that begins at `start`, if all of it has come."""
        if length == 0:
            raise Malformed("a frame of length 0")
        if len(self.held) - start < length:
            return None
        self.at = start + length
        return bytes(self.held[start : self.at])

    def left(self):
        """Count the bytes that make no whole frame."""
        return len(self.held) - self.at
