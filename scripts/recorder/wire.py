"""Messages as bytes: cutting a stream into messages, reading arguments and building them again."""
import struct
from dataclasses import dataclass, replace

HEADER = struct.Struct("<II")
WORD = struct.Struct("<I")
MOST = 65532
SIGNED = {"int", "fixed"}


class Refused(Exception):
    """A message that can't be recorded, with the reason."""


@dataclass(frozen=True)
class Said:
    """A message of an object. Its arguments are numbers; bytes, or None for a null string; for a bind the name, the
    version and the id; for a handle its number, or None while it has none."""

    interface: str
    object: int
    way: str
    opcode: int
    row: object
    arguments: tuple

    def name(self):
        return f"{self.interface}.{self.row.name}"

    def with_arguments(self, arguments):
        return replace(self, arguments=tuple(arguments))

    def with_handle(self, number):
        """The same message with the number of its handle."""
        pairs = zip(self.row.places, self.arguments)
        return self.with_arguments(number if place.carries_handle() else it for place, it in pairs)

    def handle(self):
        """The number of its handle, or None."""
        pairs = zip(self.row.places, self.arguments)
        return next((it for place, it in pairs if place.carries_handle()), None)

    def made(self):
        """The interface and the id of the new object, or None."""
        for place, argument in zip(self.row.places, self.arguments):
            if place.kind == "new":
                return place.interface, argument
            if place.kind == "bind":
                return argument[0].decode("latin-1"), argument[2]
        return None


def head_of(raw):
    """The object and the opcode of a message."""
    number, second = HEADER.unpack_from(raw)
    return number, second & 0xFFFF


def cut(stream):
    """Takes the message at the front of a bytearray; None where it isn't whole."""
    if len(stream) < HEADER.size:
        return None
    size = HEADER.unpack_from(stream)[1] >> 16
    if size < HEADER.size or size % 4:
        raise Refused(f"a message of {size} bytes")
    if len(stream) < size:
        return None
    raw = bytes(stream[:size])
    del stream[:size]
    return raw


class Reader:
    """The arguments of one message, from the front on."""

    def __init__(self, raw):
        self.raw = raw
        self.at = HEADER.size

    def word(self):
        return WORD.unpack(self.piece(4))[0]

    def signed(self):
        value = self.word()
        return value - (1 << 32) if value >> 31 else value

    def piece(self, length):
        begin, self.at = self.at, self.at + length
        if self.at > len(self.raw):
            raise Refused("an argument that passes its message's end")
        return self.raw[begin : self.at]

    def counted(self):
        """The bytes of a string or an array, without their padding."""
        length = self.word()
        return self.piece(length + -length % 4)[:length]

    def string(self, nullable):
        text = self.counted()
        if not text:
            if nullable:
                return None
            raise Refused("a null string where none may be")
        if text[-1]:
            raise Refused("a string without an end")
        return text[:-1]

    def argument(self, place):
        if place.kind in SIGNED:
            return self.signed()
        if place.kind == "string":
            return self.string(place.nullable)
        if place.kind == "array":
            return self.counted()
        if place.kind == "bind":
            return self.string(False), self.word(), self.word()
        if place.carries_handle():
            return None
        value = self.word()
        if place.kind == "object" and value == 0 and not place.nullable:
            raise Refused("a null object where none may be")
        return value


def arguments_of(row, raw):
    """The arguments of a message's bytes."""
    reader = Reader(raw)
    found = tuple(reader.argument(place) for place in row.places)
    if reader.at != len(raw):
        raise Refused("bytes behind the last argument")
    return found


def padded(content):
    return WORD.pack(len(content)) + content + bytes(-len(content) % 4)


def argument_bytes(place, value):
    if place.carries_handle():
        return b""
    if place.kind in SIGNED:
        return WORD.pack(value & 0xFFFFFFFF)
    if place.kind == "string":
        return WORD.pack(0) if value is None else padded(value + b"\0")
    if place.kind == "array":
        return padded(value)
    if place.kind == "bind":
        return padded(value[0] + b"\0") + WORD.pack(value[1]) + WORD.pack(value[2])
    return WORD.pack(value)


def build(said):
    """The bytes of a message, with zeros for padding."""
    body = b"".join(argument_bytes(*it) for it in zip(said.row.places, said.arguments))
    size = HEADER.size + len(body)
    if size > MOST:
        raise Refused(f"a message of {size} bytes")
    return HEADER.pack(said.object, size << 16 | said.opcode) + body
