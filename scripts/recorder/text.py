"""Messages as text, both ways: `wl_surface@5.attach(@7, 0, 0)`."""
import re

from .table import REQUEST
from .wire import Refused, Said, build

NUMBER = r"(0|[1-9][0-9]*)"
SIGNED = r"(-?[0-9]+)"
QUOTED = r'"((?:[^"\\]|\\.)*)"'
HEAD = re.compile(rf"(\w+)@{NUMBER}\.(\w+)\(")
FORMS = {
    "int": SIGNED,
    "uint": NUMBER,
    "fixed": SIGNED + "/256",
    "string": QUOTED,
    "object": "@" + NUMBER,
    "new": "new @" + NUMBER,
    "bind": f"{QUOTED} {NUMBER} new @{NUMBER}",
    "array": r"\[((?:[0-9a-f]{2})*)\]",
    "file": "fd %" + SIGNED,
    "pipe": "fd %" + SIGNED,
}
FORMS = {kind: re.compile(form) for kind, form in FORMS.items()}
ESCAPE = re.compile(r"\\(?:x([0-9a-f]{2})|(.))")


class NoMessage(Exception):
    """A text that is no message."""


def quoted(content):
    """Bytes between quotes."""
    return '"' + "".join(map(quoted_byte, content)) + '"'


def quoted_byte(byte):
    if byte in b'"\\':
        return "\\" + chr(byte)
    return chr(byte) if 0x20 <= byte <= 0x7E else f"\\x{byte:02x}"


def unquoted(text):
    """The bytes of what stands between quotes."""

    def byte_of(found):
        return chr(int(found[1], 16)) if found[1] else found[2]

    return ESCAPE.sub(byte_of, text).encode("latin-1")


def argument_text(place, value):
    if value is None or place.kind == "object" and value == 0:
        return "null"
    if place.kind == "fixed":
        return f"{value}/256"
    if place.kind == "string":
        return quoted(value)
    if place.kind == "object":
        return f"@{value}"
    if place.kind == "new":
        return f"new @{value}"
    if place.kind == "bind":
        return f"{quoted(value[0])} {value[1]} new @{value[2]}"
    if place.kind == "array":
        return f"[{value.hex()}]"
    return f"fd %{value}" if place.carries_handle() else str(value)


def print_message(said):
    """The text of a message."""
    arguments = ", ".join(argument_text(*it) for it in zip(said.row.places, said.arguments))
    return f"{said.interface}@{said.object}.{said.row.name}({arguments})"


def argument_at(place, text, at):
    """The argument at this place of a text, and where it ends."""
    if place.nullable and text.startswith("null", at):
        return (0 if place.kind == "object" else None), at + 4
    found = FORMS[place.kind].match(text, at)
    if not found:
        raise NoMessage(text)
    return argument_value(place.kind, found), found.end()


def argument_value(kind, found):
    if kind == "string":
        return unquoted(found[1])
    if kind == "array":
        return bytes.fromhex(found[1])
    if kind == "bind":
        return unquoted(found[1]), int(found[2]), int(found[3])
    return int(found[1])


def in_range(place, value):
    """Whether the numbers of an argument have 32 bits, and an object that may not be null isn't 0."""
    if place.kind in ("int", "fixed", "file", "pipe"):
        return -(1 << 31) <= value < 1 << 31
    if place.kind == "bind":
        return max(value[1], value[2]) < 1 << 32
    return not isinstance(value, int) or value < 1 << 32


def read_message(table, text, way=REQUEST):
    """The message of a text."""
    head = HEAD.match(text)
    opcode = head and table.opcode(head[1], way, head[3])
    if opcode is None or int(head[2]) >= 1 << 32:
        raise NoMessage(text)
    row = table.row(head[1], way, opcode)
    said = Said(head[1], int(head[2]), way, opcode, row, read_arguments(row, text, head.end()))
    if print_message(said) != text or not fits(said):
        raise NoMessage(text)
    return said


def fits(said):
    """Whether the message isn't too long."""
    try:
        build(said)
    except Refused:
        return False
    return True


def read_arguments(row, text, at):
    arguments = []
    for place in row.places:
        if arguments:
            at += 2
        value, at = argument_at(place, text, at)
        if not in_range(place, value):
            raise NoMessage(text)
        arguments.append(value)
    return tuple(arguments)
