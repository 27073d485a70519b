"""The table of messages, read from the source of the crate `wl_tables`."""
import os
import re
from dataclasses import dataclass
from typing import Optional

TOP = os.path.dirname(os.path.dirname(os.path.dirname(os.path.abspath(__file__))))
SOURCE = os.path.join(TOP, "crates", "wl_tables", "src")
ROW_FILES = ("core_rows.rt", "shell_rows.rt")

REQUEST, EVENT = "request", "event"


class TableFault(Exception):
    """The source doesn't read as it should."""


@dataclass(frozen=True)
class Place:
    """The place of one argument; `interface` is that of a new object."""

    kind: str
    nullable: bool = False
    interface: Optional[str] = None

    def carries_handle(self):
        return self.kind in ("file", "pipe")


@dataclass(frozen=True)
class Row:
    """One message: its name, the places of its arguments, whether it destroys its object."""

    name: str
    places: tuple = ()
    destroys: bool = False

    def handle_kind(self):
        """`file` or `pipe` where the message carries a handle."""
        return next((place.kind for place in self.places if place.carries_handle()), None)


PLACES = {
    "INT": Place("int"),
    "UINT": Place("uint"),
    "FIXED": Place("fixed"),
    "STRING": Place("string"),
    "STRING_OR_NULL": Place("string", nullable=True),
    "OBJECT": Place("object"),
    "OBJECT_OR_NULL": Place("object", nullable=True),
    "ARRAY": Place("array"),
    "BOUND": Place("bind"),
    "FILE": Place("file"),
    "PIPE_END": Place("pipe"),
}


class Table:
    """The interfaces, the greatest version of each global, and the rows of messages in the order of their opcodes."""

    def __init__(self, versions, rows):
        self.versions = versions
        self.rows = rows
        self.opcodes = {
            key: {row.name: opcode for opcode, row in enumerate(several)} for key, several in rows.items()
        }

    def has_interface(self, interface):
        return (interface, REQUEST) in self.rows

    def row(self, interface, way, opcode):
        """The row of a message, or None."""
        several = self.rows[interface, way]
        return several[opcode] if opcode < len(several) else None

    def opcode(self, interface, way, name):
        """The opcode of a message, or None."""
        return self.opcodes.get((interface, way), {}).get(name)


def read_table(source=SOURCE):
    """The table of the repository."""
    text = read_file(source, "interface.rt")
    names = dict(re.findall(r'Interface::(\w+) => "(\w+)"', text))
    versions = {names[it]: int(most) for it, most in re.findall(r"Interface::(\w+) => Some\((\d+)\)", text)}
    found = {}
    for name in ROW_FILES:
        found.update(rows_in(read_file(source, name)))
    rows = {}
    for interface in names.values():
        for way, ending in ((REQUEST, "REQUESTS"), (EVENT, "EVENTS")):
            raw = found.pop(f"{interface.upper()}_{ending}", ())
            rows[interface, way] = tuple(row_of(it, names) for it in raw)
    if not names or not versions or found:
        raise TableFault(f"the table in {source} doesn't read: no interface for {sorted(found)}")
    return Table(versions, rows)


def rows_in(text):
    """For each list in the text of a source file: whether it destroys, the name and the places of each message."""
    lists = {}
    for name, count, body in re.findall(r"static (\w+): \[Row; (\d+)\] = \[(.*?)\];\n", text, re.S):
        found = re.findall(r'(Message|Destructor)\(\s*"(\w+)",\s*&\[(.*?)\],?\s*\)', body, re.S)
        if len(found) != int(count):
            raise TableFault(f"{name} has {count} rows, and {len(found)} of them read")
        lists[name] = [(kind == "Destructor", message, words_of(places)) for kind, message, places in found]
    return lists


def words_of(places):
    return [word.strip() for word in places.split(",") if word.strip()]


def row_of(raw, names):
    destroys, name, words = raw
    return Row(name, tuple(place_of(word, names) for word in words), destroys)


def place_of(word, names):
    made = re.fullmatch(r"New\((\w+)\)", word)
    if made and made[1] in names:
        return Place("new", interface=names[made[1]])
    if word not in PLACES:
        raise TableFault(f"{word} is no place of an argument")
    return PLACES[word]


def read_file(folder, name):
    path = os.path.join(folder, name)
    try:
        with open(path, encoding="utf-8") as source:
            return source.read()
    except OSError as fault:
        raise TableFault(f"the table isn't there: {path}: {fault.strerror}") from fault
