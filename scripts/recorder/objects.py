"""The objects of a connection, and what of the registry an application is shown."""
from .table import REQUEST
from .wire import Refused, Said, arguments_of, head_of

MOST_OBJECTS = 65536
FIRST_SERVER_ID = 0xFF000000


class Objects:
    """Which objects there are, by the messages of both ways in the order in which they pass."""

    def __init__(self, table):
        self.table = table
        self.interfaces = {1: "wl_display"}
        self.live = {1}
        self.hidden = set()

    def take(self, way, raw):
        """The message of these bytes; the objects are as they are behind it."""
        number, opcode = head_of(raw)
        row = self.row(way, number, opcode)
        interface = self.interfaces[number]
        try:
            said = Said(interface, number, way, opcode, row, arguments_of(row, raw))
            self.pass_on(said)
        except Refused as fault:
            raise Refused(f"{interface}@{number}.{row.name}: {fault}") from fault
        return said

    def row(self, way, number, opcode):
        interface = self.interfaces.get(number)
        if interface is None or way == REQUEST and number not in self.live:
            raise Refused(f"a {way} for the object {number}, which isn't there")
        row = self.table.row(interface, way, opcode)
        if row is None:
            raise Refused(f"{interface}@{number} has no {way} {opcode} in the table")
        return row

    def pass_on(self, said):
        """Tracks a message of an object that is there."""
        self.make(said)
        if said.row.destroys:
            self.live.discard(said.object)
        if said.name() == "wl_display.delete_id":
            self.delete(said.arguments[0])

    def make(self, said):
        made = said.made()
        if made is None:
            return
        interface, number = made
        self.check_new(said, interface, number)
        self.interfaces[number] = interface
        self.live.add(number)

    def check_new(self, said, interface, number):
        client = said.way == REQUEST
        if number == 0 or client == (number >= FIRST_SERVER_ID):
            raise Refused(f"a new object {number} of a {said.way}")
        if number in (self.interfaces if client else self.live):
            raise Refused(f"a new object {number}, which is in use")
        if said.row.name == "bind" and interface not in self.table.versions:
            raise Refused(f"a bind of {interface}, which is no global in the table")
        if len(self.interfaces) >= MOST_OBJECTS and number not in self.interfaces:
            raise Refused(f"more than {MOST_OBJECTS} objects")

    def delete(self, number):
        if number < FIRST_SERVER_ID:
            self.interfaces.pop(number, None)
            self.live.discard(number)

    def shown(self, said):
        """What the application is shown of an event that passed: None where it is left out."""
        if said.name() == "wl_registry.global":
            return self.shown_global(said)
        if said.name() == "wl_registry.global_remove":
            pair = (said.object, said.arguments[0])
            if pair in self.hidden:
                self.hidden.remove(pair)
                return None
        return said

    def shown_global(self, said):
        name, interface, version = said.arguments
        most = self.table.versions.get(interface.decode("latin-1"))
        if most is None:
            self.hidden.add((said.object, name))
            return None
        self.hidden.discard((said.object, name))
        return said.with_arguments((name, interface, min(version, most)))
