"""A session: what one peer says is tracked, written down and passed to the other."""
from dataclasses import dataclass, field
from typing import Optional

from .damage import SIZE_PLACE, Pictures
from .files import Handles
from .fills import fill_lines
from .objects import Objects
from .script import OTHER
from .table import EVENT, REQUEST
from .text import print_message
from .wire import Refused, build, cut

WAY = {"app": REQUEST, "comp": EVENT}


@dataclass
class Carried:
    """The handle of a message: the lines that make it, its number, and the file or the pipe."""

    lines: list = field(default_factory=list)
    number: Optional[int] = None
    file: object = None
    pipe: object = None


class Session:
    """What is known of a connection. `ends` are the ends of both peers, `open_pipe` makes the relay of a pipe."""

    def __init__(self, table, script, ends, open_pipe, most_fills=None):
        self.objects = Objects(table)
        self.pictures = Pictures()
        self.script = script
        self.ends = ends
        self.open_pipe = open_pipe
        self.most_fills = most_fills
        self.handles = {peer: Handles(peer) for peer in WAY}

    def hear(self, peer):
        """Takes all whole messages that this peer's end has received."""
        raw = cut(self.ends[peer].received)
        while raw is not None:
            self.take(peer, raw)
            raw = cut(self.ends[peer].received)

    def take(self, peer, raw):
        """Writes one message down and passes it on."""
        said = self.objects.take(WAY[peer], raw)
        carried = self.carried(peer, said)
        if carried.number is not None:
            said = said.with_handle(carried.number)
        lines = carried.lines + self.growth(said) + self.filled(said, carried.file)
        shown = self.objects.shown(said) if peer == "comp" else said
        self.script.add_message(peer, lines + [f"{peer} {print_message(said)}"], shown is not None)
        if shown is not None:
            self.pass_on(OTHER[peer], build(shown), carried)

    def carried(self, peer, said):
        """The handle that a message carries, from the descriptor that came with it."""
        kind = said.row.handle_kind()
        if kind is None:
            return Carried()
        if not self.ends[peer].descriptors:
            raise Refused(f"{said.name()} without its descriptor")
        descriptor = self.ends[peer].descriptors.popleft()
        handles = self.handles[peer]
        if kind == "pipe":
            pipe = self.open_pipe(peer, handles.new_number(), descriptor)
            return Carried([f"{peer} pipe {pipe.number}"], pipe.number, pipe=pipe)
        file = handles.file(descriptor)
        return Carried(handles.size_lines(file, said.arguments[SIZE_PLACE]), file.number, file=file)

    def growth(self, said):
        """The line for a file that a `resize` makes larger."""
        if said.name() != "wl_shm_pool.resize":
            return []
        return self.handles["app"].size_lines(self.pictures.pools[said.object], said.arguments[0])

    def filled(self, said, file):
        """The lines for the words that changed, where a message makes blocks due."""
        due = self.pictures.follow(said, file)
        if not due:
            return []
        lines, whole = fill_lines(*due, self.most_fills)
        self.script.partial += not whole
        return lines

    def pass_on(self, peer, content, carried):
        end = self.ends[peer]
        if carried.pipe:
            end.send(content, carried.pipe.take_end(), owned=True)
        else:
            end.send(content, carried.file.descriptor if carried.file else None)

    def write_pipe(self, pipe, content):
        """The other peer wrote bytes to a pipe."""
        self.script.add(OTHER[pipe.owner], [f"{OTHER[pipe.owner]} put {pipe.number} {content.hex()}"])

    def end_pipe(self, pipe):
        """The other peer closed its end of a pipe."""
        self.script.add(OTHER[pipe.owner], [f"{OTHER[pipe.owner]} end {pipe.number}"])

    def shut_pipe(self, pipe):
        """The owner closed its end of a pipe."""
        self.script.add(pipe.owner, [f"{pipe.owner} shut {pipe.number}"])

    def close(self):
        for handles in self.handles.values():
            handles.close()
