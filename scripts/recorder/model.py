"""What a replay must come to, worked out on a direct connection: no proxies, no frames on a link, no pieces.

It follows the lines of a script and gives the report of a replay that drains, but for the lines `link`, which tell how
the bytes were moved. It knows the lines that recordings have, and those that scripts/chop.py puts in."""
from dataclasses import dataclass, field

from .damage import BLOCK, Pictures
from .files import File
from .objects import Objects
from .reading import lines_of, message_of
from .script import OTHER
from .session import WAY
from .text import NoMessage, print_message
from .wire import Refused, build

FILL_PIECE = 1048512
HEAD, PLAIN, OPENING, FILL_HEAD = 4, 8, 12, 16  # bytes of frames: before messages or bytes, with a rid, a size, a range
LINK_ACTS = {"connect": "connect", "break": "cut", "settle": "settle"}
MOVES = {"take", "load", "send", "recv", "up", "down", "cut", "drain"}


class ModelFault(Exception):
    """A line that the model doesn't follow."""


@dataclass
class Shared:
    """A file as the other side knows it: the bytes that were copied to it, and its size."""

    file: File
    mirror: bytearray = field(default_factory=bytearray)
    told: int = 0
    is_open: bool = False

    def extends(self):
        """Whether the told size grew since the file was opened or extended."""
        grew = self.is_open and self.file.told > self.told
        self.told, self.is_open = self.file.told, True
        self.mirror.extend(bytes(-(-self.told // BLOCK) * BLOCK - len(self.mirror)))
        return grew

    def copy(self, runs):
        for first, end in runs:
            self.mirror[first * BLOCK : end * BLOCK] = self.file.known[first * BLOCK : end * BLOCK]


@dataclass
class Relayed:
    """A pipe as its owner sees it."""

    content: bytearray = field(default_factory=bytearray)
    state: str = "open"


@dataclass
class Side:
    """One peer's handles, and what its proxy makes."""

    handles: dict = field(default_factory=dict)
    rids: dict = field(default_factory=dict)
    sent: int = 0
    frames: int = 0
    bytes: int = 0
    given: list = field(default_factory=list)

    def make(self, *sizes):
        """Frames of these sizes, which are padded to words."""
        self.frames += len(sizes)
        self.bytes += sum(size + -size % 4 for size in sizes)


class Model:
    """A replay of a script, line by line."""

    def __init__(self, table):
        self.table = table
        self.objects = Objects(table)
        self.pictures = Pictures()
        self.sides = {peer: Side() for peer in WAY}
        self.shared = {}
        self.pipes = {}
        self.copies = []
        self.connections = 0
        self.is_up = False
        self.is_cut = False

    def run(self, content):
        """Follows a whole script."""
        for number, line in lines_of(content):
            self.follow_line(number, line)
        self.settle()

    def follow_line(self, number, line):
        """Follows one line; a fault names it."""
        try:
            self.follow(line)
        except (ModelFault, Refused) as fault:
            raise ModelFault(f"line {number}: {fault}") from fault
        except (NoMessage, AttributeError, IndexError, KeyError, TypeError, ValueError) as fault:
            raise ModelFault(f"line {number} isn't right: {line[:80]}") from fault

    def follow(self, line):
        found = message_of(self.table, line)
        if found:
            self.say(*found)
            return
        words = line.split(" ")
        if words[0] in WAY:
            self.act(words[0], words[1], words[2:])
        elif words[0] in ("connect", "break", "settle"):
            getattr(self, LINK_ACTS[words[0]])()
        elif words[0] not in MOVES:
            raise ModelFault(f"`{words[0]}` isn't modelled")

    def act(self, peer, word, fields):
        """A line of a peer that says no message."""
        if word == "await":
            self.wait(peer, int(fields[0]))
        elif word in ("put", "end"):
            self.write(peer, self.pipes[int(fields[0])], word, fields[1:])
        elif word == "shut":
            self.shut(peer, self.sides[peer].handles[int(fields[0])])
        elif word in ("file", "grow", "fill", "pipe"):
            self.prepare(peer, word, *map(int, fields))
        else:
            raise ModelFault(f"`{peer} {word}` isn't modelled")

    def wait(self, peer, count):
        if count > len(self.received(peer)):
            raise ModelFault(f"{peer} waits for {count} messages and received {len(self.received(peer))}")
        self.settle()

    def prepare(self, peer, word, number, *fields):
        """A line for the peer's own files and pipes."""
        handles = self.sides[peer].handles
        if word == "file":
            handles[number] = File(peer, number, None)
        if word == "pipe":
            handles[number] = Relayed()
        elif word == "fill":
            handles[number].fill(*fields)
        else:
            handles[number].grow(*fields)

    def write(self, peer, pipe, word, fields):
        """Bytes for a pipe, or the end of them."""
        if pipe.state != "open":
            raise ModelFault(f"`{peer} {word}` of a pipe that is {pipe.state}")
        if word == "end":
            pipe.state = "ended"
            self.sides[peer].make(PLAIN)
        else:
            content = bytes.fromhex(fields[0])
            pipe.content += content
            self.sides[peer].make(PLAIN + len(content))

    def shut(self, peer, pipe):
        self.sides[peer].make(PLAIN)
        if pipe.state == "open":
            pipe.state = "shut"

    def say(self, peer, said):
        """A message of a peer."""
        side = self.sides[peer]
        number = said.handle()
        tracked = self.objects.take(WAY[peer], build(said))
        shown = self.objects.shown(tracked) if peer == "comp" else tracked
        side.sent += 1
        if number is not None:
            tracked, shown = tracked.with_handle(number), shown.with_handle(self.pass_handle(peer, number))
        self.follow_pictures(peer, tracked)
        if shown is not None:
            side.make(HEAD + len(build(shown)))
            side.given.append(print_message(shown))

    def pass_handle(self, peer, number):
        """The rid of a handle that passes."""
        side = self.sides[peer]
        if number not in side.rids:
            side.rids[number] = (len(side.rids) + 1) * (1 if peer == "app" else -1)
            self.open(side, side.rids[number], side.handles[number])
        side.make(PLAIN)
        return side.rids[number]

    def open(self, side, rid, handle):
        """A handle that passes for the first time."""
        if isinstance(handle, File):
            self.shared[rid] = Shared(handle)
            side.make(OPENING)
        else:
            self.pipes[rid] = handle
            side.make(PLAIN)

    def follow_pictures(self, peer, said):
        """Sizes that are told and blocks that become due."""
        side = self.sides[peer]
        file = side.handles.get(said.handle())
        due = self.pictures.follow(said, file)
        if said.name() == "wl_shm_pool.resize":
            file = self.pictures.pools[said.object]
        if isinstance(file, File) and self.shared[side.rids[file.number]].extends():
            side.make(OPENING)
        if due:
            self.copies.append((peer, *due))
            side.make(*fill_sizes(due[1]))

    def settle(self):
        """All that waits moves."""
        for peer, file, runs in self.copies:
            self.shared[self.sides[peer].rids[file.number]].copy(runs)
        self.copies = []
        if self.is_cut:
            raise ModelFault("whether a `break` without a `connect` makes a connection isn't modelled")
        if any(side.frames for side in self.sides.values()):
            self.connect()

    def connect(self):
        self.connections += not self.is_up
        self.is_up, self.is_cut = True, False

    def cut(self):
        self.is_up, self.is_cut = False, self.is_up

    def received(self, peer):
        """What a peer receives, as text."""
        return self.sides[OTHER[peer]].given

    def head_lines(self):
        """The lines of the report that stand in every one."""
        yield f"connections {self.connections}"
        yield f"application sent {self.sides['app'].sent} received {len(self.received('app'))}"
        yield f"compositor sent {self.sides['comp'].sent} received {len(self.received('comp'))}"

    def long_lines(self):
        """The lines that `--long` brings, without the lines `link`."""
        near, far = self.sides["app"].frames, self.sides["comp"].frames
        yield f"near made {near} acknowledged {near} accepted {far}"
        yield f"far made {far} acknowledged {far} accepted {near}"
        for rid in sorted(self.shared, key=in_order):
            shared = self.shared[rid]
            yield f"mirror {rid} size {shared.told} sum {sum(shared.mirror)}"
        for rid in sorted(self.pipes, key=in_order):
            pipe = self.pipes[rid]
            yield f"pipe {rid} bytes {len(pipe.content)} sum {sum(pipe.content)} {pipe.state}"

    def given_lines(self):
        for name, peer in (("compositor", "comp"), ("application", "app")):
            for text in self.received(peer):
                yield f"got {name} {text}"


def fill_sizes(runs):
    """The sizes of the frames that carry these runs of blocks."""
    for first, end in runs:
        for at in range(first * BLOCK, end * BLOCK, FILL_PIECE):
            yield FILL_HEAD + min(FILL_PIECE, end * BLOCK - at)


def in_order(rid):
    """The application's first, each side's in the order of their passing."""
    return rid < 0, abs(rid)
