"""Which blocks of a file a commit makes due: what docs/DAMAGE.md says, by rectangles and rows."""
from collections import deque
from dataclasses import dataclass, field

BLOCK = 64
BACKLOG = 7
MOST_RUNS = 1024
FOUR_BYTES = (0, 1)
SIZE_PLACE = 2  # of `create_pool` and of `keymap`, which carry a file


@dataclass(eq=False)
class Buffer:
    """A buffer as it was made; `file` has its told size."""

    file: object
    offset: int
    width: int
    height: int
    stride: int
    format: int
    lives: bool = True

    def fits(self):
        if self.format not in FOUR_BYTES:
            return 0 <= self.offset < self.file.told
        return (
            min(self.width, self.height) > 0
            and self.stride >= 4 * self.width
            and self.offset >= 0
            and self.offset + self.stride * self.height <= self.file.told
        )


@dataclass
class Commit:
    """What a commit leaves for later ones; damage is rectangles (x0, x1, y0, y1) of pixels of its buffer."""

    buffer: object = None
    geometry: object = None
    damage: list = field(default_factory=list)


class Surface:
    """The pending state of a surface and its last commits."""

    def __init__(self):
        self.buffer = None
        self.scale = 1
        self.transform = 0
        self.on_surface = []
        self.on_buffer = []
        self.commits = deque(maxlen=BACKLOG)

    def commit(self):
        """The runs (first, end) of blocks that are due."""
        buffer = self.buffer
        now = Commit()
        if buffer is not None and buffer.lives and buffer.fits():
            geometry = (self.scale, self.transform, buffer.width, buffer.height)
            now = Commit(buffer, geometry, self.damaged(geometry))
        due = self.due(now)
        self.commits.appendleft(now)
        self.on_surface, self.on_buffer = [], []
        return due

    def damaged(self, geometry):
        scale, transform, width, height = geometry
        found = [spans(rectangle) for rectangle in self.on_buffer]
        found += [to_buffer(spans(rectangle, scale), transform, width, height) for rectangle in self.on_surface]
        return [it for it in (clipped(spans, width, height) for spans in found) if it]

    def due(self, now):
        buffer = now.buffer
        if buffer is None:
            return []
        if buffer.format not in FOUR_BYTES:
            return runs_of([(buffer.offset, buffer.file.told)])
        return runs_of(row for it in self.damage_since(now) for row in rows_of(buffer, it))

    def damage_since(self, now):
        """The rectangles that were damaged since the buffer's last commit, or the whole picture."""
        damage = list(now.damage)
        for earlier in self.commits:
            if earlier.geometry != now.geometry:
                break
            if earlier.buffer is now.buffer:
                return damage
            damage += earlier.damage
        return [(0, now.buffer.width, 0, now.buffer.height)]


def spans(rectangle, scale=1):
    """A rectangle (x, y, width, height) as its spans (x0, x1, y0, y1)."""
    x, y, width, height = rectangle
    return x * scale, (x + width) * scale, y * scale, (y + height) * scale


def to_buffer(spans, transform, width, height):
    """The pixels of a buffer under these spans of its surface."""
    across, down = spans[:2], spans[2:]
    if transform in (1, 3, 5, 7):
        across, down = down, across
    if transform in (2, 3, 4, 7):
        across = width - across[1], width - across[0]
    if transform in (1, 2, 6, 7):
        down = height - down[1], height - down[0]
    return across + down


def clipped(spans, width, height):
    """The part of the spans in a picture, or None."""
    x0, x1, y0, y1 = spans
    x0, x1, y0, y1 = max(x0, 0), min(x1, width), max(y0, 0), min(y1, height)
    return (x0, x1, y0, y1) if x0 < x1 and y0 < y1 else None


def rows_of(buffer, spans):
    """The bytes (first, end) of each row of a part of a buffer."""
    x0, x1, y0, y1 = spans
    begin = buffer.offset + y0 * buffer.stride + 4 * x0
    length = 4 * (x1 - x0)
    if length == buffer.stride:
        return [(begin, begin + length * (y1 - y0))]
    return [(at, at + length) for at in range(begin, begin + buffer.stride * (y1 - y0), buffer.stride)]


def runs_of(pieces):
    """The runs (first, end) of blocks that hold a byte of these pieces."""
    runs = []
    for first, end in sorted((first // BLOCK, -(-end // BLOCK)) for first, end in pieces):
        if runs and first <= runs[-1][1]:
            runs[-1] = (runs[-1][0], max(end, runs[-1][1]))
        else:
            runs.append((first, end))
    return [(runs[0][0], runs[-1][1])] if len(runs) > MOST_RUNS else runs


class Pictures:
    """The pools, buffers and surfaces of a connection, and its keymaps."""

    def __init__(self):
        self.pools = {}
        self.buffers = {}
        self.surfaces = {}

    def follow(self, said, file=None):
        """Follows a message that passed, with the file that it carries. Where it makes blocks of a file due, the answer
        is that file and the runs of blocks."""
        act = ACTS.get(said.name())
        return act(self, said, file) if act else None

    def create_pool(self, said, file):
        self.pools[said.arguments[0]] = file
        file.tell(said.arguments[SIZE_PLACE])

    def keymap(self, said, file):
        file.tell(said.arguments[SIZE_PLACE])
        return file, [(0, -(-file.told // BLOCK))]

    def resize(self, said, _):
        self.pools[said.object].tell(said.arguments[0])

    def create_buffer(self, said, _):
        number, *shape = said.arguments
        self.buffers[number] = Buffer(self.pools[said.object], *shape)

    def destroy_buffer(self, said, _):
        self.drop(said.object)

    def delete(self, said, _):
        self.drop(said.arguments[0])

    def drop(self, number):
        buffer = self.buffers.pop(number, None)
        if buffer:
            buffer.lives = False

    def create_surface(self, said, _):
        self.surfaces[said.arguments[0]] = Surface()

    def attach(self, said, _):
        self.surfaces[said.object].buffer = self.buffers.get(said.arguments[0])

    def damage(self, said, _):
        self.surfaces[said.object].on_surface.append(said.arguments)

    def damage_buffer(self, said, _):
        self.surfaces[said.object].on_buffer.append(said.arguments)

    def set_scale(self, said, _):
        self.surfaces[said.object].scale = max(said.arguments[0], 1)

    def set_transform(self, said, _):
        transform = said.arguments[0]
        self.surfaces[said.object].transform = transform if 0 <= transform <= 7 else 0

    def commit(self, said, _):
        surface = self.surfaces[said.object]
        runs = surface.commit()
        return (surface.buffer.file, runs) if runs else None


ACTS = {
    "wl_display.delete_id": Pictures.delete,
    "wl_compositor.create_surface": Pictures.create_surface,
    "wl_shm.create_pool": Pictures.create_pool,
    "wl_shm_pool.resize": Pictures.resize,
    "wl_shm_pool.create_buffer": Pictures.create_buffer,
    "wl_buffer.destroy": Pictures.destroy_buffer,
    "wl_surface.attach": Pictures.attach,
    "wl_surface.damage": Pictures.damage,
    "wl_surface.damage_buffer": Pictures.damage_buffer,
    "wl_surface.set_buffer_scale": Pictures.set_scale,
    "wl_surface.set_buffer_transform": Pictures.set_transform,
    "wl_surface.commit": Pictures.commit,
    "wl_keyboard.keymap": Pictures.keymap,
}
