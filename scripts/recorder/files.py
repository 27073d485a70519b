"""The files and pipes of a peer: their numbers, and the files' sizes."""
import os

MOST_FILE = 67108864
MOST_FILES = 268435456
MOST_SEGMENTS = 64
UNIT = 64


class Full(Exception):
    """Something above a limit of the program, with the sentence that says what."""


class File:
    """A file of shared memory: its size in the script, the size that was told of it, the bytes that it has there."""

    def __init__(self, peer, number, descriptor):
        self.peer = peer
        self.number = number
        self.descriptor = descriptor
        self.size = 0
        self.segments = 0
        self.told = 0
        self.known = bytearray()

    def tell(self, size):
        self.told = max(self.told, size)

    def fill(self, place, count, value):
        """Writes so many words of one value."""
        self.known[8 * place : 8 * (place + count)] = value.to_bytes(8, "little") * count

    def grow(self, size):
        self.size = size
        self.segments += 1
        self.known.extend(bytes(size - len(self.known)))


class Handles:
    """The handles of one peer, `app` with rising numbers and `comp` with falling ones."""

    def __init__(self, peer):
        self.peer = peer
        self.step = 1 if peer == "app" else -1
        self.count = 0
        self.files = {}
        self.total = 0

    def new_number(self):
        self.count += 1
        return self.step * self.count

    def file(self, descriptor):
        """The file of a descriptor, which is kept; the same file again where another descriptor of it came before."""
        status = os.fstat(descriptor)
        identity = status.st_dev, status.st_ino
        if identity in self.files:
            os.close(descriptor)
        else:
            self.files[identity] = File(self.peer, self.new_number(), descriptor)
        return self.files[identity]

    def size_lines(self, file, told):
        """The line that makes the file, or makes it grow, where a message tells this size of it."""
        size = max(UNIT, -(-told // UNIT) * UNIT)
        if size <= file.size:
            return []
        self.check(file, size)
        word = "grow" if file.segments else "file"
        self.total += size - file.size
        file.grow(size)
        return [f"{self.peer} {word} {file.number} {size}"]

    def check(self, file, size):
        if size > MOST_FILE:
            raise Full(f"a file of {size} bytes, which is above {MOST_FILE}")
        if self.total + size - file.size > MOST_FILES:
            raise Full(f"files of more than {MOST_FILES} bytes in all")
        if file.segments == MOST_SEGMENTS:
            raise Full(f"a file that grows more than {MOST_SEGMENTS - 1} times")

    def close(self):
        for file in self.files.values():
            os.close(file.descriptor)
        self.files.clear()
