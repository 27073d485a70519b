"""The ends of a recorded connection: sockets with descriptors, and pipes."""
import os
import select
import socket
from collections import deque
from dataclasses import dataclass
from typing import Optional

from .wire import Refused

PIECE = 65536
MOST_DESCRIPTORS = 128
FREE_AT_ONCE = 4096  # a pipe that is ready takes so many bytes without waiting


class Trouble(Exception):
    """A plain error, with the sentence that is told."""


@dataclass
class Parcel:
    """Bytes that wait to be sent, and the descriptor that goes with the first of them."""

    content: bytes
    descriptor: Optional[int] = None
    owned: bool = False

    def close(self):
        if self.owned and self.descriptor is not None:
            os.close(self.descriptor)
        self.descriptor = None


class End:
    """One peer's socket."""

    def __init__(self, connection):
        self.connection = connection
        self.connection.setblocking(False)
        self.received = bytearray()
        self.descriptors = deque()
        self.parcels = deque()
        self.ended = False

    def fileno(self):
        return self.connection.fileno()

    def events(self):
        return (0 if self.ended else select.POLLIN) | (select.POLLOUT if self.parcels else 0)

    def send(self, content, descriptor=None, owned=False):
        """Puts bytes behind those that wait; an owned descriptor is closed once it is sent."""
        last = self.parcels[-1] if self.parcels else None
        if descriptor is None and last is not None and len(last.content) < PIECE:
            last.content += content
        else:
            self.parcels.append(Parcel(content, descriptor, owned))

    def receive(self):
        """Takes what the peer wrote; its end is noted."""
        try:
            content, descriptors, flags, _ = socket.recv_fds(self.connection, PIECE, MOST_DESCRIPTORS)
        except BlockingIOError:
            return
        except ConnectionError:
            content, descriptors, flags = b"", [], 0
        self.received += content
        self.descriptors.extend(descriptors)
        self.ended = not content
        if flags & socket.MSG_CTRUNC:
            raise Refused("descriptors that this process may not open any more")

    def flush(self):
        """Sends what the peer takes at once."""
        while self.parcels:
            parcel = self.parcels[0]
            given = [] if parcel.descriptor is None else [parcel.descriptor]
            try:
                sent = socket.send_fds(self.connection, [parcel.content], given)
            except BlockingIOError:
                return
            except ConnectionError:
                self.drop()
                return
            parcel.close()
            parcel.content = parcel.content[sent:]
            if not parcel.content:
                self.parcels.popleft()

    def drop(self):
        for parcel in self.parcels:
            parcel.close()
        self.parcels.clear()

    def close(self):
        self.drop()
        for descriptor in self.descriptors:
            os.close(descriptor)
        self.connection.close()


class Pipe:
    """A pipe between the peers: the other one writes into a pipe of ours, and we write into its owner's."""

    def __init__(self, owner, number, destination):
        self.owner = owner
        self.number = number
        self.destination = destination
        self.source, self.given = os.pipe()
        self.waiting = b""

    def take_end(self):
        """The write end for the other peer."""
        given, self.given = self.given, None
        return given

    def read(self):
        """Bytes that the other peer wrote; none at their end."""
        self.waiting = os.read(self.source, PIECE)
        return self.waiting

    def write(self):
        """Gives the owner's pipe a piece of what waits; whether it takes any more."""
        try:
            sent = os.write(self.destination, self.waiting[:FREE_AT_ONCE])
        except BlockingIOError:
            return True
        except OSError:
            return False
        self.waiting = self.waiting[sent:]
        return True

    def close(self):
        for descriptor in (self.source, self.given, self.destination):
            if descriptor is not None:
                os.close(descriptor)


def wait(interests, seconds):
    """What happens next at some descriptors: a list of pairs of a descriptor and its events."""
    poller = select.poll()
    for descriptor, events in interests:
        poller.register(descriptor, events)
    return poller.poll(max(0, int(seconds * 1000)))


def connect(path):
    """A connection to the compositor."""
    connection = socket.socket(socket.AF_UNIX, socket.SOCK_STREAM)
    try:
        connection.connect(path)
    except OSError as fault:
        connection.close()
        raise Trouble(f"no compositor answers at {path}: {fault.strerror or fault}") from fault
    return connection


def listen(path):
    """A socket of our own."""
    listener = socket.socket(socket.AF_UNIX, socket.SOCK_STREAM)
    try:
        listener.bind(path)
    except OSError as fault:
        listener.close()
        raise Trouble(f"the socket {path} can't be had: {fault.strerror or fault}") from fault
    listener.listen(1)
    return listener


def name_of_process(connection):
    """The name of the process at the other end of a socket."""
    try:
        credentials = connection.getsockopt(socket.SOL_SOCKET, socket.SO_PEERCRED, 12)
        process = int.from_bytes(credentials[:4], "little")
        with open(f"/proc/{process}/comm", encoding="utf-8", errors="replace") as name:
            return name.read().strip()
    except OSError:
        return "unknown"
