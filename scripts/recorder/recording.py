"""A recording from its beginning to its end: the command, the two sockets, the pipes, the time."""
import contextlib
import functools
import os
import resource
import select
import subprocess
import sys
import time

from .files import Full
from .relay import End, Pipe, Trouble, connect, listen, name_of_process, wait
from .script import OTHER
from .session import Session
from .wire import Refused

TURN = 0.1  # seconds after which the command and the time are looked at again
PATIENCE = 30  # seconds for the command to open its connection
GRACE = 2  # seconds for the command to exit by itself

CLOSED = {"app": "the application closed the connection", "comp": "the compositor closed the connection"}


class Ended(Exception):
    """The recording is at its end, with the reason."""


class Limits:
    """When a recording ends by itself: behind some seconds, as the command exits, or at an interruption."""

    def __init__(self, seconds=None, until_exit=False):
        self.seconds = seconds
        self.until_exit = until_exit
        self.interrupted = False
        self.deadline = None
        self.exit_seen = None

    def begin(self):
        if self.seconds is not None:
            self.deadline = time.monotonic() + self.seconds

    def check(self):
        if self.interrupted:
            raise Ended("it was interrupted")
        if self.deadline is not None and time.monotonic() >= self.deadline:
            raise Ended(f"{self.seconds:g} seconds were over")

    def check_exit(self, child, idle):
        """Ends it where the command exited and nothing that it said waits to be read."""
        if not self.until_exit or child.poll() is None:
            return
        self.exit_seen = self.exit_seen or time.monotonic()
        if idle or time.monotonic() > self.exit_seen + GRACE:
            raise Ended("the command exited")

    def turn(self):
        """The seconds to wait at most."""
        if self.deadline is None:
            return TURN
        return min(TURN, max(0.0, self.deadline - time.monotonic()))


def runtime_folder(environment):
    folder = environment.get("XDG_RUNTIME_DIR")
    if not folder:
        raise Trouble("XDG_RUNTIME_DIR isn't set, so there is no folder for sockets")
    return folder


def compositor_path(environment):
    """Where the compositor of the environment listens."""
    return os.path.join(runtime_folder(environment), environment.get("WAYLAND_DISPLAY") or "wayland-0")


@contextlib.contextmanager
def own_socket(path):
    """A socket to connect to, which is gone behind the block: there is one connection in a script."""
    listener = listen(path)
    try:
        yield listener
    finally:
        listener.close()
        os.unlink(path)


@contextlib.contextmanager
def running(command, environment, display):
    """The command as a process, whose compositor is at `display`; it has ended behind the block."""
    environment = dict(environment, WAYLAND_DISPLAY=display)
    environment.pop("WAYLAND_SOCKET", None)
    try:
        child = subprocess.Popen(command, env=environment, stdout=sys.stderr)
    except FileNotFoundError as fault:
        raise Trouble(f"there is no command {command[0]}") from fault
    except OSError as fault:
        raise Trouble(f"the command {command[0]} can't be started: {fault.strerror}") from fault
    try:
        yield child
    finally:
        stop(child)


def stop(child):
    """Ends the command, by its process id alone, where it doesn't end by itself."""
    for act in (child.poll, child.terminate, child.kill):
        act()
        try:
            child.wait(GRACE)
            return
        except subprocess.TimeoutExpired:
            continue


def accept(listener, child, limits):
    """The command's first connection."""
    patience = time.monotonic() + PATIENCE
    while not wait([(listener.fileno(), select.POLLIN)], TURN):
        if limits.interrupted:
            raise Trouble("it was interrupted before the command opened a connection")
        if child.poll() is not None:
            raise Trouble(f"the command ended with status {child.returncode} and opened no connection")
        if time.monotonic() >= patience:
            raise Trouble(f"the command opened no connection in {PATIENCE} seconds")
    return listener.accept()[0]


def more_descriptors():
    """Lets this process open as many files as it may."""
    _, most = resource.getrlimit(resource.RLIMIT_NOFILE)
    resource.setrlimit(resource.RLIMIT_NOFILE, (most, most))


class Recording:
    """A session in the course of being recorded."""

    def __init__(self, table, script, limits, most_fills=None):
        self.script = script
        self.limits = limits
        self.pipes = []
        self.ends = {}
        self.session = Session(table, script, self.ends, self.open_pipe, most_fills)

    def run(self, command, environment):
        """Records the command; the answer is why it ended, and whether it did so before its time."""
        compositor = connect(compositor_path(environment))
        self.ends["comp"] = End(compositor)
        self.script.compositor = name_of_process(compositor)
        try:
            with contextlib.ExitStack() as stack:
                return self.attend(self.start(stack, command, environment))
        finally:
            self.close()

    def start(self, stack, command, environment):
        """The command, once it is connected."""
        display = f"wayland-record-{os.getpid()}"
        with own_socket(os.path.join(runtime_folder(environment), display)) as listener:
            child = stack.enter_context(running(command, environment, display))
            self.ends["app"] = End(accept(listener, child, self.limits))
        return child

    def attend(self, child):
        """Records a command that is connected."""
        more_descriptors()
        self.limits.begin()
        try:
            reason = self.move_all(child)
            self.finish_pipes()
        except (Refused, Full) as fault:
            return str(fault), True
        except OSError as fault:
            return f"the system refuses what was asked of it: {fault.strerror}", True
        finally:
            self.close()
        self.outlast(child)
        return reason, False

    def move_all(self, child):
        """Moves what comes until an end is reached; the answer is which."""
        try:
            while True:
                self.limits.check()
                happened = self.move(self.limits.turn())
                self.limits.check_exit(child, idle=not happened)
        except Ended as ended:
            return str(ended)

    def finish_pipes(self):
        """Ends the connection. What waits in pipes still moves, for a short time."""
        self.close_ends()
        patience = time.monotonic() + GRACE
        while self.pipes and time.monotonic() < patience:
            self.move(TURN)

    def outlast(self, child):
        """Waits for the command to exit by itself, where that was asked for."""
        try:
            while self.limits.until_exit:
                self.limits.check()
                self.limits.check_exit(child, idle=True)
                time.sleep(TURN)
        except Ended:
            return

    def move(self, seconds):
        """Moves what comes within some seconds; whether there was anything."""
        interests = list(self.interests())
        acts = {descriptor: act for descriptor, _, act in interests}
        happened = wait([(descriptor, events) for descriptor, events, _ in interests], seconds)
        for descriptor, events in happened:
            acts[descriptor](events)
        return bool(happened)

    def interests(self):
        """The descriptors that are waited for, each with its events and what is to be done at one of them, or at an
        error, which needs no asking."""
        for peer, end in self.ends.items():
            yield end.fileno(), end.events(), functools.partial(self.end_ready, peer, end)
        for pipe in self.pipes:
            if pipe.waiting:
                yield pipe.destination, select.POLLOUT, functools.partial(self.destination_ready, pipe)
            else:
                yield pipe.source, select.POLLIN, functools.partial(self.source_ready, pipe)
                yield pipe.destination, 0, functools.partial(self.destination_ready, pipe)

    def end_ready(self, peer, end, events):
        if events & select.POLLOUT:
            end.flush()
        if events & ~select.POLLOUT:
            end.receive()
            self.session.hear(peer)
            self.ends[OTHER[peer]].flush()
        if end.ended:
            raise Ended(CLOSED[peer])

    def open_pipe(self, owner, number, destination):
        self.pipes.append(Pipe(owner, number, destination))
        return self.pipes[-1]

    def source_ready(self, pipe, _):
        if pipe not in self.pipes:
            return
        content = pipe.read()
        if content:
            self.session.write_pipe(pipe, content)
        else:
            self.session.end_pipe(pipe)
            self.drop_pipe(pipe)

    def destination_ready(self, pipe, events):
        if pipe not in self.pipes:
            return
        if not events & select.POLLOUT or not pipe.write():
            self.session.shut_pipe(pipe)
            self.drop_pipe(pipe)

    def drop_pipe(self, pipe):
        self.pipes.remove(pipe)
        pipe.close()

    def close_ends(self):
        for end in self.ends.values():
            end.close()
        self.ends.clear()

    def close(self):
        """Closes all sockets, pipes and files."""
        while self.pipes:
            self.drop_pipe(self.pipes[0])
        self.close_ends()
        self.session.close()
