"""The programs as a whole: record.py between a small client and a small compositor, chop.py, expect.py."""
import os
import signal
import socket
import subprocess
import sys
import tempfile
import threading
import time
import unittest

import chop
import expect
from recorder.relay import Trouble, listen
from recorder.table import EVENT, read_table
from recorder.text import read_message
from recorder.wire import build, cut, head_of

SCRIPTS = os.path.dirname(os.path.dirname(os.path.abspath(__file__)))
TABLE = read_table()
GLOBALS = (
    (1, "wl_compositor", 6),
    (2, "wl_shm", 1),
    (3, "wp_viewporter", 1),
    (4, "wl_data_device_manager", 3),
    (5, "wl_seat", 8),
)

CLIENT = """
import os, socket, sys, time
sys.path.insert(0, %r)
from recorder.table import read_table
from recorder.text import read_message
from recorder.wire import build
connection = socket.socket(socket.AF_UNIX)
connection.connect(os.path.join(os.environ["XDG_RUNTIME_DIR"], os.environ["WAYLAND_DISPLAY"]))
table = read_table()
def say(text, *descriptors):
    socket.send_fds(connection, [build(read_message(table, text))], descriptors)
def hear(count):
    while count > 0:
        piece = connection.recv(count) or sys.exit()
        count -= len(piece)
say("wl_display@1.get_registry(new @2)")
say("wl_display@1.sync(new @3)")
hear(%d)
say('wl_registry@2.bind(1, "wl_compositor" 6 new @3)')
say('wl_registry@2.bind(2, "wl_shm" 1 new @4)')
file = os.memfd_create("pool")
os.write(file, bytes(range(64)))
"""

DRAWING = """
say("wl_compositor@3.create_surface(new @5)")
say("wl_shm@4.create_pool(new @6, fd %1, 64)", file)
say("wl_shm_pool@6.create_buffer(new @7, 0, 4, 4, 16, 0)")
say("wl_surface@5.attach(@7, 0, 0)")
say("wl_surface@5.commit()")
hear(12)
"""

COPYING = """
say('wl_registry@2.bind(4, "wl_data_device_manager" 3 new @8)')
say('wl_registry@2.bind(5, "wl_seat" 7 new @6)')
say("wl_data_device_manager@8.get_data_device(new @7, @6)")
hear(12)
read, write = os.pipe()
say('wl_data_offer@4278190080.receive("text/plain", fd %1)', write)
os.close(write)
while os.read(read, 100):
    pass
"""

WAITING = """
os.close(os.open(os.path.join(os.environ["XDG_RUNTIME_DIR"], "ready"), os.O_CREAT))
connection.recv(100)
"""

UNKNOWN = """
connection.send(bytes.fromhex("0400000009000800"))
connection.recv(100)
"""


class Compositor(threading.Thread):
    """A compositor of a few lines, for one connection after the other."""

    def __init__(self, path):
        super().__init__(daemon=True)
        self.listener = socket.socket(socket.AF_UNIX)
        self.listener.bind(path)
        self.listener.listen()
        self.start()

    def run(self):
        while True:
            try:
                self.connection, _ = self.listener.accept()
            except OSError:
                return
            self.stream, self.descriptors = bytearray(), []
            with self.connection:
                while self.serve():
                    pass

    def say(self, text):
        self.connection.sendall(build(read_message(TABLE, text, EVENT)))

    def serve(self):
        content, descriptors, _, _ = socket.recv_fds(self.connection, 4096, 8)
        self.stream += content
        self.descriptors += descriptors
        raw = cut(self.stream)
        while raw:
            self.answer(*head_of(raw), raw)
            raw = cut(self.stream)
        return content

    def answer(self, number, opcode, raw):
        if (number, opcode) == (1, 1):
            for name, interface, version in GLOBALS:
                self.say(f'wl_registry@2.global({name}, "{interface}", {version})')
        elif (number, opcode) == (1, 0):
            self.say("wl_callback@3.done(1)")
            self.say("wl_display@1.delete_id(3)")
        elif (number, opcode) == (5, 6):
            self.say("wl_surface@5.enter(@9)")
        elif (number, opcode) == (8, 1):
            self.say("wl_data_device@7.data_offer(new @4278190080)")
        elif number == 4278190080:
            os.write(self.descriptors[0], b"hello")
            os.close(self.descriptors.pop())


def shown_bytes():
    """How many bytes a client gets before its second round."""
    shown = [it for it in GLOBALS if it[1] != "wp_viewporter"]
    texts = [f'wl_registry@2.global({name}, "{interface}", {version})' for name, interface, version in shown]
    texts += ["wl_callback@3.done(1)", "wl_display@1.delete_id(3)"]
    return sum(len(build(read_message(TABLE, text, EVENT))) for text in texts)


def client(more):
    return [sys.executable, "-c", CLIENT % (SCRIPTS, shown_bytes()) + more]


class RecordTest(unittest.TestCase):
    def setUp(self):
        folder = tempfile.TemporaryDirectory()
        self.addCleanup(folder.cleanup)
        self.folder = folder.name
        self.out = os.path.join(self.folder, "out.script")

    def start(self, *words, display="wayland-test"):
        environment = dict(os.environ, XDG_RUNTIME_DIR=self.folder, WAYLAND_DISPLAY=display)
        command = [sys.executable, os.path.join(SCRIPTS, "record.py"), "--out", self.out, *words]
        return subprocess.Popen(command, env=environment, stderr=subprocess.PIPE, text=True)

    def record(self, *words, **options):
        """The status, what stands on standard error, and the lines of the script."""
        child = self.start(*words, **options)
        _, told = child.communicate(timeout=20)
        lines = []
        if os.path.exists(self.out):
            with open(self.out, encoding="ascii") as script:
                lines = script.read().split("\n")
        return child.returncode, told, lines

    def with_compositor(self):
        compositor = Compositor(os.path.join(self.folder, "wayland-test"))
        self.addCleanup(compositor.listener.close)

    def test_drawing(self):
        self.with_compositor()
        status, told, lines = self.record(*client(DRAWING))
        self.assertEqual((status, told), (0, ""))
        self.assertIn('comp wl_registry@2.global(5, "wl_seat", 8)', lines)
        self.assertIn("app wl_shm@4.create_pool(new @6, fd %1, 64)", lines)
        self.assertIn(f"app fill 1 7 1 {int.from_bytes(range(56, 64), 'little')}", lines)
        self.assertEqual(lines[-3], "comp wl_surface@5.enter(@9)")
        self.assertEqual(lines[-2], "# the recording ends here: the application closed the connection")
        self.assertEqual(sorted(os.listdir(self.folder)), ["out.script", "wayland-test"])
        with open(self.out, "rb") as script:
            report = expect.expected(script.read())
        self.assertIn("application sent 9 received 7\ncompositor sent 8 received 9\n", report)
        self.assertIn(f"mirror 1 size 64 sum {sum(range(64))}\n", report)

    def test_copying(self):
        """Bytes of a pipe are recorded, also of one that outlives the connection."""
        self.with_compositor()
        for copying in (COPYING, COPYING.replace("\nwhile", "\nconnection.close()\nwhile")):
            status, _, lines = self.record("--until-exit", *client(copying))
            self.assertEqual(status, 0)
            self.assertEqual(lines[-5:-2], ["comp await 8", "comp put 1 68656c6c6f", "comp end 1"])

    def test_seconds(self):
        self.with_compositor()
        status, _, lines = self.record("--seconds", "0.2", *client(WAITING))
        self.assertEqual((status, lines[-2]), (0, "# the recording ends here: 0.2 seconds were over"))

    def test_interrupted(self):
        self.with_compositor()
        child = self.start(*client(WAITING))
        while not os.path.exists(os.path.join(self.folder, "ready")):
            time.sleep(0.01)
        child.send_signal(signal.SIGTERM)
        _, told = child.communicate(timeout=20)
        self.assertEqual((child.returncode, told), (0, ""))
        self.assertEqual(sorted(os.listdir(self.folder)), ["out.script", "ready", "wayland-test"])

    def test_message_outside_the_table(self):
        self.with_compositor()
        status, told, lines = self.record(*client(UNKNOWN))
        reason = "wl_shm@4 has no request 9 in the table"
        self.assertEqual((status, told), (3, f"record.py: the recording ends early: {reason}\n"))
        self.assertEqual(lines[-2], f"# the recording ends early: {reason}")

    def test_file_that_cannot_be_read(self):
        self.with_compositor()
        closed = 'file = os.open(os.path.join(os.environ["XDG_RUNTIME_DIR"], "pool"), os.O_CREAT | os.O_WRONLY)'
        status, _, lines = self.record(*client(closed + DRAWING))
        self.assertEqual((status, lines[-3]), (3, "app wl_surface@5.attach(@7, 0, 0)"))
        self.assertTrue(lines[-2].startswith("# the recording ends early: the system refuses"))

    def test_most_fills(self):
        self.with_compositor()
        _, _, lines = self.record("--most-fills", "1", *client(DRAWING))
        self.assertEqual(len([line for line in lines if " fill " in line]), 1)
        self.assertTrue(any(line.startswith("# words left out: 1 commits") for line in lines))

    def test_errors(self):
        """Each told in one line; no script is written, no socket is left."""
        self.with_compositor()
        rows = (
            (("true",), "wayland-none", "no compositor answers at"),
            (("no-such-command-here",), "wayland-test", "there is no command no-such-command-here"),
            ((self.folder,), "wayland-test", "can't be started"),
            (("false",), "wayland-test", "the command ended with status 1 and opened no connection"),
            (("--out", "/nowhere/at/all", "true"), "wayland-test", "/nowhere/at/all can't be written"),
        )
        for words, display, sentence in rows:
            with self.subTest(words=words):
                status, told, lines = self.record(*words, display=display)
                self.assertEqual((status, told.count("\n"), lines), (1, 1, []))
                self.assertIn(sentence, told)
                self.assertEqual(os.listdir(self.folder), ["wayland-test"])

    def test_socket_that_is_taken(self):
        """It stays with the one who has it."""
        path = os.path.join(self.folder, "taken")
        with listen(path), self.assertRaisesRegex(Trouble, "taken can't be had"):
            listen(path)
        self.assertEqual(os.listdir(self.folder), ["taken"])

    def test_no_folder_for_sockets(self):
        command = [sys.executable, os.path.join(SCRIPTS, "record.py"), "true"]
        done = subprocess.run(command, env={}, capture_output=True, text=True, check=False)
        sentence = "record.py: XDG_RUNTIME_DIR isn't set, so there is no folder for sockets\n"
        self.assertEqual((done.returncode, done.stderr), (1, sentence))


SESSION = b"""# a head

app wl_display@1.get_registry(new @2)
app wl_display@1.sync(new @3)
comp await 2
comp wl_registry@2.global(1, "wl_compositor", 6)
comp wl_registry@2.global(2, "wl_shell", 1)
comp wl_callback@3.done(1)
app await 2
app wl_registry@2.bind(1, "wl_compositor" 6 new @4)
app wl_compositor@4.create_surface(new @5)
"""


class ChopTest(unittest.TestCase):
    def test_lines_stay(self):
        """All lines stay in their order; what comes between moves the link alone."""
        for seed in range(20):
            lines = chop.chop(TABLE, SESSION, seed, 2).split(b"\n")
            rest = iter(lines)
            self.assertTrue(all(line in rest for line in SESSION.split(b"\n")), lines)
            self.assertEqual([lines.count(b"break"), sum(line.startswith(b"cut ") for line in lines)], [2, 2])

    def test_seed(self):
        self.assertEqual(chop.chop(TABLE, SESSION, 5, 3), chop.chop(TABLE, SESSION, 5, 3))
        self.assertGreater(len({chop.chop(TABLE, SESSION, seed, 3) for seed in range(10)}), 5)

    def test_report(self):
        """What must come of it is the same, over more connections."""
        whole = expect.expected(SESSION, got=True)
        for breaks in range(9):
            chopped = expect.expected(chop.chop(TABLE, SESSION, 3, breaks), got=True)
            self.assertEqual(chopped, whole.replace("connections 1", f"connections {1 + min(breaks, 7)}"))


if __name__ == "__main__":
    unittest.main()
