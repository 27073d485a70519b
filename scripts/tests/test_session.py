"""Scripts of sessions: await lines, limits, files, pipes; and what a replay of them must come to."""
import os
import tempfile
import unittest
from collections import deque

from recorder.files import MOST_FILE, MOST_FILES, MOST_SEGMENTS, Full, Handles
from recorder.model import Model, ModelFault
from recorder.reading import lines_of, message_of
from recorder.relay import Pipe
from recorder.script import OTHER, RESERVE_BYTES, RESERVE_LINES, Script
from recorder.session import WAY, Session
from recorder.table import read_table
from recorder.text import read_message
from recorder.wire import Refused, build

TABLE = read_table()


class ScriptTest(unittest.TestCase):
    def test_await_lines(self):
        """Where one peer speaks behind the other, it waits for all that it received; what is hidden doesn't count."""
        script = Script()
        script.add_message("app", ["app 1"])
        script.add_message("app", ["app 2"])
        script.add_message("comp", ["comp 3"], shown=False)
        script.add_message("app", ["app 4"])
        script.add_message("comp", ["comp 5"])
        script.add("comp", ["comp put"])
        script.add_message("app", ["app 6"])
        said = "app 1|app 2|comp await 2|comp 3|app 4|comp await 3|comp 5|comp put|app await 1|app 6"
        self.assertEqual("|".join(script.lines), said)
        self.assertEqual((script.sent, script.received), ({"app": 4, "comp": 2}, {"app": 1, "comp": 4}))

    def test_limits(self):
        """A line that has no room is not added, nor what stands with it."""
        for limits in ({"most_lines": RESERVE_LINES + 3}, {"most_bytes": RESERVE_BYTES + 18}):
            script = Script(**limits)
            script.add_message("app", ["app 1"])
            script.add_message("app", ["app 2"])
            self.assertRaises(Full, script.add_message, "app", ["app 3", "app 4"])
            script.add("app", ["app 3"])
            self.assertEqual(script.lines, ["app 1", "app 2", "app 3"])
            self.assertEqual(script.sent["app"], 2)

    def test_head(self):
        script = Script("client\n--loud", "1999-12-31")
        script.add_message("app", ["app file 1 64", "app fill 1 0 1 2", "app x@1.y()"])
        script.partial = 4
        text = script.text("no\tmore", True)
        for part in ("# command: client?--loud\n", "# date: 1999-12-31\n", "# files: 1, fills: 1, pipes: 0\n"):
            self.assertIn(part, text)
        self.assertIn("# messages: 1 of the application, 0 of the compositor (0 of them", text)
        self.assertIn("# words left out: 4 commits", text)
        self.assertTrue(text.endswith("app x@1.y()\n# the recording ends early: no?more\n"))


class HandlesTest(unittest.TestCase):
    def test_limits(self):
        """A file above the limit, too many bytes in all, a file that grows too often."""
        handles = Handles("comp")
        files = []
        for _ in range(MOST_FILES // MOST_FILE):
            with tempfile.TemporaryFile() as content:
                files.append(handles.file(os.dup(content.fileno())))
            self.assertEqual(handles.size_lines(files[-1], MOST_FILE)[0], f"comp file {files[-1].number} {MOST_FILE}")
        self.assertRaises(Full, handles.size_lines, files[0], MOST_FILE + 1)
        with tempfile.TemporaryFile() as content:
            self.assertRaises(Full, handles.size_lines, handles.file(os.dup(content.fileno())), 1)
        handles.close()
        handles = Handles("app")
        with tempfile.TemporaryFile() as content:
            file = handles.file(os.dup(content.fileno()))
            for size in range(64, 64 + 64 * MOST_SEGMENTS, 64):
                self.assertEqual(len(handles.size_lines(file, size)), 1)
            self.assertEqual(handles.size_lines(file, 1), [])
            self.assertRaises(Full, handles.size_lines, file, 100000)
        handles.close()


class FakeEnd:
    """An end without a socket: what it was sent is kept."""

    def __init__(self):
        self.received = bytearray()
        self.descriptors = deque()
        self.sent = b""

    def send(self, content, descriptor=None, owned=False):
        self.sent += content
        if owned:
            os.close(descriptor)


BEGIN = """
app wl_display@1.get_registry(new @2)
comp wl_registry@2.global(1, "wl_compositor", 9)
comp wl_registry@2.global(2, "wl_shm", 1)
comp wl_registry@2.global(3, "zwp_linux_dmabuf_v1", 4)
comp wl_registry@2.global(4, "wl_data_device_manager", 3)
comp wl_registry@2.global(5, "wl_seat", 7)
app wl_registry@2.bind(1, "wl_compositor" 6 new @3)
app wl_registry@2.bind(2, "wl_shm" 1 new @4)
app wl_registry@2.bind(4, "wl_data_device_manager" 3 new @5)
app wl_registry@2.bind(5, "wl_seat" 7 new @6)
app wl_compositor@3.create_surface(new @7)
"""

BEGUN = """
app wl_display@1.get_registry(new @2)
comp await 1
comp wl_registry@2.global(1, "wl_compositor", 9)
comp wl_registry@2.global(2, "wl_shm", 1)
comp wl_registry@2.global(3, "zwp_linux_dmabuf_v1", 4)
comp wl_registry@2.global(4, "wl_data_device_manager", 3)
comp wl_registry@2.global(5, "wl_seat", 7)
app await 4
app wl_registry@2.bind(1, "wl_compositor" 6 new @3)
app wl_registry@2.bind(2, "wl_shm" 1 new @4)
app wl_registry@2.bind(4, "wl_data_device_manager" 3 new @5)
app wl_registry@2.bind(5, "wl_seat" 7 new @6)
app wl_compositor@3.create_surface(new @7)
"""

PICTURES = """
app file 1 128
app wl_shm@4.create_pool(new @8, fd %1, 100)
app wl_shm_pool@8.create_buffer(new @9, 0, 4, 4, 16, 0)
app wl_surface@7.attach(@9, 0, 0)
app fill 1 0 8 3
app wl_surface@7.commit()
app wl_surface@7.damage(2, 0, 1, 1)
app fill 1 1 1 5
app wl_surface@7.commit()
app grow 1 192
app wl_shm_pool@8.resize(150)
app wl_surface@7.commit()
"""


class SessionTest(unittest.TestCase):
    def setUp(self):
        self.script = Script()
        self.ends = {peer: FakeEnd() for peer in WAY}
        self.pipes = []
        self.session = Session(TABLE, self.script, self.ends, self.open_pipe)
        self.say(BEGIN)

    def tearDown(self):
        for pipe in self.pipes:
            pipe.close()
        for end in self.ends.values():
            for descriptor in end.descriptors:
                os.close(descriptor)
        self.session.close()

    def open_pipe(self, owner, number, destination):
        self.pipes.append(Pipe(owner, number, destination))
        return self.pipes[-1]

    def say(self, lines, descriptor=None):
        """Both peers say these messages."""
        for line in lines.strip().split("\n"):
            peer, said = message_of(TABLE, line)
            if descriptor is not None:
                self.ends[peer].descriptors.append(os.dup(descriptor))
            self.ends[peer].received += build(said)
            self.session.hear(peer)

    def lines(self, count):
        return "\n".join(self.script.lines[count:])

    def test_registry(self):
        """The script has what was said, the application gets what it may see."""
        self.assertEqual(self.lines(0), BEGUN.strip())
        texts = [
            'wl_registry@2.global(1, "wl_compositor", 6)',
            'wl_registry@2.global(2, "wl_shm", 1)',
            'wl_registry@2.global(4, "wl_data_device_manager", 3)',
            'wl_registry@2.global(5, "wl_seat", 7)',
        ]
        self.assertEqual(self.ends["app"].sent, b"".join(build(read_message(TABLE, it, WAY["comp"])) for it in texts))

    def test_pictures(self):
        """Lines for a file, for its growth, and for the words that are due and changed."""
        count = len(self.script.lines)
        with tempfile.TemporaryFile() as content:
            os.pwrite(content.fileno(), (3).to_bytes(8, "little") * 16, 0)
            self.say("app wl_shm@4.create_pool(new @8, fd %1, 100)", content.fileno())
            self.say("app wl_shm_pool@8.create_buffer(new @9, 0, 4, 4, 16, 0)\napp wl_surface@7.attach(@9, 0, 0)")
            self.say("app wl_surface@7.commit()")
            os.pwrite(content.fileno(), b"\5", 8)
            self.say("app wl_surface@7.damage(2, 0, 1, 1)\napp wl_surface@7.commit()")
            os.pwrite(content.fileno(), b"\6", 8)
            self.say("app wl_shm_pool@8.resize(150)\napp wl_surface@7.commit()")
        self.assertEqual(self.lines(count), PICTURES.strip())

    def test_same_file_again(self):
        """Another descriptor of one file is the same handle."""
        count = len(self.script.lines)
        with tempfile.TemporaryFile() as content:
            self.say("app wl_shm@4.create_pool(new @8, fd %1, 64)", content.fileno())
            self.say("app wl_shm@4.create_pool(new @9, fd %1, 65)", content.fileno())
        with tempfile.TemporaryFile() as content:
            self.say("app wl_shm@4.create_pool(new @10, fd %2, -1)", content.fileno())
        words = [line.split(" ")[1] for line in self.script.lines[count:]]
        self.assertEqual([word for word in words if "@" not in word], ["file", "grow", "file"])
        self.assertIn("fd %1, 65", self.script.lines[-3])

    def test_keymap(self):
        """All blocks of the size that is told are filled."""
        self.say("app wl_seat@6.get_keyboard(new @8)")
        with tempfile.TemporaryFile() as content:
            os.pwrite(content.fileno(), b"\1" * 200, 0)
            self.say("comp wl_keyboard@8.keymap(1, fd %-1, 70)", content.fileno())
        said = f"comp file -1 128|comp fill -1 0 16 {0x0101010101010101}|comp wl_keyboard@8.keymap(1, fd %-1, 70)"
        self.assertEqual("|".join(self.script.lines[-3:]), said)

    def test_pipe(self):
        """Both peers pass a pipe; bytes, ends and shuts are the other's or the owner's."""
        self.say("app wl_data_device_manager@5.get_data_device(new @8, @6)")
        self.say("comp wl_data_device@8.data_offer(new @4278190080)")
        count = len(self.script.lines)
        read, write = os.pipe()
        self.say('app wl_data_offer@4278190080.receive("a", fd %1)', write)
        self.session.write_pipe(self.pipes[0], b"hi")
        self.session.end_pipe(self.pipes[0])
        self.session.shut_pipe(self.pipes[0])
        os.close(read)
        os.close(write)
        said = 'app await 5|app pipe 1|app wl_data_offer@4278190080.receive("a", fd %1)|comp await 8|comp put 1 6869'
        self.assertEqual("|".join(self.script.lines[count:]), said + "|comp end 1|app await 5|app shut 1")

    def test_refused(self):
        """What can't be recorded isn't written and isn't passed on."""
        count, sent = len(self.script.lines), self.ends["comp"].sent
        for line in ("app wl_surface@99.commit()", "app wl_shm@4.create_pool(new @8, fd %1, 64)"):
            self.assertRaises(Refused, self.say, line)
        self.assertEqual((len(self.script.lines), self.ends["comp"].sent), (count, sent))

    def test_model_agrees(self):
        """The model of a recording receives what the recording passed on."""
        self.test_pictures()
        model = Model(TABLE)
        model.run(self.script.text("the test is over", False).encode())
        for peer in WAY:
            texts = [read_message(TABLE, it, WAY[OTHER[peer]]) for it in model.received(peer)]
            self.assertEqual(b"".join(map(build, texts)), self.ends[peer].sent)
        report = """connections 1
application sent 14 received 4
compositor sent 5 received 14
near made 19 acknowledged 19 accepted 4
far made 4 acknowledged 4 accepted 19
mirror 1 size 150 sum 26"""
        self.assertEqual("\n".join([*model.head_lines(), *model.long_lines()]), report)


PLAIN = BEGUN + """
app file 1 %d
app wl_shm@4.create_pool(new @8, fd %%1, %d)
app wl_shm_pool@8.create_buffer(new @9, 0, %d, %d, %d, 0)
app wl_surface@7.attach(@9, 0, 0)
"""


class ModelTest(unittest.TestCase):
    def model(self, text):
        model = Model(TABLE)
        model.run(text.encode())
        return [*model.head_lines(), *model.long_lines()]

    def frames(self, text):
        return int(self.model(text)[3].split(" ")[2])

    def test_frames_of_pictures(self):
        """One frame for each message, two for a new file, one for each piece of a run of due blocks."""
        begin = self.frames(BEGUN)
        rows = ((64, 4, 4, 16, 1), (2048, 1, 16, 128, 16), (1310720, 640, 512, 2560, 2))
        for size, width, height, stride, fills in rows:
            text = PLAIN % (size, size, width, height, stride) + "app wl_surface@7.commit()\n"
            self.assertEqual(self.frames(text), begin + 3 + 2 + 1 + fills)

    def test_keymap(self):
        text = BEGUN + "app wl_seat@6.get_keyboard(new @8)\ncomp file -1 64\ncomp fill -1 0 8 257\n"
        text += "comp await 7\ncomp wl_keyboard@8.keymap(1, fd %-1, 60)\ncomp wl_keyboard@8.keymap(1, fd %-1, 60)\n"
        self.assertEqual(self.model(text)[-2:], ["far made 11 acknowledged 11 accepted 7", "mirror -1 size 60 sum 16"])

    def test_breaks(self):
        """A connection that ends and comes back changes the count of connections alone."""
        parts = self.model(BEGUN), self.model(BEGUN + "break\nconnect\nbreak\nconnect\n")
        self.assertEqual(parts[1], ["connections 3", *parts[0][1:]])

    def test_not_modelled(self):
        """Lines that recordings don't have, waits that are never met, and what a replay would refuse."""
        rows = ("app hex 00", "stop", "break", "app await 9", "app wl_surface@8.commit()", "comp end 1", "grow app 1")
        for line in rows:
            with self.subTest(line=line):
                self.assertRaises(ModelFault, self.model, BEGUN + line + "\n")


class ReadingTest(unittest.TestCase):
    def test_lines(self):
        content = b"# a\n\nsettle\n#\xff\napp wl_surface@5.commit()"
        self.assertEqual(list(lines_of(content)), [(3, "settle"), (5, "app wl_surface@5.commit()")])

    def test_messages(self):
        self.assertIsNone(message_of(TABLE, "app fill 1 0 1 1"))
        self.assertIsNone(message_of(TABLE, "settle"))
        peer, said = message_of(TABLE, 'app xdg_toplevel@8.set_title("a b")')
        self.assertEqual((peer, said.arguments), ("app", (b"a b",)))


if __name__ == "__main__":
    unittest.main()
