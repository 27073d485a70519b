"""Messages as bytes and as text, both ways; objects; what of the registry is shown."""
import unittest

from recorder.objects import MOST_OBJECTS, Objects
from recorder.table import EVENT, REQUEST, read_table
from recorder.text import NoMessage, print_message, read_message
from recorder.wire import Refused, arguments_of, build, cut, head_of

TABLE = read_table()

TEXTS = (
    (REQUEST, "wl_display@1.get_registry(new @2)", "0100000001000c0002000000"),
    (REQUEST, "wl_surface@5.commit()", "0500000006000800"),
    (REQUEST, "wl_surface@5.attach(null, -1, 2147483647)", "0500000001001400" "00000000ffffffffffffff7f"),
    (REQUEST, "wl_surface@5.attach(@7, 0, -2147483648)", "0500000001001400" "070000000000000000000080"),
    (
        REQUEST,
        'wl_registry@2.bind(3, "wl_shm" 1 new @4)',
        "0200000000002000" "03000000" "07000000" "776c5f73686d0000" "0100000004000000",
    ),
    (REQUEST, "wl_shm@4.create_pool(new @6, fd %-3, 64)", "0400000000001000" "0600000040000000"),
    (REQUEST, "wl_data_offer@9.accept(7, null)", "0900000000001000" "0700000000000000"),
    (REQUEST, 'xdg_toplevel@8.set_title("")', "0800000002001000" "0100000000000000"),
    (REQUEST, r'xdg_toplevel@8.set_title("\"\\\x09\x00\xc3\xa4~")', "0800000002001400" "08000000225c0900c3a47e00"),
    (EVENT, "wl_pointer@3.motion(5, -256/256, 0/256)", "0300000002001400" "0500000000ffffff00000000"),
    (EVENT, "xdg_toplevel@8.configure(0, 0, [01000000])", "0800000000001800" "0000000000000000" "0400000001000000"),
    (EVENT, "xdg_toplevel@8.wm_capabilities([])", "0800000003000c00" "00000000"),
    (EVENT, "wl_data_device@5.data_offer(new @4278190080)", "0500000000000c00" "000000ff"),
)

NO_TEXTS = (
    (REQUEST, "wl_surface@5.commit"),
    (REQUEST, "wl_surface@5.commit() "),
    (REQUEST, "wl_surface@05.commit()"),
    (REQUEST, "wl_surface@4294967296.commit()"),
    (REQUEST, "wl_surface@5.comit()"),
    (REQUEST, "wl_bulwark@5.commit()"),
    (REQUEST, "wl_surface@5.attach(@0, 0, 0)"),
    (REQUEST, "wl_surface@5.attach(@7, 0,0)"),
    (REQUEST, "wl_surface@5.attach(@7, 00, 0)"),
    (REQUEST, "wl_surface@5.attach(@7, 2147483648, 0)"),
    (REQUEST, "wl_subcompositor@5.get_subsurface(new @6, null, @7)"),
    (REQUEST, "xdg_toplevel@8.set_title(null)"),
    (REQUEST, r'xdg_toplevel@8.set_title("\x41")'),
    (REQUEST, r'xdg_toplevel@8.set_title("\xC3")'),
    (REQUEST, 'xdg_toplevel@8.set_title("%s")' % ("a" * 65520)),
    (REQUEST, "wl_shm@4.create_pool(new @6, fd %2147483648, 64)"),
    (EVENT, "wl_surface@5.commit()"),
    (EVENT, "xdg_toplevel@8.wm_capabilities([0])"),
    (EVENT, "xdg_toplevel@8.wm_capabilities([0A])"),
)

NO_BYTES = (
    ("xdg_toplevel", "set_title", "00000000"),
    ("xdg_toplevel", "set_title", "02000000" "61610000"),
    ("xdg_toplevel", "set_title", "09000000" "61610000"),
    ("xdg_toplevel", "set_title", "01000000"),
    ("wl_subcompositor", "get_subsurface", "06000000" "00000000" "07000000"),
    ("wl_surface", "commit", "00000000"),
    ("wl_surface", "attach", "00000000"),
)


def said(text, way=REQUEST):
    return read_message(TABLE, text, way)


class TextTest(unittest.TestCase):
    def test_text_and_bytes(self):
        for way, text, digits in TEXTS:
            with self.subTest(text=text):
                message = said(text, way)
                raw = build(message)
                self.assertEqual(raw.hex(), digits)
                self.assertEqual(print_message(message), text)
                self.assertEqual(head_of(raw), (message.object, message.opcode))
                again = message.with_arguments(arguments_of(message.row, raw))
                self.assertEqual(again.with_handle(message.handle()), message)

    def test_no_text(self):
        for way, text in NO_TEXTS:
            with self.subTest(text=text[:60]):
                self.assertRaises(NoMessage, said, text, way)

    def test_no_bytes(self):
        for interface, name, digits in NO_BYTES:
            row = TABLE.row(interface, REQUEST, TABLE.opcode(interface, REQUEST, name))
            with self.subTest(name=name, digits=digits):
                self.assertRaises(Refused, arguments_of, row, bytes(8) + bytes.fromhex(digits))

    def test_padding_is_not_kept(self):
        row = TABLE.row("xdg_toplevel", REQUEST, 2)
        self.assertEqual(arguments_of(row, bytes(8) + bytes.fromhex("0200000061006262")), (b"a",))

    def test_stream(self):
        """Messages are cut from a stream that comes in pieces."""
        whole = b"".join(build(said(text, way)) for way, text, _ in TEXTS)
        stream, found = bytearray(), []
        for at in range(0, len(whole), 5):
            stream += whole[at : at + 5]
            raw = cut(stream)
            while raw is not None:
                found.append(raw.hex())
                raw = cut(stream)
        self.assertEqual(found, [digits for _, _, digits in TEXTS])

    def test_stream_at_fault(self):
        for size in (0, 7, 10):
            self.assertRaises(Refused, cut, bytearray(b"\1\0\0\0\0\0" + bytes([size, 0])))


class ObjectsTest(unittest.TestCase):
    def setUp(self):
        self.objects = Objects(TABLE)
        self.take("wl_display@1.get_registry(new @2)")

    def take(self, text, way=REQUEST):
        return self.objects.take(way, build(said(text, way)))

    def shown(self, text):
        shown = self.objects.shown(self.take(text, EVENT))
        return shown and print_message(shown)

    def test_registry_view(self):
        """An interface outside the table is hidden, and its end; a version above the table's is lowered."""
        rows = (
            ('wl_registry@2.global(5, "zwp_linux_dmabuf_v1", 4)', None),
            ('wl_registry@2.global(6, "wl_seat", 9)', 'wl_registry@2.global(6, "wl_seat", 7)'),
            ('wl_registry@2.global(7, "wl_seat", 3)', 'wl_registry@2.global(7, "wl_seat", 3)'),
            ('wl_registry@2.global(8, "wl_surface", 1)', None),
            ("wl_registry@2.global_remove(5)", None),
            ("wl_registry@2.global_remove(5)", "wl_registry@2.global_remove(5)"),
            ("wl_registry@2.global_remove(6)", "wl_registry@2.global_remove(6)"),
            ('wl_registry@2.global(8, "wl_shm", 1)', 'wl_registry@2.global(8, "wl_shm", 1)'),
            ("wl_registry@2.global_remove(8)", "wl_registry@2.global_remove(8)"),
        )
        for event, seen in rows:
            self.assertEqual(self.shown(event), seen)

    def test_hidden_by_registry(self):
        """A name is hidden in the registry that hid it."""
        self.take("wl_display@1.get_registry(new @3)")
        self.assertIsNone(self.shown('wl_registry@2.global(5, "wl_shell", 1)'))
        self.assertEqual(self.shown("wl_registry@3.global_remove(5)"), "wl_registry@3.global_remove(5)")

    def test_ids(self):
        """An id is free again behind `delete_id`; events of a destroyed object still pass, requests don't."""
        self.take('wl_registry@2.bind(1, "wl_compositor" 6 new @3)')
        self.take("wl_compositor@3.create_surface(new @5)")
        self.take("wl_surface@5.destroy()")
        self.take("wl_surface@5.enter(@9)", EVENT)
        self.assertRaises(Refused, self.take, "wl_surface@5.commit()")
        self.assertRaises(Refused, self.take, "wl_compositor@3.create_surface(new @5)")
        self.take("wl_display@1.delete_id(5)", EVENT)
        self.take("wl_compositor@3.create_region(new @5)")
        self.take("wl_region@5.add(0, 0, 1, 1)")

    def test_server_ids(self):
        """A server uses an id again as soon as its object is destroyed."""
        self.take('wl_registry@2.bind(1, "wl_data_device_manager" 3 new @3)')
        self.take("wl_data_device_manager@3.get_data_device(new @4, @9)")
        offer = "wl_data_device@4.data_offer(new @4278190080)"
        self.take(offer, EVENT)
        self.assertRaises(Refused, self.take, offer, EVENT)
        self.take("wl_data_offer@4278190080.destroy()")
        self.take(offer, EVENT)

    def test_refused(self):
        rows = (
            "wl_surface@5.commit()",
            "wl_display@1.sync(new @0)",
            "wl_display@1.sync(new @2)",
            "wl_display@1.sync(new @4278190080)",
            'wl_registry@2.bind(1, "wl_surface" 1 new @3)',
        )
        for text in rows:
            with self.subTest(text=text):
                self.assertRaises(Refused, self.take, text)

    def test_message_outside_the_table(self):
        """The reason names the object and the message."""
        with self.assertRaisesRegex(Refused, "wl_registry@2 has no request 1 in the table"):
            self.objects.take(REQUEST, bytes.fromhex("0200000001000800"))

    def test_too_many_objects(self):
        for number in range(3, MOST_OBJECTS + 1):
            self.objects.interfaces[number] = "wl_callback"
        self.assertRaises(Refused, self.take, f"wl_display@1.sync(new @{MOST_OBJECTS + 1})")


if __name__ == "__main__":
    unittest.main()
