"""The table is read from the source of the crate, whole."""
import os
import re
import shutil
import tempfile
import unittest

from recorder.table import EVENT, REQUEST, SOURCE, Place, Row, TableFault, read_table

VERSIONS = {
    "wl_compositor": 6,
    "wl_shm": 1,
    "wl_seat": 7,
    "wl_output": 4,
    "wl_subcompositor": 1,
    "wl_data_device_manager": 3,
    "xdg_wm_base": 5,
}
ROWS = (
    ("wl_display", REQUEST, 1, Row("get_registry", (Place("new", interface="wl_registry"),))),
    ("wl_registry", REQUEST, 0, Row("bind", (Place("uint"), Place("bind")))),
    ("wl_callback", EVENT, 0, Row("done", (Place("uint"),), destroys=True)),
    ("wl_surface", REQUEST, 1, Row("attach", (Place("object", nullable=True), Place("int"), Place("int")))),
    ("wl_keyboard", EVENT, 0, Row("keymap", (Place("uint"), Place("file"), Place("uint")))),
    ("wl_data_offer", REQUEST, 1, Row("receive", (Place("string"), Place("pipe")))),
    ("xdg_toplevel", EVENT, 0, Row("configure", (Place("int"), Place("int"), Place("array")))),
)


class TableTest(unittest.TestCase):
    @classmethod
    def setUpClass(cls):
        cls.table = read_table()

    def test_versions(self):
        self.assertEqual(self.table.versions, VERSIONS)

    def test_rows(self):
        for interface, way, opcode, row in ROWS:
            self.assertEqual(self.table.row(interface, way, opcode), row)
            self.assertEqual(self.table.opcode(interface, way, row.name), opcode)

    def test_no_row_behind_the_last(self):
        self.assertIsNone(self.table.row("wl_buffer", REQUEST, 1))
        self.assertIsNone(self.table.row("wl_callback", REQUEST, 0))
        self.assertIsNone(self.table.opcode("wl_surface", EVENT, "commit"))

    def test_every_row_of_the_source(self):
        """As many rows as the source has words for them."""
        words = 0
        for name in ("core_rows.rt", "shell_rows.rt"):
            with open(os.path.join(SOURCE, name), encoding="utf-8") as source:
                words += len(re.findall(r"\b(?:Message|Destructor)\(", source.read()))
        self.assertEqual(sum(map(len, self.table.rows.values())), words)

    def test_source_that_does_not_read(self):
        edits = (
            ("core_rows.rt", 'Message("commit", &[])', 'Odd("commit", &[])'),
            ("core_rows.rt", "FIXED, FIXED]", "FIXED, BROKEN]"),
            ("shell_rows.rt", "static XDG_POPUP_EVENTS", "static XDG_TOOLTIP_EVENTS"),
            ("interface.rt", "Interface::WlBuffer =>", "Interface::WlBulwark =>"),
        )
        for name, old, new in edits + (("interface.rt", None, None),):
            with self.subTest(name=name, new=new), tempfile.TemporaryDirectory() as folder:
                edited_source(folder, name, old, new)
                self.assertRaises(TableFault, read_table, folder)


def edited_source(folder, name, old, new):
    """A copy of the source in which one file is edited, or is not there."""
    shutil.copytree(SOURCE, folder, dirs_exist_ok=True)
    path = os.path.join(folder, name)
    if old is None:
        os.unlink(path)
        return
    with open(path, encoding="utf-8") as source:
        text = source.read()
    with open(path, "w", encoding="utf-8") as source:
        source.write(text.replace(old, new))


if __name__ == "__main__":
    unittest.main()
