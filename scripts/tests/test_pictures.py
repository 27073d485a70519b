"""Due blocks against a test of one pixel, and the fills for words that changed."""
import os
import random
import tempfile
import unittest
from array import array

from recorder.damage import BACKLOG, BLOCK, MOST_RUNS, Buffer, Surface
from recorder.files import File
from recorder.fills import due_fills, fill_lines, fills, longest

PLACES = (
    lambda bx, by, w, h: (bx, by),
    lambda bx, by, w, h: (h - 1 - by, bx),
    lambda bx, by, w, h: (w - 1 - bx, h - 1 - by),
    lambda bx, by, w, h: (by, w - 1 - bx),
    lambda bx, by, w, h: (w - 1 - bx, by),
    lambda bx, by, w, h: (by, bx),
    lambda bx, by, w, h: (bx, h - 1 - by),
    lambda bx, by, w, h: (h - 1 - by, w - 1 - bx),
)


def covers(rectangle, x, y):
    left, top, width, height = rectangle
    return left <= x < left + width and top <= y < top + height


def is_damaged(surface, buffer, bx, by):
    """Whether a pixel is covered by the pending damage."""
    u, v = PLACES[surface.transform](bx, by, buffer.width, buffer.height)
    on_surface = any(covers(it, u // surface.scale, v // surface.scale) for it in surface.on_surface)
    return on_surface or any(covers(it, bx, by) for it in surface.on_buffer)


def blocks_of_pixels(buffer, pixels):
    found = set()
    for bx, by in pixels:
        at = buffer.offset + by * buffer.stride + 4 * bx
        found |= {at // BLOCK, (at + 3) // BLOCK}
    return found


def blocks_of_runs(runs):
    return {block for first, end in runs for block in range(first, end)}


def any_file(told):
    file = File("app", 1, None)
    file.tell(told)
    return file


def rectangle(draw):
    return draw.randrange(-9, 20), draw.randrange(-9, 20), draw.randrange(-3, 20), draw.randrange(-3, 20)


class DamageTest(unittest.TestCase):
    def test_against_pixels(self):
        """For all transforms and some scales, the blocks of one commit's damage are those of its pixels."""
        draw = random.Random(1)
        for turn in range(160):
            width, height = draw.randrange(1, 20), draw.randrange(1, 12)
            stride = 4 * width + draw.choice((0, 4, 100))
            buffer = Buffer(any_file(100000), draw.choice((0, 36)), width, height, stride, 0)
            surface = Surface()
            surface.buffer, surface.transform, surface.scale = buffer, turn % 8, draw.randrange(1, 4)
            surface.commit()
            surface.on_surface = [rectangle(draw) for _ in range(draw.randrange(3))]
            surface.on_buffer = [rectangle(draw) for _ in range(draw.randrange(3))]
            pixels = [(x, y) for x in range(width) for y in range(height) if is_damaged(surface, buffer, x, y)]
            self.assertEqual(blocks_of_runs(surface.commit()), blocks_of_pixels(buffer, pixels))

    def setUp(self):
        """Two buffers of four rows, each row a block."""
        self.file = any_file(8 * BLOCK)
        self.one = Buffer(self.file, 0, 16, 4, BLOCK, 1)
        self.other = Buffer(self.file, 4 * BLOCK, 16, 4, BLOCK, 1)
        self.surface = Surface()

    def commit(self, buffer, *rows):
        self.surface.buffer = buffer
        self.surface.on_buffer = [(0, row, 16, 1) for row in rows]
        return self.surface.commit()

    def test_buffer_that_returns(self):
        """Behind up to seven commits the damage since then is due, behind more the whole picture."""
        for between in range(BACKLOG + 1):
            self.surface = Surface()
            self.assertEqual(self.commit(self.one), [(0, 4)])
            for _ in range(between):
                self.commit(self.other, 1)
            since = [(1, 2), (3, 4)] if between else [(3, 4)]
            self.assertEqual(self.commit(self.one, 3), [(0, 4)] if between == BACKLOG else since)

    def test_whole_picture(self):
        """Another scale, another transform, or a commit without a picture in between."""
        for change in ({"scale": 2}, {"transform": 3}, {"buffer": None}):
            self.commit(self.one)
            vars(self.surface).update(change)
            self.surface.commit()
            self.surface.scale, self.surface.transform = 1, 0
            self.assertEqual(self.commit(self.one, 2), [(0, 4)])

    def test_nothing_due(self):
        self.assertEqual(self.commit(None, 1), [])
        self.assertEqual(self.commit(Buffer(self.file, 1, 16, 8, BLOCK, 0)), [])
        self.assertEqual(self.commit(Buffer(self.file, 0, 16, 4, BLOCK - 4, 0)), [])
        self.one.lives = False
        self.assertEqual(self.commit(self.one, 1), [])

    def test_another_format(self):
        """All from the offset on."""
        self.assertEqual(self.commit(Buffer(self.file, 130, 1, 1, 1, 875709016)), [(2, 8)])
        self.assertEqual(self.commit(Buffer(self.file, 8 * BLOCK, 1, 1, 1, 875709016)), [])

    def test_many_runs(self):
        for rows in (MOST_RUNS, MOST_RUNS + 1):
            buffer = Buffer(any_file(10**7), 0, 1, rows, 2 * BLOCK, 0)
            runs = self.commit(buffer)
            self.assertEqual(len(runs), MOST_RUNS if rows == MOST_RUNS else 1)
            self.assertEqual(runs[-1][1], 2 * rows - 1)


def filled(known, found):
    """The words behind some fills."""
    words = list(known)
    for first, count, value in found:
        words[first : first + count] = [value] * count
    return words


class FillsTest(unittest.TestCase):
    def test_random_words(self):
        draw = random.Random(2)
        for _ in range(2000):
            values = draw.sample(range(6), draw.randrange(1, 6))
            known, now = (array("Q", draw.choices(values, k=24)) for _ in range(2))
            found = fills(known, now)
            self.assertEqual(filled(known, found), list(now))
            self.assertEqual(filled(known, longest(found, len(found))), list(now))
            self.assertLessEqual(len(found), sum(old != new for old, new in zip(known, now)))

    def test_few_lines(self):
        """Only what changed is filled, a run of one value at once, strokes on a ground behind the ground."""
        rows = (
            ([0, 0, 0, 0], [0, 0, 0, 0], []),
            ([0, 0, 0, 0], [0, 7, 7, 0], [(1, 2, 7)]),
            ([7, 0, 7, 7], [7, 7, 7, 7], [(1, 1, 7)]),
            ([0] * 7, [9, 1, 9, 9, 2, 9, 9], [(0, 7, 9), (1, 1, 1), (4, 1, 2)]),
            ([0, 1, 0], [9, 1, 9], [(0, 1, 9), (2, 1, 9)]),
        )
        for known, now, expected in rows:
            self.assertEqual(fills(array("Q", known), array("Q", now)), expected)

    def test_lines_of_a_file(self):
        """Words that changed since the last lines, by a file's own bytes; what is behind its end is zero."""
        with tempfile.TemporaryFile() as content:
            file = File("app", 3, content.fileno())
            file.grow(4 * BLOCK)
            os.pwrite(file.descriptor, b"\1" * BLOCK, BLOCK)
            line = f"app fill 3 8 8 {0x0101010101010101}"
            self.assertEqual(fill_lines(file, [(0, 1)]), ([], True))
            self.assertEqual(fill_lines(file, [(0, 4)]), ([line], True))
            self.assertEqual(fill_lines(file, [(0, 4)]), ([], True))
            os.ftruncate(file.descriptor, BLOCK + 8)
            self.assertEqual(fill_lines(file, [(1, 2)]), (["app fill 3 9 7 0"], True))

    def test_lines_left_out(self):
        """The longest fills are said; the others stay to be said."""
        with tempfile.TemporaryFile() as content:
            file = File("app", 1, content.fileno())
            file.grow(2 * BLOCK)
            os.pwrite(file.descriptor, b"\2" * 8 + bytes(8) + b"\3" * 24, 0)
            self.assertEqual(fill_lines(file, [(0, 2)], 1), ([f"app fill 1 2 3 {0x0303030303030303}"], False))
            self.assertEqual(due_fills(file, [(0, 2)]), [(0, 1, 0x0202020202020202)])
            self.assertEqual(fill_lines(file, [(0, 2)], 0), ([], False))
            self.assertEqual(fill_lines(file, [(0, 2)], 1), ([f"app fill 1 0 1 {0x0202020202020202}"], True))


if __name__ == "__main__":
    unittest.main()
