#!/usr/bin/env python3
"""Measures `waypipe replay` on scripts of raw messages: speed, growth with the input, peak memory, and the ratio to a
plain C program that writes the same text. It is no part of the gate."""
import os

import figures


def word(number):
    return number.to_bytes(4, "little")


def string(text):
    counted = text + b"\0"
    return word(len(counted)) + counted + bytes(-len(counted) % 4)


def message(target, opcode, body):
    return word(target) + word((8 + len(body)) << 16 | opcode) + body


def objects():
    """The bytes of the messages that make the objects."""
    return [
        message(1, 1, word(2)),
        message(2, 0, word(1) + string(b"wl_compositor") + word(6) + word(3)),
        message(2, 0, word(2) + string(b"xdg_wm_base") + word(5) + word(4)),
        message(3, 0, word(5)),
        message(4, 2, word(6) + word(5)),
        message(6, 1, word(7)),
    ]


def repeated(size):
    """A message of a size that can be sent any number of times: commit, set_buffer_scale, or set_title."""
    if size == 8:
        return message(5, 6, b"")
    if size == 12:
        return message(5, 8, word(1))
    return message(7, 2, string(b"a" * (size - 13)))


def script(path, megabytes, size, piece):
    """A script of so many million bytes, of messages of a size, small ones several to a line, moved in pieces."""
    line = b"app hex " + (repeated(size) * max(1, 120 // size)).hex().encode() + b"\n"
    with open(path, "wb") as out:
        for first in objects():
            out.write(b"app hex " + first.hex().encode() + b"\n")
        out.write(line * (megabytes * 1_000_000 // len(line)))
        out.write(f"drain {piece}\n".encode())


def main():
    with figures.folder() as folder:
        ours, theirs = [figures.program(), "replay"], [figures.plain("plain_replay", folder)]
        figures.heads("message", "piece")
        for size in (8, 12, 65532):
            for piece in (1, 100, 65536):
                files = []
                for megabytes in (4, 8, 16):
                    files.append(os.path.join(folder, f"{size}-{piece}-{megabytes}"))
                    script(files[-1], megabytes, size, piece)
                figures.series((size, piece), files, ours, theirs)
                for path in files:
                    os.remove(path)


main()
