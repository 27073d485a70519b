#!/usr/bin/env python3
"""Measures `waypipe frames` on streams of small frames, of fills of 1 KB and of frames of 1 MB: speed, growth with the
input, peak memory, and the ratio to a plain C program that writes the same text. It is no part of the gate."""
import os

import figures


def word(number):
    return number.to_bytes(4, "little")


def message(size):
    return word(1) + word(size << 16) + bytes(i % 251 for i in range(size - 8))


def frame(number, body):
    return word((len(body) + 4) * 32 + number) + body + bytes(-len(body) % 4)


FRAMES = {
    "small": frame(0, message(56)),
    "fill": frame(5, word(1) + word(64) + word(1088) + bytes(range(256)) * 4),
    "large": frame(0, message(65532) * 16 + message(60)),
}


def main():
    with figures.folder() as folder:
        ours, theirs = [figures.program(), "frames"], [figures.plain("plain_frames", folder)]
        figures.heads("frames")
        for kind, one in FRAMES.items():
            files = []
            for megabytes in (8, 16):
                files.append(os.path.join(folder, f"{kind}-{megabytes}"))
                with open(files[-1], "wb") as out:
                    out.write(one * (megabytes * 1_000_000 // len(one)))
            figures.series((kind,), files, ours, theirs)
            for path in files:
                os.remove(path)


main()
