#!/usr/bin/env python3
"""Measures lines in memory with the small proved program line_speed: bytes from one thread to another, beside plain
copies of as many bytes on one thread. It is no part of the gate."""
import functools

import figures

TOTAL = 16_000_000_000

seconds = functools.partial(figures.job_seconds, "line_speed")


def main():
    figures.build("line_speed")
    with figures.folder() as folder:
        for piece in (64, 4096, 65_536):
            total = TOTAL if piece > 64 else TOTAL // 16
            line, copy = (seconds(folder, job, piece, total) for job in ("line", "copy"))
            print(f"pieces of {piece:6} bytes: {total / line / 1e9:5.2f} GB/s through a line, {line / copy:.1f} times a plain copy's time")


if __name__ == "__main__":
    main()
