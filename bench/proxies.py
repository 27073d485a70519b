#!/usr/bin/env python3
"""Measures two proxies with their records back to back over memory, by rows for the small proved program pair_trials: messages and
whole images that go from one peer to the other, and frames that are sent again on connection after connection, each beside plain
copies of as many bytes by part_speed. It is no part of the gate."""
import os
import sys

import figures

PROGRAM = os.path.join(figures.ROOT, "crates/pair_trials/out/pair_trials")
SURFACE = "near say registry compositor shm surface"


def seconds(folder, *lines):
    """The least time of some rows. They ask to show nothing, so what is printed is what was not done."""
    least = figures.job_seconds("pair_trials", folder, "\n".join(lines))
    told = figures.output([PROGRAM], os.path.join(folder, "job"))
    if told:
        sys.exit(told.decode())
    return least


def copies(folder, size, times):
    """The time of plain copies of so many bytes."""
    return figures.job_seconds("part_speed", folder, "copies", size // 8, times)


def main():
    for crate in ("part_speed", "pair_trials"):
        figures.build(crate)
    with figures.folder() as folder:
        messages(folder)
        images(folder)
        resends(folder)


def messages(folder):
    """Pieces of messages that damage an image."""
    count, times = 1000, 1000
    carried = seconds(folder, "connect 1", SURFACE, *[f"near repeat {count} damage-image", "settle", "give"] * times)
    plain = copies(folder, 24 * count, times)
    print(f"      24 bytes: {count * times / carried / 1e6:6.2f} million messages per second through both proxies, {carried / plain:.0f} times a plain copy's time")


def images(folder):
    """Images of 4,096 by 1,024 pixels, each with a pair of its own, and its file: a near proxy that shows one to its record's
    least weight has it in its frames."""
    size, times = 4096 * 1024 * 4, 20
    carried = seconds(folder, *["near weigh 0", "near break", "connect 2", "settle", "give", ""] * times)
    plain = copies(folder, size, times)
    print(f"{size:8} bytes: {size * times / carried / 1e6:6.0f} MB of images per second through both proxies, {carried / plain:.1f} times a plain copy's time")


def resends(folder):
    """Connections on which the frames of a full ring are sent again: the other side's RESTART is read and all is written. The
    time in which the frames are made first is taken off."""
    damages, times = (2400, 2400, 2289), 400
    made = [SURFACE, *[f"near repeat {count} damage" for count in damages]]
    frames, size = sum(damages) + 4, 32 + 16 + 44 + 36 + 16 + 28 * sum(damages)
    sent = [line for connection in range(1, times + 1) for line in resend(connection)]
    again = (seconds(folder, *made, *sent) - seconds(folder, *made)) / times
    plain = copies(folder, size, times * 10) / (times * 10)
    print(f"{frames:8} frames: {again * 1e6:6.0f} microseconds to send them again, {size} bytes in all, {again / plain:.1f} times a plain copy's time")


def resend(connection):
    """The lines of one connection on which all is written."""
    restart = f"11040000 {b'of this session.'.hex()} {connection.to_bytes(4, 'little').hex()} {bytes(8).hex()}"
    return [f"near connect {connection}", f"near read {restart}", "near lose 300000", "near break"]


if __name__ == "__main__":
    main()
