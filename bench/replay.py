#!/usr/bin/env python3
"""Measures `waypipe replay` on scripts that draw and that break the link: speed, growth with the input, peak memory beside
what the records keep, and the ratio to a plain copy of so many bytes in memory. It is no part of the gate."""
import os
import time

import figures

HEAD = """app file 1 {size}
app wl_display@1.get_registry(new @2)
app wl_registry@2.bind(1, "wl_compositor" 6 new @3)
app wl_registry@2.bind(2, "wl_shm" 1 new @4)
app wl_compositor@3.create_surface(new @5)
app wl_shm@4.create_pool(new @6, fd %1, {size})
app wl_shm_pool@6.create_buffer(new @7, 0, {width}, {height}, {stride}, 1)
app wl_surface@5.attach(@7, 0, 0)
app wl_surface@5.commit()
settle
"""
REGISTRY = "app wl_display@1.get_registry(new @2)\n"
COMMIT = "app wl_surface@5.commit()\nsettle\n"
LABELS = ("what", "count")
HEADS = ("seconds", "x-half", "kept-MB", "x-copy", "peak-MB", "peak/kept")


def pictures(count, width, height, damage):
    """The script of an application that draws one picture so many times."""
    size = width * height * 4
    head = HEAD.format(size=-(-size // 64) * 64, width=width, height=height, stride=width * 4)
    return head + "".join(f"app fill 1 0 {size // 8} {one}\n{damage}{COMMIT}" for one in range(1, count + 1))


def images(count):
    """Whole images of 640 by 480."""
    return pictures(count, 640, 480, "app wl_surface@5.damage_buffer(0, 0, 640, 480)\n")


def columns(count):
    """A column of 210 pixels, each in a run of its own."""
    return pictures(count, 250, 250, "app wl_surface@5.damage_buffer(9, 20, 1, 210)\n")


def messages(count):
    """Small messages."""
    return "".join(f"app wl_display@1.sync(new @{at})\n" for at in range(2, min(count, 60_000) + 2)) + REGISTRY.replace(
        "@2", "@60010"
    ) + 'app wl_registry@60010.bind(1, "wl_compositor" 6 new @60011)\napp wl_compositor@60011.create_surface(new @60012)\n' + (
        "app wl_surface@60012.set_buffer_scale(1)\n" * max(0, count - 60_003)
    )


def reconnections(count):
    """A message on each connection, which breaks before the message is acknowledged."""
    return "".join(
        f"app wl_display@1.sync(new @{at})\nconnect\ntake app 12\nup 48\ndown 44\nup 16\nbreak\n" for at in range(2, count + 2)
    )


def connections(count):
    """Connections on which nothing goes."""
    return "connect\nbreak\n" * count


CASES = (
    ("images", images, (10, 50, 100)),
    ("columns", columns, (50, 100, 200)),
    ("messages", messages, (50_000, 100_000)),
    ("reconnect", reconnections, (500, 1_000)),
    ("connect", connections, (2_048, 4_096)),
)


def kept(report):
    """The bytes that both records and the store of the link keep, by a long report: each byte that went over the link
    was made once, written once, stored once and read once; the bytes of a picture stand in a copy too."""
    written = read = 0
    for line in report.decode("ascii").splitlines():
        words = line.split(" ")
        if words[0] == "link":
            written += int(words[4])
            read += int(words[6])
    return 4 * written + read


def copy_seconds(length):
    """The seconds of a plain copy of so many bytes, in pieces of 1 MB."""
    piece, into = bytes(1 << 20), bytearray(1 << 20)
    begin = time.perf_counter()
    for _ in range(max(1, length >> 20)):
        into[:] = piece
    return time.perf_counter() - begin


def row(words, label, count, path, before):
    seconds, memory = figures.measure(words, path)
    bytes_kept = kept(figures.output([*words, "--long"], path))
    figures_told = [
        f"{seconds:.3f}",
        f"{seconds / before:.2f}" if before else "-",
        f"{bytes_kept / 1e6:.1f}",
        f"{seconds / copy_seconds(bytes_kept):.1f}",
        f"{memory / 1e6:.1f}",
        f"{memory / bytes_kept:.2f}" if bytes_kept else "-",
    ]
    print(f"{label:<10}{count:<10}" + "".join(f"{figure:>10}" for figure in figures_told), flush=True)
    return seconds


def main():
    with figures.folder() as folder:
        words = [figures.program(), "replay"]
        print("".join(f"{label:<10}" for label in LABELS) + "".join(f"{head:>10}" for head in HEADS))
        for label, script, counts in CASES:
            before = None
            for count in counts:
                path = os.path.join(folder, f"{label}-{count}")
                with open(path, "w") as out:
                    out.write(script(count))
                before = row(words, label, count, path, before)
                os.remove(path)


if __name__ == "__main__":
    main()
