#!/usr/bin/env python3
"""Measures `waypipe replay`, with and without `--text`, on scripts whose lines are message text: speed, the time of twice
the lines, and peak memory. It is no part of the gate."""
import os

import figures

HEAD = """app wl_display@1.get_registry(new @2)
app wl_registry@2.bind(1, "wl_compositor" 6 new @3)
app wl_registry@2.bind(2, "wl_seat" 7 new @4)
app wl_compositor@3.create_surface(new @5)
app wl_seat@4.get_pointer(new @6)
settle
"""
KINDS = {
    "requests": ["app wl_surface@5.damage(0, 0, 640, 480)\n", "app wl_surface@5.commit()\n"],
    "both-ways": ["app wl_surface@5.damage_buffer(10, 20, 30, 40)\n", "comp wl_pointer@6.motion(1000, 2560/256, 5120/256)\n"],
}


def script(path, lines, kind):
    """A script of so many lines, of which all but the first few are alike."""
    more = KINDS[kind] * (lines // len(KINDS[kind]))
    with open(path, "w") as out:
        out.write(HEAD + "".join(more[: lines - HEAD.count("\n")]))


def main():
    with figures.folder() as folder:
        program = figures.program()
        figures.heads("lines", "shown")
        for kind in KINDS:
            files = []
            for lines in (50_000, 100_000, 200_000):
                files.append(os.path.join(folder, f"{kind}-{lines}"))
                script(files[-1], lines, kind)
            figures.series((kind, "digits"), files, [program, "replay"])
            figures.series((kind, "text"), files, [program, "replay", "--text"])


main()
