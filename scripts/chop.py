#!/usr/bin/env python3
"""Puts breaks into a script: at each the link is cut behind some byte, and a new connection is made.

usage: scripts/chop.py [--seed N] [--breaks N] SCRIPT

The new script goes to standard output; the same seed gives the same one. Each break stands behind a line that says a
message, before all is settled: by turns such a line by chance, and the line that some byte by chance belongs to. Lines
`cut` at the head do the like where the peers run by themselves.
"""
import argparse
import sys

from recorder.model import Model, ModelFault
from recorder.reading import lines_of, message_of
from recorder.script import OTHER
from recorder.table import TableFault, read_table

WAY = {"app": "up", "comp": "down"}
PLENTY = 1000000000  # the greatest count of a line
RESTART = 32  # bytes of the frame that begins a connection
MOST_BACK = 64


class Draw:
    """Numbers by a seed, the same on every machine."""

    def __init__(self, seed):
        self.state = seed
        for _ in range(8):
            self.below(1)

    def below(self, bound):
        self.state = (self.state * 6364136223846793005 + 1442695040888963407) % (1 << 64)
        return (self.state >> 33) % bound


class Place:
    """Behind a line where bytes wait: its number, its peer, the bytes that wait, how many of them the line brought, how
    many were made in all, the copies that wait, and whether a connection is up."""

    def __init__(self, number, peer, model, settled, before):
        self.number = number
        self.peer = peer
        self.made = model.sides[peer].bytes
        self.waiting = self.made - settled[peer]
        self.brought = self.made - before[peer]
        self.copies = len(model.copies)
        self.is_up = model.is_up


def places_of(table, content):
    """All places for a break."""
    model, places = Model(table), []
    settled = before = bytes_made(model)
    for number, line in lines_of(content):
        model.follow_line(number, line)
        said = message_of(table, line)
        if line == "settle" or line.split(" ")[1:2] == ["await"]:
            settled = bytes_made(model)
        elif said and model.sides[said[0]].bytes > settled[said[0]]:
            places.append(Place(number, said[0], model, settled, before))
        before = bytes_made(model)
    return places


def bytes_made(model):
    return {peer: side.bytes for peer, side in model.sides.items()}


def chosen(places, breaks, draw):
    """So many of the places, in their order."""
    left, picked = list(places), []
    while left and len(picked) < breaks:
        picked.append(left.pop(by_byte(left, draw) if len(picked) % 2 else draw.below(len(left))))
    return sorted(picked, key=lambda place: place.number)


def by_byte(places, draw):
    """The index of the place that brought one of all bytes."""
    byte = draw.below(max(1, sum(place.brought for place in places)))
    for index, place in enumerate(places):
        byte -= place.brought
        if byte < 0:
            return index
    return 0


def break_lines(place, draw):
    """The lines that cut the link behind some of the bytes that wait."""
    way, back = WAY[place.peer], WAY[OTHER[place.peer]]
    sent = 1 + draw.below(place.waiting)
    read = 1 + draw.below(sent)
    yield f"# the link breaks: up to {sent} of {place.waiting} bytes are sent, up to {read} of them are read"
    for _ in range(place.copies):
        yield f"take {place.peer} {PLENTY}"
        yield f"load {PLENTY}"
    yield f"take {place.peer} {PLENTY}"
    if not place.is_up:
        yield "connect"
        yield f"up {RESTART}"
        yield f"down {RESTART}"
    yield f"send {way} {sent}"
    yield f"recv {way} {read}"
    yield f"{back} {1 + draw.below(MOST_BACK)}"
    yield "break"
    yield "connect"


def cut_lines(places, draw):
    """A line `cut` for each break, with a byte of what its connection carries."""
    before = {"app": 0, "comp": 0}
    for place in places:
        yield f"cut {WAY[place.peer]} {RESTART + draw.below(place.made - before[place.peer] + 1)}"
        before[place.peer] = place.made


def chop(table, content, seed, breaks):
    """The script with its breaks."""
    draw = Draw(seed)
    places = chosen(places_of(table, content), breaks, draw)
    lines = [line.decode("latin-1") for line in content.split(b"\n")]
    if lines[-1] == "":
        lines.pop()
    behind = {place.number: list(break_lines(place, draw)) for place in places}
    head = next((at for at, line in enumerate(lines) if line and not line.startswith("#")), len(lines))
    chopped = [*lines[:head], f"# {len(places)} breaks put in by scripts/chop.py with the seed {seed}"]
    chopped += cut_lines(places, draw)
    for number, line in enumerate(lines[head:], head + 1):
        chopped += [line, *behind.get(number, ())]
    return "".join(line + "\n" for line in chopped).encode("latin-1")


def main():
    parser = argparse.ArgumentParser(description="Puts breaks of the link into a script.")
    parser.add_argument("--seed", metavar="N", type=int, default=1, help="which breaks: another seed, other ones")
    parser.add_argument("--breaks", metavar="N", type=int, default=3, help="how many, 3 without it")
    parser.add_argument("script", metavar="SCRIPT")
    options = parser.parse_args()
    try:
        with open(options.script, "rb") as script:
            content = script.read()
        sys.stdout.buffer.write(chop(read_table(), content, options.seed, options.breaks))
    except (OSError, ModelFault, TableFault, UnicodeDecodeError) as fault:
        sys.exit(f"chop.py: {options.script}: {fault}")


if __name__ == "__main__":
    main()
