"""The fills that make the words of a file what they are now."""
import os
import sys
from array import array
from collections import Counter

from .damage import BLOCK

WORD = 8


def words_of(content):
    """The words of some bytes, low byte first."""
    words = array("Q", content)
    if sys.byteorder == "big":
        words.byteswap()
    return words


class Run:
    """Equal words from first to end, of which those from begin to stop are to be filled."""

    __slots__ = ("value", "first", "end", "begin", "stop", "changed")

    def __init__(self, value, first, end, begin, stop):
        self.value = value
        self.first = first
        self.end = end
        self.begin = begin
        self.stop = stop
        self.changed = begin < stop

    def take_whole(self):
        self.begin, self.stop = self.first, self.end


def runs_of_words(known, now):
    """The runs of equal words, each from its first to its last word that changed."""
    changed = [at for at, (old, new) in enumerate(zip(known, now)) if old != new]
    bounds = [at for at, (one, two) in enumerate(zip(now, now[1:]), 1) if one != two]
    runs, last = [], 0
    for first, end in zip([0, *bounds], [*bounds, len(now)]):
        begin = last
        while last < len(changed) and changed[last] < end:
            last += 1
        part = (changed[begin], changed[last - 1] + 1) if begin < last else (first, first)
        runs.append(Run(now[first], first, end, *part))
    return runs


def commonest(runs):
    """The value of the most runs that changed."""
    most = Counter(run.value for run in runs if run.changed).most_common(1)
    return most[0][0] if most else None


def fills(known, now):
    """The fills (first, count, value), in order, that make the words `known` into the words `now`.

    Runs of one value are one fill. A run of the commonest value goes on over shorter runs of others, which are filled
    after it, so that a line of text on a plain ground takes one fill for the ground and one for each stroke."""
    runs = runs_of_words(known, now)
    common = commonest(runs)
    found, ground, over = [], None, []
    for run in runs:
        if not run.changed:
            if run.value != common:
                ground, over = None, []
        elif run.value != common:
            found.append(run)
            over.append(run)
        elif ground:
            ground.stop = run.stop
            for covered in over:
                covered.take_whole()
            over = []
        else:
            found.append(run)
            ground, over = run, []
    return [(run.begin, run.stop - run.begin, run.value) for run in found]


def read_at(descriptor, first, end):
    """The bytes of a file from first to end, with zeros behind its end."""
    content = b""
    while len(content) < end - first:
        piece = os.pread(descriptor, end - first - len(content), first + len(content))
        if not piece:
            break
        content += piece
    return content + bytes(end - first - len(content))


def due_fills(file, runs):
    """The fills for the words of these runs of blocks that changed, as places in the file."""
    found = []
    for first, end in runs:
        content = read_at(file.descriptor, first * BLOCK, end * BLOCK)
        known = file.known[first * BLOCK : first * BLOCK + len(content)]
        if known != content:
            place = first * BLOCK // WORD
            found += [(place + at, count, value) for at, count, value in fills(words_of(known), words_of(content))]
    return found


def longest(found, most):
    """The longest of some fills, each behind those that it is to cover."""
    return sorted(found, key=lambda fill: -fill[1])[:most]


def fill_lines(file, runs, most=None):
    """The lines for the words of these runs of blocks that changed since the last lines, and whether all of them are
    said: `most` is how many lines there may be."""
    found = due_fills(file, runs)
    said = found if most is None or len(found) <= most else longest(found, most)
    for place, count, value in said:
        file.fill(place, count, value)
    return [f"{file.peer} fill {file.number} {place} {count} {value}" for place, count, value in said], said is found
