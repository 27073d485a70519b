#!/usr/bin/env python3
"""Compares the table of messages with the Wayland protocol's own files, where this machine has them.

Debian's packages libwayland-dev and wayland-protocols bring wayland.xml and xdg-shell.xml. Each message that both
have is compared: its name, its place, its arguments, and whether it destroys its object. A file may be older or newer
than the table, so one list may go on where the other ends; that is told and is no difference. A list that only one of
them has is one, for each interface that the table has.

Status 0: all lists were compared and are equal; 1: something differs or is missing; 2: a file isn't there.
"""
import os
import re
import sys
import xml.etree.ElementTree as xml

from recorder.table import read_table, rows_in

TOP = os.path.dirname(os.path.dirname(os.path.abspath(__file__)))
FILES = {
    "core_rows.rt": "/usr/share/wayland/wayland.xml",
    "shell_rows.rt": "/usr/share/wayland-protocols/stable/xdg-shell/xdg-shell.xml",
}
KINDS = {"int": "INT", "uint": "UINT", "fixed": "FIXED", "string": "STRING", "object": "OBJECT", "array": "ARRAY"}


def place_of(argument):
    kind = argument.get("type")
    if kind == "new_id":
        interface = argument.get("interface")
        return "New(%s)" % camel(interface) if interface else "BOUND"
    if kind == "fd":
        return "HANDLE"
    return KINDS[kind] + ("_OR_NULL" if argument.get("allow-null") == "true" else "")


def camel(name):
    return "".join(part.capitalize() for part in name.split("_"))


def rows_of_file(path):
    rows = {}
    for interface in xml.parse(path).getroot().iter("interface"):
        for tag, way in (("request", "REQUESTS"), ("event", "EVENTS")):
            rows[interface.get("name").upper() + "_" + way] = [
                (message.get("type") == "destructor", message.get("name"), [place_of(it) for it in message.iter("arg")])
                for message in interface.iter(tag)
            ]
    return rows


def rows_of_table(path):
    with open(path, encoding="utf-8") as source:
        return rows_in(source.read())


def known_interfaces():
    """The names of the table's interfaces, as its lists begin."""
    return {interface.upper() for interface, _ in read_table().rows}


def missing_lists(ours, theirs, known):
    """A line for each list of a known interface that has rows on one side alone, or that the file doesn't know."""
    for name in sorted(ours.keys() - theirs.keys()):
        yield f"missing: the file has no {name}"
    for name in sorted(theirs.keys() - ours.keys()):
        if theirs[name] and name.rsplit("_", 1)[0] in known:
            yield f"missing: the table has no {name}"


def differing_rows(ours, theirs):
    """How many messages both lists have, and a line for each in which they differ."""
    lines = []
    for mine, their in zip(ours, theirs):
        places = [re.sub("^(FILE|PIPE_END)$", "HANDLE", it) for it in mine[2]]
        if (mine[0], mine[1], places) != their:
            lines.append(f"{mine} {their}")
    return min(len(ours), len(theirs)), lines


def main():
    known = known_interfaces()
    differences = compared = absent = 0
    for table, path in FILES.items():
        if not os.path.exists(path):
            absent += 1
            print("skipped: there is no", path)
            continue
        theirs = rows_of_file(path)
        ours = rows_of_table(os.path.join(TOP, "crates/wl_tables/src", table))
        for line in missing_lists(ours, theirs, known):
            differences += 1
            print(line)
        for name in [it for it in ours if it in theirs]:
            count, lines = differing_rows(ours[name], theirs[name])
            compared += count
            differences += len(lines)
            for line in lines:
                print("differs:", name, line)
            if len(ours[name]) != len(theirs[name]):
                print("%s: the table has %d, the file %d" % (name, len(ours[name]), len(theirs[name])))
    print("compared %d messages, %d differ or are missing" % (compared, differences))
    if absent:
        return 2
    return 1 if differences else 0


if __name__ == "__main__":
    sys.exit(main())
