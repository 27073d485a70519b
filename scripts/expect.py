#!/usr/bin/env python3
"""Writes what a replay of a script must report, worked out without any proxy.

usage: scripts/expect.py [--got] SCRIPT

That is the report of `./waypipe replay --text --long`, but for the lines `link`; without --got also but for the lines
of the messages.
"""
import sys

from recorder.model import Model, ModelFault
from recorder.table import TableFault, read_table


def expected(content, got=False):
    """The report as a text."""
    model = Model(read_table())
    model.run(content)
    lines = [*model.head_lines(), *model.long_lines(), *(model.given_lines() if got else ()), "drained"]
    return "".join(line + "\n" for line in lines)


def main():
    words = sys.argv[1:]
    got = words[:1] == ["--got"]
    if len(words) != 1 + got:
        sys.exit("usage: scripts/expect.py [--got] SCRIPT")
    try:
        with open(words[-1], "rb") as script:
            sys.stdout.write(expected(script.read(), got))
    except (OSError, ModelFault, TableFault, UnicodeDecodeError) as fault:
        sys.exit(f"expect.py: {words[-1]}: {fault}")


if __name__ == "__main__":
    main()
