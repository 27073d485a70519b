#!/usr/bin/env python3
"""Records a real Wayland client as a script that `./waypipe replay` takes. docs/RECORDING.md says how.

usage: scripts/record.py [--out FILE] [--seconds N] [--until-exit] [--most-fills N] COMMAND..
"""
import argparse
import datetime
import os
import shlex
import signal
import sys

from recorder.recording import Limits, Recording
from recorder.relay import Trouble
from recorder.script import Script
from recorder.table import TableFault, read_table

STATUS_TROUBLE, STATUS_EARLY = 1, 3


def positive(word):
    seconds = float(word)
    if not 0 < seconds < float("inf"):
        raise argparse.ArgumentTypeError("not a count of seconds")
    return seconds


def read_options():
    parser = argparse.ArgumentParser(
        usage="record.py [--out FILE] [--seconds N] [--until-exit] [--most-fills N] COMMAND..",
        description="Records a real Wayland client as a script for `waypipe replay`.",
        epilog="Without --seconds or --until-exit the recording lasts until the client closes its connection.",
    )
    parser.add_argument("--out", metavar="FILE", help="where the script goes; standard output without it")
    parser.add_argument("--seconds", metavar="N", type=positive, help="record N seconds at most")
    parser.add_argument("--until-exit", action="store_true", help="record until COMMAND exits by itself")
    parser.add_argument("--most-fills", metavar="N", type=int, help="at most N lines `fill` for one commit")
    parser.add_argument("command", metavar="COMMAND", nargs=argparse.REMAINDER, help="the client and its words")
    options = parser.parse_args()
    if options.command[:1] == ["--"]:
        del options.command[0]
    if options.most_fills is not None and options.most_fills < 0:
        parser.error("--most-fills takes no negative number")
    if not options.command:
        parser.error("there is no COMMAND")
    return options


def check_out(path):
    """Says before anything runs that the script can't be written."""
    folder = os.path.dirname(os.path.abspath(path))
    if os.path.isdir(path) or not os.path.isdir(folder) or not os.access(folder, os.W_OK):
        raise Trouble(f"{path} can't be written")


def write_out(path, text):
    if path is None:
        sys.stdout.write(text)
        return
    try:
        with open(path, "w", encoding="ascii") as out:
            out.write(text)
    except OSError as fault:
        raise Trouble(f"{path} can't be written: {fault.strerror}") from fault


def record(options):
    """Records the command and writes its script; the answer is the exit status."""
    if options.out is not None:
        check_out(options.out)
    limits = Limits(options.seconds, options.until_exit)
    for number in (signal.SIGINT, signal.SIGTERM):
        signal.signal(number, lambda *_: setattr(limits, "interrupted", True))
    script = Script(shlex.join(options.command), datetime.date.today())
    recording = Recording(read_table(), script, limits, options.most_fills)
    reason, early = recording.run(options.command, os.environ)
    write_out(options.out, script.text(reason, early))
    if early:
        print(f"record.py: the recording ends early: {reason}", file=sys.stderr)
    return STATUS_EARLY if early else 0


def main():
    try:
        return record(read_options())
    except (Trouble, TableFault) as fault:
        print(f"record.py: {fault}", file=sys.stderr)
        return STATUS_TROUBLE


if __name__ == "__main__":
    sys.exit(main())
