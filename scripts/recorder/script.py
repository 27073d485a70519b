"""The script of a recording, line by line."""
from collections import Counter

from .files import Full

MOST_BYTES = 16777216
MOST_LINES = 200000
MOST_COMMAND = 400
RESERVE_BYTES, RESERVE_LINES = 2048, 20  # for the comments at the head and at the end
OTHER = {"app": "comp", "comp": "app"}

HEAD = """\
# A session of a real client, recorded by scripts/record.py. docs/RECORDING.md says how to replay and cut it.
# command: {command}
# compositor: {compositor}
# date: {date}
# messages: {app} of the application, {comp} of the compositor ({hidden} of them hidden from the application)
# files: {files}, fills: {fills}, pipes: {pipes}
"""
PARTIAL = "# words left out: {partial} commits changed more words than the lines `fill` that were asked for can say\n"


class Script:
    """What passed, in its order. Where one peer speaks behind the other, a line `await` stands first."""

    def __init__(self, command="", date="", most_bytes=MOST_BYTES, most_lines=MOST_LINES):
        self.command = printable(command)[:MOST_COMMAND]
        self.date = date
        self.compositor = "unknown"
        self.most_bytes = most_bytes
        self.most_lines = most_lines
        self.lines = []
        self.size = 0
        self.turn = None
        self.sent = {"app": 0, "comp": 0}
        self.received = {"app": 0, "comp": 0}
        self.kinds = Counter()
        self.partial = 0

    def add(self, peer, lines):
        """Adds what a peer does, or nothing where there is no room for all of it."""
        lines = self.awaited(peer) + lines
        size = sum(len(line) + 1 for line in lines)
        if self.size + size > self.most_bytes - RESERVE_BYTES:
            raise Full(f"a script of more than {self.most_bytes} bytes")
        if len(self.lines) + len(lines) > self.most_lines - RESERVE_LINES:
            raise Full(f"a script of more than {self.most_lines} lines")
        self.lines += lines
        self.size += size
        self.turn = peer
        self.kinds.update(line.split(" ", 2)[1] for line in lines)

    def awaited(self, peer):
        """The line that waits for all that the peer received, where the other one spoke last."""
        if self.turn != OTHER[peer] or not self.received[peer]:
            return []
        return [f"{peer} await {self.received[peer]}"]

    def add_message(self, peer, lines, shown=True):
        """Adds a message behind its files and fills, and counts it."""
        self.add(peer, lines)
        self.sent[peer] += 1
        if shown:
            self.received[OTHER[peer]] += 1

    def text(self, reason, early):
        """The whole script, with what is known of it at its head and the reason of its end."""
        head = HEAD.format(
            command=self.command,
            compositor=printable(self.compositor),
            date=self.date,
            hidden=self.sent["comp"] - self.received["app"],
            files=self.kinds["file"],
            fills=self.kinds["fill"],
            pipes=self.kinds["pipe"],
            **self.sent,
        )
        if self.partial:
            head += PARTIAL.format(partial=self.partial)
        last = f"# the recording ends {'early' if early else 'here'}: {printable(reason)}\n"
        return head + "".join(line + "\n" for line in self.lines) + last


def printable(text):
    """A text for a comment."""
    return "".join(it if " " <= it <= "~" else "?" for it in text)
