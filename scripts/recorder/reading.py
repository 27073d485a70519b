"""Scripts as lists of lines, and the messages in them. Whether a script is right, `./waypipe replay` tells."""
from .session import WAY
from .text import read_message


def lines_of(content):
    """The lines of a script's bytes, each with its number from 1 on, without comments and empty ones."""
    for number, line in enumerate(content.split(b"\n"), 1):
        if line and not line.startswith(b"#"):
            yield number, line.decode("ascii")


def message_of(table, line):
    """The peer and the message of a line that says one, or None."""
    peer, _, text = line.partition(" ")
    if peer not in WAY or "@" not in text.partition(" ")[0]:
        return None
    return peer, read_message(table, text, WAY[peer])
