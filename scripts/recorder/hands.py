#!/usr/bin/env python3
"""A keyboard and a pointing device for a compositor that knows the protocols virtual-keyboard and wlr-virtual-pointer.

usage: scripts/recorder/hands.py WORD..

The words are done one after the other, on the compositor of the environment:

    screen W H       says how large the compositor's screen is
    type TEXT        presses and releases a key for each character of TEXT: small letters, digits, spaces
    enter, f11       the same with the key Return or F11
    move X Y         moves the pointer to X, Y; `glide X Y` goes there in ten steps
    press, release   the left button
    wait SECONDS     does nothing
"""
import os
import socket
import struct
import sys
import tempfile
import time

HEADER = struct.Struct("<II")
REGISTRY, DONE, SEAT, KEYBOARDS, POINTERS, KEYBOARD, POINTER = 2, 3, 4, 5, 6, 7, 8
GLOBALS = (
    (SEAT, b"wl_seat"),
    (KEYBOARDS, b"zwp_virtual_keyboard_manager_v1"),
    (POINTERS, b"zwlr_virtual_pointer_manager_v1"),
)
FIRST_CODE = 9
KEYS = (*"abcdefghijklmnopqrstuvwxyz0123456789 ", "enter", "f11")
SYMBOLS = {" ": "space", "enter": "Return", "f11": "F11"}
LEFT_BUTTON = 0x110
PAUSE = 0.05
STEPS = 10


def keymap():
    """A keymap of a few keys. It names no other file, so it stays as short as it is."""
    codes = "".join(f"<K{at}> = {FIRST_CODE + at};" for at in range(len(KEYS)))
    symbols = "".join(f"key <K{at}> {{ [ {SYMBOLS.get(key, key)} ] }};" for at, key in enumerate(KEYS))
    return (
        f'xkb_keymap {{ xkb_keycodes "k" {{ minimum = 8; maximum = 255; {codes} }};'
        ' xkb_types "t" { type "ONE_LEVEL" { modifiers = none; level_name[Level1] = "Any"; }; };'
        ' xkb_compatibility "c" { };'
        f' xkb_symbols "s" {{ {symbols} }}; }};'
    ).encode() + b"\0"


class Hands:
    """A connection with both devices."""

    def __init__(self, path):
        self.connection = socket.socket(socket.AF_UNIX, socket.SOCK_STREAM)
        self.connection.connect(path)
        self.screen = (640, 480)
        self.place = (0, 0)
        self.bind_all()
        self.say(KEYBOARDS, 0, SEAT, KEYBOARD)
        self.say(POINTERS, 0, SEAT, POINTER)
        self.send_keymap()

    def say(self, number, opcode, *words, descriptors=()):
        body = struct.pack(f"<{len(words)}I", *(word & 0xFFFFFFFF for word in words))
        self.send(number, opcode, body, descriptors)

    def send(self, number, opcode, body, descriptors=()):
        content = HEADER.pack(number, (HEADER.size + len(body)) << 16 | opcode) + body
        socket.send_fds(self.connection, [content], list(descriptors))

    def events(self):
        """All events until the answer to a `sync` stands among them: the object, the opcode, the arguments."""
        self.say(1, 0, DONE)
        stream = b""
        while True:
            piece = self.connection.recv(65536)
            if not piece:
                sys.exit("hands.py: the compositor closed the connection")
            stream += piece
            while len(stream) >= HEADER.size and len(stream) >= HEADER.unpack_from(stream)[1] >> 16:
                number, second = HEADER.unpack_from(stream)
                yield number, second & 0xFFFF, stream[HEADER.size : second >> 16]
                stream = stream[second >> 16 :]
                if number == DONE:
                    return

    def bind_all(self):
        """Binds the globals in the order of their ids, which a server asks for."""
        self.say(1, 1, REGISTRY)
        names = {}
        for number, opcode, body in self.events():
            if (number, opcode) == (REGISTRY, 0):
                name, length = struct.unpack_from("<II", body)
                names[body[8 : 8 + length - 1]] = name
        for number, interface in GLOBALS:
            if interface not in names:
                sys.exit("hands.py: the compositor takes no virtual devices")
            text = struct.pack("<I", len(interface) + 1) + interface + bytes(4 - len(interface) % 4)
            self.send(REGISTRY, 0, struct.pack("<I", names[interface]) + text + struct.pack("<II", 1, number))

    def send_keymap(self):
        content = keymap()
        with tempfile.TemporaryFile() as file:
            file.write(content)
            file.flush()
            self.say(KEYBOARD, 0, 1, len(content), descriptors=[file.fileno()])

    def key(self, name):
        for state in (1, 0):
            self.say(KEYBOARD, 1, now(), FIRST_CODE - 8 + KEYS.index(name), state)
            time.sleep(PAUSE)

    def move(self, x, y):
        self.place = (x, y)
        self.say(POINTER, 1, now(), x, y, *self.screen)
        self.say(POINTER, 4)
        time.sleep(PAUSE)

    def glide(self, x, y):
        (x0, y0) = self.place
        for step in range(1, STEPS + 1):
            self.move(x0 + (x - x0) * step // STEPS, y0 + (y - y0) * step // STEPS)

    def button(self, state):
        self.say(POINTER, 2, now(), LEFT_BUTTON, state)
        self.say(POINTER, 4)
        time.sleep(PAUSE)


def now():
    return int(time.monotonic() * 1000)


def act(hands, words):
    """Does the first of the words, and takes it with its own words from their front."""
    word = words.pop(0)
    if word == "type":
        for character in words.pop(0):
            hands.key(character)
    elif word in ("enter", "f11"):
        hands.key(word)
    elif word == "screen":
        hands.screen = int(words.pop(0)), int(words.pop(0))
    elif word in ("move", "glide"):
        getattr(hands, word)(int(words.pop(0)), int(words.pop(0)))
    elif word in ("press", "release"):
        hands.button(int(word == "press"))
    elif word == "wait":
        time.sleep(float(words.pop(0)))
    else:
        sys.exit(f"hands.py: {word} is none of the words")


def main():
    hands = Hands(os.path.join(os.environ["XDG_RUNTIME_DIR"], os.environ["WAYLAND_DISPLAY"]))
    words = sys.argv[1:]
    while words:
        act(hands, words)


if __name__ == "__main__":
    main()
