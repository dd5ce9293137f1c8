"""The frames of gdb's remote serial protocol, over a pair of file descriptors."""

from __future__ import annotations

import os
import select

INTERRUPT = b"\x03"


class Closed(Exception):
    """gdb has gone."""


class Line:
    """What comes from gdb and goes to it."""

    def __init__(self, source: int, sink: int) -> None:
        self._source = source
        self._sink = sink
        self._held = b""
        self.acknowledges = True

    def _fill(self) -> None:
        more = os.read(self._source, 65536)
        if not more:
            raise Closed
        self._held += more

    def interrupted(self) -> bool:
        """Whether an interrupt has come; it is taken."""
        while select.select([self._source], [], [], 0)[0]:
            self._fill()
        found = INTERRUPT in self._held
        self._held = self._held.replace(INTERRUPT, b"")
        return found

    def packet(self) -> str:
        """The next packet."""
        while True:
            start = self._held.find(b"$")
            end = self._held.find(b"#", start)
            if 0 <= start < end and len(self._held) >= end + 3:
                body = self._held[start + 1 : end]
                self._held = self._held[end + 3 :]
                if self.acknowledges:
                    os.write(self._sink, b"+")
                return body.decode("latin-1")
            self._fill()

    def send(self, text: str) -> None:
        """Sends a packet."""
        body = "".join("}" + chr(ord(c) ^ 0x20) if c in "$#}*" else c for c in text).encode("latin-1")
        whole = b"$" + body + b"#%02x" % (sum(body) % 256)
        while whole:
            whole = whole[os.write(self._sink, whole) :]
