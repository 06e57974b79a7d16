"""The rows of the log."""
import json
import re
from typing import NamedTuple

from .errors import Refusal

REGISTERS = re.compile(rb"rule|listener|\\u")
PLACE = re.compile(r"0|([1-9][0-9]{0,17})\.([0-9a-f]{32})")


class Place(NamedTuple):
    """Which row of a document's log. A number doesn't say that: where a database lost rows, numbers come again."""

    number: int
    row: str

    def __str__(self) -> str:
        return f"{self.number}.{self.row}" if self.number else "0"

    @classmethod
    def read(cls, text: str) -> "Place":
        """The place that a client names, as it was told it."""
        found = PLACE.fullmatch(text)
        if not found:
            raise Refusal("a place is 0, or a number, a point and 32 hexadecimal digits")
        return cls(int(found[1]), found[2]) if found[1] else START


START = Place(0, "")  # before the first row


class Entry(NamedTuple):
    """A row of the log."""

    number: int
    epoch: int
    row: str
    lines: bytes
    replies: bytes
    version: str | None = None  # of the program that began the epoch, in its first row
    is_kept: bool = False  # whether the row has the document's state

    @property
    def place(self) -> Place:
        """Where it is in the log."""
        return Place(self.number, self.row)

    @property
    def begins(self) -> bool:
        """Whether an epoch begins with it."""
        return self.number == self.epoch

    def event(self) -> bytes:
        """The entry as a server-sent event. One that begins an epoch draws the document from nothing."""
        kind = b"event: begin\n" if self.begins else b""
        data = self.replies[:-1].replace(b"\n", b"\ndata: ")
        return b"id: %b\n%bdata: %b\n\n" % (str(self.place).encode(), kind, data)


def registering(lines: bytes, replies: bytes) -> bytes:
    """Those of the lines that registered a rule or a listener. Numbers aren't read: Python refuses long ones."""
    if not REGISTERS.search(lines):
        return b""
    pairs = zip(lines.split(b"\n"), replies.split(b"\n")[:-1])
    return b"".join(line + b"\n" for line, reply in pairs
                    if REGISTERS.search(line) and not reply.startswith(b'{"refused"')
                    and {"rule", "listener"} & json.loads(line, parse_int=len).keys())
