"""A process in an epoch of a document, and how far in the log it has come."""
from collections import deque

from .entry import START, Entry, Place, registering
from .limits import MOST_EPOCH_REPLIES, MOST_SECONDS, RECENT_ROWS
from .metrics import Metrics
from .process import Process
from .program import Program

STATE, STATE_HEAD = b'{"show":"state"}\n', b'{"state":'
FLUSH = b'{"flush":true}\n'


class Run:
    """What a process has done. It is at a row of the log. Whoever lets it do more ends it, unless the log gets that."""

    def __init__(self, process: Process, metrics: Metrics) -> None:
        self.process, self._metrics = process, metrics
        self.place, self.epoch, self.version = START, 0, ""
        self.is_kept = True  # whether the log has the state
        self.rules = b""
        self.seconds = 0.0  # of processor time, of the epoch
        self._rows: deque[Place] = deque(maxlen=RECENT_ROWS)
        self._lines, self._replies = 0, 0  # bytes of the epoch, without its first row

    @classmethod
    async def begin(cls, program: Program, metrics: Metrics) -> "Run":
        """A new process, which has done nothing."""
        return cls(await Process.begin(program), metrics)

    def end(self) -> None:
        """Ends the process. Nothing is lost: the log has all that was answered."""
        self.process.end()

    async def answer(self, lines: bytes, seconds: float = MOST_SECONDS) -> bytes:
        """The replies to lines that may become the next row."""
        before = self.process.used()
        with self._metrics.timed("program"):
            replies = await self.process.answer(lines, seconds)
        self.seconds += self.process.used() - before
        return replies

    async def question(self, line: bytes) -> bytes:
        """The reply to a line that changes nothing, and becomes no row."""
        with self._metrics.timed("program"):
            return await self.process.answer(line)

    async def state(self) -> bytes:
        """The document, as it is stored."""
        reply = await self.question(STATE)
        if not reply.startswith(STATE_HEAD):
            raise RuntimeError(f"the state isn't shown: {reply[:200]!r}")
        return reply[len(STATE_HEAD):-len(b"}\n")]

    async def repeat(self, entries: list[Entry]) -> bool:
        """Does what the log has: whether the replies are the same."""
        before = self.process.used()
        replies = await self.process.answer(b"".join(entry.lines for entry in entries), 8 * MOST_SECONDS,
                                            2 * MOST_EPOCH_REPLIES)
        self.seconds += self.process.used() - before
        if replies != b"".join(entry.replies for entry in entries):
            return False
        for entry in entries:
            self.take(entry)
        return True

    def take(self, entry: Entry) -> None:
        """Says that the process has done the entry, and the log has it."""
        self.place, self.epoch, self.is_kept = entry.place, entry.epoch, entry.is_kept
        self._rows.append(entry.place)
        self.rules += registering(entry.lines, entry.replies)
        if entry.begins:
            self.version = entry.version or ""
        else:
            self._lines += len(entry.lines)
            self._replies += len(entry.replies)

    def has_had(self, place: Place) -> bool | None:
        """Whether a row of the epoch is at that place; None where only the log can tell."""
        if place == self.place:
            return True
        if not self.epoch <= place.number < self.place.number:
            return False
        first = self._rows[0].number
        return place in self._rows if place.number >= first else None

    def is_long(self, most_lines: int) -> bool:
        """Whether whoever opens the document would have to do too much again."""
        return self._lines > most_lines or self._replies > MOST_EPOCH_REPLIES or self.seconds > MOST_SECONDS
