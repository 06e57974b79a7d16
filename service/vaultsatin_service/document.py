"""A document as a worker has it: what is asked of it is done by a run, once that has done what the log has."""
import asyncio
import logging
import re
import time
from collections import deque
from dataclasses import dataclass

from .entry import START, Entry, Place, registering
from .errors import Behind, NoDocument, NotNow, Refusal, TooMuch, Unseen
from .limits import MOST_INPUT, MOST_RULES, MOST_SECONDS, RECENT_REQUESTS
from .log import Log, Row, is_all
from .metrics import Metrics
from .program import Program
from .run import FLUSH, Run

LOG = logging.getLogger("service.document")
NO_KEYS = b'{"refused":{"cause":"TooLarge","code":11,"detail":["key",'
REFUSED_LOAD = re.compile(rb'\{"refused":\{"cause":"(?!EmptyState)')


@dataclass(frozen=True)
class Asked:
    """A request: its name, its lines, and what its client has drawn."""

    request: str
    lines: bytes
    seen: Place
    is_exact: bool = False
    author: str | None = None


@dataclass(frozen=True)
class Setting:
    """What all documents of a worker share."""

    program: Program
    log: Log
    metrics: Metrics
    epoch_bytes: int = 1 << 22  # of lines after which an epoch ends
    passes_over: bool = False  # whether rows may be passed over that no kept state has


class Document:
    """Whoever uses it holds its lock, and ends it where an error leaves the process ahead of the log."""

    def __init__(self, name: str, setting: Setting) -> None:
        self.name, self.setting = name, setting
        self.run: Run | None = None
        self.lock = asyncio.Lock()
        self.users = 0  # who have the lock, or wait for it
        self.used_at = time.monotonic()
        self._recent: deque[str] = deque(maxlen=RECENT_REQUESTS)  # requests that were done here

    def end(self) -> None:
        """Ends the process."""
        if self.run:
            self.run.end()
        self.run = None

    async def do(self, asked: Asked) -> Entry:
        """Does lines, unless the request was done before. A client has to have seen the epoch, since keys mean nothing
        in another, or all that there is, if its offsets are to be exact. Lines that saw nothing begin a document."""
        run = self.run
        is_sure = run is None or asked.request in self._recent or not await self._has_seen(run, asked)
        if run is None or is_sure:  # else it is tried at once: the database refuses what was done, or comes too late
            run = await self._catch_up(may_begin=asked.seen == START)
            if done := await self._done(asked):
                return done
        if run.process.taken + len(asked.lines) > MOST_INPUT:
            run = await self._end_epoch(run)
        if not await self._has_seen(run, asked):
            raise Unseen(f"the last epoch goes from {run.epoch} to {run.place.number}")
        try:
            entry = await self._append(run, asked)
        except TooMuch as error:
            if is_sure:
                raise
            raise Behind(str(error)) from error  # it may have been done
        self._recent.append(asked.request)
        if run.is_long(self.setting.epoch_bytes) or NO_KEYS in entry.replies:
            await self._end_epoch_behind(run)
        return entry

    async def end_epoch(self, seen: Place) -> Entry:
        """Lets a new process begin with the document, the rules and the listeners, unless one has begun since."""
        run = await self._catch_up()
        if run.epoch <= seen.number:
            run = await self._end_epoch(run)
        return Entry(run.place.number, run.epoch, run.place.row, b"", b"")

    async def ask(self, question: bytes) -> Entry:
        """An answer that isn't kept."""
        run = await self._catch_up()
        if run.process.taken + len(question) > MOST_INPUT:
            self.end()  # the log has none of the questions
            run = await self._catch_up()
        return Entry(run.place.number, run.epoch, run.place.row, question, await run.question(question))

    async def keep(self) -> None:
        """Keeps the state in the log, for a program of another version to begin with."""
        if self.run and not self.run.is_kept:
            await self.setting.log.keep(self.name, self.run.place, await self.run.state())
            self.run.is_kept = True
            self.setting.metrics.count("kept_total")

    async def _catch_up(self, may_begin: bool = False) -> Run:
        """Lets the process do what it hasn't done of the log, or a new one the last epoch. So a document may begin."""
        while True:
            behind = await self.setting.log.behind(self.name, self.run.place if self.run else START)
            if behind and behind[0].begins or may_begin and self.run is None:
                await self._begin()
            if self.run is None:
                raise NoDocument("there is no such document")
            if behind and not await self.run.repeat(behind):
                return await self._begin_otherwise()
            if is_all(behind):
                return self.run

    async def _begin(self) -> Run:
        self.end()
        self.run = await Run.begin(self.setting.program, self.setting.metrics)
        return self.run

    async def _has_seen(self, run: Run, asked: Asked) -> bool:
        """Whether the client has drawn what it has to."""
        if asked.is_exact:
            return asked.seen == run.place
        had = run.has_had(asked.seen)
        return await self.setting.log.is_there(self.name, asked.seen) if had is None else had

    async def _done(self, asked: Asked) -> Entry | None:
        """The request's row. It is looked for after those behind were read: whoever is told 409 then, wasn't done."""
        done = await self.setting.log.done(self.name, asked.request)
        if done and done.lines != asked.lines:
            raise Refusal("a request of that name had other lines")
        return done

    async def _append(self, run: Run, asked: Asked) -> Entry:
        """Has lines answered, and makes the next row of them."""
        replies = await run.answer(asked.lines)
        if len(run.rules) + len(registering(asked.lines, replies)) > MOST_RULES:
            raise TooMuch("the rules and listeners are too long")
        version = None if run.epoch else self.setting.program.version
        row = Row(run.epoch or 1, asked.lines, replies, asked.request, asked.author, version)
        with self.setting.metrics.timed("log"):
            entry = await self.setting.log.append(self.name, run.place, row)
        run.take(entry)
        return entry

    async def _end_epoch(self, run: Run) -> Run:
        """What was gathered is committed. The run ends here: it has done a line that the log doesn't have."""
        await run.question(FLUSH)
        return await self._begin_epoch(run.place, await run.state(), run.rules)

    async def _end_epoch_behind(self, run: Run) -> None:
        """Ends the epoch behind a request that is done: whatever comes of it, its client is told that."""
        try:
            await self._end_epoch(run)
        except (Refusal, RuntimeError) as error:
            LOG.error("an epoch can't end", extra={"document": self.name, "why": str(error)})
            self.end()

    async def _begin_epoch(self, place: Place, state: bytes, rules: bytes) -> Run:
        """The load comes first. So a rule that never rests, at a state which an undo brought back, is only refused."""
        lines = b'{"load":%b}\n%b' % (state, rules)
        run = await self._begin()
        replies = await run.answer(lines, 2 * MOST_SECONDS)
        if REFUSED_LOAD.match(replies):
            raise RuntimeError(f"{self.name}: the document can't begin anew: {replies[:200]!r}")
        row = Row(place.number + 1, lines, replies, version=self.setting.program.version)
        run.take(await self.setting.log.append(self.name, place, row))
        run.seconds = 0.0
        self.setting.metrics.count("epochs_total")
        return run

    async def _begin_otherwise(self) -> Run:
        """Begins an epoch where the program, being of another version, doesn't answer the last one as it was answered.
        It loads the last state that was kept. Rows behind that are passed over only where that was asked for."""
        entries = await self.setting.log.epoch(self.name)
        first, last = entries[0], entries[-1]
        place, state = await self.setting.log.kept(self.name, first.epoch) or (START, b"")
        details = {"document": self.name, "version": first.version, "kept": str(place), "last": str(last.place)}
        if place == START or place != last.place and not self.setting.passes_over:
            LOG.error("a program of another version has to keep the state first", extra=details)
            raise NotNow(f"the program of version {first.version} has to keep the document's state first")
        LOG.warning("an epoch is answered otherwise, and ended", extra=details)
        rules = b"".join(registering(entry.lines, entry.replies) for entry in entries)
        return await self._begin_epoch(last.place, state, rules)
