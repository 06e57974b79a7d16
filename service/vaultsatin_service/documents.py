"""The documents in use, least recently used first, and how long something is tried."""
import asyncio
import logging
import random
import time
from collections.abc import Awaitable, Callable

from .document import Document, Setting
from .entry import Entry
from .errors import Ended, Late, NotNow, Refusal, TooMuch, WorthAnotherTry
from .limits import CLOSE_SECONDS, MOST_DEATHS, MOST_WAITING, QUIET_SECONDS, REQUEST_SECONDS

LOG = logging.getLogger("service.documents")
KEEP_SECONDS = 5.0  # for a state to be kept
AT_ONCE = 8  # states that are kept side by side


class Documents:
    """All documents that have a process here, or whose requests wait for one. They are never more than `most`."""

    def __init__(self, setting: Setting, most: int, idle_seconds: float) -> None:
        self.setting, self.most, self.idle_seconds = setting, most, idle_seconds
        self._documents: dict[str, Document] = {}
        self._tasks: set[asyncio.Task[None]] = set()
        self._turns = asyncio.Semaphore(AT_ONCE)
        self._left = asyncio.Event()  # set when there is room for another document

    @property
    def count(self) -> int:
        """How many have a process."""
        return sum(document.run is not None for document in self._documents.values())

    async def use(self, name: str, act: Callable[[Document], Awaitable[Entry]]) -> Entry:
        """Does something with a document, one request after the other."""
        document = None
        try:
            async with asyncio.timeout(REQUEST_SECONDS):
                document = await self._enter(name)
                async with document.lock:
                    return await self._insist(document, act)
        except TimeoutError:
            raise Late("it takes too long; nothing is done twice if it is asked again") from None
        finally:
            if document:
                document.used_at = time.monotonic()
                self._leave(document)
                self._close_excess()

    async def _enter(self, name: str) -> Document:
        """The document, with one more user, once there is room for it."""
        while name not in self._documents and len(self._documents) >= self.most:
            self._left.clear()
            self._close_excess()
            await self._left.wait()
        document = self._documents.pop(name, None) or Document(name, self.setting)
        self._documents[name] = document  # as the last one
        if document.users >= MOST_WAITING:
            raise NotNow("too many requests wait for this document")
        document.users += 1
        return document

    async def _insist(self, document: Document, act: Callable[[Document], Awaitable[Entry]]) -> Entry:
        """Tries again with a new process where that may help."""
        deaths, pause = 0, 0.05
        while True:
            try:
                return await act(document)
            except Refusal as error:
                if isinstance(error, (TooMuch, NotNow)):
                    document.end()
                raise
            except WorthAnotherTry as error:
                document.end()  # it may be ahead of the log
                deaths += isinstance(error, Ended)
                if deaths == MOST_DEATHS:
                    raise TooMuch(str(error)) from error
                kind, why = type(error).__name__, str(error).partition("\n")[0]
                self.setting.metrics.count("replays_total", why=kind)
                LOG.info("again", extra={"document": document.name, "kind": kind, "why": why})
            except BaseException:
                document.end()
                raise
            await asyncio.sleep(random.uniform(0, pause))
            pause = min(1.0, 1.2 * pause)

    def _leave(self, document: Document) -> None:
        document.users -= 1
        if not document.users and not document.run and self._documents.get(document.name) is document:
            del self._documents[document.name]
            self._left.set()

    def _close_excess(self) -> None:
        """Closes those that weren't used for longest, so that there is room for another one."""
        idle = [document for document in self._documents.values() if not document.users]
        for document in idle[:max(0, len(self._documents) + 1 - self.most)]:
            self._later(document, self._close)

    def _later(self, document: Document, act: Callable[[Document], Awaitable[None]]) -> None:
        document.users += 1  # so that nothing else is begun with it
        task = asyncio.create_task(self._in_turn(document, act))
        self._tasks.add(task)
        task.add_done_callback(self._tasks.discard)

    async def _in_turn(self, document: Document, act: Callable[[Document], Awaitable[None]]) -> None:
        try:
            async with self._turns, document.lock:
                await act(document)
        finally:
            self._leave(document)

    async def _close(self, document: Document) -> None:
        await self._keep(document)
        document.end()

    async def _keep(self, document: Document) -> None:
        """Keeps the state. Where that fails, the process is ended: its place in the log may be lost."""
        try:
            async with asyncio.timeout(KEEP_SECONDS):
                await document.keep()
        except (TimeoutError, Refusal, RuntimeError, WorthAnotherTry) as error:
            LOG.info("not kept", extra={"document": document.name, "why": str(error).partition("\n")[0]})
            document.end()
        except BaseException:
            document.end()
            raise

    async def look_after(self) -> None:
        """Keeps the states of documents that are quiet, and closes those that nobody uses."""
        while True:
            await asyncio.sleep(1)
            now = time.monotonic()
            for document in [it for it in self._documents.values() if not it.users]:
                if now - document.used_at > self.idle_seconds:
                    self._later(document, self._close)
                elif now - document.used_at > QUIET_SECONDS and document.run and not document.run.is_kept:
                    self._later(document, self._keep)

    async def close(self) -> None:
        """Keeps all states, and ends all processes. Those that take too long aren't kept."""
        documents = list(self._documents.values())
        for document in documents:
            self._later(document, self._close)
        if self._tasks:
            _, slow = await asyncio.wait(self._tasks, timeout=CLOSE_SECONDS)
            for task in slow:
                task.cancel()
            await asyncio.gather(*slow, return_exceptions=True)
        for document in documents:
            document.end()
