"""The log of all documents: its rows, and who is told of new ones."""
import asyncio
import time
import uuid
from collections.abc import Callable
from typing import NamedTuple

from .bounds import in_time
from .entry import START, Entry, Place
from .errors import Behind
from .limits import FORGET_SECONDS, PAGE_BYTES, STATEMENT_SECONDS
from .statements import APPEND, BEHIND, DONE, FORGET, IS_THERE, KEEP, KEPT
from .store import Row as StoreRow
from .store import Store, Value

PAGE = 1000  # rows that are read or deleted at once


class Row(NamedTuple):
    """What a row to come has, beside its place."""

    epoch: int
    lines: bytes
    replies: bytes
    request: str | None = None
    author: str | None = None
    version: str | None = None


class Log:
    """The rows of all documents in a store. Each statement is done in time, or the store is `Away`."""

    def __init__(self, store: Store) -> None:
        self.store = store
        self.told: Callable[[str], None] = lambda _: None  # who is to hear of a new row

    async def _ask(self, statement: str, **values: Value) -> list[StoreRow]:
        async with in_time(FORGET_SECONDS if statement == FORGET else STATEMENT_SECONDS):
            return await self.store.ask(statement, **values)

    async def behind(self, document: str, place: Place) -> list[Entry]:
        """The rows that somebody at a place hasn't had, or the first of them: see `is_all`. They begin with the last
        epoch, if the log doesn't have that place, or an epoch has begun since."""
        return [_entry(row) for row in await self._ask(BEHIND, document=document, number=place.number, id=place.row,
                                                       page=PAGE, bytes=PAGE_BYTES)]

    async def epoch(self, document: str) -> list[Entry]:
        """All rows of the last epoch."""
        entries = more = await self.behind(document, START)
        while not is_all(more):
            more = await self.behind(document, entries[-1].place)
            entries = more if more and more[0].begins else entries + more  # an epoch may have begun meanwhile
        return entries

    async def done(self, document: str, request: str) -> Entry | None:
        """The row of a request, if it was done, once that row is wherever a commit has to be."""
        rows = await self._ask(DONE, document=document, request=request)
        return _entry(rows[0]) if rows else None

    async def is_there(self, document: str, place: Place) -> bool:
        """Whether the log has a row."""
        return bool(await self._ask(IS_THERE, document=document, number=place.number, id=place.row))

    async def append(self, document: str, place: Place, row: Row) -> Entry:
        """Makes the row that follows a place. It is `Behind` if another one does already, the request was done, or the
        log hasn't that place any more."""
        rows = await self._ask(APPEND, document=document, number=place.number, id=place.row, next=uuid.uuid4().hex,
                               written=int(time.time()), **row._asdict())
        if not rows:
            raise Behind(f"there is no row {place}")
        self.told(document)
        return Entry(place.number + 1, row.epoch, rows[0][0], row.lines, row.replies, row.version)

    async def keep(self, document: str, place: Place, state: bytes) -> None:
        """Keeps the state after a row with it."""
        if not await self._ask(KEEP, document=document, number=place.number, id=place.row, state=state):
            raise Behind(f"there is no row {place}")

    async def kept(self, document: str, epoch: int) -> tuple[Place, bytes] | None:
        """The last state that was kept of an epoch, and after which row."""
        rows = await self._ask(KEPT, document=document, epoch=epoch)
        return (Place(rows[0][0], rows[0][1]), rows[0][2]) if rows else None

    async def forget(self, days: float) -> int:
        """Deletes rows that are older than so many days, and before the last epoch: how many."""
        before, count = int(time.time() - days * 86400), 0
        while rows := await self._ask(FORGET, before=before, page=PAGE):
            count += len(rows)
            await asyncio.sleep(0)
        return count


    async def tell(self, documents: list[str]) -> None:
        """Tells all workers that the documents have new rows. It may be lost."""
        async with in_time(STATEMENT_SECONDS):
            await self.store.tell(documents)

    async def lasts(self, documents: list[str]) -> list[tuple[str, str]]:
        """The id of each document's last row, for whoever wasn't told."""
        async with in_time(STATEMENT_SECONDS):
            return await self.store.lasts(documents)


def is_all(entries: list[Entry]) -> bool:
    """Whether what was behind a place are all rows that were there."""
    return len(entries) < PAGE and sum(len(entry.lines) + len(entry.replies) for entry in entries) < PAGE_BYTES


def _entry(row: StoreRow) -> Entry:
    number, epoch, name, lines, replies, version, is_kept = row
    return Entry(number, epoch, name, lines, replies, version, bool(is_kept))
