"""The log, over SQLite, and over PostgreSQL where that is there."""
import asyncio
import pathlib
import signal
import tempfile
import time
import unittest
import uuid
from collections.abc import Awaitable
from unittest import mock

from vaultsatin_service.entry import START, Entry, Place
from vaultsatin_service.errors import Away, Behind
from vaultsatin_service.log import Log, Row
from vaultsatin_service.sqlite import Sqlite
from vaultsatin_service.store import Store

from .support import POSTGRES, Database, InFolder

async def wait_for(it: Awaitable[None]) -> None:
    """Anything that can be awaited, as a coroutine."""
    await it


ELSEWHERE = uuid.UUID(int=7).hex


class OverSqlite(InFolder):
    """What any log does."""

    async def add(self, place: Place, epoch: int, request: str | None = None, log: Log | None = None) -> Entry:
        """A row, with its request as its line."""
        line = (request or "epoch").encode() + b"\n"
        return await (log or self.log).append("plan", place, Row(epoch, line, line, request, "ann", None))

    async def test_rows_come_in_order(self) -> None:
        first = await self.add(START, 1, "a")
        second = await self.add(first.place, 1, "b")
        self.assertEqual([entry.place for entry in await self.log.behind("plan", START)], [first.place, second.place])
        self.assertEqual(await self.log.behind("plan", first.place), [second])
        self.assertEqual(await self.log.behind("plan", second.place), [])
        self.assertEqual(await self.log.behind("other", START), [])

    async def test_a_number_is_taken_once(self) -> None:
        first = await self.add(START, 1, "a")
        with self.assertRaises(Behind):
            await self.add(START, 1, "b")
        self.assertEqual(await self.log.behind("plan", START), [first])

    async def test_a_row_follows_only_what_is_there(self) -> None:
        first = await self.add(START, 1, "a")
        for place in (Place(1, ELSEWHERE), Place(2, first.row)):
            with self.assertRaises(Behind):
                await self.add(place, 1, "b")

    async def test_a_request_is_done_once(self) -> None:
        first = await self.add(START, 1, "a")
        with self.assertRaises(Behind):
            await self.add(first.place, 1, "a")
        self.assertEqual(await self.log.done("plan", "a"), first)
        self.assertIsNone(await self.log.done("plan", "b"))
        self.assertIsNone(await self.log.done("other", "a"))

    async def test_an_epoch_hides_what_was_before(self) -> None:
        first = await self.add(START, 1, "a")
        second = await self.add(first.place, 2)
        third = await self.add(second.place, 2, "c")
        self.assertEqual(await self.log.behind("plan", first.place), [second, third])
        self.assertEqual(await self.log.behind("plan", START), [second, third])
        self.assertEqual(await self.log.behind("plan", Place(2, ELSEWHERE)), [second, third])

    async def test_long_epoch_is_read_in_pages(self) -> None:
        place = START
        for number in range(8):
            place = (await self.add(place, 1, f"r{number}")).place
        for page in (3, 4, 8, 9):
            with mock.patch("vaultsatin_service.log.PAGE", page):
                self.assertEqual(len(await self.log.behind("plan", START)), min(page, 8))
                self.assertEqual([entry.number for entry in await self.log.epoch("plan")], list(range(1, 9)))

    async def test_large_rows_are_read_in_pages(self) -> None:
        place = START
        for number in range(8):
            place = (await self.add(place, 1, f"r{number}")).place
        for most, count in ((1, 1), (6, 1), (7, 2), (12, 2), (48, 8), (49, 8)):  # a row has six bytes
            with mock.patch("vaultsatin_service.log.PAGE_BYTES", most):
                self.assertEqual(len(await self.log.behind("plan", START)), count)
                self.assertEqual([entry.number for entry in await self.log.epoch("plan")], list(range(1, 9)))

    async def test_statement_has_an_end(self) -> None:
        with mock.patch.object(self.store, "ask", lambda *_, **__: asyncio.Event().wait()), \
                mock.patch("vaultsatin_service.log.STATEMENT_SECONDS", 0.05), self.assertRaises(Away):
            await self.log.behind("plan", START)

    async def test_last_rows_are_told_who_looks(self) -> None:
        first = await self.add(START, 1, "a")
        self.assertEqual(await self.log.lasts(["plan", "other"]), [("plan", first.row)])

    async def test_state_is_kept_with_the_last_row(self) -> None:
        first = await self.add(START, 1, "a")
        await self.log.keep("plan", first.place, b"one")
        second = await self.add(first.place, 1, "b")
        self.assertEqual([entry.is_kept for entry in await self.log.behind("plan", START)], [True, False])
        await self.log.keep("plan", second.place, b"two")
        self.assertEqual(await self.log.kept("plan", 1), (second.place, b"two"))
        self.assertEqual([entry.is_kept for entry in await self.log.behind("plan", START)], [False, True])
        with self.assertRaises(Behind):
            await self.log.keep("plan", Place(2, ELSEWHERE), b"three")
        self.assertIsNone(await self.log.kept("plan", 2))

    async def test_old_rows_go_but_for_the_last_epoch(self) -> None:
        with mock.patch("time.time", return_value=time.time() - 10 * 86400):
            first = await self.add(START, 1, "a")
            second = await self.add(first.place, 2)
            third = await self.add(second.place, 2, "c")
        self.assertEqual(await self.log.forget(11), 0)
        self.assertEqual(await self.log.forget(9), 1)
        self.assertFalse(await self.log.is_there("plan", first.place))
        self.assertEqual(await self.log.behind("plan", START), [second, third])

    async def test_who_tells_is_heard(self) -> None:
        heard: list[str] = []
        self.log.told = heard.append
        await self.add(START, 1, "a")
        self.assertEqual(heard, ["plan"])


class OneWorker(InFolder):
    """A file has one worker, and outlives it."""

    async def test_second_worker_is_refused(self) -> None:
        with mock.patch("vaultsatin_service.sqlite.BUSY_SECONDS", 0.1), self.assertRaises(Away):
            await Sqlite(self.folder / "log.sqlite").open()

    async def test_rows_are_there_after_it_was_closed(self) -> None:
        entry = await self.log.append("plan", START, Row(1, b"\n", b"\n", "a"))
        await self.store.close()
        other = Sqlite(self.folder / "log.sqlite")
        await other.open()
        self.assertEqual(await Log(other).behind("plan", START), [entry])
        await other.close()


@unittest.skipUnless(POSTGRES, "there is no PostgreSQL")
class OverPostgres(OverSqlite):
    """The same over PostgreSQL."""

    database: Database
    place: "tempfile.TemporaryDirectory[str]"

    @classmethod
    def setUpClass(cls) -> None:
        cls.place = tempfile.TemporaryDirectory(prefix="service-")
        cls.database = Database(pathlib.Path(cls.place.name))

    @classmethod
    def tearDownClass(cls) -> None:
        cls.database.stop()
        cls.place.cleanup()

    async def opened(self) -> Store:
        from vaultsatin_service.postgres import Postgres  # pylint: disable=import-outside-toplevel
        store = Postgres(self.database.address)
        await store.open()
        self.addAsyncCleanup(store.close)
        await store.ask("delete from entry returning 1")
        return store

    async def test_stopped_database_is_away_and_stops_nobody(self) -> None:
        await self.add(START, 1, "a")
        turns, ends = 0, time.monotonic() + 0.5
        self.database.send(signal.SIGSTOP)
        try:
            with mock.patch("vaultsatin_service.log.STATEMENT_SECONDS", 0.5):
                asking = asyncio.create_task(self.log.behind("plan", START))
                while time.monotonic() < ends + 0.3:
                    await asyncio.sleep(0.01)
                    turns += 1
                async with asyncio.timeout(5):
                    with self.assertRaises(Away):
                        await asking
        finally:
            self.database.send(signal.SIGCONT)
        self.assertGreater(turns, 10)
        self.assertEqual(len(await self.log.behind("plan", START)), 1)

    async def test_who_listens_begins_anew_and_says_so(self) -> None:
        heard, begun = asyncio.Queue[str](), asyncio.Queue[int]()
        with mock.patch("vaultsatin_service.postgres.LISTEN_SECONDS", 3.0):
            async with asyncio.timeout(30):
                listening = asyncio.create_task(wait_for(self.store.listen(heard.put_nowait, lambda: begun.put_nowait(1))))
                await begun.get()
                await self.log.tell(["plan"])
                self.assertEqual(await heard.get(), "plan")
                await listening  # it ends by itself
