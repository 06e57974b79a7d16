"""Readers, and what they get."""
import asyncio
from collections.abc import AsyncIterator, Callable, Coroutine
from unittest import mock

from vaultsatin_service.entry import START, Entry, Place
from vaultsatin_service.errors import NotNow
from vaultsatin_service.log import Row
from vaultsatin_service.readers import Readers
from vaultsatin_service.store import Hear

from .support import InFolder


class Following(InFolder):
    """Readers of a log that grows."""

    async def asyncSetUp(self) -> None:
        await super().asyncSetUp()
        self.readers = Readers(self.log, look_seconds=3.0)
        self.log.told = self.readers.told
        tasks = [asyncio.create_task(it) for it in (self.readers.tell(), self.readers.listen())]
        for task in tasks:
            self.addCleanup(task.cancel)
        await asyncio.sleep(0)

    async def add(self, place: Place, epoch: int, request: str) -> Entry:
        """A row."""
        return await self.log.append("plan", place, Row(epoch, b"\n", b"{}\n", request))

    async def next(self, follow: AsyncIterator[Entry | None]) -> Entry | None:
        """What comes next."""
        return await anext(follow)

    async def test_reader_gets_what_is_there_and_what_comes(self) -> None:
        first = await self.add(START, 1, "a")
        follow = self.readers.follow("plan", START)
        self.assertEqual(await anext(follow), first)
        waiting = asyncio.create_task(self.next(follow))
        await asyncio.sleep(0.05)
        second = await self.add(first.place, 1, "b")
        async with asyncio.timeout(2.5):  # woken, rather than by itself
            got = await waiting
            while got is None:
                got = await anext(follow)
        self.assertEqual(got, second)

    async def test_reader_of_a_lost_row_begins_anew(self) -> None:
        first = await self.add(START, 1, "a")
        follow = self.readers.follow("plan", Place(1, "0" * 32))
        self.assertEqual(await anext(follow), first)

    async def test_reader_hears_that_nothing_came(self) -> None:
        follow = self.readers.follow("plan", START)
        self.assertIsNone(await anext(follow))

    async def test_reader_asks_only_where_there_is_news(self) -> None:
        first = await self.add(START, 1, "a")
        self.readers = Readers(self.log, look_seconds=0.05)
        with mock.patch.object(self.log, "behind", wraps=self.log.behind) as behind:
            follow = self.readers.follow("plan", first.place)
            for _ in range(3):
                self.assertIsNone(await anext(follow))
            self.assertEqual(behind.call_count, 1)

    async def test_row_that_nobody_told_is_found(self) -> None:
        first = await self.add(START, 1, "a")
        self.log.told = lambda _: None
        self.readers = Readers(self.log, look_seconds=0.1)
        self.look(self.readers.look())
        second = await self.add(first.place, 1, "b")
        follow = self.readers.follow("plan", first.place)
        self.assertEqual(await anext(follow), second)
        third = await self.add(second.place, 1, "c")
        async with asyncio.timeout(10):
            while (got := await anext(follow)) is None:
                pass
        self.assertEqual(got, third)

    async def test_who_listens_again_looks_at_once(self) -> None:
        first = await self.add(START, 1, "a")
        begun: list[Callable[[], None]] = []

        async def listen(_: Hear, begin: Callable[[], None]) -> None:
            begun.append(begin)
            await asyncio.Event().wait()

        self.log.told = lambda _: None
        self.readers = Readers(self.log, look_seconds=600)
        with mock.patch.object(self.store, "listen", listen):
            self.look(self.readers.look())
            self.look(self.readers.listen())
            follow = self.readers.follow("plan", first.place)
            waiting = asyncio.create_task(self.next(follow))
            await asyncio.sleep(0.1)
            second = await self.add(first.place, 1, "b")
            begun[0]()
            async with asyncio.timeout(10):
                self.assertIsNone(await waiting)
                self.assertEqual(await anext(follow), second)

    async def test_readers_are_limited(self) -> None:
        follow = self.readers.follow("plan", START)
        self.assertIsNone(await anext(follow))
        with mock.patch("vaultsatin_service.readers.MOST_READERS", 1), self.assertRaises(NotNow):
            self.readers.follow("plan", START)

    def look(self, act: Coroutine[None, None, None]) -> None:
        """Something goes on beside the test."""
        self.addCleanup(asyncio.create_task(act).cancel)

    async def test_readers_leave_at_the_end(self) -> None:
        follow = self.readers.follow("plan", START)
        waiting = asyncio.create_task(self.next(follow))
        await asyncio.sleep(0.05)
        self.assertEqual(self.readers.count, 1)
        self.readers.end()
        self.assertIsNone(await waiting)
        self.assertEqual([entry async for entry in follow], [])
        self.assertEqual(self.readers.count, 0)
