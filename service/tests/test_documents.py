"""The documents in use: how many there are, and how long somebody waits for one."""
import asyncio
from unittest import mock

from vaultsatin_service.document import Document, Setting
from vaultsatin_service.documents import Documents
from vaultsatin_service.entry import Entry
from vaultsatin_service.errors import Late, NotNow
from vaultsatin_service.run import STATE

from .support import HELLO, InFolder, asked, stand_in


class InUse(InFolder):
    """Over a program that takes no time to begin."""

    async def asyncSetUp(self) -> None:
        await super().asyncSetUp()
        self.documents = Documents(Setting(stand_in(), self.log, self.metrics), 2, 600)
        self.addAsyncCleanup(self.documents.close)
        self.go_on = asyncio.Event()

    async def hold(self, document: Document) -> Entry:
        """Uses a document until it is told to go on."""
        await document.do(asked("a"))
        await self.go_on.wait()
        return await document.ask(STATE)

    async def held(self, *names: str) -> list[asyncio.Task[Entry]]:
        """Documents that somebody uses."""
        tasks = [asyncio.create_task(self.documents.use(name, self.hold)) for name in names]
        async with asyncio.timeout(30):
            while self.documents.count < len(names):
                await asyncio.sleep(0.01)
        return tasks

    async def test_processes_are_never_more(self) -> None:
        held = await self.held("a", "b")
        third = asyncio.create_task(self.documents.use("c", lambda document: document.do(asked("a", HELLO))))
        await asyncio.sleep(0.2)
        self.assertEqual((third.done(), self.documents.count), (False, 2))
        self.go_on.set()
        async with asyncio.timeout(30):
            await asyncio.gather(*held, third)
        self.assertLessEqual(self.documents.count, 2)

    async def test_who_finds_no_room_is_told_so(self) -> None:
        held = await self.held("a", "b")
        with mock.patch("vaultsatin_service.documents.REQUEST_SECONDS", 0.2), self.assertRaises(Late):
            await self.documents.use("c", lambda document: document.do(asked("a", HELLO)))
        self.go_on.set()
        await asyncio.gather(*held)

    async def test_few_wait_for_a_document(self) -> None:
        held = await self.held("a")
        with mock.patch("vaultsatin_service.documents.MOST_WAITING", 1), self.assertRaises(NotNow):
            await self.documents.use("a", lambda document: document.ask(STATE))
        self.go_on.set()
        await asyncio.gather(*held)

    async def test_end_comes_though_states_cannot_be_kept(self) -> None:
        await self.documents.use("a", lambda document: document.do(asked("a", HELLO)))
        with mock.patch.object(self.log, "keep", lambda *_: asyncio.Event().wait()), \
                mock.patch("vaultsatin_service.documents.CLOSE_SECONDS", 0.2):
            async with asyncio.timeout(3):
                await self.documents.close()
        self.assertEqual(self.documents.count, 0)
