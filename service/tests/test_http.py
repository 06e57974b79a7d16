"""The whole worker, over HTTP: addresses, statuses and headers."""
import asyncio
import gzip
import re
from collections.abc import AsyncIterator
from unittest import mock

from aiohttp import ClientResponse
from aiohttp.test_utils import TestClient, TestServer

from vaultsatin_service.application import Worker
from vaultsatin_service.bounds import Room
from vaultsatin_service.program import module_by_node
from vaultsatin_service.words import words_of

from .support import HELLO, InFolder, needs_node

HEADERS = {"Content-Type": "application/x-ndjson"}


async def event_of(response: ClientResponse) -> bytes:
    """The next event."""
    lines: list[bytes] = []
    async for line in response.content:
        if line == b"\n":
            break
        if not line.startswith(b":"):
            lines.append(line)
    return b"".join(lines)


@needs_node
class OverHttp(InFolder):
    """One worker with its log in a file."""

    async def asyncSetUp(self) -> None:
        await super().asyncSetUp()
        page = self.folder / "page"
        page.mkdir()
        (page / "shared.html").write_text("a page", encoding="utf-8")
        words = words_of(["--core", "--file", str(self.folder / "worker.sqlite"), "--page", str(page),
                          "--user-header", "X-User", "--read-only-header", "X-Read-Only"])
        self.worker = Worker(words, module_by_node())
        self.client = TestClient(TestServer(self.worker.application()))
        await self.client.start_server()
        self.addAsyncCleanup(self.client.close)

    async def post(self, request: str, seen: str, lines: bytes = HELLO, **more: str) -> ClientResponse:
        """A request with lines."""
        headers = {**HEADERS, **{name.replace("_", "-"): value for name, value in more.items()}}
        query = {"request": request, "seen": seen}
        return await self.client.post("/documents/plan/lines", params=query, data=lines, headers=headers)

    async def test_lines_are_answered_and_shown(self) -> None:
        first = await self.post("a", "0")
        self.assertEqual((first.status, first.headers["Epoch"]), (200, "1"))
        self.assertRegex(first.headers["Entry"], r"^1\.[0-9a-f]{32}$")
        self.assertIn('{"commit":1,', await first.text())
        again = await self.post("a", "0")
        self.assertEqual((again.headers["Entry"], await again.read()), (first.headers["Entry"], await first.read()))
        state = await self.client.get("/documents/plan/state")
        self.assertEqual((await state.json())["root"]["children"][0]["children"][0]["text"], "Hello")
        html = await self.client.get("/documents/plan/html")
        self.assertIn(">Hello</span>", await html.text())
        self.assertEqual(html.headers["Content-Security-Policy"], "sandbox; default-src 'none'")

    async def test_statuses(self) -> None:
        first = await self.post("a", "0")
        seen = first.headers["Entry"]
        answers = [
            (400, await self.post("a b", seen)), (400, await self.post("b", "1")), (400, await self.post("a", seen, b"{}")),
            (409, await self.post("b", "0")), (415, await self.post("b", seen, Content_Type="text/plain")),
            (403, await self.post("b", seen, X_Read_Only="1")), (400, await self.post("b", seen, X_User="a" * 201)),
            (413, await self.post("b", seen, b" " * (1 << 22))), (404, await self.client.get("/documents/other/state")),
            (404, await self.client.get("/documents/Plan/state")), (405, await self.client.post("/documents/plan/state")),
            (400, await self.client.get("/documents/plan/events?after=1")),
            (400, await self.client.post("/documents/plan/lines?request=b&exact=true", data=HELLO, headers=HEADERS)),
            (415, await self.post("b", seen, gzip.compress(HELLO), Content_Encoding="gzip"))]
        self.assertEqual([status for status, _ in answers], [answer.status for _, answer in answers])
        self.assertEqual((await self.post("b", seen, X_Read_Only="0")).status, 200)

    async def test_headers_that_a_client_adds_give_it_nothing(self) -> None:
        url, query = "/documents/plan/lines", {"request": "a", "seen": "0"}
        for status, name in ((403, "X-Read-Only"), (400, "X-User")):
            twice = [*HEADERS.items(), (name, "0"), (name, "ann")]
            async with self.client.post(url, params=query, data=HELLO, headers=twice) as response:
                self.assertEqual(response.status, status)

    async def test_body_has_to_come(self) -> None:
        async def slow() -> AsyncIterator[bytes]:
            yield b'{"upd'
            await asyncio.sleep(1)

        with mock.patch("vaultsatin_service.handlers.BODY_SECONDS", 0.1):
            async with self.client.post("/documents/plan/lines", params={"request": "a", "seen": "0"}, data=slow(),
                                        headers=HEADERS) as response:
                self.assertEqual(response.status, 408)

    async def test_bodies_are_limited_together(self) -> None:
        with mock.patch.object(Room, "taken", Room(10, "bytes of requests").taken):
            self.assertEqual((await self.post("a", "0")).status, 503)

    async def test_compressed_body_stays_so(self) -> None:
        body = gzip.compress(b"a" * (1 << 24))
        response = await self.post("a", "0", body, Content_Encoding="identity")
        self.assertEqual((response.status, b"BadLine" in await response.read()), (200, True))

    async def test_user_is_in_the_row(self) -> None:
        await self.post("a", "0", X_User="Ann Lee")
        rows = await self.worker.store.ask("select author from entry")
        self.assertEqual(rows, [("Ann Lee",)])

    async def test_events_come(self) -> None:
        first = await self.post("a", "0")
        async with self.client.get("/documents/plan/events") as events:
            self.assertEqual(events.headers["Content-Type"], "text/event-stream")
            event = await event_of(events)
            self.assertIn(b"event: begin\n", event)
            second = await self.post("b", first.headers["Entry"])
            async with asyncio.timeout(10):
                event = await event_of(events)
            self.assertEqual(event.decode(), f"id: {second.headers['Entry']}\ndata: {await second.text()}")

    async def test_epoch_is_begun(self) -> None:
        first = await self.post("a", "0")
        epoch = await self.client.put("/documents/plan/epoch", params={"seen": first.headers["Entry"]})
        self.assertEqual((epoch.status, epoch.headers["Epoch"]), (200, "2"))
        self.assertEqual((await self.post("b", first.headers["Entry"])).status, 409)

    async def test_health_and_metrics(self) -> None:
        await self.post("a", "0", HELLO + b"{}\n")
        self.assertEqual(await (await self.client.get("/health")).text(), "1 documents\n")
        text = await (await self.client.get("/metrics")).text()
        for told in ('requests_total{kind="POST lines",status="200"} 1', "open_documents 1",
                     'refusals_total{cause="BadCommand"} 1', 'parts_total{part="log"} 1'):
            self.assertRegex(text, f"(?m)^vaultsatin_{re.escape(told)}$")

    async def test_page_is_served(self) -> None:
        self.assertEqual(await (await self.client.get("/")).text(), "a page")
        self.assertEqual((await self.client.get("/page/../worker.sqlite")).status, 404)

    async def test_documents_in_excess_are_closed_and_kept(self) -> None:
        self.worker.documents.most = 1
        first = await self.post("a", "0")
        for _ in range(100):
            if not self.worker.documents.count:
                break
            await asyncio.sleep(0.1)
        self.assertEqual(self.worker.documents.count, 0)
        rows = await self.worker.store.ask("select state from entry")
        self.assertIn(b"Hello", rows[0][0])
        self.assertEqual((await self.post("b", first.headers["Entry"])).status, 200)
