"""A worker as a process of its own: how it begins, and how it ends."""
import asyncio
import contextlib
import json
import os
import pathlib
import signal
import unittest
from asyncio.subprocess import DEVNULL, PIPE, Process

import aiohttp

from .support import HELLO, HERE, InFolder, needs_node

LAST = b'{"update":[{"append":"the last"}]}\n'


def send(worker: Process, what: signal.Signals) -> None:
    """Sends a signal to the programs of a worker."""
    for process in pathlib.Path(f"/proc/{worker.pid}/task/{worker.pid}/children").read_text(encoding="ascii").split():
        os.kill(int(process), what)


def kill(worker: Process) -> None:
    """Ends a worker that a test has left."""
    with contextlib.suppress(ProcessLookupError):
        worker.kill()


@needs_node
class Ending(InFolder):
    """By SIGTERM, as service managers do it."""

    async def begun(self) -> tuple[Process, str]:
        """A worker, and its address."""
        worker = await asyncio.create_subprocess_exec(
            str(HERE.parent / "run"), "--core", "--port", "0", "--file", str(self.folder / "worker.sqlite"), stdout=DEVNULL, stderr=PIPE)
        self.addCleanup(kill, worker)
        assert worker.stderr
        async for line in worker.stderr:
            told = json.loads(line)
            if told["event"] == "listening":
                return worker, told["address"]
        raise AssertionError("the worker has ended")

    async def post(self, address: str, request: str, seen: str, lines: bytes) -> str:
        """The entry of a request that is answered."""
        async with aiohttp.ClientSession() as session, session.post(
                f"{address}/documents/plan/lines", params={"request": request, "seen": seen}, data=lines,
                headers={"Content-Type": "application/x-ndjson"}) as response:
            self.assertEqual(response.status, 200)
            self.assertEqual((await response.read()).count(b"\n"), lines.count(b"\n"))
            return response.headers["Entry"]

    async def test_request_under_way_is_answered_and_kept(self) -> None:
        worker, address = await self.begun()
        first = await self.post(address, "a", "0", HELLO)
        send(worker, signal.SIGSTOP)  # so that the request takes as long as the test wants
        slow = asyncio.create_task(self.post(address, "b", first, LAST))
        await asyncio.sleep(0.5)
        worker.send_signal(signal.SIGTERM)
        await asyncio.sleep(0.5)
        self.assertFalse(slow.done())
        send(worker, signal.SIGCONT)
        second = await slow
        assert worker.stderr
        told = [json.loads(line) async for line in worker.stderr]
        self.assertEqual((await worker.wait(), told[-1]["event"]), (0, "ended"))
        worker, address = await self.begun()
        await self.post(address, "c", second, HELLO)
        worker.kill()
        await worker.wait()
        (state,) = await self.state_of(2)
        self.assertIn(b"the last", state)

    async def state_of(self, number: int) -> tuple[bytes]:
        """The state that was kept with a row."""
        from vaultsatin_service.sqlite import Sqlite  # pylint: disable=import-outside-toplevel
        store = Sqlite(pathlib.Path(self.folder / "worker.sqlite"))
        await store.open()
        rows = await store.ask("select state from entry where number = :number", number=number)
        await store.close()
        return (rows[0][0],)


if __name__ == "__main__":
    unittest.main()
