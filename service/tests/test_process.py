"""A process of lexical, and what it may use."""
import asyncio
import gc
import os
import pathlib
import signal
import sys
import time
import unittest
from unittest import mock

from vaultsatin_service.errors import Ended, TooMuch
from vaultsatin_service.process import Process, tell
from vaultsatin_service.program import Program, module_by_node

from .support import HELLO, needs_node


class Processes(unittest.IsolatedAsyncioTestCase):
    """Programs in Python do what is asked for by their source."""

    async def begun(self, source: str) -> Process:
        """A process that runs some lines of Python."""
        process = await Process.begin(Program([sys.executable, "-c", source], "test"))
        return self.ending(process)

    def ending(self, process: Process) -> Process:
        """The process, which is ended behind the test."""
        self.addAsyncCleanup(process.gone)
        self.addCleanup(process.end)
        return process

    async def test_reply_for_each_line(self) -> None:
        process = await self.begun("import sys\nfor line in sys.stdin: print(len(line), flush=True)")
        self.assertEqual(await process.answer(b"a\nbb\n"), b"2\n3\n")
        self.assertEqual(await process.answer(b"\n"), b"1\n")
        self.assertEqual(process.taken, 6)

    async def test_end_is_told(self) -> None:
        process = await self.begun("input(); exit(3)")
        with self.assertRaises(Ended):
            await process.answer(b"a\nb\n")
        with self.assertRaises(Ended):
            await process.answer(b"a\n")

    async def test_end_before_a_line_is_no_error_of_the_worker(self) -> None:
        loop = asyncio.get_running_loop()
        loop.set_exception_handler(tell)
        process = await Process.begin(Program([sys.executable, "-c", "input()"], "test"))
        os.kill(process.pid, signal.SIGKILL)
        time.sleep(0.2)  # in which the worker hears of nothing
        with mock.patch.object(process, "_limit"), self.assertRaises(Ended):
            await process.answer(b"a\n")
        await process.gone()
        await asyncio.sleep(0.1)
        del process
        with self.assertNoLogs("asyncio"):
            gc.collect()
        with self.assertLogs("asyncio"):
            loop.call_exception_handler({"message": "another one", "exception": ValueError()})

    async def test_status_of_no_memory_is_final(self) -> None:
        process = await self.begun("input(); exit(5)")
        with self.assertRaises(TooMuch):
            await process.answer(b"a\n")

    async def test_time_is_limited(self) -> None:
        process = await self.begun("input()\nwhile True: pass")
        with self.assertRaises(TooMuch):
            await process.answer(b"a\n", seconds=0.5)

    async def test_replies_are_limited(self) -> None:
        process = await self.begun("input(); print('a' * 5000)")
        with self.assertRaises(TooMuch):
            await process.answer(b"a\n", most=4000)

    async def test_silence_is_limited(self) -> None:
        process = await self.begun("import time; time.sleep(60)")
        with mock.patch("vaultsatin_service.process.PIECE_SECONDS", 0.2), self.assertRaises(TimeoutError):
            await process.answer(b"a\n")

    @needs_node
    async def test_module_has_its_limits(self) -> None:
        process = self.ending(await Process.begin(module_by_node()))
        self.assertIn(b'{"commit":1,', await process.answer(HELLO))
        limits = pathlib.Path(f"/proc/{process.pid}/limits").read_text(encoding="ascii")
        self.assertRegex(limits, r"Max data size +1073741824 ")
        self.assertRegex(limits, r"Max file size +0 ")
