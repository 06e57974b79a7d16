"""The parts of the check that say what is wrong, and to whom it may do harm."""
import asyncio
import importlib.util
import pathlib
import subprocess
import sys
import tempfile
import time
import unittest
from unittest import mock

import aiohttp

from checking.proof import CLOSING, HEAD, Row, faults
from checking.trial import RULES, Asked, Trial, Worker

from .support import HELLO, stand_in

HAS_PSYCOPG = importlib.util.find_spec("psycopg") is not None
FORKS = """import os, subprocess, time
os.fork() or time.sleep(60)
it = subprocess.Popen(['sleep', '60'])
print(it.pid, flush=True)
time.sleep(60)
"""


class Harm(unittest.TestCase):
    """What may be killed, and stopped."""

    @unittest.skipUnless(HAS_PSYCOPG, "there is no psycopg")
    def test_a_fork_that_is_no_program_yet_is_let_alone(self) -> None:
        from checking.cluster import children, programs, send  # pylint: disable=import-outside-toplevel
        with subprocess.Popen([sys.executable, "-c", FORKS], stdout=subprocess.PIPE) as worker:
            assert worker.stdout
            program = int(worker.stdout.readline())
            some = children(worker.pid)
            try:
                self.assertEqual((len(some), programs(worker.pid)), (2, [program]))
            finally:
                send([worker.pid, *some])


class Telling(unittest.IsolatedAsyncioTestCase):
    """What is said of a worker, and of a request without an answer."""

    def test_worker_tells_its_last_life(self) -> None:
        with tempfile.TemporaryDirectory() as folder:
            worker = Worker(pathlib.Path(folder))  # in which there is no service
            worker.process.wait()
            worker.log.write_text("the first life\n", encoding="utf-8")
            worker.start()
            self.assertEqual(worker.process.wait(), 1)
            self.assertRegex(worker.told(), "^[^\n]*No module named vaultsatin_service$")

    async def test_nobody_is_blamed_where_nobody_can_answer(self) -> None:
        async with aiohttp.ClientSession() as session:
            up, stopped = mock.Mock(is_up=True), mock.Mock(is_up=False)
            trial = Trial(session, ["a"], [stopped])
            with mock.patch("checking.trial.TICK_SECONDS", 0.01):
                clock = asyncio.create_task(trial.tick())
                await asyncio.sleep(0.1)
                trial.workers.append(up)
                with trial.without_log():
                    await asyncio.sleep(0.1)
                self.assertEqual(trial.clock, 0.0)
                await asyncio.sleep(0.1)
                self.assertGreater(trial.clock, 0.0)
                clock.cancel()


class Proof(unittest.IsolatedAsyncioTestCase):
    """What is there is looked through."""

    async def asyncSetUp(self) -> None:
        asyncio.get_running_loop().set_debug(False)  # which tells of each slow step
        self.session = aiohttp.ClientSession()
        self.addAsyncCleanup(self.session.close)
        self.trial = Trial(self.session, ["a"])
        first = self.answer(RULES)
        load = b'{"load":%b}\n%b' % (first[1], RULES)
        loaded = self.answer(load)[0]
        more = self.answer(load + HELLO)[0].removeprefix(loaded)
        self.rows = [Row("a", 1, "1" * 32, 1, "begin", RULES, first[0]), Row("a", 2, "2" * 32, 2, None, load, loaded),
                     Row("a", 3, "3" * 32, 2, "more", HELLO, more)]
        for row, seen in ((self.rows[0], "0"), (self.rows[2], self.rows[1].place)):
            self.trial.asked.append(Asked("a", row.request or "", row.lines, seen, answered=time.monotonic(),
                                          entry=row.place, replies=row.replies))

    def answer(self, lines: bytes) -> tuple[bytes, bytes]:
        """The replies to lines, and the state then."""
        answer = subprocess.run(stand_in().words, input=lines + CLOSING, stdout=subprocess.PIPE, check=True).stdout
        *replies, _, last = answer.splitlines(keepends=True)
        return b"".join(replies), last[len(HEAD):-2]

    def wrong(self, *rows: Row) -> list[str]:
        """All that is wrong."""
        return list(faults(list(rows), self.trial, stand_in().words))

    async def test_what_is_right_is_found_right(self) -> None:
        self.assertEqual(self.wrong(*self.rows), [])

    async def test_what_is_wrong_is_found(self) -> None:
        first, second, third = self.rows
        otherwise = "is answered otherwise by a new process"
        self.assertIn(f"a: epoch 2 {otherwise}", self.wrong(first, second, third._replace(replies=b"{}\n")))
        self.assertEqual(self.wrong(first, second), ["a more: answered as 3." + "3" * 32 + ", it is there 0 times"])
        lines = second.lines.replace(b'"digest":"', b'"digest":"0')
        self.assertIn("a: epoch 2 doesn't begin with what was there", self.wrong(first, second._replace(lines=lines), third))
        fourth = Row("a", 4, "4" * 32, 2, "other", b"", b"")
        self.assertEqual(self.wrong(*self.rows, fourth), ["a other: nobody has asked that"])
        with mock.patch("checking.proof.MOST_SECONDS", -1.0):
            self.assertEqual([it[:25] for it in self.wrong(*self.rows)], [f"a: epoch {it} isn't answered" for it in (1, 2)])


if __name__ == "__main__":
    unittest.main()
