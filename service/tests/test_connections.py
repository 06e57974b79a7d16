"""Connections to PostgreSQL, and a worker that begins before its database, or that can't use it."""
import asyncio
import contextlib
import json
import pathlib
import socket
import sqlite3
import tempfile
import unittest
from asyncio.subprocess import DEVNULL, PIPE, Process

import aiohttp

from vaultsatin_service.bounds import in_time
from vaultsatin_service.errors import Away, Unfit

from .support import HERE, POSTGRES, Database

STAND_IN = HERE.parent / "checking/stand_in.py"
AGAIN_SECONDS = 0.1


@unittest.skipUnless(POSTGRES, "there is no PostgreSQL")
class OverPostgres(unittest.IsolatedAsyncioTestCase):
    """With a database of their own."""

    database: Database
    place: "tempfile.TemporaryDirectory[str]"

    async def asyncSetUp(self) -> None:
        asyncio.get_running_loop().set_debug(False)  # which tells of each slow step

    @classmethod
    def setUpClass(cls) -> None:
        cls.place = tempfile.TemporaryDirectory(prefix="service-")
        cls.database = Database(pathlib.Path(cls.place.name))

    @classmethod
    def tearDownClass(cls) -> None:
        cls.database.stop()
        cls.place.cleanup()

    async def test_nothing_is_lost_where_nobody_waits_any_more(self) -> None:
        from vaultsatin_service.connections import MOST  # pylint: disable=import-outside-toplevel
        from vaultsatin_service.postgres import Postgres  # pylint: disable=import-outside-toplevel
        store = Postgres(self.database.address)
        self.addAsyncCleanup(store.close)

        async def ask(seconds: float) -> bool:
            with contextlib.suppress(Away):
                async with in_time(seconds):
                    return bool(await store.ask("select 1 from pg_sleep(1)"))
            return False

        busy = [asyncio.create_task(ask(30)) for _ in range(MOST)]
        await asyncio.sleep(0.5)
        self.assertFalse(any(await asyncio.gather(*(ask(0.1) for _ in range(2 * MOST)))))
        self.assertTrue(all(await asyncio.gather(*busy)))
        self.assertTrue(all(await asyncio.gather(*(ask(30) for _ in range(MOST)))))

    async def test_silent_machine_is_passed_over(self) -> None:
        from vaultsatin_service.postgres import Postgres  # pylint: disable=import-outside-toplevel
        silent = self.database.folder / "silent"
        silent.mkdir()
        with socket.socket(socket.AF_UNIX) as server:
            server.bind(str(silent / ".s.PGSQL.5433"))
            server.listen()
            store = Postgres(f"host={silent},{self.database.folder} port=5433 user=service dbname=postgres"
                             " target_session_attrs=read-write")
            async with asyncio.timeout(30):
                self.assertEqual(await store.ask("select 1"), [(1,)])
            await store.close()

    async def test_who_is_told_to_stop_stops_while_it_connects(self) -> None:
        from vaultsatin_service.connections import Connections  # pylint: disable=import-outside-toplevel
        loop = asyncio.get_running_loop()
        with tempfile.TemporaryDirectory(prefix="service-") as folder, socket.socket(socket.AF_UNIX) as server:
            server.bind(f"{folder}/.s.PGSQL.5433")
            server.listen()
            server.setblocking(False)
            for turns in range(10):  # of the loop, from the server's answer on
                connecting = asyncio.create_task(Connections(f"host={folder} port=5433 user=ann").connect())
                client, _ = await loop.sock_accept(server)
                with client:
                    await loop.sock_recv(client, 1000)
                    await loop.sock_sendall(client, b"E\0\0\0\x10SFATAL\0Mno\0\0")
                    for _ in range(turns):
                        await asyncio.sleep(0)
                    is_told = connecting.cancel()
                    await asyncio.wait([connecting])
                self.assertEqual(connecting.cancelled(), is_told)

    async def test_address_names_machines_as_libpq_takes_them(self) -> None:
        from vaultsatin_service.connections import machines_of  # pylint: disable=import-outside-toplevel
        two = machines_of("postgresql://ann@a:5433,b:5434/plans")
        self.assertEqual([(it["host"], it["port"], it["user"]) for it in two], [("a", "5433", "ann"), ("b", "5434", "ann")])
        two = machines_of("host=a,b port=5433")
        self.assertEqual([(it["host"], it["port"]) for it in two], [("a", "5433"), ("b", "5433")])
        self.assertNotIn("host", machines_of("dbname=plans")[0])
        for wrong in ("host=a,b port=1,2,3", "hots=a", "a"):
            with self.assertRaises(Unfit):
                machines_of(wrong)

    async def test_who_is_not_let_in_is_told_so(self) -> None:
        from vaultsatin_service.postgres import Postgres  # pylint: disable=import-outside-toplevel
        for words in ("user=nobody", "dbname=nothing"):
            with self.assertRaisesRegex(Unfit, "does not exist"):
                await Postgres(f"{self.database.address} {words}").open()

    async def test_worker_waits_for_its_database(self) -> None:
        self.database.stop()
        try:
            worker, address = await begun("--database", self.database.address)
            self.addCleanup(kill, worker)
            self.assertEqual(await health_of(address), 503)
        finally:
            self.database.start()
        async with asyncio.timeout(30):
            while await health_of(address) != 200:
                await asyncio.sleep(AGAIN_SECONDS)
        self.assertEqual(self.database.ask("select count(*) from entry"), "0")
        worker.terminate()
        self.assertEqual(await worker.wait(), 0)

    async def test_worker_ends_where_it_finds_that_nobody_lets_it_in(self) -> None:
        self.database.stop()
        try:
            worker, address = await begun("--database", f"{self.database.address} user=nobody", "--look", "1")
            self.addCleanup(kill, worker)
            self.assertEqual(await health_of(address), 503)
        finally:
            self.database.start()
        self.assertRegex(await end_of(worker), '^the log can\'t be used: .*role "nobody" does not exist')

    async def test_worker_ends_at_a_table_of_another_version(self) -> None:
        self.database.ask("create schema older; create table older.entry (document text, number bigint)")
        worker, _ = await begun("--database", f"{self.database.address} options='-c search_path=older'")
        self.assertRegex(await end_of(worker), "^the log can't be used: the table .*column .* does not exist")


class OverSqlite(unittest.IsolatedAsyncioTestCase):
    """With a file."""

    async def test_worker_ends_at_a_file_of_another_version(self) -> None:
        with tempfile.TemporaryDirectory(prefix="service-") as folder:
            path = pathlib.Path(folder, "log.sqlite")
            with contextlib.closing(sqlite3.connect(path)) as connection, connection:
                connection.execute("create table entry (document text, number bigint)")
            worker, _ = await begun("--file", str(path))
            self.assertRegex(await end_of(worker), "^the log can't be used: the file .*no such column")
            path.write_bytes(b"something else" * 100)
            worker, _ = await begun("--file", str(path))
            self.assertRegex(await end_of(worker), "^the log can't be used: the file .*not a database")

    async def test_worker_ends_where_it_cannot_listen(self) -> None:
        with tempfile.TemporaryDirectory(prefix="service-") as folder, socket.create_server(("127.0.0.1", 0)) as server:
            worker = await asyncio.create_subprocess_exec(
                str(HERE.parent / "run"), "--program", str(STAND_IN), "--port", str(server.getsockname()[1]),
                "--file", str(pathlib.Path(folder, "log.sqlite")), stdout=DEVNULL, stderr=PIPE)
            self.assertRegex(await end_of(worker), "^nobody can listen there: .*in use")


async def begun(*words: str) -> tuple[Process, str]:
    """A worker that listens, and its address."""
    worker = await asyncio.create_subprocess_exec(str(HERE.parent / "run"), "--program", str(STAND_IN), "--port", "0",
                                                  *words, stdout=DEVNULL, stderr=PIPE)
    assert worker.stderr
    return worker, json.loads(await worker.stderr.readline())["address"]


async def end_of(worker: Process) -> str:
    """What a worker says at last that ends by itself, because it has to."""
    async with asyncio.timeout(60):
        _, told = await worker.communicate()
    return told.decode().splitlines()[-1] if worker.returncode == 1 else f"{worker.returncode}: {told.decode()}"


async def health_of(address: str) -> int:
    """The status of a worker's health."""
    async with aiohttp.ClientSession() as session, session.get(f"{address}/health") as response:
        return response.status


def kill(worker: Process) -> None:
    """Ends a worker that a test has left."""
    with contextlib.suppress(ProcessLookupError):
        worker.kill()


if __name__ == "__main__":
    unittest.main()
