"""What tests share: stores in folders of their own, programs, and a worker's parts."""
import asyncio
import importlib.util
import os
import pathlib
import shutil
import signal
import subprocess
import sys
import tempfile
import unittest

from vaultsatin_service.document import Asked, Document, Setting
from vaultsatin_service.entry import START, Place
from vaultsatin_service.log import Log
from vaultsatin_service.metrics import Metrics
from vaultsatin_service.program import Program, module_by_node
from vaultsatin_service.sqlite import Sqlite
from vaultsatin_service.store import Store

HERE = pathlib.Path(__file__).resolve().parent
POSTGRES = max(pathlib.Path("/usr/lib/postgresql").glob("*/bin"), default=None)
if not importlib.util.find_spec("psycopg"):
    POSTGRES = None
HELLO = b'{"update":[{"append":"Hello"}]}\n'
RULE = b'{"rule":{"do":[{"set":{"text":"\xc2\xa9"}}],"if":[{"text":"(c)"}],"on":"text"}}\n'

needs_node = unittest.skipUnless(shutil.which("node"), "there is no node")


def stand_in() -> Program:
    """What stands in for the program, and begins at once."""
    return Program([sys.executable, "-IS", str(HERE.parent / "checking/stand_in.py")], "stand-in")


def other_version() -> Program:
    """A program that answers otherwise."""
    return Program([module_by_node().words[0], str(HERE / "other.mjs")], "other")


class InFolder(unittest.IsolatedAsyncioTestCase):
    """A test with a folder, and a log in it."""

    async def asyncSetUp(self) -> None:
        folder = tempfile.TemporaryDirectory(prefix="service-")
        self.addCleanup(folder.cleanup)
        self.folder = pathlib.Path(folder.name)
        self.store = await self.opened()
        self.log, self.metrics = Log(self.store), Metrics()
        asyncio.get_running_loop().set_debug(False)  # which makes each step slow

    async def opened(self) -> Store:
        """The store that the log is in."""
        store = Sqlite(self.folder / "log.sqlite")
        await store.open()
        self.addAsyncCleanup(store.close)
        return store

    def document(self, name: str = "plan", program: Program | None = None, *, epoch_bytes: int = 1 << 22,
                 passes_over: bool = False) -> Document:
        """A document as a worker of its own would have it."""
        setting = Setting(program or module_by_node(), self.log, self.metrics, epoch_bytes, passes_over)
        document = Document(name, setting)
        self.addAsyncCleanup(self._end, document)
        return document

    async def _end(self, document: Document) -> None:
        run = document.run
        document.end()
        if run:
            await run.process.gone()


def asked(request: str, lines: bytes = HELLO, seen: Place = START, is_exact: bool = False) -> Asked:
    """A request of somebody."""
    return Asked(request, lines, seen, is_exact, "ann")


class Database:
    """PostgreSQL in a folder, reached by a socket in it alone."""

    def __init__(self, folder: pathlib.Path, is_safe: bool = False) -> None:
        self.folder, self.data = folder, folder / "data"
        self.address = f"host={folder} port=5433 user=service dbname=postgres"
        if os.getuid() == 0:
            shutil.chown(folder, "postgres")
        self._run("initdb", "-D", self.data, "-A", "trust", "-U", "service", "--no-sync")
        self._options = f"-k {folder} -p 5433 -h '' -c fsync={'on' if is_safe else 'off'}"
        self.start()

    @property
    def pid(self) -> int:
        """Of the process that begins all others."""
        return int((self.data / "postmaster.pid").read_text(encoding="ascii").split()[0])

    def ask(self, statement: str) -> str:
        """What `psql` answers."""
        words = ["psql", "-qtAX", self.address, "-c", statement]
        return subprocess.run(words, check=True, cwd="/", capture_output=True, text=True).stdout.strip()

    def send(self, what: signal.Signals) -> None:
        """Sends a signal to all its processes."""
        children = pathlib.Path(f"/proc/{self.pid}/task/{self.pid}/children").read_text(encoding="ascii")
        for process in (self.pid, *map(int, children.split())):
            os.kill(process, what)

    def start(self) -> None:
        """Begins it, also anew."""
        self._run("pg_ctl", "-D", self.data, "-l", self.folder / "log", "-w", "-o", self._options, "start")

    def stop(self) -> None:
        """Ends it."""
        self._run("pg_ctl", "-D", self.data, "-m", "immediate", "stop")

    def _run(self, program: str, *words: object) -> None:
        """PostgreSQL doesn't run as root."""
        assert POSTGRES
        subprocess.run([str(it) for it in (POSTGRES / program, *words)], check=True, cwd="/",
                       stdout=subprocess.DEVNULL, stderr=subprocess.DEVNULL,
                       user="postgres" if os.getuid() == 0 else None)
