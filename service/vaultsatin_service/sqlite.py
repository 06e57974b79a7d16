"""The log in a file: for one worker, with nothing to set up."""
import asyncio
import pathlib
import re
import sqlite3
from collections.abc import Callable, Sequence
from concurrent.futures import ThreadPoolExecutor
from typing import TypeVar

from .errors import Away, Behind, Unfit
from .statements import FIT, LAST, SCHEMA
from .store import Hear, Row, Value

Result = TypeVar("Result")
BUSY_SECONDS = 2.0  # until it is said that another process has the file
UNFIT = re.compile("no such column|not a database")


class Sqlite:
    """A file of SQLite, which this process has for itself. All statements go through one thread, one after another."""

    def __init__(self, path: pathlib.Path) -> None:
        self.path = path
        self._thread = ThreadPoolExecutor(1, "sqlite")
        self._connection: sqlite3.Connection | None = None
        self._hear: Hear = lambda _: None

    async def open(self) -> None:
        """Makes the file if it isn't there."""
        try:
            self._connection = await self._run(self._connect)
        except (sqlite3.DatabaseError, Away) as error:
            if UNFIT.search(str(error)):
                raise Unfit(f"the file {self.path} isn't one of this version: {error}") from error
            raise

    def _connect(self) -> sqlite3.Connection:
        self.path.parent.mkdir(parents=True, exist_ok=True)
        connection = sqlite3.connect(self.path, BUSY_SECONDS, isolation_level=None, check_same_thread=False)
        connection.execute("pragma locking_mode = exclusive")  # a second worker is refused, rather than believed
        connection.execute("pragma journal_mode = wal")
        connection.execute("pragma synchronous = full")  # what is answered outlives a loss of power
        connection.executescript(SCHEMA)
        connection.execute(FIT)
        connection.executescript("begin exclusive; commit")  # takes the lock, until the end
        return connection

    async def close(self) -> None:
        """Leaves the file to others."""
        if self._connection:
            await self._run(self._connection.close)
        self._connection = None
        self._thread.shutdown()

    async def ask(self, statement: str, **values: Value) -> list[Row]:
        """Does a statement, and waits until it is on the disk."""
        assert self._connection
        connection = self._connection
        return await self._run(lambda: connection.execute(statement, values).fetchall())

    async def _run(self, act: Callable[[], Result]) -> Result:
        try:
            return await asyncio.get_running_loop().run_in_executor(self._thread, act)
        except sqlite3.IntegrityError as error:
            raise Behind(str(error)) from error
        except sqlite3.OperationalError as error:
            raise Away(str(error)) from error

    async def tell(self, documents: Sequence[str]) -> None:
        """Nobody else is there."""
        for document in documents:
            self._hear(document)

    async def lasts(self, documents: Sequence[str]) -> list[tuple[str, str]]:
        """The id of each document's last row. A row isn't told if nobody waited for it any more."""
        assert self._connection
        connection = self._connection

        def look() -> list[tuple[str, str]]:
            rows = {document: connection.execute(LAST, {"document": document}).fetchone() for document in documents}
            return [(document, row[0]) for document, row in rows.items() if row]

        return await self._run(look)

    async def listen(self, hear: Hear, begin: Callable[[], None]) -> None:
        """Passes on what this worker tells itself."""
        self._hear = hear
        begin()
        await asyncio.Event().wait()
