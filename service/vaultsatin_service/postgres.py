"""The log in PostgreSQL, for any number of workers on any machines."""
import asyncio
import contextlib
import re
from collections.abc import Callable, Sequence
from typing import Any

import psycopg

from .bounds import in_time
from .connections import TRY_SECONDS, Connections, Link
from .errors import Away, Behind, Unfit
from .limits import LISTEN_SECONDS
from .statements import FIT, SCHEMA
from .store import Hear, Row, Value

OPEN_SECONDS = 10.0  # for the database to answer, before the worker begins without it
AWAY = (psycopg.OperationalError, psycopg.errors.ReadOnlySqlTransaction)
TELL = "select pg_notify('entry', name) from unnest(:names::text[]) as name"
LASTS = """select name, last.id from unnest(:names::text[]) as name
    cross join lateral (select id from entry where document = name order by number desc limit 1) as last"""


def written(statement: str) -> bytes:
    """A statement with its values as psycopg names them."""
    return re.sub("(?<!:):([a-z]+)", r"%(\1)s", statement).encode()


class Postgres:
    """A database, as libpq finds it: an address may name several machines, of which it takes the one that may write."""

    def __init__(self, address: str) -> None:
        self._connections = Connections(address)
        self._is_fit = False  # whether the table was found, as this version takes it
        self._written: dict[str, bytes] = {}

    async def open(self) -> None:
        """Looks at the table. Where the database is away, whoever asks first does that."""
        with contextlib.suppress(Away):
            async with in_time(OPEN_SECONDS):
                await self._ask("select 1", {}, 0)

    async def close(self) -> None:
        """Ends the connections."""
        await self._connections.close()

    async def ask(self, statement: str, **values: Value) -> list[Row]:
        """Does a statement, and waits as long as a commit does, where that waits for a standby."""
        return await self._ask(statement, values)

    async def _ask(self, statement: str, values: dict[str, Any], try_seconds: float = TRY_SECONDS) -> list[Row]:
        query = self._written.setdefault(statement, written(statement))
        try:
            async with self._connections.one(try_seconds) as connection:
                if not self._is_fit:
                    await self._look_at_table(connection)
                return await (await connection.execute(query, values, binary=True)).fetchall()
        except AWAY as error:
            raise Away(str(error)) from error
        except psycopg.errors.UndefinedTable as error:
            self._is_fit = False
            raise Away(str(error)) from error
        except psycopg.errors.UniqueViolation as error:
            raise Behind(str(error)) from error

    async def _look_at_table(self, connection: Link) -> None:
        """Makes the table if it isn't there, where this user may."""
        try:
            await connection.execute(FIT.encode())
        except psycopg.errors.UndefinedTable:
            with contextlib.suppress(psycopg.Error):  # as where another worker makes it at the same time
                await connection.execute(SCHEMA.encode())
            await connection.execute(FIT.encode())
        except (psycopg.errors.UndefinedColumn, psycopg.errors.InsufficientPrivilege) as error:
            why = str(error).partition("\n")[0]
            raise Unfit(f"the table isn't one of this version, for this user: {why}") from error
        self._is_fit = True

    async def tell(self, documents: Sequence[str]) -> None:
        """Tells them all at once: commits that notify wait for each other."""
        await self._ask(TELL, {"names": list(documents)})

    async def lasts(self, documents: Sequence[str]) -> list[tuple[str, str]]:
        """The id of each document's last row."""
        return [(row[0], row[1]) for row in await self._ask(LASTS, {"names": list(documents)})]

    async def listen(self, hear: Hear, begin: Callable[[], None]) -> None:
        """Hears what workers tell for a minute, or until the connection ends, which raises `Away`. So does a database
        without LISTEN."""
        try:
            with contextlib.suppress(TimeoutError):
                async with asyncio.timeout(LISTEN_SECONDS), await self._connections.connect() as one:
                    await one.execute("listen entry")
                    begin()
                    async for note in one.notifies():
                        hear(note.payload)
        except psycopg.Error as error:
            raise Away(str(error)) from error
