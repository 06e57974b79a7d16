"""Connections to PostgreSQL: each does one statement after the other, and is kept for whoever asks next."""
import asyncio
import contextlib
import random
import re
import time
from collections.abc import AsyncIterator
from typing import Any

import psycopg
from psycopg.abc import RV, PQGen
from psycopg.conninfo import conninfo_to_dict
from psycopg.pq import TransactionStatus
from psycopg.rows import TupleRow
from psycopg.waiting import wait_async

from .errors import Away, Unfit

CONNECTION: dict[str, Any] = {
    "autocommit": True, "keepalives_idle": 5, "keepalives_interval": 2, "keepalives_count": 3,
    "tcp_user_timeout": 10000}
CONNECT_SECONDS = 3.0  # for one machine
MOST = 16  # connections, beside the one that listens
TRY_SECONDS = 5.0  # in which whoever needs a connection tries to make one
AGAIN_SECONDS = 0.2  # until it is tried again
UNUSED_SECONDS = 600.0  # until a connection is closed that nobody needs
NO_ENTRY = re.compile('authentication failed|no password supplied|no pg_hba.conf entry|pg_hba.conf rejects'
                      '|(role|database) ".*" does not exist|not permitted to log in|permission denied for database')


class Connection(psycopg.AsyncConnection[TupleRow]):
    """A connection that is closed where nobody waits for its statement any more. Other versions of psycopg ask the
    server to cancel it, and wait for that: if the server has stopped, all of the worker waits."""

    async def wait(self, gen: PQGen[RV], *interval: float) -> RV:
        """Lets a step of the protocol be done."""
        try:
            return await wait_async(gen, self.pgconn.socket, *interval)
        except asyncio.CancelledError:
            self.pgconn.finish()
            raise


Link = psycopg.AsyncConnection[TupleRow]  # as psycopg types what `Connection.connect` gives


class Connections:
    """Those of a worker. Nothing is lost where somebody doesn't wait any more, as it is by psycopg_pool 3.1: after an
    outage its workers had no connection left."""

    def __init__(self, address: str) -> None:
        self._machines = machines_of(address)
        self._at = 0  # the machine that took the last connection
        self._is_known = False  # whether any has let this user in
        self._is_closed = False
        self._room = asyncio.Semaphore(MOST)
        self._free: list[tuple[Link, float]] = []  # and since when; the last used one is the next

    @contextlib.asynccontextmanager
    async def one(self, try_seconds: float = TRY_SECONDS) -> AsyncIterator[Link]:
        """A connection for somebody alone."""
        async with self._room:
            connection = self._free.pop()[0] if self._free else await self._made(try_seconds)
            try:
                yield connection
            except psycopg.errors.ReadOnlySqlTransaction:
                connection.pgconn.finish()  # another machine may write now
                raise
            finally:
                self._keep(connection)

    async def connect(self) -> Link:
        """A new connection, to the first machine that takes one. The time limit of psycopg 3.1 is for all of them: if
        the first was silent, the others wouldn't be asked. And it may lose that its task is cancelled meanwhile, as
        `asyncio.wait_for` does before Python 3.12: the task wouldn't end."""
        first, failures = self._at, list[str]()
        for at in range(first, first + len(self._machines)):
            try:
                async with asyncio.timeout(CONNECT_SECONDS):
                    connection = await Connection.connect("", **self._machines[at % len(self._machines)])
            except (psycopg.OperationalError, TimeoutError) as error:
                failures.append(str(error).strip() or f"no answer within {CONNECT_SECONDS} seconds")
            else:
                self._at, self._is_known = at % len(self._machines), True
                return connection
        why = "; ".join(failures)
        raise Away(why) if self._is_known or not NO_ENTRY.search(why) else Unfit(why)

    async def close(self) -> None:
        """Closes those that are free, and later the others."""
        self._is_closed = True
        self._drop(time.monotonic())

    async def _made(self, try_seconds: float) -> Link:
        """A new connection, as soon as a machine takes one."""
        ends = time.monotonic() + try_seconds
        while True:
            try:
                return await self.connect()
            except Away:
                if time.monotonic() > ends:
                    raise
            await asyncio.sleep(random.uniform(0, 2 * AGAIN_SECONDS))

    def _keep(self, connection: Link) -> None:
        """Keeps a connection that still works. If one is lost, the others are too, most likely."""
        now = time.monotonic()
        if connection.pgconn.transaction_status == TransactionStatus.IDLE and not self._is_closed:
            self._free.append((connection, now))
            self._drop(now - UNUSED_SECONDS)
        else:
            connection.pgconn.finish()
            self._drop(now)

    def _drop(self, until: float) -> None:
        """Closes those that nobody has needed since then."""
        while self._free and self._free[0][1] <= until:
            self._free.pop(0)[0].pgconn.finish()


def machines_of(address: str) -> list[dict[str, Any]]:
    """The words of a connection to each of the machines that an address names."""
    try:
        words = conninfo_to_dict(address)
    except psycopg.ProgrammingError as error:
        raise Unfit(f"the address isn't as libpq takes it: {str(error).strip()}") from error
    lists = {name: str(words[name]).split(",") for name in ("host", "hostaddr", "port") if words.get(name)}
    count = max(map(len, lists.values()), default=1)
    if any(len(some) not in (1, count) for some in lists.values()):
        raise Unfit("the address names more machines than ports, or the other way around")
    return [{**CONNECTION, **words,
             **{name: some[at % len(some)] for name, some in lists.items()}, "connect_timeout": 0}
            for at in range(count)]
