"""PostgreSQL with a synchronous standby, and what may happen to them."""
import contextlib
import os
import pathlib
import signal
import subprocess
import time
from typing import Any

import psycopg

PROGRAMS = max(pathlib.Path("/usr/lib/postgresql").glob("*/bin"), default=pathlib.Path())
RUN_SECONDS = 120.0  # for a command of PostgreSQL
GONE_SECONDS = 60.0  # for what was killed


def children(process: int) -> list[int]:
    """The processes that a process has begun."""
    with contextlib.suppress(FileNotFoundError):
        tasks = pathlib.Path(f"/proc/{process}/task").iterdir()
        return [int(it) for task in tasks for it in (task / "children").read_text(encoding="ascii").split()]
    return []


def programs(worker: int) -> list[int]:
    """The processes of `lexical` that a worker has begun. One that isn't `lexical` yet still has the worker's words, and
    its sockets: if it were stopped then, and the worker killed, it would have the worker's port for good."""
    own = words_of(worker)
    return [it for it in children(worker) if words_of(it) not in (own, b"")]


def words_of(process: int) -> bytes:
    """With which a process was begun; none where it has ended."""
    with contextlib.suppress(FileNotFoundError, ProcessLookupError):
        return pathlib.Path(f"/proc/{process}/cmdline").read_bytes()
    return b""


def send(processes: list[int], what: signal.Signals = signal.SIGKILL) -> None:
    """Sends a signal to those that are still there."""
    for process in processes:
        with contextlib.suppress(ProcessLookupError):
            os.kill(process, what)


class Cluster:
    """Two databases in a folder, reached by sockets in it alone."""

    def __init__(self, folder: pathlib.Path) -> None:
        self.folder, self.first, self.second = folder, folder / "first", folder / "second"
        self.address = (f"host={folder},{folder} port=5433,5434 user=service dbname=postgres "
                        "target_session_attrs=read-write")
        self.options = ["--database", self.address]

    def begin(self, standbys: str) -> None:
        """Makes both. `standbys` is `*`, or empty where nothing waits for the second."""
        self._run("initdb", "-D", self.first, "-A", "trust", "-U", "service", "--no-sync")
        self._start(self.first, 5433)
        self._run("pg_basebackup", "-h", self.folder, "-p", 5433, "-U", "service", "-D", self.second, "-R", "-c", "fast")
        self._start(self.second, 5434)
        with psycopg.connect(self.address, autocommit=True) as connection:
            connection.execute((self.folder / "vaultsatin_service/schema.sql").read_bytes())
            connection.execute(f"alter system set synchronous_standby_names = '{standbys}'".encode())
            connection.execute("select pg_reload_conf()")

    def rows(self, columns: str) -> list[tuple[Any, ...]]:
        """What is there, in order."""
        with psycopg.connect(self.address) as connection:
            return connection.execute(f"select {columns} from entry order by document, number, epoch".encode()).fetchall()

    def restart_first(self) -> None:
        """Kills all processes of the first at once, as if its machine had lost its power for a moment."""
        self._kill(self.first)
        self._start(self.first, 5433)

    def pause_first(self, seconds: float) -> None:
        """Stops it for longer than anybody waits."""
        stopped = self._stopped(self.first)
        time.sleep(seconds)
        send(stopped, signal.SIGCONT)

    def drop_connections(self) -> None:
        """Ends half of all connections."""
        with contextlib.suppress(psycopg.OperationalError), psycopg.connect(self.address, autocommit=True) as one:
            one.execute("select pg_terminate_backend(pid) from pg_stat_activity where usename = 'service' and"
                        " backend_type = 'client backend' and pid <> pg_backend_pid() and random() < 0.5")

    def lose_second(self) -> None:
        """The standby goes away: nothing is answered any more."""
        self._kill(self.second)
        time.sleep(0.5)

    def lose_first(self) -> None:
        """The first is gone for good, and the second takes over, without what it never got."""
        self._kill(self.first)
        self._start(self.second, 5434)
        self._run("pg_ctl", "-D", self.second, "-w", "promote")

    def stop(self) -> None:
        """Ends both."""
        for data in (self.first, self.second):
            with contextlib.suppress(FileNotFoundError):
                send(self._stopped(data))

    def _stopped(self, data: pathlib.Path) -> list[int]:
        """All its processes, stopped: first the one that begins the others, so that none is missed."""
        postmaster = int((data / "postmaster.pid").read_text(encoding="ascii").split()[0])
        send([postmaster], signal.SIGSTOP)
        send(others := children(postmaster), signal.SIGSTOP)
        return [postmaster, *others]

    def _kill(self, data: pathlib.Path) -> None:
        send(gone := self._stopped(data))
        ends = time.monotonic() + GONE_SECONDS
        while any(pathlib.Path(f"/proc/{it}").exists() for it in gone):
            if time.monotonic() > ends:
                raise TimeoutError("a database that was killed is still there")
            time.sleep(0.01)

    def _start(self, data: pathlib.Path, port: int) -> None:
        self._run("pg_ctl", "-D", data, "-l", f"{data}.log", "-o", f"-k {self.folder} -p {port} -h ''", "-w",
                  "-t", int(RUN_SECONDS) - 10, "start")

    def _run(self, program: str, *words: object) -> None:
        """PostgreSQL doesn't run as root."""
        subprocess.run([str(it) for it in (PROGRAMS / program, *words)], check=True, cwd="/",
                       stdout=subprocess.DEVNULL, stderr=subprocess.DEVNULL, timeout=RUN_SECONDS,
                       user="postgres" if os.getuid() == 0 else None)
