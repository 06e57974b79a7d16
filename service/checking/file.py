"""The log in a file of SQLite, and what may happen to it."""
import contextlib
import pathlib
import resource
import shutil
import sqlite3
import tempfile
import time
from typing import Any


class File:
    """A file that one worker has for itself."""

    def __init__(self, folder: pathlib.Path) -> None:
        self.path = folder / "log.sqlite"
        self.options = ["--file", str(self.path)]

    def rows(self, columns: str) -> list[tuple[Any, ...]]:
        """What is there, in order. The worker has the file locked, so a copy is read: nobody may write meanwhile."""
        with tempfile.TemporaryDirectory(prefix="service-") as name:
            for part in self.path.parent.glob(self.path.name + "*"):
                shutil.copy(part, name)
            with contextlib.closing(sqlite3.connect(pathlib.Path(name, self.path.name))) as connection:
                return connection.execute(f"select {columns} from entry order by document, number, epoch").fetchall()

    def restore(self, documents: list[str]) -> None:
        """Puts a backup back, as far as these documents go: all but their first row is lost. No worker may run."""
        with contextlib.closing(sqlite3.connect(self.path)) as connection, connection:
            connection.executemany("delete from entry where document = ? and number > 1", [(it,) for it in documents])

    def stop(self) -> None:
        """Nothing runs but the worker."""


def fill_disk(worker: int, seconds: float) -> None:
    """For a while a worker can write to no file."""
    before = resource.prlimit(worker, resource.RLIMIT_FSIZE, (0, resource.RLIM_INFINITY))
    time.sleep(seconds)
    with contextlib.suppress(ProcessLookupError):
        resource.prlimit(worker, resource.RLIMIT_FSIZE, before)
