"""What a log needs of a database."""
from collections.abc import Awaitable, Callable, Sequence
from typing import Any, Protocol

Value = str | int | bytes | None
Row = tuple[Any, ...]
Hear = Callable[[str], None]


class Store(Protocol):
    """A database that has the table of schema.sql, and tells workers which documents have news."""

    async def open(self) -> None:
        """Makes the table if it isn't there."""

    async def close(self) -> None:
        """Ends the connections."""

    async def ask(self, statement: str, **values: Value) -> list[Row]:
        """Does a statement in a transaction of its own. Raises `Behind` where a key is taken, and `Away` where the
        database can't be reached: then it may be done all the same."""

    async def tell(self, documents: Sequence[str]) -> None:
        """Tells all workers, this one too, that the documents have new rows. It may be lost."""

    async def lasts(self, documents: Sequence[str]) -> list[tuple[str, str]]:
        """The id of each document's last row, for whoever wasn't told."""

    def listen(self, hear: Hear, begin: Callable[[], None]) -> Awaitable[None]:
        """Passes on what workers tell, from when it says that it begins, for as long as it is awaited."""
