"""How long and for how many anything waits: whatever is asked of a worker comes to an end."""
import asyncio
import contextlib
from collections.abc import AsyncIterator, Iterator

from .errors import Away, NotNow


@contextlib.asynccontextmanager
async def in_time(seconds: float) -> AsyncIterator[None]:
    """What a database has to do in so many seconds, else it is `Away`: then it may be done all the same."""
    try:
        async with asyncio.timeout(seconds):
            yield
    except TimeoutError:
        raise Away(f"the database hasn't answered for {seconds} seconds") from None


class Room:
    """What there is of something. Whoever doesn't get it is told so at once, rather than made to wait."""

    def __init__(self, most: int, what: str) -> None:
        self.left, self._what = most, what

    @contextlib.contextmanager
    def taken(self, much: int = 1) -> Iterator[None]:
        """Takes so much of it meanwhile."""
        if much > self.left:
            raise NotNow(f"there are too many {self._what} here now")
        self.left -= much
        try:
            yield
        finally:
            self.left += much
