"""Who follows documents: each reader gets the rows behind the one it has had last, as they come."""
import asyncio
import contextlib
import logging
from collections.abc import AsyncIterator
from weakref import WeakValueDictionary

from .entry import Entry, Place
from .errors import Away, NotNow
from .limits import MOST_READERS
from .log import Log

LOG = logging.getLogger("service.readers")
Asked = asyncio.Task[list[Entry]]
TELL_SECONDS = 0.01  # in which news is gathered
AGAIN_SECONDS = 1.0  # until somebody listens again


class Topic:
    """What the readers of a document share at this worker."""

    def __init__(self, log: Log, document: str) -> None:
        self.document, self.last = document, ""
        self.news = asyncio.Event()
        self._log = log
        self._asked: dict[Place, Asked] = {}

    def wake(self) -> None:
        """Says that there may be more. Who asks from now on asks anew."""
        self.news.set()
        self.news, self._asked = asyncio.Event(), {}

    async def behind(self, place: Place) -> list[Entry]:
        """The rows behind a place. Readers there that were woken by the same news ask once."""
        asked = self._asked
        if place not in asked:
            asked[place] = asyncio.create_task(self._log.behind(self.document, place))
            asked[place].add_done_callback(lambda task: self._answered(asked, place, task))
        return await asyncio.shield(asked[place])

    @staticmethod
    def _answered(asked: dict[Place, Asked], place: Place, task: Asked) -> None:
        """What went wrong concerns the readers that wait for it: all of them may have gone meanwhile."""
        del asked[place]
        if not task.cancelled():
            task.exception()


class Readers:
    """All topics, and the tasks by which they hear of news."""

    def __init__(self, log: Log, look_seconds: float) -> None:
        self.count = 0
        self._log, self._look_seconds = log, look_seconds
        self._topics: WeakValueDictionary[str, Topic] = WeakValueDictionary()  # as long as they have readers
        self._untold: asyncio.Queue[str] = asyncio.Queue()
        self._listens_anew = asyncio.Event()
        self._is_over = False

    def told(self, document: str) -> None:
        """This worker has made a row."""
        self._untold.put_nowait(document)

    def end(self) -> None:
        """Lets all readers go: they come again, to another worker."""
        self._is_over = True
        for topic in list(self._topics.values()):
            topic.wake()

    def follow(self, document: str, place: Place) -> AsyncIterator[Entry | None]:
        """The rows behind a place, as they come; None now and then, where there are none. Who is at a place that the
        log doesn't have, or before the last epoch, gets the row by which that begins next."""
        if self.count >= MOST_READERS:
            raise NotNow("there are too many readers here now")
        return self._follow(self._topics.setdefault(document, Topic(self._log, document)), place)

    async def _follow(self, topic: Topic, place: Place) -> AsyncIterator[Entry | None]:
        """Without news a reader doesn't ask: `look` does that for all."""
        self.count += 1
        try:
            while not self._is_over:
                news = topic.news
                entries = await topic.behind(place)
                for entry in entries:
                    yield entry
                    place = entry.place
                while not entries and not news.is_set():
                    with contextlib.suppress(TimeoutError):
                        async with asyncio.timeout(self._look_seconds):
                            await news.wait()
                    yield None
        finally:
            self.count -= 1

    async def tell(self) -> None:
        """Tells all workers which documents have new rows, many at once."""
        while True:
            names = {await self._untold.get()}
            await asyncio.sleep(TELL_SECONDS)
            while not self._untold.empty():
                names.add(self._untold.get_nowait())
            with contextlib.suppress(Away):  # workers also look by themselves
                await self._log.tell(list(names))

    async def listen(self) -> None:
        """Hears what workers tell. Nobody heard what was told before."""
        while True:
            try:
                await self._log.store.listen(self._hear, self._listens_anew.set)
            except Away as error:
                LOG.warning("no news", extra={"why": str(error).partition("\n")[0]})
            await asyncio.sleep(AGAIN_SECONDS)

    def _hear(self, document: str) -> None:
        if topic := self._topics.get(document):
            topic.wake()

    async def look(self) -> None:
        """Finds what nobody told: whoever made the row has died, or this worker didn't hear."""
        while True:
            with contextlib.suppress(TimeoutError):
                async with asyncio.timeout(self._look_seconds):
                    await self._listens_anew.wait()
            self._listens_anew.clear()
            with contextlib.suppress(Away):
                for document, last in await self._log.lasts(list(self._topics)):
                    topic = self._topics.get(document)
                    if topic and topic.last != last:
                        topic.last = last
                        topic.wake()
