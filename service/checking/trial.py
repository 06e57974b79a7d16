"""What clients and readers do, and what they got."""
import asyncio
import contextlib
import json
import os
import pathlib
import random
import socket
import subprocess
import sys
import time
from collections import Counter, deque
from collections.abc import Iterator
from dataclasses import dataclass, field

import aiohttp

HEADERS = {"Content-Type": "application/x-ndjson"}
RULES = b"""{"rule":{"do":[{"set":{"text":"\xc2\xa9"}}],"if":[{"text":"(c)"}],"on":"text"}}
{"listener":{"handled":true,"on":"sign","priority":2,"steps":[{"append":"The editors"}]}}
"""
CARET = (b'{"update":[{"new":"paragraph","as":"p"},{"put":"p","into":0},'
         b'{"select":{"anchor":["p",0,"element"],"focus":["p",0,"element"]}}]}\n')
TEXTS = [b"a", b"rose ", b"\xe2\x82\xac", b"(c)"]
COMMANDS = [("make-list", "bullet"), ("make-list", "check"), ("indent", None), ("insert-paragraph", None),
            ("undo", None), ("redo", None), ("insert-table", [2, 2, True]), ("insert-row", "after"),
            ("delete-word", "back"), ("sign", None), ("format-text", "bold"), ("insert-text", "a\U0001f339"),
            ("select-all", None)]
FAULTS = (aiohttp.ClientError, TimeoutError)
ANSWER_SECONDS = 120.0  # of the clock in which a request is answered at last, whatever else goes wrong
LATER_SECONDS = 5.0  # the same, once one wasn't
TICK_SECONDS = 0.2
SOME = 50  # requests of a client that it may ask again


class Worker:
    """A worker at a port that stays."""

    def __init__(self, folder: pathlib.Path, *words: str) -> None:
        with socket.create_server(("127.0.0.1", 0)) as server:
            self.port = server.getsockname()[1]
        self._words = [sys.executable, "-m", "vaultsatin_service", "--port", str(self.port), *words]
        self.log, self._folder = folder / f"worker-{self.port}.log", folder
        self.start()

    def start(self) -> None:
        """Begins it, also anew. Its folder is the current one, of which Python takes the service."""
        self._told = self.log.stat().st_size if self.log.exists() else 0
        self._has_begun = self.is_stopped = False
        environment = {**os.environ, "PYTHONPATH": str(self._folder), "PYTHONDONTWRITEBYTECODE": "1"}
        with self.log.open("ab") as log:
            self.process = subprocess.Popen(self._words, stdout=log, stderr=log, env=environment, cwd=self._folder)

    def told(self) -> str:
        """The last of what it has told since it was begun."""
        return self._telling().decode(errors="replace")[-1500:].rstrip()

    def _telling(self) -> bytes:
        with self.log.open("rb") as log:
            log.seek(self._told)
            return log.read()

    @property
    def has_begun(self) -> bool:
        """Whether it has begun to serve since then."""
        self._has_begun = self._has_begun or b'"event": "begun"' in self._telling()
        return self._has_begun

    @property
    def is_up(self) -> bool:
        """Whether it could answer."""
        return not self.is_stopped and self.process.poll() is None and self.has_begun

    def url(self, path: str) -> str:
        """An address of it."""
        return f"http://127.0.0.1:{self.port}/{path}"


@dataclass
class Asked:
    """A request, and what it was answered."""

    document: str
    request: str
    lines: bytes
    seen: str
    sent: float = field(default_factory=time.monotonic)
    is_exact: bool = False
    answered: float = 0
    entry: str = ""
    replies: bytes = b""

    @property
    def number(self) -> int:
        """Of its row."""
        return number_of(self.entry)


def number_of(place: str) -> int:
    """The number in a place."""
    return int(place.partition(".")[0])


@dataclass
class Trial:
    """All that happens between the clients and the workers."""

    session: aiohttp.ClientSession
    documents: list[str]
    workers: list[Worker] = field(default_factory=list)
    is_over: bool = False
    asked: list[Asked] = field(default_factory=list)
    read: list[tuple[str, list[tuple[str, bytes]]]] = field(default_factory=list)
    readers: list[asyncio.Task[None]] = field(default_factory=list)
    patience: float = ANSWER_SECONDS
    given_up: set[tuple[str, str | None]] = field(default_factory=set)  # requests that may be done, but weren't answered
    wrong: list[str] = field(default_factory=list)
    counts: Counter[str] = field(default_factory=Counter)
    clock: float = 0.0  # seconds in which there were a log and a worker that could answer
    _is_without_log: bool = False

    async def tick(self) -> None:
        """Goes on with the clock."""
        last = time.monotonic()
        while True:
            await asyncio.sleep(TICK_SECONDS)
            now = time.monotonic()
            if not self._is_without_log and any(worker.is_up for worker in self.workers):
                self.clock += now - last
            last = now

    @contextlib.contextmanager
    def without_log(self) -> Iterator[None]:
        """There is no log meanwhile, so nobody is to blame for no answer."""
        self._is_without_log, begun = True, time.monotonic()
        try:
            yield
        finally:
            self._is_without_log = False
            self.counts["seconds without a log"] += round(time.monotonic() - begun)

    def url(self, document: str, what: str, worker: Worker | None = None) -> str:
        """An address of a document, at any worker."""
        return (worker or random.choice(self.workers)).url(f"documents/{document}/{what}")

    async def ask(self, it: Asked, worker: Worker | None = None) -> bool:
        """Asks until there is an answer, of whichever worker. Now and then the answer isn't waited for. Says whether there
        was one: without one for long the service is wrong, and nobody waits so long again."""
        begun, last = self.clock, "nothing"
        while not it.answered:
            if self.clock > begun + self.patience:
                self.patience = LATER_SECONDS
                self.given_up.add((it.document, it.request))
                self.wrong.append(f"{it.document} {it.request}: not answered, at last by {last}")
                return False
            limit = random.uniform(0, 0.1) if random.random() < 0.01 else 30
            query = {"request": it.request, "seen": it.seen, "exact": str(int(it.is_exact))}
            try:
                async with self.session.post(self.url(it.document, "lines", worker), params=query, data=it.lines,
                                             headers=HEADERS, timeout=aiohttp.ClientTimeout(limit)) as response:
                    replies = await response.read()
                last = f"{response.status} {replies[:100]!r}"
                self.counts[f"answers {response.status}"] += 1
                if response.status == 200:
                    it.answered, it.entry, it.replies = time.monotonic(), response.headers["Entry"], replies
                elif response.status == 409:
                    await asyncio.sleep(random.uniform(0, 0.1))
                    it.seen = await self.entry_of(it.document) or it.seen
                    continue
            except FAULTS as error:
                last = type(error).__name__
                self.counts[f"times {last}"] += 1
            if not it.answered:
                await asyncio.sleep(random.uniform(0, 0.1))
        self.asked.append(it)
        return True

    async def entry_of(self, document: str, worker: Worker | None = None) -> str | None:
        """The last entry, as a worker tells it."""
        with contextlib.suppress(*FAULTS):
            limit = aiohttp.ClientTimeout(5)
            async with self.session.get(self.url(document, "state", worker), timeout=limit) as response:
                return response.headers.get("Entry")
        return None

    async def client(self, name: str) -> None:
        """Edits one document after the other. Now and then it asks again for what was done, or for a new epoch."""
        seen: dict[str, str] = {}
        done: deque[Asked] = deque(maxlen=SOME)
        for turn in range(1 << 30):
            document = random.choice(self.documents)
            for at, lines in enumerate(writing()):
                if self.is_over:
                    return
                it = Asked(document, f"{name}-{turn}-{at}", lines, seen.get(document) or "0")
                it.is_exact = random.random() < 0.1
                if not await self.ask(it):
                    return
                seen[document] = it.entry
                done.append(it)
                if random.random() < 0.03:
                    old = random.choice([it, *done])
                    await self._ask_again(old, seen[old.document])
            if random.random() < 0.15:
                with contextlib.suppress(*FAULTS):
                    async with self.session.put(self.url(document, "epoch"), params={"seen": seen[document]}):
                        self.counts["epochs asked for"] += 1

    async def _ask_again(self, it: Asked, seen: str) -> None:
        """Asks for what was done, as somebody does who didn't get the answer."""
        again = Asked(it.document, it.request, it.lines, seen, it.sent)
        if await self.ask(again):
            self.asked.remove(again)
            if (again.entry, again.replies) != (it.entry, it.replies):
                self.wrong.append(f"{it.document} {it.request} is answered in two ways")

    def follow(self, document: str, last: str = "0") -> None:
        """A reader of a document joins, which may have had a row."""
        entries = list[tuple[str, bytes]]()
        self.read.append((document, entries))
        self.readers.append(asyncio.create_task(self._reader(document, entries, last)))

    async def _reader(self, document: str, entries: list[tuple[str, bytes]], last: str) -> None:
        """Follows a document, and comes again when it is cut off."""
        while True:
            with contextlib.suppress(*FAULTS):
                headers = {"Last-Event-ID": last}
                url = self.url(document, "events")
                async with self.session.get(url, headers=headers, timeout=aiohttp.ClientTimeout(None)) as response:
                    last = await self._follow(response, document, entries, last)
            last = entries[-1][0] if entries else last
            self.counts["times a reader was cut off"] += 1
            await asyncio.sleep(0.1)

    async def _follow(self, response: aiohttp.ClientResponse, document: str, entries: list[tuple[str, bytes]],
                      last: str) -> str:
        name, data = "0", b""
        async for line in response.content:
            if line.startswith(b"id: "):
                name, data = line[4:].strip().decode(), b""
            elif line == b"event: begin\n":
                entries.clear()
            elif line.startswith(b"data: "):
                data += line[6:]
            elif line == b"\n":
                if entries and number_of(name) != number_of(entries[-1][0]) + 1:
                    self.wrong.append(f"{document}: a reader got {name} after {entries[-1][0]}")
                entries.append((name, data))
                last = name
        return last

    async def onlooker(self) -> None:
        """Asks for what is there, so that workers come to know of rows that they haven't made."""
        while True:
            with contextlib.suppress(*FAULTS):
                url = self.url(random.choice(self.documents), "html")
                async with self.session.get(url, timeout=aiohttp.ClientTimeout(2)) as response:
                    await response.read()
            await asyncio.sleep(0.1)


def writing() -> Iterator[bytes]:
    """Requests of somebody who writes a paragraph, and does something with it."""
    yield CARET
    for _ in range(random.randint(3, 12)):
        yield b'{"dispatch":"insert-text","payload":"%b"}\n' % random.choice(TEXTS)
    for _ in range(random.randint(1, 4)):
        yield b"".join(json.dumps({"dispatch": name, "payload": payload}).encode() + b"\n"
                       for name, payload in random.sample(COMMANDS, random.randint(1, 4)))
