"""The requests of HTTP, and their answers."""
import asyncio
import json
import re
from collections.abc import Awaitable, Callable

from aiohttp import web

from .bounds import Room
from .document import Asked, Document
from .documents import Documents
from .entry import Entry, Place
from .errors import Away, Refusal
from .limits import BODY_SECONDS, MOST_BODIES, MOST_BODY, MOST_NAME
from .metrics import Metrics
from .readers import Readers
from .run import STATE, STATE_HEAD
from .words import Words

LINES = "application/x-ndjson"
REQUEST = re.compile("[A-Za-z0-9-]{1,64}")
SAFE = {"X-Content-Type-Options": "nosniff", "Content-Security-Policy": "sandbox; default-src 'none'"}


class ReadOnly(Refusal):
    """The proxy says that whoever asks may only read."""

    status = 403


class NotLines(Refusal):
    """The body is of another type."""

    status = 415


class Slow(Refusal):
    """The body doesn't come."""

    status = 408


class Handlers:
    """What is done at each address."""

    def __init__(self, words: Words, documents: Documents, readers: Readers, metrics: Metrics) -> None:
        self._words, self._documents, self._readers, self._metrics = words, documents, readers, metrics
        self._bodies = Room(MOST_BODIES, "bytes of requests")

    async def post_lines(self, request: web.Request) -> web.Response:
        """Does lines, once."""
        self._may_write(request)
        if request.content_type != LINES:  # which no page of another site may send
            raise NotLines(f"send {LINES}")
        if request.headers.get("Content-Encoding", "identity") != "identity":  # a few bytes may be gigabytes
            raise NotLines("send the lines as they are, not compressed")
        length = request.content_length
        with self._bodies.taken(MOST_BODY if length is None else min(length, MOST_BODY)):
            lines = await _body(request)
            asked = Asked(_name_of(request), lines, Place.read(request.query.get("seen", "")), _is_exact(request),
                          self._author(request))
            entry = await self._use(request, lambda document: document.do(asked))
        self._metrics.refusals(entry.replies)
        return _answer(entry, entry.replies, LINES)

    async def put_epoch(self, request: web.Request) -> web.Response:
        """Begins an epoch."""
        self._may_write(request)
        seen = Place.read(request.query.get("seen", ""))
        return _answer(await self._use(request, lambda document: document.end_epoch(seen)), b"", LINES)

    async def get_state(self, request: web.Request) -> web.Response:
        """The document, as it is stored."""
        entry = await self._use(request, lambda document: document.ask(STATE))
        return _answer(entry, entry.replies[len(STATE_HEAD):-len(b"}\n")], "application/json")

    async def get_html(self, request: web.Request) -> web.Response:
        """The view."""
        entry = await self._use(request, lambda document: document.ask(b'{"show":"view"}\n'))
        return _answer(entry, json.loads(entry.replies)["view"].encode(), "text/html; charset=utf-8")

    async def get_events(self, request: web.Request) -> web.StreamResponse:
        """The last epoch's rows, or those behind an event, as they come."""
        after = request.query.get("after", request.headers.get("Last-Event-ID", "0"))
        follow = self._readers.follow(request.match_info["name"], Place.read(after))
        response = web.StreamResponse(headers={
            "Content-Type": "text/event-stream", "Cache-Control": "no-store", "X-Accel-Buffering": "no"})
        await response.prepare(request)
        try:
            async for entry in follow:
                await response.write(entry.event() if entry else b":\n")  # fails if the reader has gone
        except (ConnectionError, Away):
            pass  # the reader comes again
        finally:
            await follow.aclose()  # type: ignore[attr-defined]
        return response

    async def get_metrics(self, _: web.Request) -> web.Response:
        """What Prometheus asks for."""
        text = self._metrics.text(open_documents=self._documents.count, readers=self._readers.count)
        return web.Response(text=text, headers={"Content-Type": "text/plain; version=0.0.4"})

    async def _use(self, request: web.Request, act: Callable[[Document], Awaitable[Entry]]) -> Entry:
        with self._metrics.timed("request"):
            return await self._documents.use(request.match_info["name"], act)

    def _may_write(self, request: web.Request) -> None:
        header = self._words.read_only_header
        if header and not set(request.headers.getall(header, [])) <= {"", "0"}:
            raise ReadOnly("you may only read this document")

    def _author(self, request: web.Request) -> str | None:
        names: list[str] = request.headers.getall(self._words.user_header, []) if self._words.user_header else []
        if len(names) > 1:
            raise Refusal("there are several names of the user")
        if any(len(name) > MOST_NAME or not name.isprintable() for name in names):
            raise Refusal("the user's name is too long, or has controls in it")
        return names[0] if names else None


def _name_of(request: web.Request) -> str:
    name = request.query.get("request", "")
    if not REQUEST.fullmatch(name):
        raise Refusal(f"a request's name is {REQUEST.pattern}")
    return name


def _is_exact(request: web.Request) -> bool:
    value = request.query.get("exact", "0")
    if value not in ("0", "1"):
        raise Refusal("exact is 0 or 1")
    return value == "1"


async def _body(request: web.Request) -> bytes:
    """The lines, each with its newline."""
    try:
        async with asyncio.timeout(BODY_SECONDS):
            return (await request.read()).removesuffix(b"\n") + b"\n"
    except TimeoutError:
        raise Slow(f"the body has to come within {BODY_SECONDS} seconds") from None


def _answer(entry: Entry, body: bytes, kind: str) -> web.Response:
    """An answer, with its place in the log."""
    place = {"Entry": str(entry.place), "Epoch": str(entry.epoch)}
    return web.Response(body=body, headers={"Content-Type": kind, **place, **SAFE})
