"""A worker: all parts together, from the start to the end."""
import asyncio
import logging
import pathlib
import signal
from collections.abc import AsyncIterator, Awaitable, Callable

from aiohttp import web

from .document import Setting
from .documents import Documents
from .errors import Away, Refusal, Unfit
from .handlers import Handlers
from .limits import MOST_BODY
from .log import Log
from .metrics import Metrics
from .process import tell
from .program import Program, module_by_node, program_at
from .readers import Readers
from .sqlite import Sqlite
from .store import Store
from .words import Words

LOG = logging.getLogger("service")
DOCUMENT = "/documents/{name:[a-z0-9][a-z0-9-]{0,62}}"
HEALTH_SECONDS = 2.0
END_SECONDS = 5.0  # for what goes on beside requests
FORGET_SECONDS = 3600.0
FAULT = "something is wrong here; nothing is done twice if it is asked again\n"
Handler = Callable[[web.Request], Awaitable[web.StreamResponse]]


def program_of(words: Words) -> Program:
    """The program if there is one, else the module."""
    if words.core:
        return module_by_node()
    return program_at(words.program)


def store_of(words: Words) -> Store:
    """The database, or else a file. Only the database takes psycopg."""
    if words.database is None:
        return Sqlite(words.file)
    from .postgres import Postgres  # pylint: disable=import-outside-toplevel
    return Postgres(words.database)


class Worker:
    """The parts of a worker, and the tasks that go on beside its requests."""

    def __init__(self, words: Words, program: Program) -> None:
        self.words, self.metrics = words, Metrics()
        self.store = store_of(words)
        self.log = Log(self.store)
        self.readers = Readers(self.log, words.look)
        self.log.told = self.readers.told
        setting = Setting(program, self.log, self.metrics, words.epoch, words.pass_over)
        self.documents = Documents(setting, words.processes, words.idle)
        self.unfit: Unfit | None = None  # why the worker ends by itself

    def application(self) -> web.Application:
        """The application, with its addresses."""
        application = web.Application(client_max_size=MOST_BODY, middlewares=[self._answered],
                                      handler_args={"auto_decompress": False})  # no limit is on what comes of that
        handlers = Handlers(self.words, self.documents, self.readers, self.metrics)
        application.add_routes([
            web.post(DOCUMENT + "/lines", handlers.post_lines), web.put(DOCUMENT + "/epoch", handlers.put_epoch),
            web.get(DOCUMENT + "/state", handlers.get_state), web.get(DOCUMENT + "/html", handlers.get_html),
            web.get(DOCUMENT + "/events", handlers.get_events), web.get("/metrics", handlers.get_metrics),
            web.get("/health", self._health)])
        if self.words.page and self.words.page.is_dir():
            add_page(application, self.words.page)
        application.cleanup_ctx.append(self._live)
        application.on_shutdown.append(self._stop)
        return application

    @web.middleware
    async def _answered(self, request: web.Request, handler: Handler) -> web.StreamResponse:
        """Makes answers of refusals, and counts them all."""
        kind, status = f"{request.method} {request.path.rpartition('/')[2]}", 500
        if request.match_info.route.resource is None or not request.path.startswith("/documents/"):
            kind = "other"
        try:
            response = await handler(request)
            status = response.status
            return response
        except Refusal as error:
            status = error.status
            return web.Response(status=status, text=f"{error}\n")
        except web.HTTPException as error:
            status = error.status
            raise
        except Exception as error:  # pylint: disable=broad-exception-caught
            LOG.error("a fault", exc_info=True, extra={"path": request.path, "why": str(error)})
            return web.Response(status=500, text=FAULT)
        finally:
            self.metrics.count("requests_total", kind=kind, status=str(status))

    async def _health(self, _: web.Request) -> web.Response:
        """Whether the database answers, and has the table."""
        try:
            async with asyncio.timeout(HEALTH_SECONDS):
                await self.store.ask("select 1")
        except (TimeoutError, Away, Unfit):
            return web.Response(status=503, text="the database doesn't answer\n")
        return web.Response(text=f"{self.documents.count} documents\n")

    async def _live(self, _: web.Application) -> AsyncIterator[None]:
        asyncio.get_running_loop().set_exception_handler(tell)
        await self.store.open()
        lasting = [self.readers.tell(), self.readers.listen(), self.readers.look(), self.documents.look_after()]
        if self.words.keep is not None:
            lasting.append(self._forget(self.words.keep))
        tasks = [asyncio.create_task(self._lasting(it)) for it in lasting]
        LOG.info("begun", extra={"version": self.documents.setting.program.version})
        yield
        await self.documents.close()
        for task in tasks:
            task.cancel()
        await asyncio.wait(tasks, timeout=END_SECONDS)
        await self.store.close()
        LOG.info("ended")

    async def _stop(self, _: web.Application) -> None:
        """Lets readers go. Requests under way are answered."""
        self.readers.end()

    async def _lasting(self, task: Awaitable[None]) -> None:
        """A task that no fault may end unseen. A log that can't be used, found only now, ends the worker."""
        try:
            await task
        except Unfit as error:
            self.unfit = error
            signal.raise_signal(signal.SIGTERM)
        except Exception:
            LOG.critical("a task has ended", exc_info=True)
            raise

    async def _forget(self, days: float) -> None:
        """Deletes old rows, now and then."""
        while True:
            try:
                LOG.info("old rows deleted", extra={"rows": await self.log.forget(days)})
            except Away as error:
                LOG.warning("old rows not deleted", extra={"why": str(error)})
            await asyncio.sleep(FORGET_SECONDS)


def add_page(application: web.Application, folder: pathlib.Path) -> None:
    """Serves the page, without listing its folder."""
    async def index(_: web.Request) -> web.Response:
        raise web.HTTPFound("/page/shared.html")

    application.router.add_get("/", index)
    application.router.add_static("/page/", folder)
