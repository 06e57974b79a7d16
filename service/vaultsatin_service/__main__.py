"""Starts a worker."""
import asyncio
import logging
import socket
import sys

from aiohttp import web

from .application import Worker, program_of
from .errors import Away, Unfit
from .limits import TAKE_SECONDS
from .logging_lines import log_to_stderr
from .words import words_of

SHUTDOWN_SECONDS = 10  # for requests under way
USER_TIMEOUT = 18  # TCP_USER_TIMEOUT of linux/tcp.h, which also ends connections whose other side takes nothing
LOG = logging.getLogger("service")


def listening(host: str, port: int) -> socket.socket:
    """The socket, and a log line that says where it is."""
    family = socket.AF_INET6 if ":" in host else socket.AF_INET
    try:
        opened = socket.create_server((host, port), family=family, backlog=128)
    except OSError as error:
        sys.exit(f"nobody can listen there: {error}")
    opened.setsockopt(socket.IPPROTO_TCP, USER_TIMEOUT, 1000 * TAKE_SECONDS)  # of its connections
    place = f"[{host}]" if ":" in host else host
    LOG.info("listening", extra={"address": f"http://{place}:{opened.getsockname()[1]}"})
    return opened


def main() -> None:
    """Runs until it is ended by a signal."""
    words = words_of()
    log_to_stderr()
    if sys.version_info < (3, 12):
        asyncio.set_child_watcher(asyncio.PidfdChildWatcher())  # without a thread for each process
    try:
        program = program_of(words)
    except OSError as error:
        sys.exit(f"there is no program: {error}. The option --core runs the module by node.")
    try:
        worker = Worker(words, program)
        web.run_app(worker.application(), sock=listening(words.host, words.port),
                    shutdown_timeout=SHUTDOWN_SECONDS, access_log=None, print=lambda *_: None)
        if worker.unfit:
            raise worker.unfit
    except Away as error:
        sys.exit(f"the log can't be opened: {error}. Another worker may have the file {words.file}.")
    except ModuleNotFoundError as error:
        sys.exit(f"--database takes psycopg: {error}")
    except Unfit as error:
        sys.exit(f"the log can't be used: {error}")


if __name__ == "__main__":
    main()
