"""The words of the command line."""
import argparse
import pathlib
import re
from dataclasses import dataclass

from .program import PROGRAM, TOP

FILE = TOP / "service/out/log.sqlite"


@dataclass(frozen=True)
class Words:
    """What was asked for at the start."""

    database: str | None
    file: pathlib.Path
    core: bool
    program: pathlib.Path
    host: str
    port: int
    page: pathlib.Path | None
    processes: int
    idle: float
    epoch: int
    look: float
    keep: float | None
    user_header: str | None
    read_only_header: str | None
    pass_over: bool


def header(name: str) -> str:
    """The name of a header. No request has one of another name, and then nobody would be kept from writing."""
    if not re.fullmatch(r"[A-Za-z0-9-]+", name):
        raise argparse.ArgumentTypeError(f"{name!r} is no name of a header: it has letters, digits and hyphens")
    return name


def count(text: str) -> int:
    """A number from 1."""
    number = int(text)
    if number < 1:
        raise argparse.ArgumentTypeError("it has to be at least 1")
    return number


def words_of(arguments: list[str] | None = None) -> Words:
    """The words, with what is left out."""
    parser = argparse.ArgumentParser(prog="service/run", formatter_class=argparse.ArgumentDefaultsHelpFormatter,
                                     description="Serves documents over HTTP.")
    add = parser.add_argument
    add("--database", help="PostgreSQL, as libpq takes it; without it the log is in a file, for this worker alone")
    add("--file", type=pathlib.Path, default=FILE, help="of SQLite, where no database is given")
    add("--core", action="store_true", help="runs the module by node, as where there is no proved program")
    add("--program", type=pathlib.Path, default=PROGRAM, help="the proved program")
    add("--host", default="127.0.0.1", help="for the proxy that knows who asks")
    add("--port", type=int, default=8080, help="0 takes any")
    add("--page", type=pathlib.Path, default=TOP / "web", help="a folder that is served at /page/")
    add("--processes", type=count, default=200, help="at most; who needs another one waits until one isn't in use")
    add("--idle", type=float, default=600, help="seconds until a document is closed that nobody uses")
    add("--epoch", type=int, default=4 << 20, help="bytes of lines after which an epoch ends")
    add("--look", type=float, default=5, help="seconds until readers look for what nobody told")
    add("--keep", type=float, metavar="DAYS", help="deletes older rows that are before the last epoch")
    add("--user-header", type=header, metavar="NAME", help="in which the proxy says who asks; it is kept in the row")
    add("--read-only-header", type=header, metavar="NAME",
        help="with which the proxy says that whoever asks may only read")
    add("--pass-over", action="store_true", help="may lose rows at a new version of the program: see the README")
    return Words(**vars(parser.parse_args(arguments)))
