"""The sides that are run as processes: the program, and two in node."""
from __future__ import annotations

import os
import pathlib
import subprocess
import tempfile
import time
from dataclasses import dataclass
from typing import Protocol

from workloads import Session

HERE = pathlib.Path(__file__).resolve().parent
NO_COUNTERPART = 3  # the status of prosemirror.mjs where a line has none


class Fault(Exception):
    """A side that was measured ended early, or answered what it may not."""


@dataclass(frozen=True)
class Told:
    """The seconds that a session's measured lines took, and the bytes of the replies to all of its lines."""

    seconds: float
    size: int


class Side(Protocol):
    """One that answers sessions. With `is_core` it does so by the core, so its replies are those of other such sides."""

    name: str
    is_core: bool

    def run(self, session: Session) -> Told | None:
        """Runs a session once; None where a line has no counterpart."""

    def close(self) -> None:
        """Ends what was started for the side."""


@dataclass(frozen=True)
class Ended:
    """A process that has ended: how long it ran, its status, and what it wrote."""

    seconds: float
    status: int
    replies: bytes
    error: str


def run_process(command: list[str], lines: bytes) -> Ended:
    """Runs a command between files, so that nobody has to wake up for its lines or replies."""
    with tempfile.TemporaryFile() as given, tempfile.TemporaryFile() as taken, tempfile.TemporaryFile() as error:
        given.write(lines)
        given.seek(0)
        begun = time.perf_counter()
        status = subprocess.run(command, stdin=given, stdout=taken, stderr=error, env=environment()).returncode
        seconds = time.perf_counter() - begun
        taken.seek(0)
        error.seek(0)
        return Ended(seconds, status, taken.read(), error.read().decode(errors="replace").strip())


def environment() -> dict[str, str]:
    """That of this process. Debian's packages for node are where node's `require` looks only if it is told."""
    return {"NODE_PATH": "/usr/share/nodejs", **os.environ}


def check(name: str, session: Session, ended: Ended) -> None:
    """Raises a fault unless there is a reply to each line, and none is a refusal."""
    count = len(session.before) + len(session.lines)
    if ended.status != 0:
        raise Fault(f"{name} ended with status {ended.status}: {ended.error}")
    answered = ended.replies.count(b"\n")
    if answered != count:
        raise Fault(f"{name} answered {answered} lines of {count}")
    if (b"\n" + ended.replies).find(b'\n{"refused"') >= 0:
        raise Fault(f"{name} refused a line of {session.name!r}, which then measures nothing")


class Program:
    """The program, by the clock, from its start to its end.

    A run takes the least time of one with the lines alone that prepare the document off that of one with all.
    """

    name = "program"
    is_core = True

    def __init__(self, path: str, runs: int) -> None:
        self.command = [path]
        self.runs = runs
        self.prepared: dict[str, float] = {}

    def run(self, session: Session) -> Told:
        if session.name not in self.prepared:
            before = b"".join(session.before)
            self.prepared[session.name] = min(run_process(self.command, before).seconds for _ in range(self.runs))
        ended = run_process(self.command, session.whole)
        check(self.name, session, ended)
        return Told(ended.seconds - self.prepared[session.name], len(ended.replies))

    def close(self) -> None:
        pass


class Script:
    """A script in node, which tells itself how long the measured lines took."""

    def __init__(self, name: str, is_core: bool, command: list[str], words: list[str]) -> None:
        self.name = name
        self.is_core = is_core
        self.command = command
        self.words = words

    def run(self, session: Session) -> Told | None:
        ended = run_process([*self.command, str(len(session.before)), *self.words], session.whole)
        if ended.status == NO_COUNTERPART:
            return None
        check(self.name, session, ended)
        return Told(float(ended.error.splitlines()[-1]) / 1000, len(ended.replies))

    def close(self) -> None:
        pass


def module_in_node(node: list[str], client: pathlib.Path, module: pathlib.Path) -> Script:
    return Script("module in node", True, [*node, str(HERE / "module.mjs")], [str(client), str(module)])


def prosemirror_in_node(node: list[str]) -> Script:
    return Script("ProseMirror in node", False, [*node, str(HERE / "prosemirror.mjs")], [])
