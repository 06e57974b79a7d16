"""Editors inside a Python process, over the shared library liblx_live.so (examples/README.md says how it is made).

    from lexical import Editor

    with Editor() as editor:
        editor.line({"update": [{"append": "Hello"}]})  # {'commit': 1, 'ops': [..]}

The library is looked for at the path given, else at that in the environment variable LX_LIVE, else beside this file.
"""
from __future__ import annotations

import builtins
import ctypes
import functools
import json
import os
import pathlib
import threading
from types import TracebackType
from typing import Any

__all__ = ["Editor", "LexicalError", "ClosedError", "SpentError", "OutOfMemoryError", "LongLineError", "LineError"]

DONE, CLOSED, MEMORY, TOO_LONG, SPENT = 0, 1, 5, 6, 7  # what calls answer: examples/c/lx_live.h
MOST_DELAY = (1 << 64) - 1
PIECE = 1 << 16  # bytes of a reply that one call gives at most


class LexicalError(Exception):
    """Why an editor couldn't answer. A refused line is no error: its reply tells the cause."""

    code = "unknown"


class ClosedError(LexicalError):
    """The editor is closed: nothing was done."""

    code = "closed"


class SpentError(LexicalError):
    """The editor has made as many commits as it can: nothing was done."""

    code = "spent"


class OutOfMemoryError(LexicalError, MemoryError):
    """Memory was wanting. The editor is as it was, but updates that wait for a flush may be dropped."""

    code = "memory"


class LongLineError(LexicalError):
    """The line is too long: nothing was done."""

    code = "long"


class LineError(LexicalError, ValueError):
    """What was given is no line: nothing was done."""

    code = "line"


FAILURES: dict[int, tuple[type[LexicalError], str]] = {
    CLOSED: (ClosedError, "the editor is closed"),
    MEMORY: (OutOfMemoryError, "there is no memory for that"),
    TOO_LONG: (LongLineError, "the line has more than 16,777,216 bytes"),
    SPENT: (SpentError, "the editor has made 4,294,967,295 commits, and can't make more"),
}


class Slot(ctypes.Structure):
    """Where an editor stands; all zero, there is none."""

    _fields_ = [("is_open", ctypes.c_bool), ("editor", ctypes.c_void_p)]


def place_of(given: str | os.PathLike[str] | None) -> str:
    """Where the library is. The path is absolute, since the loader looks for a bare name in the system's folders."""
    beside = pathlib.Path(__file__).with_name("liblx_live.so")
    return os.path.abspath(os.environ.get("LX_LIVE") or beside if given is None else given)


@functools.lru_cache(maxsize=None)
def library_at(place: str) -> ctypes.CDLL:
    """The library, with the types of its calls.

    A CDLL lets other threads run during a call, which for a large document takes a tenth of a second. A PyDLL would hold
    them all up. It wouldn't keep a second thread out between the pieces of a reply either: each editor's lock does.
    """
    library = ctypes.CDLL(place)
    slot = ctypes.POINTER(Slot)
    output: list[Any] = [ctypes.c_char_p, ctypes.c_size_t, ctypes.POINTER(ctypes.c_size_t)]
    library.lx_live_open.argtypes = [slot, ctypes.c_bool, ctypes.c_uint64]
    library.lx_live_line.argtypes = [slot, ctypes.c_char_p, ctypes.c_size_t, *output]
    library.lx_live_reply.argtypes = [slot, ctypes.c_size_t, *output]
    library.lx_live_close.argtypes = [slot]
    library.lx_live_close.restype = None
    for call in (library.lx_live_open, library.lx_live_line, library.lx_live_reply):
        call.restype = ctypes.c_uint8
    return library


def need(told: int) -> None:
    """Raises what the number of a call means, if it isn't done."""
    if told != DONE:
        failure, why = FAILURES.get(told, (LexicalError, f"the library has answered {told}"))
        raise failure(why)


class Editor:
    """One editor. One thread at a time is in it, and others wait; those with editors of their own don't.

    With `view` its replies to commits include the view, as HTML. Typing goes on in one entry of the history while less
    than `delay` milliseconds lie between two commits. `close` drops it, as does the end of a `with`, or of its last
    reference. Don't call it in a signal handler, which may have come in the middle of a call.
    """

    def __init__(self, *, view: bool = False, delay: int = 1000,
                 library: str | os.PathLike[str] | None = None) -> None:
        if not isinstance(delay, int) or not 0 <= delay <= MOST_DELAY:
            raise ValueError(f"the delay is a whole number of milliseconds from 0 to {MOST_DELAY}, and not {delay!r}")
        self._slot = Slot()
        self._length = ctypes.c_size_t()
        self._output = ctypes.create_string_buffer(PIECE)
        self._lock = threading.Lock()
        self._library = library_at(place_of(library))
        need(self._library.lx_live_open(self._slot, view, delay))

    def line(self, line: object) -> dict[str, Any]:
        """Answers a line of docs/LINES.md, as an object that `json` can write, by the object of its reply."""
        try:
            written = json.dumps(line, separators=(",", ":"), ensure_ascii=False, allow_nan=False)
        except (TypeError, ValueError, RecursionError) as error:
            raise LineError(f"the line can't be written as JSON: {error}") from error
        reply: dict[str, Any] = json.loads(self.text(written))
        return reply

    def text(self, line: str) -> str:
        """Answers the text of a line, without its end, by that of the reply."""
        if not isinstance(line, str):
            raise LineError(f"the text of a line is a str, and this is a {type(line).__name__}")
        try:
            written = line.encode()
        except UnicodeEncodeError as error:
            raise LineError(f"the line has one half of a surrogate pair, at {error.start}") from error
        return self.bytes(written).decode()

    def bytes(self, line: builtins.bytes) -> builtins.bytes:
        """Answers the bytes of a line, without its end, by those of the reply. It refuses what isn't UTF-8."""
        if not isinstance(line, builtins.bytes):
            raise LineError(f"the bytes of a line are bytes, and this is a {type(line).__name__}")
        if b"\n" in line:
            raise LineError(f"this is more than one line: there is a line end at {line.index(10)}")
        with self._lock:
            need(self._library.lx_live_line(self._slot, line, len(line), self._output, PIECE, self._length))
            return self._reply()

    def _reply(self) -> builtins.bytes:
        """The whole reply. The output has its first piece, and the library gives the others without taking memory."""
        length = self._length.value
        pieces = [ctypes.string_at(self._output, min(length, PIECE))]
        for start in range(PIECE, length, PIECE):
            need(self._library.lx_live_reply(self._slot, start, self._output, PIECE, self._length))
            pieces.append(ctypes.string_at(self._output, min(length - start, PIECE)))
        return b"".join(pieces)

    def close(self) -> None:
        """Drops the editor. A second call does nothing."""
        with self._lock:
            self._library.lx_live_close(self._slot)

    def __enter__(self) -> Editor:
        return self

    def __exit__(self, kind: type[BaseException] | None, error: BaseException | None,
                 trace: TracebackType | None) -> None:
        self.close()

    def __del__(self) -> None:
        if hasattr(self, "_library"):  # it isn't there where `__init__` has raised
            self.close()
