"""A process of `lexical`: lines go in, replies come out, within limits of time, memory and length."""
import asyncio
import resource
import signal
import time
from typing import Any

from .errors import Ended, TooMuch
from .limits import MOST_REPLIES, MOST_SECONDS, PIECE_SECONDS
from .program import Program

OUT_OF_MEMORY = 5  # the program's status
PIECE = 1 << 18  # bytes that are read at once


def tell(loop: asyncio.AbstractEventLoop, context: dict[str, Any]) -> None:
    """What the loop does with an error that nobody waits for. That a process doesn't take its lines is none: whoever
    waits for its replies hears that it has ended."""
    if not isinstance(context.get("exception"), BrokenPipeError):
        loop.default_exception_handler(context)


class Process:
    """One run. Whoever uses it sends one batch of lines after the other, and ends it at any error."""

    def __init__(self, process: asyncio.subprocess.Process) -> None:
        assert process.stdin and process.stdout
        self._process, self._stdin, self._stdout = process, process.stdin, process.stdout
        self.taken = 0  # bytes of lines

    @classmethod
    async def begin(cls, program: Program) -> "Process":
        """Begins a process. Its limits come before its first line, so before it needs anything."""
        pipe, nothing = asyncio.subprocess.PIPE, asyncio.subprocess.DEVNULL  # a file of errors would meet RLIMIT_FSIZE
        process = await asyncio.create_subprocess_exec(
            *program.words, stdin=pipe, stdout=pipe, stderr=nothing, limit=1 << 20, env={"LC_ALL": "C"})
        try:
            for limit, most in program.limits.items():
                resource.prlimit(process.pid, limit, (most, most))
        except ProcessLookupError as error:
            raise Ended(f"lexical has ended: {error}") from error
        return cls(process)

    @property
    def pid(self) -> int:
        """The process's number, for whoever looks at it from outside."""
        return self._process.pid

    def end(self) -> None:
        """Ends the process, wherever it is."""
        if self._process.returncode is None:
            self._process.kill()

    async def gone(self) -> None:
        """Waits until it has ended."""
        await self._process.wait()

    def used(self) -> float:
        """Seconds of processor time that it has used, by the clock that clock_getcpuclockid(3) names."""
        try:
            return time.clock_gettime(~self._process.pid << 3 | 2)
        except OSError as error:
            raise Ended(f"lexical has ended: {error}") from error

    async def answer(self, lines: bytes, seconds: float = MOST_SECONDS, most: int = MOST_REPLIES) -> bytes:
        """The replies to lines, one for each newline."""
        self._limit(seconds)
        self.taken += len(lines)
        self._stdin.write(lines)
        replies, missing = bytearray(), lines.count(b"\n")
        while missing > 0:
            async with asyncio.timeout(PIECE_SECONDS):
                piece = await self._stdout.read(PIECE)
            if not piece:
                raise await self._ended()
            if len(replies) + len(piece) > most:
                raise TooMuch("the replies are too long")
            replies += piece
            missing -= piece.count(b"\n")
        return bytes(replies)

    def _limit(self, seconds: float) -> None:
        """Lets it use so many seconds more. The system counts whole ones."""
        until = int(self.used() + seconds) + 1
        try:
            resource.prlimit(self._process.pid, resource.RLIMIT_CPU, (until, resource.RLIM_INFINITY))
        except ProcessLookupError as error:
            raise Ended(f"lexical has ended: {error}") from error

    async def _ended(self) -> Exception:
        """What its end says: that the lines need too much, or only that it has ended."""
        why = f"lexical has ended with status {await self._process.wait()}"
        never = self._process.returncode in (OUT_OF_MEMORY, -signal.SIGXCPU)
        return TooMuch(why) if never else Ended(why)
