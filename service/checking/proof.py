"""What is wrong in the table, by what clients and readers got, and by what the program answers."""
import os
import subprocess
import time
from collections import defaultdict
from collections.abc import Iterator
from concurrent.futures import ThreadPoolExecutor
from itertools import groupby
from operator import attrgetter
from typing import NamedTuple

from .trial import RULES, Asked, Trial, number_of

CLOSING, HEAD = b'{"flush":true}\n{"show":"state"}\n', b'{"state":'
ANSWER_SECONDS = 120.0  # in which an epoch is answered again
MOST_SECONDS = 900.0  # in which the last one of them begins to be


class Row(NamedTuple):
    """A row of the table."""

    document: str
    number: int
    id: str
    epoch: int
    request: str | None
    lines: bytes
    replies: bytes

    @property
    def place(self) -> str:
        """As clients name it."""
        return f"{self.number}.{self.id}"


def faults(rows: list[Row], trial: Trial, words: list[str]) -> Iterator[str]:
    """All that is wrong."""
    for document, group in groupby(rows, attrgetter("document")):
        entries = list(group)
        if [row.number for row in entries] != list(range(1, len(entries) + 1)):
            yield f"{document}: the numbers have gaps, or come twice"
        last = [(row.place, row.replies) for row in entries if row.epoch == entries[-1].epoch]
        if any(read != last for name, read in trial.read if name == document):
            yield f"{document}: a reader has something else than the last epoch"
    yield from _epochs(rows, words)
    yield from _requests(rows, trial)
    for document, asked in groupby(sorted(trial.asked, key=attrgetter("document", "number")), attrgetter("document")):
        latest = 0.0
        for it in asked:
            if it.answered < latest:
                yield f"{document} {it.request}: one that was sent after its answer came before it"
            latest = max(latest, it.sent)


def _epochs(rows: list[Row], words: list[str]) -> Iterator[str]:
    """Each epoch is answered again with the same bytes, and begins with what was there. Some are answered at once: the
    module by node takes half a second to begin, and there may be hundreds of epochs."""
    runs = [list(group) for _, group in groupby(rows, attrgetter("document", "epoch"))]
    ends = time.monotonic() + MOST_SECONDS
    before, state = "", None
    with ThreadPoolExecutor(os.cpu_count()) as threads:
        answers = threads.map(lambda run: _answer(run, words) if time.monotonic() < ends else None, runs)
        for run, answer in zip(runs, answers):
            name, replies = f"{run[0].document}: epoch {run[0].epoch}", b"".join(row.replies for row in run)
            if answer is None:
                yield f"{name} isn't answered again: all of them take longer than {MOST_SECONDS:.0f} seconds"
            elif not answer.startswith(replies) or answer.count(b"\n") != replies.count(b"\n") + 2:
                yield f"{name} is answered otherwise by a new process"
            if run[0].document == before and state and run[0].lines != b'{"load":%b}\n' % state + RULES:
                yield f"{name} doesn't begin with what was there"
            before, state = run[0].document, _state_of(answer)


def _answer(run: list[Row], words: list[str]) -> bytes:
    """What a new process answers to an epoch, as far as it comes."""
    lines = b"".join(row.lines for row in run) + CLOSING
    with subprocess.Popen(words, stdin=subprocess.PIPE, stdout=subprocess.PIPE) as process:
        try:
            return process.communicate(lines, ANSWER_SECONDS)[0]
        except subprocess.TimeoutExpired:
            process.kill()
            return b""


def _state_of(answer: bytes | None) -> bytes | None:
    """The document at the end of an epoch."""
    last = (answer or b"").removesuffix(b"\n").rpartition(b"\n")[2]
    return last.removeprefix(HEAD).removesuffix(b"}") if last.startswith(HEAD) else None


def _requests(rows: list[Row], trial: Trial) -> Iterator[str]:
    """Each request that was answered is there, once, as it was answered, behind what its client had seen."""
    stored, places = defaultdict(list), {(row.document, row.place) for row in rows}
    for row in rows:
        stored[row.document, row.request].append(row)
    for it in trial.asked:
        found, name = stored.pop((it.document, it.request), []), f"{it.document} {it.request}"
        if [(row.place, row.lines, row.replies) for row in found] != [(it.entry, it.lines, it.replies)]:
            yield f"{name}: answered as {it.entry}, it is there {len(found)} times"
        elif found[0].epoch > max(number_of(it.seen), 1):
            yield f"{name}: done in an epoch that its client hadn't seen"
        elif it.seen != "0" and (it.document, it.seen) not in places:
            yield f"{name}: done, but its client had seen {it.seen}, which isn't there"
        elif it.is_exact and number_of(it.seen) != it.number - 1:
            yield f"{name}: done at {it.number}, but its client had seen {it.seen}"
    unknown = [it for it in stored if it[1] and it[1] != "lost" and it not in trial.given_up]
    yield from (f"{document} {request}: nobody has asked that" for document, request in unknown)
    yield from _lost(rows)


def _lost(rows: list[Row]) -> Iterator[str]:
    """What was never answered may be gone, but not in part."""
    if sum(row.request == "lost" for row in rows) > len({row.document for row in rows}):
        yield "a request that was lost is there twice"


__all__ = ["Asked", "Row", "faults"]
