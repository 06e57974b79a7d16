"""What goes wrong while clients work: with workers, with processes, and with what keeps the log."""
import asyncio
import contextlib
import random
import signal
import subprocess
import time
from collections.abc import Awaitable, Callable
from typing import NamedTuple

import aiohttp

from .cluster import Cluster, programs, send
from .file import File, fill_disk
from .trial import CARET, HEADERS, RULES, Asked, Trial, Worker

WITNESSES = [f"witness-{number}" for number in range(3)]
AWAY_SECONDS = 8.0  # in which a row is made that waits for the standby
LOOK_SECONDS = 30.0  # in which it is seen, once its database has begun again
EARLY = 0.1  # of the harm that could come to a worker before it serves: else a busy machine would have none that does
END_SECONDS = 60.0  # in which a worker ends by SIGTERM, also while its database is away


class Act(NamedTuple):
    """One of the bad days."""

    what: str
    act: Callable[[], Awaitable[None]]
    is_alone: bool = False  # all workers are awake, and nothing is done to them meanwhile
    is_away: bool = False  # there is no log meanwhile


class Harm:
    """About once a second ends or stops a worker, or processes of one. In between the log has its bad days."""

    def __init__(self, trial: Trial, ground: Cluster | File) -> None:
        self._trial = trial
        self._acts = self._of_file(ground) if isinstance(ground, File) else self._of_cluster(ground)
        self._resting: set[Worker] = set()
        self._tasks: list[asyncio.Task[None]] = []

    def _of_cluster(self, cluster: Cluster) -> list[Act]:
        return [Act("databases started again", in_thread(cluster.restart_first), is_away=True),
                Act("databases stopped for a while", in_thread(lambda: cluster.pause_first(14)), is_away=True),
                Act("times connections were dropped", in_thread(cluster.drop_connections)),
                Act("databases lost", lambda: self.lose_first(cluster), True),
                Act("times connections were dropped", in_thread(cluster.drop_connections))]

    def _of_file(self, file: File) -> list[Act]:
        full = Act("times the disk was full", in_thread(lambda: fill_disk(self._trial.workers[0].process.pid, 3)), True)
        return [full, Act("backups put back", lambda: self.restore(file), True), full]

    async def days(self, seconds: float) -> None:
        """All of it, spread over so many seconds."""
        begun, acts = time.monotonic(), list(self._acts)
        day: asyncio.Task[None] | None = None
        while (passed := time.monotonic() - begun) < seconds or acts:
            due = seconds * (len(self._acts) - len(acts) + 0.5) / len(self._acts)
            if acts and passed > due and (day is None or day.done()):
                if day:
                    day.result()
                what, act, is_alone, is_away = acts.pop(0)
                self._trial.counts[what] += 1
                if is_alone:
                    await asyncio.gather(*self._tasks)
                    await act()
                else:
                    day = asyncio.create_task(self._begin(act, is_away))
            await self._one(random.choice(self._trial.workers))
            await asyncio.sleep(random.uniform(0, 1))
        await asyncio.gather(*self._tasks, *([day] if day else []))

    async def _begin(self, act: Callable[[], Awaitable[None]], is_away: bool) -> None:
        with self._trial.without_log() if is_away else contextlib.nullcontext():
            await act()

    async def _one(self, worker: Worker) -> None:
        chance = random.random()
        if worker in self._resting or not worker.has_begun and random.random() > EARLY:
            return
        if chance < 0.1:
            self._tasks.append(asyncio.create_task(self._rest(worker)))
        elif chance < 0.6:
            what = random.choice([signal.SIGKILL, signal.SIGKILL, signal.SIGSTOP])
            some = programs(worker.process.pid)
            send(random.sample(some, min(3, len(some))), what)
            self._trial.counts[f"processes with {what.name}"] += min(3, len(some))
        else:
            await self._end(worker, random.choice([signal.SIGKILL, signal.SIGKILL, signal.SIGTERM]))
            await asyncio.sleep(random.uniform(0, 1))
            worker.start()

    async def _rest(self, worker: Worker) -> None:
        self._resting.add(worker)
        self._trial.counts["workers stopped for a while"] += 1
        worker.is_stopped = True
        worker.process.send_signal(signal.SIGSTOP)
        await asyncio.sleep(random.uniform(1, 14))
        worker.process.send_signal(signal.SIGCONT)
        worker.is_stopped = False
        self._resting.remove(worker)

    async def _end(self, worker: Worker, how: signal.Signals) -> None:
        left = programs(worker.process.pid)
        worker.process.send_signal(how)
        try:
            status: object = await asyncio.to_thread(worker.process.wait, END_SECONDS)
        except subprocess.TimeoutExpired:
            status = f"nothing for {END_SECONDS} seconds"
            worker.process.kill()
            worker.process.wait()
        if status not in (0, -how):
            self._trial.wrong.append(f"a worker ended wrongly by {how.name}: {status}\n{worker.told()}")
        send(left, signal.SIGCONT)  # those that were stopped would outlive it
        self._trial.counts[f"workers ended by {how.name}"] += 1

    async def lose_first(self, cluster: Cluster) -> None:
        """The worst that can be: the second is away, the first restarts, shows what the second hasn't, and is lost. Then
        the second takes over. One worker has done, by reading it, what is lost. Another one made it, and dies. So the
        first has to notice that the row is gone, or has another id, before it makes the next one."""
        onlooker, maker, other = self._trial.workers
        before = await self._begin_witnesses()
        for name in before:
            before[name] = await self._pass_epoch(name, before[name], onlooker, maker)
        with self._trial.without_log():
            await asyncio.to_thread(cluster.lose_second)
            await self._do_unsafe(before, maker)
            await asyncio.to_thread(cluster.restart_first)
            lost = await self._lost_entries(before, onlooker)
            await self._do_unsafe(before, other)
            await asyncio.to_thread(cluster.lose_first)
        await self._is_well(onlooker)
        await self._go_on(before, lost, onlooker)
        maker.start()
        other.start()

    async def restore(self, file: File) -> None:
        """The machine is lost, and a backup put back: rows are gone that clients and readers have."""
        worker = self._trial.workers[0]
        before = await self._begin_witnesses()
        await asyncio.gather(*(self._do_lost(name, before[name], worker) for name in before))
        lost = await self._lost_entries(before, worker)
        await self._end(worker, signal.SIGKILL)
        await asyncio.to_thread(file.restore, list(before))
        worker.start()
        await self._go_on(before, lost, worker)

    async def _begin_witnesses(self) -> dict[str, str]:
        """Documents that only this uses, each with a row."""
        firsts = [Asked(name, "begin", RULES, "0") for name in WITNESSES]
        return {it.document: it.entry for it in firsts if await self._trial.ask(it)}

    async def _pass_epoch(self, name: str, seen: str, one: Worker, other: Worker) -> str:
        """One worker has a document open, another one begins an epoch, and the first, which hasn't heard of that, is asked
        for more: the place of the row after that."""
        before = Asked(name, "before-epoch", CARET, seen)
        await self._trial.ask(before, one)
        with contextlib.suppress(aiohttp.ClientError, TimeoutError):
            url, limit = self._trial.url(name, "epoch", other), aiohttp.ClientTimeout(20)
            async with self._trial.session.put(url, params={"seen": before.entry}, timeout=limit) as answer:
                self._trial.counts["epochs that a worker hasn't heard of"] += answer.status == 200
        behind = Asked(name, "behind-epoch", CARET, before.entry)
        await self._trial.ask(behind, one)
        return behind.entry

    async def _go_on(self, before: dict[str, str], lost: dict[str, str | None], worker: Worker) -> None:
        """Makes rows in the place of those that are lost. Then somebody comes who has seen a lost one, and a reader who
        was cut off behind it. The reader comes only now: as long as there is no row of that number, any look at the log
        shows that the row is gone."""
        for name, first in before.items():
            self._trial.counts["rows that were seen and lost"] += 0
            await self._trial.ask(Asked(name, "next", CARET, first), worker)
            if it := lost[name]:
                await self._trial.ask(Asked(name, "behind-lost", CARET, it), worker)
                self._trial.follow(name, it)
                self._trial.counts["rows that were seen and lost"] += 1

    async def _do_unsafe(self, before: dict[str, str], worker: Worker) -> None:
        """Asks for what can't be kept safely, as there is no standby: that is to be answered by nobody. Then the worker is
        ended, so that it doesn't do it later either."""
        for is_done in await asyncio.gather(*(self._do_lost(it, before[it], worker) for it in before)):
            if is_done:
                self._trial.wrong.append("a request is answered, though its row will be lost")
        await self._end(worker, signal.SIGKILL)

    async def _do_lost(self, name: str, seen: str, worker: Worker) -> bool:
        """A request whose row will be lost: whether it is answered."""
        with contextlib.suppress(aiohttp.ClientError, TimeoutError):
            query = {"request": "lost", "seen": seen}
            async with self._trial.session.post(self._trial.url(name, "lines", worker), params=query, data=CARET,
                                                headers=HEADERS, timeout=aiohttp.ClientTimeout(AWAY_SECONDS)) as answer:
                return answer.status == 200
        return False

    async def _lost_entries(self, before: dict[str, str], worker: Worker) -> dict[str, str | None]:
        """The rows that will be lost, looked for at once: nobody can write meanwhile."""
        found = await asyncio.gather(*(self._lost_entry(name, first, worker) for name, first in before.items()))
        return dict(zip(before, found))

    async def _lost_entry(self, name: str, before: str, worker: Worker) -> str | None:
        """The row that will be lost, as the worker does it."""
        ends = time.monotonic() + LOOK_SECONDS
        while time.monotonic() < ends:
            entry = await self._trial.entry_of(name, worker)
            if entry and entry != before:
                return entry
            await asyncio.sleep(0.2)
        return None

    async def _is_well(self, worker: Worker) -> None:
        """Waits until all connections of a worker are new ones. Else its next statement fails, and with it the process."""
        well, ends = 0, time.monotonic() + 20
        while well < 20 and time.monotonic() < ends:
            with contextlib.suppress(aiohttp.ClientError, TimeoutError):
                async with self._trial.session.get(worker.url("health"), timeout=aiohttp.ClientTimeout(3)) as response:
                    well = well + 1 if response.status == 200 else 0


def in_thread(act: Callable[[], None]) -> Callable[[], Awaitable[None]]:
    """What takes a while, beside everything else."""
    return lambda: asyncio.to_thread(act)
