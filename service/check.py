#!/usr/bin/python3
"""Checks the service with faults. Clients and readers work while workers, processes of `lexical` and databases are killed,
or stopped for a while. Then each request that was answered is to be there once, in order, as it was answered. Each epoch is
to be answered again with the same bytes, and each reader is to have what is there. The status is 1 where anything is wrong.

With `--fault NAME` the service is a wrong one, and the check has to find that. With `--sqlite` one worker has its log in a
file; else the check takes PostgreSQL with psycopg.
"""
import argparse
import asyncio
import os
import pathlib
import random
import re
import shutil
import signal
import sys
import tempfile
import time
from collections import Counter
from collections.abc import Awaitable

import aiohttp

from checking.cluster import Cluster
from checking.faults import ALONE, FAULTS, IN_FILE, SERVICE, copied
from checking.file import File
from checking.harm import Harm
from checking.proof import Row, faults
from checking.trial import ANSWER_SECONDS, RULES, Asked, Trial, Worker

COLUMNS = "document, number, id, epoch, request, lines, replies"
PROGRAM, STAND_IN = SERVICE.parent / "crates/lexical/out/lexical", SERVICE / "checking/stand_in.py"
WRONG = re.compile('"trace"|Traceback|another version')  # in what a worker tells: all have one version
CHANGING = re.compile(r"[0-9]+(\.[0-9a-f]{32})?")  # in what is wrong
SETTLE_SECONDS = 20  # for readers, at the end
MOST_SECONDS = 400  # beside the seconds with faults: whatever is wrong, the check ends


async def phase(trial: Trial, name: str, clients: int, act: Awaitable[None]) -> None:
    """Lets clients work while something is done, and prints what they got."""
    trial.is_over, since, begun = False, len(trial.asked), time.monotonic()
    names = [f"c{since}-{it}" for it in range(clients)]
    tasks = [asyncio.create_task(trial.client(it), name=it) for it in names]
    try:
        await act
        seconds, trial.is_over = time.monotonic() - begun, True
        for task in (await asyncio.wait(tasks, timeout=ANSWER_SECONDS + 40))[1]:
            trial.wrong.append(f"a client isn't answered: {task.get_name()}")
    finally:
        for task in tasks:
            task.cancel()
    times = sorted(1000 * (it.answered - it.sent) for it in trial.asked[since:]) or [0.0]
    print(f"{name}: {(len(trial.asked) - since) / seconds:,.0f} requests a second; milliseconds: median "
          f"{times[len(times) // 2]:.0f}, 99th {times[len(times) * 99 // 100]:.0f}, most {times[-1]:.0f}", flush=True)


async def work(trial: Trial, words: argparse.Namespace, ground: Cluster | File) -> list[Row]:
    """What happens, and the table after it."""
    if not all(await asyncio.gather(*(trial.ask(Asked(it, "begin", RULES, "0")) for it in trial.documents))):
        return []
    await phase(trial, "without faults", words.clients, asyncio.sleep(words.seconds / 8))
    for _ in range(words.clients):
        trial.follow(random.choice(trial.documents))
    onlookers = [asyncio.create_task(trial.onlooker()) for _ in range(4)]
    try:
        await phase(trial, "with faults", words.clients, Harm(trial, ground).days(words.seconds))
        rows = [Row(*row) for row in ground.rows(COLUMNS)]
        last = {row.document: row.place for row in rows}
        ends = time.monotonic() + SETTLE_SECONDS
        while time.monotonic() < ends and any(not read or read[-1][0] != last[name] for name, read in trial.read):
            await asyncio.sleep(0.1)
    finally:
        for task in trial.readers + onlookers:
            task.cancel()
    return rows


async def check(words: argparse.Namespace, folder: pathlib.Path) -> list[str]:
    """What is wrong."""
    ground: Cluster | File = File(folder) if words.sqlite else Cluster(folder)
    rows = list[Row]()
    options = [*ground.options, "--processes", "12", "--epoch", "40000", "--idle", "600"]
    options += ["--core"] if words.core else ["--program", str(words.program.resolve())]
    answers = ["node", str(SERVICE.parent / "web/cli.mjs")] if words.core else [str(words.program.resolve())]
    async with aiohttp.ClientSession(read_bufsize=1 << 22, connector=aiohttp.TCPConnector(limit=0)) as session:
        trial = Trial(session, [f"d{it}" for it in range(words.documents)])
        clock = asyncio.create_task(trial.tick())
        try:
            if isinstance(ground, Cluster):
                ground.begin("" if words.fault == ALONE else "*")
            trial.workers += [Worker(folder, *options) for _ in range(1 if words.sqlite else 3)]
            async with asyncio.timeout(2 * words.seconds + MOST_SECONDS):
                rows = await work(trial, words, ground)
        except TimeoutError:
            trial.wrong.append("the check doesn't come to its end")
        finally:
            clock.cancel()
            for worker in trial.workers:
                if (status := worker.process.poll()) not in (None, -signal.SIGKILL, -signal.SIGTERM):
                    trial.wrong.append(f"a worker ended by itself: {status}\n{worker.told()}")
                worker.process.kill()
                worker.process.wait()
                text = worker.log.read_text(encoding="utf-8")
                trial.counts += Counter(f"times again: {it}" for it in re.findall('"again".*"kind": "([A-Za-z]+)', text))
                trial.wrong += [f"a worker's fault: {it[:600]}" for it in text.splitlines() if WRONG.search(it)][:1]
            ground.stop()
    trial.counts["seconds with a log and a worker"] += round(trial.clock)
    epochs = {(row.document, row.epoch) for row in rows}
    trial.counts.update({"requests": len(trial.asked), "rows": len(rows), "epochs": len(epochs)})
    print(", ".join(f"{count} {what}" for what, count in sorted(trial.counts.items())), flush=True)
    begun = time.monotonic()
    wrong = trial.wrong + (list(faults(rows, trial, answers)) if rows else ["there are no rows"])
    print(f"what is there was looked through in {time.monotonic() - begun:.0f} seconds", flush=True)
    return wrong


def kind_of(wrong: str) -> str:
    """What is wrong, without its details, names and numbers."""
    return CHANGING.sub("0", wrong.partition("\n")[0])


def main() -> None:
    """Checks, and says what is wrong."""
    parser = argparse.ArgumentParser(formatter_class=argparse.ArgumentDefaultsHelpFormatter)
    parser.add_argument("--program", type=pathlib.Path, default=PROGRAM if PROGRAM.exists() else STAND_IN,
                        help="the proved program, or what stands in for it")
    parser.add_argument("--core", action="store_true", help="the module by node, which takes long to begin")
    parser.add_argument("--sqlite", action="store_true", help="the log in a file, for one worker")
    parser.add_argument("--seconds", type=float, default=80, help="with faults; an eighth of it without")
    parser.add_argument("--seed", type=int, help="of what happens; when it happens is for the machine to say")
    parser.add_argument("--clients", type=int, default=8, help="and as many readers")
    parser.add_argument("--documents", type=int, default=6, help="in all")
    parser.add_argument("--fault", choices=FAULTS, help="by which the check has to fail")
    words = parser.parse_args()
    if words.sqlite and words.fault and words.fault not in IN_FILE:
        parser.error(f"{words.fault} takes several workers, or a database with a standby")
    random.seed(words.seed)
    signal.signal(signal.SIGTERM, lambda *_: sys.exit(143))  # so that what was begun is ended
    with tempfile.TemporaryDirectory(prefix="service-") as name:
        folder = pathlib.Path(name)
        copied(folder, words.fault, not words.core)
        folder.chmod(0o755)
        if os.getuid() == 0:
            shutil.chown(folder, "postgres")
        wrong = asyncio.run(check(words, folder))
    kinds = Counter(kind_of(it) for it in wrong)
    for kind, count in kinds.items():
        print(f"{count} times wrong, as here:", next(it for it in wrong if kind_of(it) == kind))
    print(f"{len(wrong)} wrong" if wrong else "all is right")
    sys.exit(1 if wrong else 0)


if __name__ == "__main__":
    main()
