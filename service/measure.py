#!/usr/bin/python3
"""Measures the service on this machine: requests a second, how long one takes, memory, and how long a document takes to open.

It takes wrk and PostgreSQL, of which it begins one in a folder of its own. Each request replaces a letter in one of the
documents, whose texts stay as long as they were. Processor times say more than others where the machine is busy.
"""
import argparse
import http.client
import json
import os
import pathlib
import re
import signal
import subprocess
import sys
import tempfile
import time
import uuid
from collections.abc import Iterator

import psycopg

from tests.support import Database
from vaultsatin_service.program import module_by_node

HERE = pathlib.Path(__file__).resolve().parent
TEXT = "People write paragraphs of about this length, and then go back to change a letter."
BEGIN = json.dumps({"update": [{"append": TEXT}]}) + "\n"
TYPE = ('{"update":[{"select":{"anchor":[2,0,"text"],"focus":[2,1,"text"]}},'
        '{"dispatch":"insert-text","payload":"LETTER"}]}')
SCRIPT = """
local seen = { %s }
local threads, count = 0, 0
function setup(thread) thread:set("number", threads); threads = threads + 1 end
function init(words) math.randomseed(os.time() + number * 7919) end
function request()
  count = count + 1
  local at, line = math.random(#seen), '%s'
  return wrk.format("POST", "/documents/" .. seen[at][1] .. "/lines?seen=" .. seen[at][2] .. "&request=%s-" .. number .. "-"
    .. count, {["Content-Type"] = "application/x-ndjson"}, (line:gsub("LETTER", string.char(97 + count %% 26))) .. "\\n")
end
function delay() return %d end
"""


def children(process: int) -> list[int]:
    """The processes that a process has begun."""
    tasks = pathlib.Path(f"/proc/{process}/task").iterdir()
    return [int(it) for task in tasks for it in (task / "children").read_text(encoding="ascii").split()]


def memory(process: int, what: str = "Pss") -> float:
    """Megabytes."""
    text = pathlib.Path(f"/proc/{process}/smaps_rollup").read_text(encoding="ascii")
    found = re.search(f"^{what}: +([0-9]+)", text, re.MULTILINE)
    return int(found[1]) / 1024 if found else 0.0


def spent(processes: list[int]) -> float:
    """Milliseconds of processor time."""
    ticks = 0
    for process in processes:
        path = pathlib.Path(f"/proc/{process}/stat")
        if path.exists():
            ticks += sum(map(int, path.read_text(encoding="ascii").rpartition(")")[2].split()[11:13]))
    return 1000 * ticks / os.sysconf("SC_CLK_TCK")


class Worker:
    """A worker, and what is asked of it."""

    def __init__(self, words: list[str]) -> None:
        self._words = [str(HERE / "run"), *words, "--port", "0"]
        self.start()

    def start(self) -> None:
        """Begins it."""
        self.process = subprocess.Popen(self._words, stdout=subprocess.DEVNULL, stderr=subprocess.PIPE)
        assert self.process.stderr
        for line in self.process.stderr:
            told = json.loads(line)
            if told["event"] == "listening":
                self.port = int(told["address"].rpartition(":")[2])
            if told["event"] == "begun":
                break

    def stop(self) -> None:
        """Ends it."""
        self.process.send_signal(signal.SIGTERM)
        self.process.communicate()

    def ask(self, method: str, path: str, body: str = "") -> tuple[str, bytes]:
        """The entry and the body of an answer."""
        connection = http.client.HTTPConnection("127.0.0.1", self.port, timeout=120)
        connection.request(method, path, body.encode(), {"Content-Type": "application/x-ndjson"})
        response = connection.getresponse()
        data = response.read()
        if response.status != 200:
            raise RuntimeError(f"{method} {path}: {response.status} {data[:200]!r}")
        return response.headers.get("Entry", ""), data

    def begin(self, name: str) -> str:
        """A document, and its first entry."""
        return self.ask("POST", f"/documents/{name}/lines?seen=0&request=begin", BEGIN)[0]


def load(worker: Worker, seen: dict[str, str], seconds: int, pause: int) -> "subprocess.Popen[str]":
    """16 clients, each of which pauses so many milliseconds before each request."""
    table = ", ".join('{"%s", "%s"}' % pair for pair in seen.items())
    with tempfile.NamedTemporaryFile("w", suffix=".lua", delete=False) as file:
        file.write(SCRIPT % (table, TYPE, f"r{time.time_ns()}", pause))
    return subprocess.Popen(["wrk", "-t1", "-c16", f"-d{seconds}", "--latency", "-s", file.name,
                             f"http://127.0.0.1:{worker.port}"], stdout=subprocess.PIPE, text=True)


def found(pattern: str, text: str) -> str:
    """What wrk says of something."""
    match = re.search(pattern, text)
    return match[1] if match else ""


def rate(workers: list[Worker], seen: dict[str, str], database: int, seconds: int, pause: int = 0) -> tuple[float, str]:
    """Each worker has its own part of the documents, as behind a proxy that goes by name."""
    pairs, share = list(seen.items()), len(seen) // len(workers)
    parts = [dict(pairs[at * share:(at + 1) * share]) for at in range(len(workers))]
    for worker, part in zip(workers, parts):
        for name in part:
            worker.ask("GET", f"/documents/{name}/html")

    def costs() -> dict[str, float]:
        return {"worker": spent([it.process.pid for it in workers]), "PostgreSQL": spent([database, *children(database)]),
                "lexical": spent([process for it in workers for process in children(it.process.pid)])}

    before = costs()
    runs = [load(worker, part, seconds, pause) for worker, part in zip(workers, parts)]
    texts = [run.communicate()[0] for run in runs]
    number = sum(float(found("Requests/sec: +([0-9.]+)", text)) for text in texts)
    cost = ", ".join(f"{name} {(now - before[name]) / number / seconds:.2f}" for name, now in costs().items())
    times = "; ".join(f"{found('50% +(.*)', text)} / {found('99% +(.*)', text)}" for text in texts)
    wrong = "".join(found("(Non-2xx.*)", text) for text in texts)
    return number, f"median / 99th {times}; processor ms a request: {cost} {wrong}"


def throughput(workers: list[Worker], seen: dict[str, str], database: int, seconds: int) -> Iterator[str]:
    """With 1, 2 and 4 workers, and at half of what one does."""
    first = 0.0
    for count in (1, 2, 4):
        number, detail = rate(workers[:count], seen, database, seconds)
        first = first or number
        yield f"{count} workers: {number:,.0f} requests a second; {detail}"
    number, detail = rate(workers[:1], seen, database, seconds, max(1, int(16_000 / (first / 2)) - 3))
    yield f"1 worker at {number:,.0f} a second: {detail}"
    some = children(workers[0].process.pid)
    yield (f"{len(some)} processes, {sum(map(memory, some)) / len(some):.1f} MB each (Pss), "
           f"{sum(memory(it, 'Private_Dirty') for it in some) / len(some):.1f} MB of it private and written; "
           f"the worker {memory(workers[0].process.pid):.0f} MB")


def filled(database: Database, name: str, count: int, answers: list[str]) -> None:
    """A document of so many rows, as it would be if each had been asked for."""
    lines = [BEGIN] + [TYPE.replace("LETTER", chr(97 + number % 26)) + "\n" for number in range(1, count)]
    told = subprocess.run(answers, input="".join(lines), stdout=subprocess.PIPE, text=True, check=True).stdout
    with psycopg.connect(database.address) as connection, connection.cursor() as cursor:
        with cursor.copy("copy entry (document, number, id, epoch, request, lines, replies, written) from stdin") as copy:
            for number, (line, reply) in enumerate(zip(lines, told.splitlines(keepends=True)), 1):
                copy.write_row((name, number, uuid.uuid4().hex, 1, f"r{number}", line.encode(), reply.encode(), 0))


def opening(worker: Worker, counts: list[int]) -> Iterator[str]:
    """How long a document takes to open that has so many rows, and how long a reader takes to join."""
    for count in counts:
        name = f"log{count}"
        for kind in ("", ", behind an epoch's end"):
            worker.stop()
            worker.start()
            worker.ask("GET", "/documents/d0/html")
            begun = time.monotonic()
            seen = worker.ask("GET", f"/documents/{name}/html")[0]
            opened, joined, size = time.monotonic() - begun, *join(worker, name, seen)
            yield (f"{count:,} rows{kind}: opens in {1000 * opened:.0f} ms; a reader has it in {1000 * joined:.0f} ms, "
                   f"{size / 1000:,.0f} kB")
            worker.ask("PUT", f"/documents/{name}/epoch?seen={seen}")


def join(worker: Worker, name: str, last: str) -> tuple[float, int]:
    """Seconds until a new reader has a row, and the bytes that it gets."""
    begun, size, is_last = time.monotonic(), 0, False
    connection = http.client.HTTPConnection("127.0.0.1", worker.port, timeout=120)
    connection.request("GET", f"/documents/{name}/events")
    response = connection.getresponse()
    while line := response.readline():
        size += len(line)
        is_last = is_last or line == f"id: {last}\n".encode()
        if is_last and line == b"\n":
            break
    connection.close()
    return time.monotonic() - begun, size


def main() -> None:
    """Prints what there is."""
    parser = argparse.ArgumentParser(description=__doc__)
    parser.add_argument("--program", help="the proved program; without it the module by node")
    parser.add_argument("--seconds", type=int, default=6)
    parser.add_argument("--documents", type=int, default=20, help="in use")
    parser.add_argument("--many", type=int, default=10_000, help="in the log")
    parser.add_argument("--rows", default="1000,10000", help="of the documents that are opened")
    words = parser.parse_args()
    signal.signal(signal.SIGTERM, lambda *_: sys.exit(143))  # so that what was begun is ended
    print("load of the machine before:", *(f"{it:.1f}" for it in os.getloadavg()))
    with tempfile.TemporaryDirectory(prefix="service-") as folder:
        database = Database(pathlib.Path(folder), is_safe=True)
        options = ["--database", database.address, "--processes", str(2 * words.documents),
                   *(["--program", words.program] if words.program else ["--core"])]
        workers = [Worker(options) for _ in range(4)]
        try:
            measured(words, workers, database)
        finally:
            for worker in workers:
                worker.stop()
            database.stop()
    print("load of the machine after:", *(f"{it:.1f}" for it in os.getloadavg()))


def measured(words: argparse.Namespace, workers: list[Worker], database: Database) -> None:
    """All parts, one after the other."""
    seen = {f"d{it}": workers[0].begin(f"d{it}") for it in range(words.documents)}
    for line in throughput(workers, seen, database.pid, words.seconds):
        print(line, flush=True)
    counts = [int(it) for it in words.rows.split(",")]
    for count in counts:
        filled(database, f"log{count}", count, [words.program] if words.program else module_by_node().words)
    for line in opening(workers[0], counts):
        print(line, flush=True)
    database.ask(f"""insert into entry (document, number, id, epoch, request, lines, replies, version, written)
        select 'm' || it, number, id, 1, request, lines, replies, version, written
        from entry, generate_series(1, {words.many}) as it where document = 'd0' and number <= 100""")
    database.ask("analyze entry")
    number, detail = rate(workers[:1], seen, database.pid, words.seconds)
    print(f"{words.many:,} documents of 100 rows, {words.documents} in use: {number:,.0f} requests a second; {detail}")
    begun = time.monotonic()
    for it in range(1, 11):
        workers[1].ask("GET", f"/documents/m{it * words.many // 10}/html")
    size = database.ask("select pg_total_relation_size('entry')")
    print(f"one of them opens in {100 * (time.monotonic() - begun):.0f} ms; the table has {int(size) / 1e6:,.0f} MB")


if __name__ == "__main__":
    main()
