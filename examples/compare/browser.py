"""The side in headless Chromium: a page that asks for sessions, and the server that has them."""
from __future__ import annotations

import http.server
import json
import os
import pathlib
import queue
import shutil
import subprocess
import tempfile
import threading
import time
from typing import Any

from sides import HERE, Fault, Told
from workloads import Session

LONGEST_RUN = 300  # seconds
OWN_FILES = {"/": "page.html", "/page.js": "page.js", "/session.mjs": "session.mjs"}
KINDS = {".html": "text/html", ".js": "text/javascript", ".mjs": "text/javascript", ".wasm": "application/wasm"}


class Site(http.server.ThreadingHTTPServer):
    """What the page asks for. A session at a time goes into `sessions`, and what the page tells comes out of `told`."""

    daemon_threads = True

    def __init__(self, client: pathlib.Path, module: pathlib.Path) -> None:
        super().__init__(("127.0.0.1", 0), Handler)
        self.client = client
        self.module = module
        self.lines = b""
        self.sessions: queue.Queue[dict[str, Any]] = queue.Queue()
        self.told: queue.Queue[dict[str, Any]] = queue.Queue()

    def content(self, path: str) -> tuple[str, bytes] | None:
        """The media type and the bytes of what is at a path."""
        if path == "/session":
            return "application/json", json.dumps(self.sessions.get()).encode()
        if path == "/lines":
            return "application/x-ndjson", self.lines
        if path == "/client":
            return "text/plain", f"./client/{self.client.name}".encode()
        file = self.file_of(path)
        return (KINDS.get(file.suffix, "text/plain"), file.read_bytes()) if file and file.is_file() else None

    def file_of(self, path: str) -> pathlib.Path | None:
        if path == "/module":
            return self.module
        if path.startswith("/client/"):  # what the client imports lies beside it
            return self.client.parent / pathlib.PurePosixPath(path).name
        return HERE / OWN_FILES[path] if path in OWN_FILES else None


class Handler(http.server.BaseHTTPRequestHandler):
    server: Site

    def do_GET(self) -> None:
        found = self.server.content(self.path)
        if found is None:
            self.answer(404, "text/plain", b"")
        else:
            self.answer(200, *found)

    def do_POST(self) -> None:
        self.server.told.put(json.loads(self.rfile.read(int(self.headers["Content-Length"]))))
        self.answer(200, "text/plain", b"")

    def answer(self, status: int, kind: str, content: bytes) -> None:
        self.send_response(status)
        self.send_header("Content-Type", kind)
        self.send_header("Content-Length", str(len(content)))
        self.send_header("Cache-Control", "no-store")
        self.end_headers()
        self.wfile.write(content)

    def log_message(self, *_: object) -> None:
        """Says nothing."""


class Page:
    """The module in a page, by the clock, from the first measured line to the last reply."""

    name = "module in Chromium"
    is_core = True

    def __init__(self, chromium: str, client: pathlib.Path, module: pathlib.Path) -> None:
        self.site = Site(client, module)
        threading.Thread(target=self.site.serve_forever, daemon=True).start()
        self.profile = tempfile.mkdtemp()
        words = ["--headless=new", "--disable-gpu", "--no-first-run", f"--user-data-dir={self.profile}"]
        if os.geteuid() == 0:
            words.append("--no-sandbox")  # Chromium has no sandbox for root
        place = f"http://127.0.0.1:{self.site.server_port}/"
        self.process = subprocess.Popen([chromium, *words, place], stdout=subprocess.DEVNULL, stderr=subprocess.DEVNULL)

    def run(self, session: Session) -> Told:
        self.site.lines = session.whole
        self.site.sessions.put({"where": "lines", "before": len(session.before)})
        told = self.wait()
        if "error" in told:
            raise Fault(f"the page failed: {told['error']}")
        return Told(told["milliseconds"] / 1000, told["size"])

    def wait(self) -> dict[str, Any]:
        """What the page tells next."""
        last = time.monotonic() + LONGEST_RUN
        while time.monotonic() < last:
            try:
                return self.site.told.get(timeout=1)
            except queue.Empty:
                if self.process.poll() is not None:
                    raise Fault(f"Chromium ended with status {self.process.returncode}") from None
        raise Fault(f"the page has told nothing for {LONGEST_RUN} seconds")

    def close(self) -> None:
        self.process.terminate()
        self.process.wait()
        self.site.shutdown()
        self.site.server_close()
        shutil.rmtree(self.profile, ignore_errors=True)  # what Chromium has begun may still write there
