#!/usr/bin/env python3
"""Measures the program on this machine, and prints a table in Markdown (Linux, Python's library alone).

    python3 examples/measure.py [--program PATH] [--paragraphs 10,100,..] [--presses N]

Each row is a new process that loads a document of paragraphs of 60 letters. Then letters are typed in paragraphs that lie far
from each other, each an entry of the history, until it has 50 and 500. Times are those of the clock, from a line to its whole
reply, through two pipes; memory is what the process has in RAM.
"""
import argparse
import json
import os
import subprocess
import sys
import time

TOP = os.path.join(os.path.dirname(os.path.abspath(__file__)), "..")
LETTERS = "abcdefghij klmnopqrst uvwxyzabcd efghijklmn opqrstuvwx yzabcde"[:60]
DEPTHS = (50, 500)
HEAD = ("Paragraphs", "Nodes", "Document", "Load", "Key press", "Undo", "Store",
        "Memory, loaded", *(f"with {it} entries" for it in DEPTHS), "at most")


class Program:
    """A run of the program, with a line and a reply at a time."""

    def __init__(self, path):
        self.process = subprocess.Popen([path], stdin=subprocess.PIPE, stdout=subprocess.PIPE)

    def answer(self, line):
        """The reply to a line, and the seconds that it took."""
        begun = time.perf_counter()
        self.process.stdin.write(line + b"\n")
        self.process.stdin.flush()
        reply = self.process.stdout.readline()
        taken = time.perf_counter() - begun
        if not reply.endswith(b"\n"):
            sys.exit(f"the program ended with status {self.process.wait()}")
        if reply.startswith(b'{"refused"'):
            sys.exit(f"refused: {line[:200]!r}: {reply[:200]!r}")
        return reply, taken

    def memory(self, name):
        """A number of bytes that the system tells of the process, by its name there."""
        with open(f"/proc/{self.process.pid}/status", encoding="ascii") as file:
            for row in file:
                if row.startswith(name + ":"):
                    return int(row.split()[1]) * 1024
        return 0

    def end(self):
        self.process.stdin.close()
        self.process.wait()


def line_of(value):
    return json.dumps(value, separators=(",", ":")).encode()


def document(paragraphs):
    text = {"type": "text", "text": LETTERS}
    return {"root": {"children": [{"type": "paragraph", "children": [text]}] * paragraphs}}


def caret_in(paragraph):
    """A line that puts the caret into a paragraph: a load gives keys in order from 1, so its text has twice its number."""
    point = [2 * paragraph, 1, "text"]
    return line_of({"update": [{"select": {"anchor": point, "focus": point}}]})


TYPED = line_of({"dispatch": "insert-text", "payload": "x"})
PUSHED = line_of({"dispatch": "insert-text", "payload": "x", "tags": ["history-push"]})
UNDO = line_of({"dispatch": "undo"})
STATE = line_of({"show": "state"})


def mean_of(program, line, count):
    return sum(program.answer(line)[1] for _ in range(count)) / count


def row(path, paragraphs, presses):
    """A row of the table."""
    program = Program(path)
    _, load = program.answer(line_of({"load": document(paragraphs)}))
    loaded = program.memory("VmRSS")
    entries, memory = 0, []
    for depth in DEPTHS:
        while entries < depth:
            entries += 1
            program.answer(caret_in(1 + entries * 7919 % paragraphs))
            program.answer(PUSHED)
        memory.append(program.memory("VmRSS"))
    press = mean_of(program, TYPED, presses)
    undo = mean_of(program, UNDO, 20)
    state, store = program.answer(STATE)
    most = program.memory("VmHWM")
    program.end()
    return (f"{paragraphs:,}", f"{2 * paragraphs + 1:,}", megabytes(len(state)), seconds(load), seconds(press),
            seconds(undo), seconds(store), megabytes(loaded), *map(megabytes, memory), megabytes(most))


def megabytes(count):
    return f"{count / 1e6:.1f} MB"


def seconds(taken):
    return f"{taken * 1e6:.0f} µs" if taken < 1e-3 else f"{taken * 1e3:.1f} ms"


def main():
    words = argparse.ArgumentParser(description="Measures the program on this machine.")
    words.add_argument("--program", default=os.path.join(TOP, "crates", "lexical", "out", "lexical"))
    words.add_argument("--paragraphs", default="10,100,1000,8000", help="at most 8191, since a state has 16,384 nodes")
    words.add_argument("--presses", type=int, default=2000)
    given = words.parse_args()
    print("| " + " | ".join(HEAD) + " |")
    print("|" + "---|" * len(HEAD))
    for paragraphs in given.paragraphs.split(","):
        print("| " + " | ".join(row(given.program, int(paragraphs), given.presses)) + " |", flush=True)


if __name__ == "__main__":
    main()
