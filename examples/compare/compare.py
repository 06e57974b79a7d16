#!/usr/bin/env python3
"""Measures what a line takes, on this machine: in the program, in the WebAssembly module, and in ProseMirror.

    python3 examples/compare/compare.py [--program PATH] [--client PATH] [--module PATH] [--runs N] [--only WORD]

It prints a table in Markdown: microseconds a line, of the least of the runs, which go round by turns. A side that isn't
there is left out. README.md says what each does, and what it needs.
"""
from __future__ import annotations

import argparse
import os
import pathlib
import platform
import re
import shlex
import shutil
import subprocess
import sys
from typing import Iterator

from browser import Page
from sides import Fault, Program, Side, Told, environment, module_in_node, prosemirror_in_node
from workloads import SESSIONS, Session

TOP = pathlib.Path(__file__).resolve().parent.parent.parent


def read_words() -> argparse.Namespace:
    words = argparse.ArgumentParser(description="Measures what a line takes, on this machine.")
    words.add_argument("--program", type=pathlib.Path, default=TOP / "crates" / "lexical" / "out" / "lexical")
    words.add_argument("--client", type=pathlib.Path, default=TOP / "web" / "lexical.js")
    words.add_argument("--module", type=pathlib.Path, default=TOP / "web" / "lexical.wasm")
    words.add_argument("--node", type=shlex.split, default=["node"], help="the command of node, with words of its own")
    words.add_argument("--chromium", default="chromium")
    words.add_argument("--runs", type=int, default=3)
    words.add_argument("--only", default="", help="the sessions whose names have this in them")
    return words.parse_args()


def is_there(name: str, needs: list[tuple[str, bool]]) -> bool:
    """Whether a side has all that it needs. If not, says what it lacks."""
    lacking = [what for what, has in needs if not has]
    if lacking:
        print(f"left out: {name}, for want of {' and '.join(lacking)}", file=sys.stderr)
    return not lacking


def has_prosemirror(node: list[str]) -> bool:
    asked = "for (const name of ['model', 'state', 'transform']) require(`prosemirror-${name}`)"
    return subprocess.run([*node, "-e", asked], env=environment(), stderr=subprocess.DEVNULL).returncode == 0


def sides_of(given: argparse.Namespace) -> Iterator[Side]:
    """The sides that are there."""
    client, module = given.client.resolve(), given.module.resolve()
    core = [(str(file), file.is_file()) for file in (client, module)]
    node = ("node", shutil.which(given.node[0]) is not None)
    if is_there("the program", [(str(given.program), os.access(given.program, os.X_OK))]):
        yield Program(str(given.program.resolve()), given.runs)
    if is_there("the module in node", [node, *core]):
        yield module_in_node(given.node, client, module)
    if is_there("the module in Chromium", [(given.chromium, shutil.which(given.chromium) is not None), *core]):
        yield Page(given.chromium, client, module)
    if is_there("ProseMirror", [node, ("prosemirror-*", node[1] and has_prosemirror(given.node))]):
        yield prosemirror_in_node(given.node)


def measured(sides: list[Side], session: Session, runs: int) -> dict[str, Told]:
    """The quickest run of each side, without sides for which the session has no counterpart."""
    least: dict[str, Told] = {}
    taking_part = list(sides)
    for _ in range(runs):
        for side in list(taking_part):
            told = side.run(session)
            if told is None:
                taking_part.remove(side)
            elif side.name not in least or told.seconds < least[side.name].seconds:
                least[side.name] = told
    if len({least[side.name].size for side in sides if side.is_core}) > 1:
        raise Fault(f"the core's replies to {session.name!r} are of different lengths: {least}")
    return least


def row(sides: list[Side], session: Session, least: dict[str, Told]) -> str:
    count = len(session.lines)
    times = (f"{least[side.name].seconds * 1e6 / count:,.1f}" if side.name in least else "–" for side in sides)
    return "| " + " | ".join((session.name, f"{count:,}", *times)) + " |"


def version(command: list[str]) -> str:
    """The name of a command and its version, or nothing where it isn't there."""
    if shutil.which(command[0]) is None:
        return ""
    said = subprocess.run([*command, "--version"], capture_output=True, text=True).stdout
    number = re.search(r"\d[\d.]*", said)
    return f"{os.path.basename(command[0])} {number[0] if number else ''}"


def load_average() -> str:
    return "load average " + " ".join(f"{it:.2f}" for it in os.getloadavg())


def compare(given: argparse.Namespace, sides: list[Side]) -> None:
    sessions = [session for session in (make() for make in SESSIONS) if given.only in session.name]
    machine = f"{os.cpu_count()} processors, {platform.machine()}"
    print("; ".join(filter(None, (machine, version(given.node), version([given.chromium]), load_average()))) + "\n")
    head = ("Session", "Lines", *(side.name for side in sides))
    print("| " + " | ".join(head) + " |\n|" + "---|" * len(head), flush=True)
    for session in sessions:
        print(row(sides, session, measured(sides, session, given.runs)), flush=True)
    print(f"\nMicroseconds a line, the least of {given.runs} runs; {load_average()}")


def main() -> None:
    given = read_words()
    sides: list[Side] = []
    try:
        sides.extend(sides_of(given))
        if not sides:
            sys.exit("no side is there")
        compare(given, sides)
    except Fault as fault:
        sys.exit(str(fault))
    finally:
        for side in sides:
            side.close()


if __name__ == "__main__":
    main()
