#!/usr/bin/env python3
"""The sessions that are measured.

    python3 examples/compare/workloads.py NAME    writes the lines of one, or without a name lists them
"""
from __future__ import annotations

import json
import sys
from dataclasses import dataclass
from typing import Callable, Iterable

# Documents are at most about as large as a state may be, 16,384 nodes with the root.
LOADED_QUOTES, LOADED_PARAGRAPHS = 90, 88  # 90 quotes of 88 paragraphs of a text: 15,930 nodes
COMMANDS_OF_A_LIST = (
    ("make-list", "bullet"), ("insert-paragraph", None), ("indent", None), ("insert-paragraph", None), ("outdent", None))
COMMANDS_OF_A_TABLE = (
    ("insert-row", "after"), ("delete-row", None), ("insert-column", "after"), ("delete-column", None))


@dataclass(frozen=True)
class Session:
    """Lines that prepare a document, and those behind them, which are measured; each with its end."""

    name: str
    before: tuple[bytes, ...]
    lines: tuple[bytes, ...]

    @property
    def whole(self) -> bytes:
        return b"".join(self.before + self.lines)


def line_of(value: object) -> bytes:
    return json.dumps(value, separators=(",", ":")).encode() + b"\n"


def command(name: str, payload: object = None, **more: object) -> bytes:
    """A command; the payload null is that of one without."""
    return line_of({"dispatch": name, "payload": payload, **more})


def caret(node: int, offset: int, kind: str) -> dict[str, object]:
    point = [node, offset, kind]
    return {"select": {"anchor": point, "focus": point}}


def paragraph(text: str) -> dict[str, object]:
    return {"type": "paragraph", "children": [{"type": "text", "text": text}]}


def load(children: Iterable[object]) -> bytes:
    return line_of({"load": {"root": {"type": "root", "children": list(children)}}})


def load_quotes() -> bytes:
    return load({"type": "quote", "children": [paragraph(f"x{i}.{j}") for j in range(LOADED_PARAGRAPHS)]}
                for i in range(LOADED_QUOTES))


EMPTY_PARAGRAPH = line_of({"update": [{"append": ""}, caret(1, 0, "element")]})


def typed(count: int, enter: int, **more: object) -> tuple[bytes, ...]:
    """Letters and spaces, and a new paragraph as each `enter`-th line."""
    return tuple(command("insert-paragraph", **more) if i % enter == 0
                 else command("insert-text", "abcdefghij "[i % 11], **more) for i in range(1, count + 1))


def set_texts() -> tuple[bytes, ...]:
    """Texts of the first quote in turn: it has key 1, and its texts have 3, 5 and so on."""
    return tuple(line_of({"update": [{"set": 3 + 2 * (i % 80), "fields": {"text": f"t{i}"}}]}) for i in range(3000))


def listed() -> tuple[bytes, ...]:
    """A letter is typed before each command of lists."""
    return tuple(line_of({"update": [{"do": "insert-text", "payload": "i"}, {"do": name, "payload": payload}]})
                 for _ in range(300) for name, payload in COMMANDS_OF_A_LIST)


def undone() -> tuple[bytes, ...]:
    return (command("undo"),) * 60 + (command("redo"), command("undo")) * 1500


SESSIONS: tuple[Callable[[], Session], ...] = (
    lambda: Session("append", (), (line_of({"update": [{"append": "Hi"}]}),) * 8191),
    lambda: Session("set in 16,000 nodes", (load_quotes(),), set_texts()),
    lambda: Session("load 16,000 nodes", (), (load_quotes(),) * 10),
    lambda: Session("type", (EMPTY_PARAGRAPH,), typed(20_000, 40)),
    lambda: Session("type in 16,000 nodes",
                    (load(paragraph("word") for _ in range(8000)), line_of({"update": [caret(2, 2, "text")]})),
                    (command("insert-text", "a"), command("delete-character", "back")) * 2000),
    lambda: Session("lists", (EMPTY_PARAGRAPH,), listed()),
    lambda: Session("table of 20 x 20", (EMPTY_PARAGRAPH, command("insert-table", [20, 20, False])),
                    tuple(command(*it) for it in COMMANDS_OF_A_TABLE) * 100),
    lambda: Session("undo and redo", (EMPTY_PARAGRAPH, *typed(400, 10, tags=["history-push"])), undone()),
)


def main() -> None:
    sessions = [make() for make in SESSIONS]
    if len(sys.argv) < 2:
        print(*(session.name for session in sessions), sep="\n")
        return
    chosen = [session.whole for session in sessions if session.name == sys.argv[1]]
    if not chosen:
        sys.exit(f"there is no session {sys.argv[1]!r}")
    sys.stdout.buffer.write(chosen[0])


if __name__ == "__main__":
    main()
