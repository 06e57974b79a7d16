#!/usr/bin/env python3
"""Tests lexical.py. They are skipped where the shared library isn't there.

    python3 examples/clients/test_lexical.py [-v]
"""
from __future__ import annotations

import json
import pathlib
import sys
import threading
import unittest
from typing import Any, Callable

import lexical
from lexical import Editor

EXAMPLES = pathlib.Path(__file__).resolve().parent.parent
LONGEST_LINE = 16_777_216
HELLO = {"update": [{"append": "Hello"}, {"select": {"anchor": [2, 5, "text"], "focus": [2, 5, "text"]}}]}
TYPED = {"dispatch": "insert-text", "payload": "!"}


def setUpModule() -> None:
    try:
        Editor().close()
    except OSError as error:
        print(f"nothing is tested: {error}; examples/README.md says how the library is made", file=sys.stderr)
        raise unittest.SkipTest(str(error))


def answer(editor: Editor, line: object) -> object:
    """The reply to a line that is text, bytes or an object."""
    if isinstance(line, str):
        return editor.text(line)
    return editor.bytes(line) if isinstance(line, bytes) else editor.line(line)


def session(name: str) -> list[tuple[bytes, bytes]]:
    """The lines of a stored session, each with its reply."""
    lines = (EXAMPLES / f"{name}.jsonl").read_bytes().splitlines()
    replies = (EXAMPLES / f"{name}.replies").read_bytes().splitlines()
    assert len(lines) == len(replies), name
    return list(zip(lines, replies))


class Sessions(unittest.TestCase):
    def test_stored_sessions_are_answered_byte_for_byte(self) -> None:
        names = sorted(path.stem for path in EXAMPLES.glob("*.jsonl"))
        self.assertGreater(len(names), 10)
        for name in names:
            with self.subTest(name), Editor() as editor:
                for line, reply in session(name):
                    self.assertEqual(editor.bytes(line), reply)

    def test_two_editors_that_are_open_at_once_share_nothing(self) -> None:
        with Editor() as one, Editor() as other:
            for (line, reply), (other_line, other_reply) in zip(session("typing"), session("rich_text")):
                self.assertEqual(one.bytes(line), reply)
                self.assertEqual(other.bytes(other_line), other_reply)

    def test_objects_texts_and_bytes_are_answered_alike(self) -> None:
        line = {"update": [{"append": "Grüße, 🌍"}]}
        text = json.dumps(line, ensure_ascii=False)
        with Editor() as one, Editor() as two, Editor() as three:
            reply = one.line(line)
            self.assertEqual(reply["commit"], 1)
            self.assertEqual(json.loads(two.text(text)), reply)
            self.assertEqual(json.loads(three.bytes(text.encode())), reply)

    def test_the_view_is_in_replies_that_were_asked_to_have_it(self) -> None:
        with Editor(view=True) as editor, Editor() as plain:
            self.assertIn("Hello", editor.line(HELLO)["view"])
            self.assertNotIn("view", plain.line(HELLO))

    def test_the_delay_says_when_typing_is_a_new_entry(self) -> None:
        for delay, entries in ((1000, 1), (0, 2)):
            with self.subTest(delay), Editor(delay=delay) as editor:
                for line in (HELLO, TYPED, TYPED):
                    editor.line(line)
                self.assertEqual(editor.line({"show": "history"})["history"]["undo"], entries)


class Replies(unittest.TestCase):
    def test_replies_of_each_length_about_that_of_pieces_are_whole(self) -> None:
        with Editor() as editor:
            editor.line(HELLO)
            frame = len(editor.bytes(b'{"update":[{"set":2,"fields":{"text":"-"}}]}')) - 1
            for pieces in (1, 2, 5):
                for more in (-1, 0, 1):
                    length = pieces * lexical.PIECE + more
                    text = ("abcdefghi" * (length // 9 + 1))[:length - frame]
                    reply = editor.text(json.dumps({"update": [{"set": 2, "fields": {"text": text}}]}))
                    self.assertLess(abs(len(reply) - length), 2)  # a commit's number may have a digit more
                    self.assertEqual(json.loads(reply)["ops"], [["text", 2, text]])

    def test_a_large_document_comes_back_as_it_was_loaded(self) -> None:
        paragraph = {"type": "paragraph", "children": [{"type": "text", "text": "abcdefghij" * 10}]}
        with Editor() as editor:
            loaded = editor.line({"load": {"root": {"children": [paragraph] * 5000}}})
            self.assertEqual(sum(operation[0] == "create" for operation in loaded["ops"]), 10_000)
            state = editor.line({"show": "state"})["state"]
            self.assertEqual(editor.line({"load": state})["commit"], 2)
            self.assertEqual(editor.line({"show": "state"})["state"], state)


class Failures(unittest.TestCase):
    def refused(self, kind: type[lexical.LexicalError], line: object, code: str) -> None:
        """The line raises that, and nothing was done."""
        with Editor() as editor:
            editor.line(HELLO)
            with self.assertRaises(kind) as raised:
                answer(editor, line)
            self.assertEqual(raised.exception.code, code)
            self.assertEqual(editor.line(TYPED)["commit"], 2)

    def test_a_refused_line_is_no_error(self) -> None:
        with Editor() as editor:
            self.assertEqual(editor.line({"update": [{"remove": 9}]})["refused"]["cause"], "UnknownNode")
            for line in (b"", b"{", b"\xff", b'{"show":"view"}\x00'):
                self.assertIn(b'"refused"', editor.bytes(line))

    def test_a_closed_editor_says_so(self) -> None:
        editor = Editor()
        editor.close()
        editor.close()
        with self.assertRaises(lexical.ClosedError) as raised:
            editor.line(HELLO)
        self.assertEqual(raised.exception.code, "closed")

    def test_more_than_one_line_is_refused(self) -> None:
        self.refused(lexical.LineError, '{"show":\n"view"}', "line")
        self.refused(lexical.LineError, b'{"show":"view"}\n', "line")

    def test_what_is_no_json_is_refused(self) -> None:
        circle: list[object] = []
        circle.append(circle)
        for line in (float("nan"), {1, 2}, {"load": circle}, {"update": [{"append": "\ud800"}]}):
            self.refused(lexical.LineError, line, "line")
        self.refused(lexical.LineError, "\udfff", "line")

    def test_what_is_of_another_type_is_refused(self) -> None:
        with Editor() as editor:
            calls: list[tuple[Callable[[Any], object], object]] = [
                (editor.text, b"{}"), (editor.bytes, "{}"), (editor.bytes, bytearray(b"{}"))]
            for call, line in calls:
                self.assertRaises(ValueError, call, line)

    def test_a_line_of_more_than_the_limit_is_refused(self) -> None:
        self.refused(lexical.LongLineError, b" " * (LONGEST_LINE + 1), "long")
        with Editor() as editor:
            self.assertIn(b'"view"', editor.bytes(b'{"show":"view"}'.ljust(LONGEST_LINE)))

    def test_each_number_has_its_exception(self) -> None:
        for number, kind in ((5, MemoryError), (7, lexical.SpentError), (99, lexical.LexicalError)):
            self.assertRaises(kind, lexical.need, number)

    def test_a_delay_or_a_library_that_cannot_be_is_refused(self) -> None:
        for delay in (-1, 1 << 64, 0.5, "1000"):
            self.assertRaises(ValueError, Editor, delay=delay)
        self.assertRaises(OSError, Editor, library="liblx_live.so.none")


class Threads(unittest.TestCase):
    def test_threads_may_share_an_editor(self) -> None:
        """Each thread gets whole replies, and its own: they tell of each commit once."""
        rounds, text = 7, "x" * (lexical.PIECE + 1)
        commits: list[int] = []

        def work() -> None:
            for _ in range(rounds):
                reply = editor.line({"update": [{"append": text}]})
                assert reply["ops"][1][5] == text
                commits.append(reply["commit"])

        with Editor() as editor:
            threads = [threading.Thread(target=work) for _ in range(2)]
            for thread in threads:
                thread.start()
            for thread in threads:
                thread.join()
        self.assertEqual(sorted(commits), list(range(1, 2 * rounds + 1)))


if __name__ == "__main__":
    unittest.main()
