"""A document: what is done once, what is refused, and what outlives its process."""
import json
from unittest import mock

from vaultsatin_service.document import Document
from vaultsatin_service.entry import START, Entry, Place
from vaultsatin_service.errors import Behind, NoDocument, NotNow, Refusal, TooMuch, Unseen
from vaultsatin_service.program import Program, module_by_node
from vaultsatin_service.run import STATE

from .support import HELLO, RULE, InFolder, asked, needs_node, other_version

TYPE = b'{"update":[{"append":"(c)"}]}\n'


def texts(document: bytes) -> list[str]:
    """The texts of the paragraphs in a state, or in its reply."""
    root = json.loads(document)
    root = root.get("state", root)["root"]
    return ["".join(leaf["text"] for leaf in block["children"]) for block in root["children"]]


@needs_node
class Documents(InFolder):
    """Over the module by node."""

    async def begun(self, **options: int) -> tuple[Document, Entry]:
        """A document with one paragraph."""
        document = self.document(epoch_bytes=options.get("epoch_bytes", 1 << 22))
        return document, await document.do(asked("a"))

    async def test_lines_are_done_once(self) -> None:
        document, first = await self.begun()
        self.assertEqual((first.number, first.epoch, first.lines), (1, 1, HELLO))
        self.assertEqual(await document.do(asked("a")), first)
        document.end()
        self.assertEqual((await document.do(asked("a"))).place, first.place)
        self.assertEqual(texts((await document.ask(STATE)).replies), ["Hello"])

    async def test_request_once_done_has_its_lines(self) -> None:
        document, _ = await self.begun()
        with self.assertRaises(Refusal):
            await document.do(asked("a", TYPE))

    async def test_nothing_is_asked_of_no_document(self) -> None:
        document = self.document()
        with self.assertRaises(NoDocument):
            await document.ask(STATE)
        with self.assertRaises(NoDocument):
            await document.do(asked("a", HELLO, Place(3, "0" * 32)))

    async def test_other_worker_sees_what_was_done(self) -> None:
        one, first = await self.begun()
        other = self.document()
        second = await other.do(asked("b", TYPE, first.place))
        with self.assertRaises(Behind):  # whoever uses it ends it then, and tries again
            await one.do(asked("c", TYPE, first.place))
        one.end()
        third = await one.do(asked("c", TYPE, first.place))
        self.assertEqual((second.number, third.number), (2, 3))
        self.assertEqual(texts((await other.ask(STATE)).replies), ["Hello", "(c)", "(c)"])

    async def test_exact_lines_have_seen_all(self) -> None:
        document, first = await self.begun()
        second = await document.do(asked("b", TYPE, first.place))
        with self.assertRaises(Unseen):
            await document.do(asked("c", TYPE, first.place, is_exact=True))
        third = await document.do(asked("c", TYPE, second.place, is_exact=True))
        self.assertEqual(third.number, 3)

    async def test_seen_row_has_to_be_the_one_that_is_there(self) -> None:
        document, first = await self.begun()
        await document.do(asked("b", TYPE, first.place))
        with self.assertRaises(Unseen):
            await document.do(asked("c", TYPE, Place(1, "0" * 32)))
        with self.assertRaises(Unseen):
            await document.do(asked("c", TYPE, Place(3, "0" * 32)))

    async def test_epoch_has_document_rules_and_new_keys(self) -> None:
        document = self.document()
        first = await document.do(asked("a", RULE + HELLO))
        await document.do(asked("b", b'{"update":[{"remove":1}]}\n', first.place))
        third = await document.do(asked("c", TYPE, first.place))
        epoch = await document.end_epoch(third.place)
        self.assertEqual((epoch.number, epoch.epoch), (4, 4))
        with self.assertRaises(Unseen):
            await document.do(asked("d", TYPE, third.place))
        fifth = await document.do(asked("d", TYPE, epoch.place))
        self.assertIn('["create",3,3,"p"', fifth.replies.decode())
        self.assertEqual(texts((await document.ask(STATE)).replies), ["\u00a9", "\u00a9"])

    async def test_epoch_is_begun_once(self) -> None:
        document, first = await self.begun()
        epoch = await document.end_epoch(first.place)
        self.assertEqual((await self.document().end_epoch(first.place)).place, epoch.place)

    async def test_long_epoch_ends_by_itself(self) -> None:
        document, first = await self.begun(epoch_bytes=100)
        second = await document.do(asked("b", TYPE * 4, first.place))
        self.assertEqual((second.number, second.epoch), (2, 1))
        self.assertEqual([entry.begins for entry in await self.log.behind("plan", second.place)], [True])

    async def test_rules_are_limited(self) -> None:
        document, first = await self.begun()
        listener = b'{"listener":{"on":"sign","priority":2,"steps":[],"handled":true}}\n'
        with mock.patch("vaultsatin_service.document.MOST_RULES", len(listener)):
            second = await document.do(asked("b", listener, first.place))
            document.end()  # a new process may say that it is too much, as the request can't have been done
            with self.assertRaises(TooMuch):
                await document.do(asked("c", listener, second.place))

    async def test_gathered_lines_are_in_the_next_epoch(self) -> None:
        document, first = await self.begun()
        second = await document.do(asked("b", b'{"defer":true,"update":[{"append":"later"}]}\n', first.place))
        await document.end_epoch(second.place)
        self.assertEqual(texts((await document.ask(STATE)).replies), ["Hello", "later"])


@needs_node
class Versions(InFolder):
    """A program that answers otherwise than the one by which an epoch was written."""

    async def begun(self) -> tuple[Document, Entry]:
        """A document of the usual version with two rows."""
        document = self.document()
        first = await document.do(asked("a", RULE + HELLO))
        return document, await document.do(asked("b", TYPE, first.place))

    async def test_first_row_says_the_version(self) -> None:
        await self.begun()
        versions = [entry.version for entry in await self.log.behind("plan", START)]
        self.assertEqual(versions, [module_by_node().version, None])

    async def test_same_answers_go_on(self) -> None:
        _, second = await self.begun()
        other = self.document(program=Program(module_by_node().words, "other"))
        self.assertEqual((await other.do(asked("c", TYPE, second.place))).epoch, 1)

    async def test_kept_state_begins_an_epoch(self) -> None:
        document, second = await self.begun()
        await document.keep()
        other = self.document(program=other_version())
        self.assertEqual(texts((await other.ask(STATE)).replies), ["Hello", "\u00a9"])
        (first,) = await self.log.behind("plan", second.place)
        self.assertEqual((first.number, first.epoch, first.version), (3, 3, "other"))
        third = await other.do(asked("c", TYPE, first.place))
        self.assertEqual(texts((await other.ask(STATE)).replies), ["Hello", "\u00a9", "\u00a9"])
        self.assertEqual(third.number, 4)

    async def test_rows_behind_the_kept_state_are_not_lost_unasked(self) -> None:
        document, second = await self.begun()
        with self.assertRaises(NotNow):
            await self.document(program=other_version()).ask(STATE)
        await document.keep()
        await document.do(asked("c", TYPE, second.place))
        with self.assertRaises(NotNow):
            await self.document(program=other_version()).ask(STATE)
        other = self.document(program=other_version(), passes_over=True)
        self.assertEqual(texts((await other.ask(STATE)).replies), ["Hello", "\u00a9"])
