"""What waits no longer than it says, and what there is no room for."""
import asyncio
import contextlib
import os
import socket
import unittest
from unittest import mock

from vaultsatin_service.__main__ import listening
from vaultsatin_service.bounds import Room, in_time
from vaultsatin_service.errors import Away, NotNow
from vaultsatin_service.words import words_of


class Bounds(unittest.IsolatedAsyncioTestCase):
    """The parts that others use."""

    async def test_what_takes_too_long_is_away(self) -> None:
        with self.assertRaises(Away):
            async with in_time(0.01):
                await asyncio.Event().wait()

    async def test_what_is_cut_off_from_outside_is_not_away(self) -> None:
        with self.assertRaises(TimeoutError):
            async with asyncio.timeout(0.01), in_time(60):
                await asyncio.Event().wait()

    def test_room_is_given_back(self) -> None:
        room = Room(10, "things")
        with room.taken(6):
            with self.assertRaises(NotNow), room.taken(5):
                self.fail("there was no room")
            with room.taken(4):
                self.assertEqual(room.left, 0)
        with contextlib.suppress(KeyError), room.taken(10):
            raise KeyError
        self.assertEqual(room.left, 10)

    async def test_client_that_takes_nothing_is_let_go(self) -> None:
        with mock.patch("vaultsatin_service.__main__.TAKE_SECONDS", 1), self.assertLogs("service"):
            server = listening("127.0.0.1", 0)
        with server, socket.create_connection(server.getsockname()):
            connection, _ = server.accept()
            with connection:
                connection.setblocking(False)
                async with asyncio.timeout(60):
                    with self.assertRaises(TimeoutError):  # the system's, ETIMEDOUT
                        await self._fill(connection)

    async def _fill(self, connection: socket.socket) -> None:
        """Sends until nothing goes on any more."""
        loop = asyncio.get_running_loop()
        while True:
            await loop.sock_sendall(connection, b"a" * (1 << 20))


class Words(unittest.TestCase):
    """Words that could never do what they are meant for."""

    def test_header_has_the_name_of_one(self) -> None:
        self.assertEqual(words_of(["--read-only-header", "X-Read-Only"]).read_only_header, "X-Read-Only")
        for name in ("X-Read-Only:", "X Read", ""):
            with self.assertRaises(SystemExit), mock.patch("sys.stderr", open(os.devnull, "w", encoding="utf-8")):
                words_of(["--read-only-header", name])

    def test_there_is_a_process(self) -> None:
        with self.assertRaises(SystemExit), mock.patch("sys.stderr", open(os.devnull, "w", encoding="utf-8")):
            words_of(["--processes", "0"])


