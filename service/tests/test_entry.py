"""Rows of the log, as clients see them."""
import unittest

from vaultsatin_service.entry import START, Entry, Place, registering
from vaultsatin_service.errors import Refusal

ROW = "0123456789abcdef" * 2


class Entries(unittest.TestCase):
    """Places, events, and what registers."""

    def test_place_is_read_as_it_is_told(self) -> None:
        for place in (START, Place(5, ROW)):
            self.assertEqual(Place.read(str(place)), place)

    def test_other_places_are_refused(self) -> None:
        for text in ("", "5", "5.", f"05.{ROW}", f"-1.{ROW}", f"5.{ROW}0", f"5.{ROW.upper()}", f"5.{ROW}\n"):
            with self.assertRaises(Refusal, msg=text):
                Place.read(text)

    def test_event_has_a_line_for_each_reply(self) -> None:
        entry = Entry(2, 1, ROW, b"", b'{"idle":true}\n{"commit":1,"ops":[]}\n')
        self.assertEqual(entry.event(), b'id: 2.%b\ndata: {"idle":true}\ndata: {"commit":1,"ops":[]}\n\n' % ROW.encode())

    def test_first_event_of_an_epoch_begins(self) -> None:
        self.assertIn(b"\nevent: begin\n", Entry(3, 3, ROW, b"", b"{}\n").event())

    def test_registering_lines_are_those_that_were_taken(self) -> None:
        lines = [b'{"rule":{"on":"text"}}', b'{"rule":1}', b'{"update":[{"append":"rule"}]}', b'{"r\\u0075le":{}}',
                 b'{"listener":{}}']
        replies = [b'{"idle":true}', b'{"refused":{}}', b'{"commit":1,"ops":[]}', b'{"idle":true}', b'{"registered":1}']
        found = registering(b"\n".join(lines) + b"\n", b"\n".join(replies) + b"\n")
        self.assertEqual(found.split(b"\n")[:-1], [lines[0], lines[3], lines[4]])

    def test_long_numbers_are_no_fault(self) -> None:
        line = b'{"listener":%b}' % (b"1" * 5000)
        self.assertEqual(registering(line + b"\n", b'{"registered":1}\n'), line + b"\n")

    def test_line_that_is_no_object_registers_nothing(self) -> None:
        self.assertEqual(registering(b'"rule"\n', b'{"refused":{"cause":"BadCommand"}}\n'), b"")
