"""The wrong forms of the service, which the check has to find."""
import pathlib
import tempfile
import unittest

from checking.faults import FAULTS, IN_FILE, copied


class Faults(unittest.TestCase):
    """Each of them still finds what it takes away."""

    def test_each_is_made(self) -> None:
        for fault in (None, *FAULTS):
            with self.subTest(fault), tempfile.TemporaryDirectory() as folder:
                copied(pathlib.Path(folder), fault)
                for path in pathlib.Path(folder).rglob("*.py"):
                    compile(path.read_bytes(), path, "exec")

    def test_those_of_a_file_are_some_of_all(self) -> None:
        self.assertLess(set(IN_FILE), set(FAULTS))
