"""Counts as Prometheus reads them, and log lines."""
import json
import logging
import unittest

from vaultsatin_service.logging_lines import JsonLines, is_told
from vaultsatin_service.metrics import Metrics


class Counts(unittest.TestCase):
    """The text."""

    def test_counts_have_help_and_labels(self) -> None:
        metrics = Metrics()
        for status in ("200", "200", "409"):
            metrics.count("requests_total", kind="POST lines", status=status)
        text = metrics.text(readers=2)
        self.assertIn('vaultsatin_requests_total{kind="POST lines",status="200"} 2\n', text)
        self.assertIn('vaultsatin_requests_total{kind="POST lines",status="409"} 1\n', text)
        self.assertEqual(text.count("# TYPE vaultsatin_requests_total counter\n"), 1)
        self.assertIn("# TYPE vaultsatin_readers gauge\nvaultsatin_readers 2\n", text)

    def test_refusals_are_counted_by_cause(self) -> None:
        metrics = Metrics()
        metrics.refusals(b'{"refused":{"cause":"BadLine","code":1}}\n{"text":"{\\"refused\\""}\n'
                         b'{"refused":{"cause":"BadLine","code":1}}\n')
        self.assertIn('vaultsatin_refusals_total{cause="BadLine"} 2\n', metrics.text())

    def test_times_count_also_where_something_fails(self) -> None:
        metrics = Metrics()
        with self.assertRaises(KeyError), metrics.timed("log"):
            raise KeyError
        self.assertIn('vaultsatin_parts_total{part="log"} 1\n', metrics.text())

    def test_log_lines_are_objects(self) -> None:
        record = logging.makeLogRecord({"msg": "again", "levelname": "INFO", "document": "plan", "name": "service"})
        told = json.loads(JsonLines().format(record))
        self.assertEqual((told["event"], told["level"], told["document"]), ("again", "info", "plan"))
        self.assertRegex(told["time"], r"^\d{4}-\d\d-\d\dT\d\d:\d\d:\d\d\.\d{3}Z$")

    def test_requests_whose_client_has_gone_are_not_told(self) -> None:
        for name, fault, expected in (("aiohttp.server", AssertionError(), False), ("aiohttp.server", ValueError(), True),
                                      ("service", AssertionError(), True), ("service", None, True)):
            info = fault and (type(fault), fault, None)
            self.assertEqual(is_told(logging.makeLogRecord({"name": name, "exc_info": info})), expected)
