"""Log lines as JSON, one object a line, for whoever gathers them."""
import json
import logging
import time

PLAIN = frozenset(vars(logging.makeLogRecord({}))) | {"message", "asctime"}


class JsonLines(logging.Formatter):
    """Each record with its time, and with what it has as `extra`."""

    def format(self, record: logging.LogRecord) -> str:
        """The line."""
        milliseconds = int(record.msecs)
        told = {"time": time.strftime("%Y-%m-%dT%H:%M:%S", time.gmtime(record.created)) + f".{milliseconds:03}Z",
                "level": record.levelname.lower(), "from": record.name, "event": record.getMessage()}
        told.update({name: value for name, value in vars(record).items() if name not in PLAIN})
        if record.exc_info:
            told["trace"] = self.formatException(record.exc_info)
        return json.dumps(told, default=str)


def is_told(record: logging.LogRecord) -> bool:
    """Whether anybody has to know. aiohttp 3.8 asserts that a request's connection is there, which may be lost before
    it looks at the request: as where many gave up while the worker was stopped. Nothing was done then."""
    fault = record.exc_info[1] if record.exc_info else None
    return not (record.name == "aiohttp.server" and isinstance(fault, AssertionError))


def log_to_stderr() -> None:
    """All records from `INFO` on go to standard error."""
    handler = logging.StreamHandler()
    handler.setFormatter(JsonLines())
    handler.addFilter(is_told)
    logging.basicConfig(level=logging.INFO, handlers=[handler])
