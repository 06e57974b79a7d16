"""Counts and times, in the form that Prometheus reads."""
import contextlib
import re
import time
from collections import Counter
from collections.abc import Iterator

CAUSE = re.compile(rb'^\{"refused":\{"cause":"([A-Za-z]+)"', re.MULTILINE)
HELP = {
    "requests_total": "Requests by what was asked and the status of the answer.",
    "refusals_total": "Lines that the core refused, by cause.",
    "replays_total": "Processes that were ended because the log went on otherwise, by why.",
    "epochs_total": "Epochs that were begun here.",
    "milliseconds_total": "Milliseconds by part: of the program, of the log, and of whole requests.",
    "parts_total": "How often each part was timed.",
    "open_documents": "Documents that have a process here.",
    "readers": "Readers that follow a document here.",
    "kept_total": "States that were kept.",
}
Labels = tuple[tuple[str, str], ...]


class Metrics:
    """What a worker counts, from its start."""

    def __init__(self) -> None:
        self._values: Counter[tuple[str, Labels]] = Counter()

    def count(self, name: str, by: float = 1, **labels: str) -> None:
        """Adds to a count."""
        self._values[name, tuple(sorted(labels.items()))] += by  # type: ignore[assignment]

    def refusals(self, replies: bytes) -> None:
        """Counts what the core refused."""
        for cause, count in Counter(CAUSE.findall(replies)).items():
            self.count("refusals_total", count, cause=cause.decode())

    @contextlib.contextmanager
    def timed(self, part: str) -> Iterator[None]:
        """Adds the time that something takes, also where it fails."""
        begun = time.perf_counter()
        try:
            yield
        finally:
            self.count("milliseconds_total", 1000 * (time.perf_counter() - begun), part=part)
            self.count("parts_total", part=part)

    def text(self, **gauges: int) -> str:
        """All of it, with what has a value only now."""
        values = {**self._values, **{(name, ()): value for name, value in gauges.items()}}
        lines, last = [], ""
        for (name, labels), value in sorted(values.items()):
            if name != last:
                kind = "counter" if name.endswith("_total") else "gauge"
                lines += [f"# HELP vaultsatin_{name} {HELP[name]}", f"# TYPE vaultsatin_{name} {kind}"]
                last = name
            words = ",".join(f'{label}="{word}"' for label, word in labels)
            lines.append(f"vaultsatin_{name}{{{words}}} {value:.10g}" if words else f"vaultsatin_{name} {value:.10g}")
        return "\n".join(lines) + "\n"
