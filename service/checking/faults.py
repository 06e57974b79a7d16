"""Wrong forms of the service, one for each guard of the protocol. The check has to find each of them."""
import pathlib
import shutil

SERVICE = pathlib.Path(__file__).resolve().parents[1]
ALONE = "alone"  # a database without a synchronous standby: what is answered isn't safe

FAULTS: dict[str, tuple[str, str, str]] = {
    "no-key": ("schema.sql", "primary key (document, number),", ""),
    "epoch-in-key": ("schema.sql", "primary key (document, number)", "primary key (document, epoch, number)"),
    "no-request-key": ("schema.sql", "unique (document, request)", "check (number > 0)"),
    "any-epoch": ("run.py", "if not self.epoch <= place.number < self.place.number:\n            return False",
                  "if place.number < self.epoch:\n            return True"),
    "not-exact": ("document.py", "if asked.is_exact:", "if False:"),
    "seen-by-number": ("run.py", "        if place == self.place:\n            return True\n",
                       "        if self.epoch <= place.number <= self.place.number:\n            return True\n"),
    "rules-lost": ("document.py", "% (state, rules)", "% (state, b'')"),
    "process-ahead": ("documents.py", "document.end()  # it may be ahead of the log",
                      "if isinstance(error, Ended):\n                    document.end()"),
    "row-before-unseen": ("statements.py", "where :number = 0 or exists", "where :number >= 0 or exists"),
    "done-unwaited": ("statements.py",
                      'DONE = f"update entry set id = id where document = :document and request = :request '
                      'returning {ROW}"',
                      'DONE = f"select {ROW} from entry where document = :document and request = :request"'),
    "reader-unseen": ("statements.py", "and number = :number and id = :id), 0)", "and number = :number), 0)"),
    ALONE: ("", "", ""),
}
IN_FILE = ("no-request-key", "any-epoch", "not-exact", "seen-by-number", "rules-lost", "process-ahead", "reader-unseen")
LIMITS = {  # shorter ones, so that pauses pass them, and what is asked again isn't remembered
    "RECENT_REQUESTS = 256": "RECENT_REQUESTS = 4",
    "RECENT_ROWS = 256": "RECENT_ROWS = 8",
    "STATEMENT_SECONDS = 30.0": "STATEMENT_SECONDS = 12.0",
    "QUIET_SECONDS = 5.0": "QUIET_SECONDS = 600.0",  # a state that can't be kept ends the process, which hides a fault
}


QUICK = {  # those of a program that begins at once: a node takes longer where many others begin beside it
    "PIECE_SECONDS = 10.0": "PIECE_SECONDS = 4.0",
    "REQUEST_SECONDS = 30.0": "REQUEST_SECONDS = 12.0",
}


def copied(folder: pathlib.Path, fault: str | None, is_quick: bool = True) -> None:
    """Copies the service to a folder, with other limits, and the fault."""
    package = folder / "vaultsatin_service"
    shutil.copytree(SERVICE / "vaultsatin_service", package, ignore=shutil.ignore_patterns("__pycache__"))
    program = package / "program.py"  # the copy still finds the program
    _change(program, "pathlib.Path(__file__).resolve().parents[2]", f"pathlib.Path({str(SERVICE.parent)!r})")
    for before, after in {**LIMITS, **(QUICK if is_quick else {})}.items():
        _change(package / "limits.py", before, after)
    name, before, after = FAULTS[fault] if fault else ("", "", "")
    if name:
        _change(package / name, before, after)


def _change(path: pathlib.Path, before: str, after: str) -> None:
    text = path.read_text(encoding="utf-8")
    if text.count(before) != 1:
        raise ValueError(f"{path.name} doesn't have once: {before}")
    path.write_text(text.replace(before, after), encoding="utf-8")
