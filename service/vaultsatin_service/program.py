"""What answers lines: the proved program, or the module by node."""
import hashlib
import pathlib
import resource
import shutil
from dataclasses import dataclass, field

from .limits import NODE_MEMORY, PROGRAM_MEMORY

TOP = pathlib.Path(__file__).resolve().parents[2]
PROGRAM = TOP / "crates/lexical/out/lexical"
WEB = TOP / "web"


@dataclass(frozen=True)
class Program:
    """How a process is begun, which version it is, and what it may use."""

    words: list[str]
    version: str
    limits: dict[int, int] = field(default_factory=dict)


def program_at(path: pathlib.Path) -> Program:
    """The program in a file."""
    return Program([str(path.resolve())], _version(path), _limits(resource.RLIMIT_AS, PROGRAM_MEMORY))


def module_by_node(web: pathlib.Path = WEB) -> Program:
    """The module in a folder, run by node. It takes some fifty times the memory of the program."""
    node = shutil.which("node")
    if node is None:
        raise FileNotFoundError("there is no node on the path")
    heap = "--max-old-space-size=256"  # megabytes of what isn't the module's
    return Program([node, heap, str(web / "cli.mjs")], _version(web / "lexical.wasm"),
                   _limits(resource.RLIMIT_DATA, NODE_MEMORY))


def _limits(kind: int, memory: int) -> dict[int, int]:
    """A process writes no file, also no core."""
    return {kind: memory, resource.RLIMIT_FSIZE: 0, resource.RLIMIT_CORE: 0}


def _version(path: pathlib.Path) -> str:
    """Two files with one version answer the same bytes."""
    return hashlib.sha256(path.read_bytes()).hexdigest()[:16]
