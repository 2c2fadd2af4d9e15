"""What all tests share: the program, a folder in memory, seeded dice, and what markers need."""

import functools
import itertools
import os
import random
import shutil
import subprocess
import sys
import tempfile
import time
import tomllib
from concurrent.futures import ThreadPoolExecutor
from contextlib import contextmanager
from importlib.abc import MetaPathFinder
from importlib.machinery import PathFinder
from pathlib import Path
from typing import Any, Callable, Iterator, TypeVar

import pytest

from tests.shared.hostile.program import Program

TOP = Path(__file__).resolve().parents[1]
#: In memory if possible: a store waits for the disk at each sync.
MEMORY = Path("/dev/shm") if os.path.isdir("/dev/shm") else Path(tempfile.gettempdir())
#: What tests need, with Debian's packages.
NEEDS: dict[str, Any] = tomllib.loads((TOP / "tests/packages.toml").read_text())
COMMANDS, PACKAGES, MAKES, MODULES = (NEEDS[it] for it in ("marker", "command", "file", "module"))
#: Commands that can be there and not work, for lack of leave to trace or of headers.
TRIED = {"strace": "strace -o /dev/null true", "cc": "cc -x c -c -o /dev/null /dev/null"}


@functools.cache
def works(command: str) -> bool:
    """Whether a command is there, and does the least of its work."""
    words = TRIED.get(command, "true").split()
    there = shutil.which(command) is not None
    return there and subprocess.run(words, capture_output=True).returncode == 0


class Lacking(MetaPathFinder):
    """Is asked last for a module: skips the file of tests that imports one that isn't there."""

    def find_spec(self, name: str, path: object = None, target: object = None) -> None:
        if name in MODULES:
            why = f"needs Python's module {name} (Debian's {MODULES[name]})"
            pytest.skip(why, allow_module_level=True)


sys.meta_path.append(Lacking())


def missing(item: pytest.Item) -> list[str]:
    """What the markers of a test need and this machine lacks."""
    wanted = dict(PACKAGES)
    names: list[str] = []
    for marker, commands in COMMANDS.items():
        if item.get_closest_marker(marker):
            wanted.update(commands)
            names.extend(commands)
    for mark in item.iter_markers("needs"):
        names.extend(mark.args)
    found = []
    if os.getuid() != 0 and (item.get_closest_marker("root") or item.get_closest_marker("machine")):
        found.append("root")
    for name in dict.fromkeys(names):
        kind, _, rest = name.rpartition(":")
        if kind == "module" and PathFinder.find_spec(rest) is None:
            found.append(f"Python's module {rest} (Debian's {MODULES.get(rest, rest)})")
        elif kind == "file" and not (TOP / rest).exists():
            found.append(f"{rest} ({MAKES[rest]} makes it)" if rest in MAKES else rest)
        elif not kind and not works(rest):
            package = f"Debian's {wanted.get(rest, rest)}"
            found.append(f"{rest} ({'the toolchain' if rest == 'rt' else package})")
    return found


def pytest_collection_modifyitems(items: list[pytest.Item]) -> None:
    """xdist hands tests out in long rows. So those of the page, which are slow and share nothing, stand
    between the files of the others, and no process is left with most of them."""
    slow = [item for item in items if item.path.name.startswith("test_page_")]
    others = [item for item in items if item not in slow]
    files = [list(group) for _, group in itertools.groupby(others, lambda item: item.path)]
    share = -(-len(slow) // max(1, len(files)))
    for place, group in enumerate(files):
        group[:0] = slow[place * share : (place + 1) * share]
    items[:] = [item for group in files for item in group] or slow
    for item in items:
        lacks = missing(item)
        if lacks:
            item.add_marker(pytest.mark.skip(reason=f"needs {', '.join(lacks)}"))


def until(is_so: Callable[[], object], what: object = "", seconds: float = 60) -> None:
    """Waits until it is so. A test fails with `what`, or what it returns, if it never is."""
    end = time.monotonic() + seconds
    while not is_so():
        assert time.monotonic() < end, what() if callable(what) else what
        time.sleep(0.05)


def is_listening(port: int, process: int | str = "self") -> bool:
    """Whether somebody listens there, in a process's network. A connection would be a request."""
    listening = f" 0100007F:{port:04X} 00000000:0000 0A "
    return listening in Path(f"/proc/{process}/net/tcp").read_text()


Made = TypeVar("Made")


def at_once(do: Callable[[int], Made], count: int) -> list[Made]:
    """What it returns for each number below `count`, all at the same time."""
    with ThreadPoolExecutor(count) as pool:
        return list(pool.map(do, range(count)))


@contextmanager
def in_memory() -> Iterator[Path]:
    """An empty folder in memory, which everybody may enter."""
    with tempfile.TemporaryDirectory(prefix="ladwenpik.", dir=MEMORY) as made:
        os.chmod(made, 0o755)
        yield Path(made)


@pytest.fixture(scope="session")
def program() -> Path:
    """The built ee_cli, as $EE_CLI or ./ee_cli has it."""
    path = Path(os.environ.get("EE_CLI", TOP / "crates/ee_cli/out/ee_cli")).resolve()
    if not path.exists():
        pytest.skip(f"{path} isn't built: ./ee_cli, or name one by EE_CLI")
    return path


@pytest.fixture(scope="session")
def hostile(program: Path) -> Iterator[Program]:
    """The program under a library in C that makes its calls on files and memory fail."""
    if not works("cc"):
        pytest.skip("needs cc (Debian's gcc and libc6-dev)")
    with tempfile.TemporaryDirectory(prefix="hostile.", dir=MEMORY) as made:
        yield Program(str(program), made)


@pytest.fixture
def folder() -> Iterator[Path]:
    with in_memory() as made:
        yield made


@pytest.fixture(scope="module")
def place() -> Iterator[Path]:
    """A folder for all tests of a file."""
    with in_memory() as made:
        yield made


@pytest.fixture
def dice() -> random.Random:
    """Dice of a seed that a failed test prints; SEED names another."""
    seed = int(os.environ.get("SEED", random.randrange(1 << 32)))
    print(f"SEED={seed}")
    return random.Random(seed)
