"""The package of the Python client: built offline, the same bytes twice; the programs of docs/PYTHON_CLIENT.md as written in a new venv without a network; and its types."""

import os
import re
import shutil
import subprocess
import time
import zipfile
from pathlib import Path
from typing import Iterator

import pytest

from tests.clients.desk import ran
from tests.conftest import TOP
from tests.shared.counter_calls import end, serve

SOURCE = TOP / "clients/python"
DOCUMENT = (TOP / "docs/PYTHON_CLIENT.md").read_text()
PYTHON = "/usr/bin/python3"
PLAIN = {name: value for name, value in os.environ.items() if not name.startswith("PYTHON")}
BUILDING = pytest.mark.needs("module:build", "module:hatchling")


def blocks(kind: str) -> list[str]:
    found = re.findall(r"^```(\w*)\n(.*?)^```$", DOCUMENT, re.M | re.S)
    return [block for name, block in found if name == kind]


def built(folder: Path, source: Path = SOURCE) -> dict[str, bytes]:
    env = {**PLAIN, "SOURCE_DATE_EPOCH": "1700000000", "PIP_NO_INDEX": "1"}
    status, out, told = ran(source / "build", folder, env=env)
    assert status == 0, out + told
    return {file.name: file.read_bytes() for file in folder.iterdir()}


@pytest.fixture(scope="module")
def packages(tmp_path_factory: pytest.TempPathFactory) -> Path:
    folder = tmp_path_factory.mktemp("packages")
    built(folder)
    return folder


@pytest.fixture(scope="module")
def wheel(packages: Path) -> Path:
    (found,) = packages.glob("*.whl")
    return found


@BUILDING
def test_same_bytes(packages: Path, tmp_path: Path) -> None:
    """From a copy with other times and another mask, and the wheel from the unpacked sdist. Control: with another version all bytes are others."""
    first = {file.name: file.read_bytes() for file in packages.iterdir()}
    copy = tmp_path / "copy"
    left_out = shutil.ignore_patterns("out", "__pycache__", ".mypy_cache")
    shutil.copytree(SOURCE, copy, ignore=left_out)
    for file in copy.rglob("*"):
        os.utime(file, (1, 1))
    mask = os.umask(0o077)
    try:
        assert built(tmp_path / "two", copy) == first and len(first) == 2
        version = copy / "src/ee_counter_client/version.py"
        version.write_text('"""The version."""\n\n__version__ = "9.9.9"\n')
        other = built(tmp_path / "three", copy)
    finally:
        os.umask(mask)
    assert not set(first.values()) & set(other.values())
    shutil.unpack_archive(next(packages.glob("*.tar.gz")), tmp_path / "unpacked")
    (unpacked,) = (tmp_path / "unpacked").iterdir()
    shutil.copy(SOURCE / "build", unpacked / "build")
    (name,) = (name for name in first if name.endswith(".whl"))
    assert "ee_counter_client/py.typed" in zipfile.ZipFile(packages / name).namelist()
    assert built(tmp_path / "four", unpacked)[name] == first[name]


class Venv:
    """A new venv with the wheel, in a network of its own in which a counter serves the samples."""

    def __init__(self, program: Path, place: Path, wheel: Path) -> None:
        self.place, self.wheel, self.python = place, wheel, place / "venv/bin/python"
        assert ran(PYTHON, "-m", "venv", place / "venv")[0] == 0
        up = "ip link set lo up 2>/dev/null || ifconfig lo up; exec sleep 1000"
        self.holder = subprocess.Popen(["unshare", "--net", "sh", "-c", up])
        time.sleep(0.5)
        self.inside = ("nsenter", f"--net=/proc/{self.holder.pid}/ns/net")
        store = place / "day.db"
        for number, what in enumerate(("rates", "inventory"), 1):
            file = TOP / f"samples/{what}.csv"
            words = ("import", what, file, "--db", store, "--number", number)
            status, _, told = self.run(program, *words)
            assert status == 0, told
        self.server = serve(program, store, 8377, before=self.inside)
        pip = (self.python, "-m", "pip", "install", "--quiet", "--no-index", wheel)
        status, _, told = self.run(*pip)
        assert status == 0, told

    def run(self, *words: object, env: dict[str, str] = {}) -> tuple[int, str, str]:
        return ran(*self.inside, *words, cwd=self.place, env={**PLAIN, **env})

    def end(self) -> None:
        end(self.server)
        end(self.holder)


@pytest.fixture
def venv(program: Path, tmp_path: Path, wheel: Path) -> Iterator[Venv]:
    made = Venv(program, tmp_path, wheel)
    yield made
    made.end()


@BUILDING
@pytest.mark.root
@pytest.mark.needs("module:venv", "unshare", "nsenter")
def test_document(venv: Venv) -> None:
    """The first integration, as written and run again; the other programs, the commands, and the wheel alone."""
    written, printed = blocks("python")[0], blocks("")[1]
    (venv.place / "first.py").write_text(written)
    assert len([line for line in written.splitlines() if line.strip()]) <= 20
    for _ in range(2):
        status, out, told = venv.run(venv.python, "first.py")
        assert (status, out) == (0, printed), told
    for name in ("desk3.journal", "desk3.journal.keys"):
        (venv.place / name).unlink()
    assert venv.run(venv.python, "first.py")[1] != printed, "control: without its journal"
    (venv.place / "samples").symlink_to(TOP / "samples")
    (venv.place / "desks").mkdir()
    interest, pool, own = blocks("python")[1:4]
    assert venv.run(venv.python, "-c", interest)[:2] == (0, blocks("")[2])
    assert "NoOpenDay" in venv.run(venv.python, "-c", pool)[2]
    assert venv.run(venv.python, "-c", own)[1] == "27.56 2 1\n"
    words = ("--journal", "desk9.journal", "--desk", "9", "batch", "2026-11-30")
    batch = (0, '{"bonds":2,"day":"2026-11-30","tickets":1,"total":"74.51"}\n')
    commands: list[list[object]] = [[venv.place / "venv/bin/counter-client"]]
    commands += [[venv.python, "-m", "ee_counter_client"], [PYTHON, TOP / "clients/counter.py"]]
    shutil.copy(TOP / "clients/counter.py", venv.place)
    commands += [[venv.python, "counter.py"]]
    for command in commands:
        assert venv.run(*command, *words)[:2] == batch, command
    alone = (PYTHON, "-m", "ee_counter_client", *words)
    assert venv.run(*alone, env={"PYTHONPATH": str(venv.wheel)})[:2] == batch
    status, _, told = venv.run(PYTHON, "counter.py", *words)
    assert status == 3 and told.count("\n") == 1, "a copy of it alone"


USER = """
from collections import deque
from decimal import Decimal
from ee_counter_client import AlreadyPaid, AsyncCounter, Bond, Counter, Incomplete, Interest, Lookups, Pool, bonds_known, interest_of_payee
from ee_counter_client.testing import FakeCounter, Gate

KEYS = {"L1EE"}
many = {"a": Bond("L1EE", 50, "2010-11", 7)}
with Pool("desks", desks=range(10, 14), certificate="nora.crt", key="nora.key", patience=60) as pool:
    pool.add_bonds((Bond("L1EE", 50, "2010-11", 7), {"serial": "K2EE", "denom": 75, "issued": "2010-10", "owner": 7}))
    paid: Decimal = pool.redeem("2012-02-06", 7, ("L1EE",)).total
sheet: Decimal = Lookups("http://127.0.0.1:8377", patience=None).inventory(7, "2012-02").value
try:
    found: Interest = interest_of_payee(Lookups(), 7, "2012-01-01", "2012-12-31", bonds_known("inventory.csv", "desk3.archive"))
except Incomplete as lack:
    text: str = lack.interest.text + lack.missing[0]
with FakeCounter() as fake, Gate(fake) as gate, Counter("a.journal", gate.address, desk=3) as counter:
    counter.open_day("2012-02-06", even_so=True)
    total: Decimal = counter.redeem("2012-02-06", 7, list(KEYS)).total
    counter.redeem("2012-02-06", 7, deque(KEYS))
    counter.add_bonds(many.values())
    try:
        counter.close_day("2012-02-06")
    except AlreadyPaid as refusal:
        number: int = refusal.ticket


async def pay(counter: AsyncCounter) -> int:
    return (await counter.redeem("2012-02-06", 7, ["L1EE"], key="a", bookmark=[1])).number
"""
USES = [("", ""), ("total: Decimal", "total: float"), ("refusal.ticket", "refusal.tickets")]
USES += [("certificate=", "certificat="), ("patience=60", 'patience="60"'), ('key="a"', 'keys="a"')]
USES += [("list(KEYS)", text) for text in ('"L1EE"', "KEYS", "frozenset(KEYS)")]
USES += [("(many.values())", "(set(many))"), ("AsyncCounter) -> int", "AsyncCounter) -> str")]


@pytest.mark.needs("mypy")
def test_types(tmp_path: Path) -> None:
    """A program that uses the package is right by mypy --strict, and each wrong use of it is named."""
    names = [f"user{place}.py" for place in range(len(USES))]
    for name, (old, new) in zip(names, USES):
        assert old in USER
        (tmp_path / name).write_text(USER.replace(old, new) if old else USER)
    words = ("mypy", "--strict", "--cache-dir", tmp_path / "cache", "--config-file=", *names)
    _, out, _ = ran(*words, cwd=tmp_path, env={**PLAIN, "MYPYPATH": str(SOURCE / "src")})
    wrong = {line.partition(":")[0] for line in out.splitlines() if ": error:" in line}
    assert wrong == set(names[1:]), out
