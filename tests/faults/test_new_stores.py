"""New stores are SQLite's, earlier ones keep their pages, other files are refused."""

import shutil
import subprocess
from collections.abc import Iterator
from contextlib import contextmanager
from pathlib import Path

import pytest

from tests.shared.counter_calls import make_version_one, post, redeem, rows, sql

RATES = "from,rate\n2010-05,2.00\n2010-11,3.50\n"
BONDS = "serial,denom,issued,owner,coowner\nL1EE,50,2010-11,7,\nK2EE,75,2010-10,7,8\nM3EE,10000,2011-02,7,\n"
EXPORTED = "serial,denom,issued,owner,coowner\n"
PAGE = 1024
FAILED = "store: StoreFailed\n"
#: The status, and what was written to both outputs.
Ran = tuple[int, str, str]


class Counter:
    def __init__(self, program: Path, folder: Path) -> None:
        self.program, self.folder = program, folder

    def run(self, words: str, given: bytes = b"") -> Ran:
        line = [str(self.program), *words.split()]
        ran = subprocess.run(line, input=given, capture_output=True, cwd=self.folder, timeout=120)
        return ran.returncode, ran.stdout.decode(), ran.stderr.decode()

    def enter(self, store: Path) -> None:
        for number, (kind, text) in enumerate({"rates": RATES, "inventory": BONDS}.items(), 1):
            (self.folder / kind).write_text(text)
            ran = self.run(f"import {kind} {kind} --db {store} --number {number}")
            assert ran[0] == 0, ran

    def export(self, store: Path, customer: int = 7) -> Ran:
        return self.run(f"export {customer} --db {store}")

    def pay(self, store: Path, number: int, day: str, bonds: list[tuple[str, int]]) -> None:
        """Opens a day, pays bonds, and closes it; the next command gives the same answers again."""
        acts = [post("/day/open", {"number": number, "day": day}, b"")]
        for place, (serial, payee) in enumerate(bonds, 2):
            acts.append(redeem(0, number + place, day, payee, serial))
        acts.append(post("/day/close", {"number": number + 1, "day": day}, b""))
        stream = b"".join(acts)
        first, again = (self.run(f"apply --db {store}", stream) for _ in range(2))
        assert first[0] == 0 and first[1].count("HTTP/1.1 200 OK") == len(acts), first
        assert again == first
        assert not any(serial in self.export(store, payee)[1] for serial, payee in bonds)


def shown(store: Path) -> list[int]:
    assert rows(store, "PRAGMA integrity_check") == [("ok",)]
    return [rows(store, text)[0][0] for text in ("PRAGMA page_size", "SELECT version FROM desk")]


@pytest.fixture
def counter(program: Path, folder: Path) -> Counter:
    return Counter(program, folder)


@pytest.fixture
def store(folder: Path) -> Path:
    return folder / "day.db"


@pytest.mark.needs("sqlite3")
@pytest.mark.parametrize("content", [None, b""], ids=["missing", "empty"])
def test_new_store(counter: Counter, store: Path, content: bytes | None) -> None:
    if content is not None:
        store.write_bytes(content)
    counter.enter(store)
    assert shown(store) == [PAGE, 2]
    counter.pay(store, 1000, "2015-05-01", [("L1EE", 7)])
    counter.pay(store, 2000, "2015-05-02", [("K2EE", 8)])
    assert shown(store) == [PAGE, 2]
    assert sql(store, "SELECT count(*) FROM paid; SELECT count(*) FROM answers") == "2\n8\n"


@pytest.mark.needs("sqlite3")
@pytest.mark.parametrize("size", [512, 4096, 65536])
def test_pages_of_before(counter: Counter, store: Path, size: int) -> None:
    """A store keeps its pages, and is paid from."""
    sql(store, f"PRAGMA page_size = {size}; VACUUM")
    counter.enter(store)
    counter.pay(store, 1000, "2015-05-01", [("M3EE", 7)])
    assert shown(store) == [size, 2]


@pytest.mark.parametrize("words", [[], ["--without-extensions"]], ids=["whole", "without"])
def test_version_one(counter: Counter, store: Path, words: list[str]) -> None:
    """A store of version 1 is migrated, keeps its page size and its replies, and is paid from."""
    make_version_one(store, 2000, 300, *words)
    unpaid = "SELECT number, owner FROM bonds WHERE ticket IS NULL ORDER BY number DESC LIMIT 2"
    bonds = [(f"A{number}EE", owner) for number, owner in rows(store, unpaid)]
    kept = rows(store, "SELECT count(*), sum(length(reply)) FROM replies")
    assert shown(store) == [4096, 1]
    assert counter.export(store, 999_999_999) == (0, EXPORTED, "")
    assert rows(store, "SELECT count(*), sum(length(reply)) FROM answers") == kept
    counter.pay(store, 7_000_001, "2099-05-04", bonds)
    assert shown(store) == [4096, 2]


NONE = [bytes([byte]) for byte in b"\0\1Sx7\n7\xff"]
NONE += [b"\0\0", b"xx", b"SQLite format 3", b"no store at all"]
NONE += [b"\0" * 100, b"x" * 100, b"\0" * PAGE, b"x" * PAGE, b"\0" * 4096]
NONE += [b"SQLite format 3\0" + b"\0" * (PAGE - 16)]


@pytest.mark.parametrize("log", [None, b"", b"\0", b"\xff" * 15, b"\xff" * 12, "at rest"])
def test_files_that_are_none(counter: Counter, store: Path, log: bytes | str | None) -> None:
    """They are refused twice, keep their bytes, and their log gets no other length."""
    beside = store.with_name("day.db-wal")
    if log == "at rest":
        counter.export(store)
        log = beside.read_bytes()
        assert len(log) == 41
    for content in NONE:
        store.write_bytes(content)
        beside.unlink(missing_ok=True)
        if isinstance(log, bytes):
            beside.write_bytes(log)
        for _ in range(2):
            assert counter.export(store) == (3, "", FAILED), content
            assert store.read_bytes() == content
            assert beside.stat().st_size in (0, 1, 12, 15, 41), content


def test_empty_file_is_taken(counter: Counter, store: Path) -> None:
    """Control: a file without a byte is no file that is refused."""
    store.write_bytes(b"")
    assert counter.export(store) == (0, EXPORTED, "")


@contextmanager
def disk(folder: Path, kib: int) -> Iterator[Path]:
    small = folder / "small"
    small.mkdir(exist_ok=True)
    subprocess.run(["mount", "-t", "tmpfs", "-o", f"size={kib}k", "tmpfs", small], check=True)
    try:
        yield small
    finally:
        subprocess.run(["umount", small], check=True)


def freed(store: Path) -> Path:
    for end in ("", "-wal"):
        shutil.copy(f"{store}{end}", store.parent.with_name(f"freed.db{end}"))
    return store.parent.with_name("freed.db")


@pytest.mark.root
def test_new_store_on_a_full_disk(counter: Counter, folder: Path) -> None:
    outcomes = set()
    for kib in (64, 128, 192, 256, 320, 512):
        with disk(folder, kib) as small:
            ran = counter.export(small / "new.db")
            outcomes.add(ran[0])
            assert ran in ((0, EXPORTED, ""), (3, "", FAILED))
            if ran[0] == 3:
                copy = freed(small / "new.db")
                assert counter.export(copy) == (0, EXPORTED, "") and shown(copy) == [PAGE, 2]
    assert outcomes == {0, 3}, "control: some disks are full, and some have room"
