"""Copies of a store by each tool of the table in docs/COPIES.md, and samples/copy_store. That it copies while clients redeem is in test_snapshots.py."""

import os
import random
import re
import shutil
import signal
import subprocess
import time
from pathlib import Path
from typing import Any, Iterator

import pytest

from tests.conftest import TOP
from tests.restore.counter_day import Ran, copied, run, started
from tests.samples.books import LAST, REQUESTS, STATUSES, files_of, forget, held, refused
from tests.samples.books import script, stopped
from tests.samples.conftest import Mount
from tests.samples.books import Busy
from tests.shared.counter_calls import Answer, Name, answered, apply, done, end, free_port, replaced
from tests.shared.counter_calls import rows, serve, sql

COPY_STORE, TAKE_OVER = TOP / "samples/copy_store", TOP / "samples/take_over"
HEADING = "| Copy by | When | A new store | A store without checksums |"
KINDS = ("new", "without checksums")
pytestmark = pytest.mark.needs("sqlite3")


def make_store(program: Path, path: Path, kind: str = "new") -> Path:
    if kind != "new":
        sql(path, "PRAGMA page_size = 4096; VACUUM")
    assert [status for status, _ in apply(program, path, REQUESTS)] == STATUSES
    done(program, "export", "7", "--db", path)
    return path


@pytest.fixture(scope="module")
def store(program: Path, place: Path) -> Path:
    return make_store(program, place / "day.db")


#: The order of the kept requests, all rows, and the replies to all requests again.
Found = tuple[list[tuple[Any, ...]], dict[str, list[tuple[Any, ...]]], list[Answer]]


def found(program: Path, path: Path) -> Found | str:
    copy = copied(path, path.parent / "found")
    try:
        ran = run(program, "export", "7", "--db", copy)
        if ran.returncode != 0:
            return ran.stderr.strip().removeprefix("store: ")
        order = rows(copy, "SELECT desk, number FROM answers ORDER BY rowid")
        return order, held(copy), apply(program, copy, [*REQUESTS, LAST])
    finally:
        shutil.rmtree(copy.parent)


def table() -> list[list[str]]:
    """The rows of the table: the way, when it is used, and what comes of a new store and of one without checksums."""
    text = (TOP / "docs/COPIES.md").read_text()
    assert HEADING in text
    lines = text[text.index(HEADING) :].split("\n\n", 1)[0].splitlines()[2:]
    cells = [re.split(r"(?<!\\)\|", line)[1:-1] for line in lines]
    return [[cell.strip().replace("\\|", "|") for cell in line] for line in cells]


ROWS = [line for line in table() if "`cp`, file and log" not in line[0] and "rsync" not in line[0]]
CELLS = [
    (way, when, kind, wanted)
    for way, times, *cells in ROWS
    for when in times.split(", ")
    for kind, wanted in zip(KINDS, cells, strict=True)
]


def test_other_rows() -> None:
    """Those that aren't tried cell by cell: `test_torn` has one, and the other is no tool of Debian 12 yet."""
    others = [line for line in table() if line not in ROWS]
    assert len(CELLS) > 30 and [line[1] for line in others] == ["in use", "at rest"]
    assert set(others[0][2:]) == {"torn: refused, or requests are missing"}
    assert set(others[1][2:]) == {"not in Debian 12"} and shutil.which("sqlite3_rsync") is None


class Row:
    """A store in a subvolume of its own, at rest, after a kill, or while it is served."""

    def __init__(self, program: Path, folder: Path, when: str, kind: str) -> None:
        self.program, self.folder, self.path = program, folder, folder / "day.db"
        done("btrfs", "-q", "subvolume", "create", folder)
        make_store(program, self.path, kind)
        (folder / "ee_cli").symlink_to(program)
        (folder / "samples").symlink_to(TOP / "samples")
        self.servers: list[subprocess.Popen[str]] = []
        if when != "at rest":
            port = free_port()
            self.servers.append(serve(program, self.path, port))
            assert answered(port, LAST)[0] == 200
        if when == "after a kill":
            self.stop()

    def stop(self) -> None:
        for server in self.servers:
            end(server)

    def run(self, command: str) -> tuple[str, bool]:
        """What a command said, and whether it waited for the counter, which is stopped after 10 seconds then."""
        pipes: dict[str, Any] = {"stdout": subprocess.PIPE, "stderr": subprocess.STDOUT}
        words = ("timeout", "60", "bash", "-c", command)
        with started(*words, cwd=self.folder, **pipes) as process:
            try:
                return process.communicate(timeout=10)[0].strip(), False
            except subprocess.TimeoutExpired:
                self.stop()
                said = process.communicate()[0].strip()
                assert process.returncode == 0, "it doesn't end after the counter stopped"
                return said, True

    def outcome(self, command: str, whole: Found | str) -> tuple[str, Path]:
        """What came of a command, in the words of the table, and the copy."""
        said, has_waited = self.run(command)
        copy = self.folder / "copy.db"
        if (self.folder / "copy").is_dir():
            copy = copied(self.folder / "copy" / "day.db", self.folder / "of_folder")
        if has_waited:
            return "waits until the counter stops", copy
        if not copy.exists() or copy.stat().st_size == 0:
            locked = "fails: `database is locked`" if "database is locked" in said else said
            return locked or "an empty file, without a word", copy
        of_copy = found(self.program, copy)
        if isinstance(of_copy, str):
            return f"`{of_copy}`", copy
        if of_copy == whole:
            return "opens", copy
        assert set(of_copy[0]) < set(whole[0])
        return "opens, without what the log has", copy

    def remove(self) -> None:
        self.stop()
        for path in (self.folder / "copy", self.folder):
            if path.is_dir() and path.stat().st_ino == 256:
                done("btrfs", "-q", "subvolume", "delete", path)


@pytest.fixture(scope="module")
def disk(mount: Mount) -> Path:
    return mount("btrfs", "disk")


@pytest.mark.root
@pytest.mark.needs("mkfs.btrfs", "file:/dev/loop-control")
@pytest.mark.parametrize("way, when, kind, wanted", CELLS)
def test_cell(program: Path, disk: Path, way: str, when: str, kind: str, wanted: str) -> None:
    """What comes of a copy is what the table says; the store stays as it was; and take_over makes a store of a refused copy."""
    snapshot = "btrfs subvolume snapshot -r . copy"
    row = Row(program, disk / "row", when, kind)
    try:
        whole = found(program, row.path)
        command = snapshot if way == "a snapshot of btrfs" else way[way.index("`") + 1 : -1]
        outcome, copy = row.outcome(command, whole)
        assert outcome == wanted
        row.stop()
        assert found(program, row.path) == whole
        if outcome.startswith("`"):
            done(TAKE_OVER, copy, row.folder / "new.db", program)
            assert found(program, row.folder / "new.db") == whole
    finally:
        row.remove()


@pytest.fixture
def busy(program: Path, folder: Path) -> Iterator[Busy]:
    made = Busy(program, folder / "day.db")
    yield made
    made.stop()


def test_torn(busy: Busy, folder: Path) -> None:
    """The file, and the log after it was started anew: refused while the counter serves on, and open without a word after another command ran."""

    def beside_the_log(file: Path) -> list[Name] | None:
        pair = Path(shutil.copy(file, folder / "pair"))
        shutil.copy(f"{busy.path}-wal", f"{pair}-wal")
        return busy.missing(pair, acknowledged)

    busy.redeem(60)
    acknowledged, before = dict(busy.load.replies), busy.header()
    file = Path(shutil.copy(busy.path, folder / "file"))
    assert beside_the_log(busy.path) == [], "control: file and log of one moment"
    while busy.header() == before:
        assert len(busy.load.replies) < 2000
        busy.redeem(5)
    assert beside_the_log(file) is None
    busy.stop()
    done(busy.program, "export", "999", "--db", busy.path)
    assert len(beside_the_log(file) or ()) == len(acknowledged) >= 60


BETWEEN = '    for end in ("", "-wal"):\n'
BETWEEN += "        if os.path.exists(store + end):\n            name ="
PAUSE = '        if end:\n            run("sh", "-c", os.environ["PAUSE"])\n        if os'
UNCHECKED = [
    ('        if start_of(store + "-wal") == before:\n', "        if True:\n"),
    ("    for _ in range(3):\n", "    for _ in range(1):\n"),
]


def with_pauses(busy: Busy, copy: Path, each: bool, *changes: tuple[str, str]) -> tuple[Ran, int]:
    """A copy by the script with a pause between the file and the log, at the first try or at each: 300 bonds are redeemed meanwhile. How it ended, and how often it paused."""
    folder = busy.path.parent
    pausing = [(BETWEEN, BETWEEN.replace("        if os", PAUSE)), *changes]
    by = script(folder / "pausing", replaced(COPY_STORE.read_text(), pausing))
    reached, go, pauses = folder / "reached", folder / "go", 0
    for path in (reached, go):
        path.unlink(missing_ok=True)
    waits = f"{{ rm -f {go}; touch {reached}; while [ ! -e {go} ]; do sleep 0.02; done; }}"
    env = {**os.environ, "PAUSE": waits if each else f"[ -e {go} ] || {waits}"}
    words = [by, busy.path, copy, busy.program]
    pipes: dict[str, Any] = {"stdout": subprocess.PIPE, "stderr": subprocess.PIPE}
    with started(*words, env=env, **pipes) as process:
        while process.poll() is None:
            if reached.exists():
                reached.unlink()
                pauses += 1
                busy.redeem(300)
                go.touch()
            time.sleep(0.01)
        said = process.communicate()
    return subprocess.CompletedProcess(list(map(str, words)), process.returncode, *said), pauses


def test_started_anew(busy: Busy, folder: Path) -> None:
    """If the log is started anew between the file and the log, the script copies again. Control: without its test of the header the pair is torn."""
    busy.redeem(100)
    acknowledged = dict(busy.load.replies)
    ran, pauses = with_pauses(busy, folder / "again", False)
    assert (ran.returncode, pauses) == (0, 1), ran
    assert busy.missing(folder / "again" / "day.db", acknowledged) == []
    acknowledged = dict(busy.load.replies)
    ran, pauses = with_pauses(busy, folder / "torn", False, *UNCHECKED)
    assert pauses == 1
    assert ran.returncode == 1 or busy.missing(folder / "torn" / "day.db", acknowledged)


def test_always_started_anew(busy: Busy, folder: Path) -> None:
    ran, pauses = with_pauses(busy, folder / "never", True, ("TRIES = 20", "TRIES = 4"))
    assert (ran.returncode, pauses) == (1, 4) and "in each of 4 tries" in ran.stderr, ran
    assert not (folder / "never").exists()


def refuses(status: int, why: str, *words: object, left: tuple[str, ...] = ()) -> None:
    refused(Path(str(words[1])).parent, status, why, COPY_STORE, *words, left=left)


def test_refused_once(busy: Busy, store: Path, folder: Path) -> None:
    """The copy of a store that goes on is made again if the program refuses it; that of one at rest isn't."""
    calls = folder / "calls"
    first = f"#!/bin/sh\necho >> {calls}\n[ $(wc -l < {calls}) = 1 ] && exit 3\n"
    once = script(folder / "once", f'{first}exec {busy.program} "$@"\n')
    refuses(1, "the program refuses the copy", store, folder / "rest", once, left=("calls",))
    calls.unlink()
    busy.load.start()
    ran = run(COPY_STORE, busy.path, folder / "goes_on", once)
    busy.load.stop()
    assert ran.returncode == 0 and calls.read_text() == "\n\n", ran


def test_refusals(program: Path, store: Path, tmp_path: Path) -> None:
    copy = tmp_path / "copy"
    for name, content in (("empty", b""), ("other", b"no store at all" * 100), ("cut", b"\0")):
        (tmp_path / name).write_bytes(content)
        refuses(1, "is no store", tmp_path / name, copy, program)
    for name in ("pipe", "piped.db-wal"):
        os.mkfifo(tmp_path / name)
    shutil.copy(store, tmp_path / "piped.db")
    refuses(3, "isn't a regular file", tmp_path / "pipe", copy, program)
    refuses(3, "isn't a regular file", tmp_path / "piped.db", copy, program)
    refuses(3, "is missing", tmp_path / "none.db", copy, program)
    refuses(3, "can't be run", store, copy, tmp_path / "none")
    refuses(1, "the program refuses the copy", store, copy, "/bin/false")
    assert run(COPY_STORE, store).returncode == 2, "a word too few"
    for name in ("copy", "copy.part"):
        (tmp_path / name).mkdir()
        refuses(2, "exists", store, copy, program)
        (tmp_path / name).rmdir()
    damaged = bytearray(store.read_bytes())
    damaged[-500] ^= 1
    (tmp_path / "damaged.db").write_bytes(damaged)
    refuses(1, "store: StoreFailed", tmp_path / "damaged.db", copy, program)


@pytest.mark.root
def test_refused_disks(program: Path, store: Path, tmp_path: Path, mount: Mount) -> None:
    other = mount("ramfs", "ramfs")
    shutil.copy(store, other)
    refuses(1, "is on ramfs: stop the counter", other / "day.db", tmp_path / "copy", program)
    refuses(3, "No space left", store, mount("tmpfs", "full", "-o", "size=16k") / "copy", program)


@pytest.mark.parametrize("by, left", [(signal.SIGTERM, []), (signal.SIGKILL, ["copy.part"])])
def test_stopped(program: Path, store: Path, tmp_path: Path, by: int, left: list[str]) -> None:
    """Whatever ends the script while the program opens the copy, nothing is left that looks like a copy."""
    waits = script(tmp_path / "waits", "#!/bin/sh\nexec sleep 600\n")
    copy, opened = tmp_path / "to/copy", tmp_path / "to/copy.part/opened/day.db"
    copy.parent.mkdir()
    status = stopped([COPY_STORE, store, copy, waits], opened.exists, by)
    assert os.listdir(copy.parent) == left and status == (-9 if left else 3)
    if left:
        refuses(2, "copy.part exists", store, copy, program)


def test_whole_copy(program: Path, store: Path, tmp_path: Path) -> None:
    """A copy is two files of the store's bytes that only their owner can read, and their checksums."""
    copy = tmp_path / "copy"
    ran = run(COPY_STORE, store, copy, program)
    says = "copied and opened, with 9 requests, last ticket 3, open day 2012-02-07"
    assert ran.stdout == f"{copy}: {says}\n", ran
    assert {path.name for path in copy.iterdir()} == {"SHA256SUMS", "day.db", "day.db-wal"}
    assert {oct(path.stat().st_mode)[-3:] for path in (copy, *copy.iterdir())} == {"700", "600"}
    assert files_of(copy / "day.db") == files_of(store)
    check = ["sha256sum", "--quiet", "-c", "SHA256SUMS"]
    assert subprocess.run(check, cwd=copy).returncode == 0
    (copy / "day.db").write_bytes(b"x" + (copy / "day.db").read_bytes()[1:])
    assert subprocess.run(check, cwd=copy).returncode == 1, "control: a changed byte"


@pytest.mark.parametrize("kind", KINDS)
def test_turned_bits(program: Path, folder: Path, dice: random.Random, kind: str) -> None:
    """Opening finds each turned bit of a store with checksums. Control: without them some change a row without a word."""
    if kind != "new":
        sql(folder / "day.db", "PRAGMA page_size = 1024; VACUUM")
    busy = Busy(program, folder / "day.db", 3000)
    busy.redeem(1000)
    busy.stop()
    done(program, "export", "999", "--db", busy.path)
    whole, data = held(busy.path), busy.path.read_bytes()
    counts = {"found": 0, "same": 0, "changed": 0}
    for _ in range(200):
        bit, turned = dice.randrange(len(data) * 8), bytearray(data)
        turned[bit // 8] ^= 1 << bit % 8
        forget(busy.path)
        busy.path.write_bytes(turned)
        is_found = run(program, "export", "999", "--db", busy.path).returncode != 0
        counts["found" if is_found else "same" if held(busy.path) == whole else "changed"] += 1
    assert counts["found"] == 200 if kind == "new" else counts["changed"] > 0, counts
