"""Each row of docs/RESTORE.md: the disaster that counter-restore names, and the store that it gives again."""

import contextlib
import gzip
import itertools
import os
import shutil
import signal
import stat
import subprocess
import time
from pathlib import Path
from typing import Callable
from unittest import mock

import archives
import logs
import pytest
import restoring

from tests.conftest import TOP
from tests.restore.counter_day import RESTORE, Day, Served, Tables, copied, entry_of, redemption
from tests.restore.counter_day import run, started
from tests.restore.test_second_machine import changed, write_archive
from tests.samples.conftest import Mount, mount
from tests.shared.counter_calls import apply, bond, done, end
from tests.shared.counter_calls import make_version_one, post, redeem
from tests.shared.counter_calls import rows

__all__ = ["mount"]
pytestmark = pytest.mark.slow


def is_restored(day: Day, wanted: Tables) -> None:
    """Every row is there, with the rights that the unit needs, and nothing is missing any more."""
    assert day.tables() == wanted
    store, folder = os.stat(day.store), os.stat(day.store.parent)
    assert stat.S_IMODE(store.st_mode) == 0o600
    assert (store.st_uid, store.st_gid) == (folder.st_uid, folder.st_gid)
    assert day.guard(day.archive).returncode == 0
    left = {path.name for path in (*day.store.parent.iterdir(), *day.room.iterdir())}
    assert all(".before-" in name for name in left - {"day.db", "day.db-wal"}), left


# ---- disasters of the store
def garble_file(day: Day) -> None:
    with open(day.store, "r+b") as file:
        file.seek(8192)
        file.write(os.urandom(8192))


def damage_log(day: Day) -> None:
    log = Path(f"{day.store}-wal")
    text = bytearray(log.read_bytes())
    text[len(text) // 4] ^= 1
    log.write_bytes(text)


def put_other(day: Day) -> None:
    day.put_older()
    apply(day.program, day.store, [redemption(turn, 5000 + turn) for turn in range(300, 320)])


@pytest.fixture
def killed(day: Day, served: Served) -> Day:
    """The day, with 16 payments more in the log of a killed server alone."""
    served.pay(range(200, 216))
    served.kill()
    if os.getuid() == 0:
        os.chown(day.store.parent, 65534, 65534)
    return day


HARMS = [
    (Day.lose, "its file is missing"),
    (lambda day: day.store.unlink(), "its file is missing, and its log is there"),
    (Day.empty, "its file is empty"),
    (garble_file, "the store can't be served"),
    (damage_log, "the program refuses it"),
    (Day.put_older, "the store is of an earlier moment: 216 requests"),
    (put_other, "it has another history"),
]


@pytest.mark.parametrize("harm, named", HARMS)
def test_store(killed: Day, harm: Callable[[Day], None], named: str) -> None:
    """From the archive and the log of requests every row comes again; before a yes nothing is written."""
    day, wanted = killed, killed.tables()
    harm(day)
    files = sorted(path.name for path in day.store.parent.iterdir())
    refused = day.restore(input="no\n")
    assert refused.returncode == 1 and named in refused.stdout, refused.stdout + refused.stderr
    assert sorted(path.name for path in day.store.parent.iterdir()) == files
    said = done(*day.command(), input="yes\n")
    assert "Replies that differ:               0" in said and "Missing:" not in said
    is_restored(day, wanted)


def test_older_log(day: Day) -> None:
    """The newest file beside a log of a moment before: the file alone is gone on from."""
    server = Served(day)
    server.pay(range(200, 220))
    log = copied(day.store, day.new("log"))
    server.pay(range(220, 223))
    server.kill()
    run(day.program, "export", "1", "--db", day.store)
    wanted = day.tables()
    shutil.copy(f"{log}-wal", f"{day.store}-wal")
    assert day.tables() != wanted, "control: SQLite and the program take the log's pages"
    assert day.guard().returncode == 0 and day.guard(day.archive).returncode == 1
    assert "of an earlier moment" in day.restored()
    is_restored(day, wanted)


def test_nothing_missing(day: Day) -> None:
    """Control: over a whole store nothing is done, by yes neither."""
    before = day.store.read_bytes()
    assert "Nothing is missing" in day.restored() and day.store.read_bytes() == before


def test_version_one(program: Path, tmp_path: Path) -> None:
    """A store of version 1 is archived once it is migrated, with a copy, and restored from that."""
    day = Day(str(program), tmp_path)
    day.begin()
    day.lose()
    make_version_one(day.store, 500, 60)
    again = tmp_path / "again"
    again.mkdir()
    archive = RESTORE / "archive", day.store, again
    assert run(*archive).returncode == 1
    run(program, "export", "1", "--db", day.store)
    done(*archive)
    apply(program, day.store, [post("/day/open", {"number": 7_000_001, "day": "2099-05-04"}, b"")])
    done(*archive)
    wanted = day.tables()
    day.lose()
    day.restored(sources=[again])
    assert day.tables() == wanted


# ---- two disasters at once
def test_disk_and_archive(killed: Day) -> None:
    """Store and archive are lost: the second machine's lines, and the log. The archive's place is filled again."""
    day, wanted = killed, killed.tables()
    day.lose()
    shutil.rmtree(day.archive)
    assert "the archive can't be used" in day.restored(sources=[day.second, day.log])
    assert day.tables() == wanted
    assert "up to row 104" in done(RESTORE / "archive", "-", day.archive, "--check")
    day.archive_now()
    is_restored(day, wanted)


def test_store_and_log(killed: Day) -> None:
    """Store and log of requests are lost: what came since the archive's last turn is named, and needs a word of its own."""
    killed.lose()
    said = killed.restored(sources=[killed.archive])
    assert "Not sure: what came after" in said and "Last ticket:                       150" in said
    assert len(killed.tables()["answers"]) == 154


def test_copy_alone(day: Day) -> None:
    """All is lost but last night's copy and the log; then but the copy."""
    wanted = day.tables()
    day.lose()
    shutil.rmtree(day.archive)
    copy = day.before.parent
    day.restored(sources=[copy, day.log])
    assert day.tables() == wanted
    day.lose()
    assert "Not sure: what came after the copy" in day.restored(sources=[copy])
    assert day.pays(3), "control: a copy alone pays again"


def test_nothing_left(day: Day) -> None:
    day.lose()
    shutil.rmtree(day.archive)
    day.refuses("", sources=[])


def test_known_to_be_missing(killed: Day) -> None:
    """An archive that is damaged has had more than all others together: only --even-so restores without it."""
    day = killed
    day.lose()
    lines = day.archive / "requests.jsonl"
    text = lines.read_bytes().replace(b'"payee":7', b'"payee":8', 1)
    lines.write_bytes(text)
    sources = [day.archive, day.second]
    day.refuses("Missing:  50 requests", sources=sources)
    assert "MISSING: 50 requests" in day.restored("--even-so", sources=sources)
    assert len(day.tables()["answers"]) == 104


# ---- deleted while it is served
@pytest.mark.root
def test_deleted_while_served(day: Day, served: Served) -> None:
    """Four payments more are acknowledged into the deleted file. It is saved from the process, which ends."""
    served.pay(range(200, 210))
    day.lose()
    served.pay(range(210, 214))
    assert len(day.log.read_text().splitlines()) == 214
    served.pay(range(214, 215))
    assert f"process {served.process.pid}" in day.restored(sources=[day.archive])
    assert served.process.wait(5) == -signal.SIGKILL
    kept = rows(copied(day.store, day.new("read")), "SELECT count(*) FROM answers")
    assert kept == [(219,)], "all 215 payments, and what came before them"


def test_served(day: Day, served: Served) -> None:
    """Control: a store that is served isn't touched."""
    refused = day.restore("--yes")
    assert refused.returncode == 1 and "stop it first" in refused.stderr


def test_deleted_and_restarted(day: Day, served: Served) -> None:
    """Control: a restart, which a tired operator does first, loses what the deleted file had."""
    day.lose()
    served.pay(range(200, 204))
    served.kill()
    day.restored(sources=[day.archive])
    assert len(day.tables()["answers"]) == 154


# ---- the archive
@pytest.mark.parametrize("harm", ["lost", "cut", "changed"])
def test_archive_alone(day: Day, harm: str) -> None:
    """The store is whole, and the archive isn't: the second machine's takes its place, and the store isn't touched."""
    before, lines = day.store.read_bytes(), day.archive / "requests.jsonl"
    if harm == "lost":
        shutil.rmtree(day.archive)
    elif harm == "cut":
        os.truncate(lines, lines.stat().st_size - 300)
    else:
        lines.write_bytes(lines.read_bytes().replace(b'"total":"25.88"', b'"total":"25.89"', 1))
    assert day.guard(day.archive).returncode == 1 or harm == "changed"
    day.restored(sources=[day.second, day.log])
    assert day.store.read_bytes() == before
    day.archive_now()
    done(RESTORE / "archive", "-", day.archive, "--check")
    assert [stat.S_IMODE(os.stat(path).st_mode) for path in (day.archive, lines)] == [0o2750, 0o640]


def test_two_histories(day: Day, tmp_path: Path) -> None:
    """Two archives that part are refused: the operator names the right one."""
    shutil.copytree(day.folder, tmp_path / "other")
    other = Day(day.program, tmp_path / "other")
    other.pay(range(300, 310))
    other.archive_now()
    day.archive_now()
    day.lose()
    day.refuses("different histories", sources=[day.archive, other.archive])
    day.restored(sources=[other.archive])
    assert day.tables() == other.tables(), "the one that was named is restored"
    here, there = day.archive / "requests.jsonl", other.archive / "requests.jsonl"
    assert here.read_bytes() == there.read_bytes(), "and has the archive's place"


# ---- the log of requests
def test_cut_line(day: Day) -> None:
    """A line that a full disk cut may be a payment: nothing is sent, not from the archive either."""
    day.lose()
    lines = day.log.read_text().splitlines(keepends=True)
    day.log.write_text("".join(lines[:160]) + lines[160][:-60] + "\n" + "".join(lines[161:]))
    day.refuses("line 161 isn't whole")
    whole_log = day.new("log")
    whole_log.write_text("".join(lines))
    day.restored(sources=[day.archive, day.log, whole_log])


def test_missing_tickets(day: Day) -> None:
    """A ticket that no log has is named; a request without a reply that alone can have it takes it."""
    wanted = day.tables()
    day.lose()
    lines = day.log.read_text().splitlines(keepends=True)
    day.log.write_text("".join(lines[:160] + lines[161:]))
    day.refuses("tickets 161 to 161 are missing")
    late = entry_of(redemption(160), "", 160.5, "504")
    never = entry_of(redemption(300), "", 900, "502")
    day.log.write_text("".join([*lines[:160], late, *lines[161:], never]))
    assert "number 301," in day.restored() and day.tables() == wanted


def test_differing_reply(day: Day) -> None:
    """One cent in one reply of the log: the store stays lost, and nothing of the build is left."""
    day.lose()
    text = day.log.read_text().replace('\\"total\\":\\"25.88', '\\"total\\":\\"25.89')
    day.log.write_text(text)
    day.refuses("had the reply")
    late = day.new("late")
    late.write_text("".join(text.splitlines(keepends=True)[150:]))
    day.refuses("a reply differs", sources=[day.archive, late])
    assert list(day.store.parent.iterdir()) == []


def test_packed_and_rotated(day: Day) -> None:
    """Files of a rotated log, packed ones too, in any order; a clock that was set back between them."""
    wanted = day.tables()
    day.lose()
    lines = day.log.read_text().splitlines(keepends=True)
    old = Path(f"{day.log}-20260205.gz")
    with gzip.open(old, "wt") as file:
        file.write("".join(line.replace('"at":"1', '"at":"991') for line in lines[:160]))
    day.log.write_text("".join(lines[160:]))
    day.restored(sources=[day.archive, day.log, old])
    assert day.tables() == wanted


def test_clock_set_back(day: Day) -> None:
    """The machine's clock is years back while a store is restored, and was set back within the log."""
    new = post("/bonds", {"desk": 4, "number": 1, "bonds": [{**bond(0), "serial": "Z1EE"}]}, b"")
    day.send(new)
    day.at = 1400
    day.send(redeem(4, 2, "2012-02-06", 7, "Z1EE"))
    wanted = day.tables()
    day.lose()
    clock = ["faketime", "2001-01-01 00:00:00"]
    if shutil.which("faketime") is None:
        clock = ["unshare", "--time", "--boottime", "-1"]
    assert "Last ticket:                       201" in done(*clock, *day.command("--yes"))
    assert day.tables() == wanted


# ---- disks
@pytest.mark.root
@pytest.mark.parametrize("size", [20, 100])
def test_full_disk(day: Day, mount: Mount, size: int) -> None:
    """The store's disk is too small for the restored store: refused before the first write, and named."""
    day.store = mount("tmpfs", f"small{size}", "-o", f"size={size}k") / "day.db"
    day.refuses("has no room")
    assert list(day.store.parent.iterdir()) == []


@pytest.mark.root
def test_disk_fills_in_the_middle(day: Day, mount: Mount) -> None:
    """The disk on which the store is built fills up while it is built: the store's place stays empty, and so does the room."""
    small = mount("tmpfs", "small", "-o", "size=16m")
    day.lose()
    words = day.command("--yes", "--room", small)
    with started(*words, stderr=subprocess.PIPE, stdout=subprocess.DEVNULL) as process:
        while not list(small.glob("*/*/day.db-wal")) and process.poll() is None:
            time.sleep(0.005)
        run("dd", "if=/dev/zero", f"of={small}/full", "bs=64k")
        said = process.communicate()[1]
    assert process.returncode in (1, 3)
    assert "the store is what it was" in said or "nothing was written" in said, said
    assert list(day.store.parent.iterdir()) == []
    assert [path.name for path in small.iterdir()] == ["full"]
    assert "Last ticket:                       200" in day.restored(), "control"


def test_killed_in_the_middle(day: Day) -> None:
    """Killed at any moment, it leaves the store as it was or restored; the next one clears what is left."""
    wanted = day.tables()
    day.lose()
    ends = set()
    for wait in (0.3, 1.5, 6):
        none = subprocess.DEVNULL
        process = started(*day.command("--yes"), stdout=none, stderr=none)
        time.sleep(wait)
        end(process)
        ends.add(day.store.exists())
        if day.store.exists():
            assert day.tables() == wanted
            day.lose()
    assert False in ends, "control: none was killed before the end"
    day.restored()
    is_restored(day, wanted)


# ---- the drill
def test_drill(day: Day, served: Served) -> None:
    """While the counter serves, a drill restores into a folder that only this user reads, and removes it."""
    said = done(*day.command("--drill"))
    assert "Last ticket:                       200" in said and "a drill" in said
    served.pay(range(200, 203))
    assert list(day.room.iterdir()) == []
    words = day.command("--drill", sources=[day.archive])
    with started(*words, stdout=subprocess.DEVNULL) as process:
        modes = set()
        while process.poll() is None:
            for path in day.room.iterdir():
                with contextlib.suppress(FileNotFoundError):
                    modes.add(stat.S_IMODE(os.stat(path).st_mode))
    assert modes == {0o700}


def test_drill_finds_a_changed_cent(day: Day) -> None:
    """Control: a drill over an archive whose chain was made right behind one changed cent ends with status 1."""
    lines = (day.archive / "requests.jsonl").read_bytes().splitlines()
    write_archive(day.archive, changed(lines, {"reply": ('"25.88"', '"25.89"')}, 1))
    ran = day.restore("--drill", sources=[day.archive])
    assert ran.returncode == 1 and "a reply differs" in ran.stderr, ran.stdout + ran.stderr


@pytest.mark.parametrize("reply", ["{}", "{ }"])
def test_progress(
    monkeypatch: pytest.MonkeyPatch, capsys: pytest.CaptureFixture[str], reply: str
) -> None:
    """It says how far it is, and how long it takes still. Control: another reply ends it."""
    plan, clock = object.__new__(restoring.Plan), itertools.count(0.0, 6.0)
    monkeypatch.setattr(time, "monotonic", lambda: next(clock))
    one = logs.Asked(0, 1, "/redeem", "{}", "{}", None, 0.0, "", "a log")
    monkeypatch.setattr(plan, "wanted", lambda: [one] * 9)
    plan.todo = 9
    at_once = mock.Mock(answer=lambda path, body: (200, reply))
    if reply != one.reply:
        with pytest.raises(archives.Refused, match="a reply differs: desk 0, number 1"):
            plan.replay(at_once)
        return
    plan.replay(at_once)
    assert capsys.readouterr().err.startswith("2 of 9 requests, 63 seconds left\n")


# ---- the page
#: What the first column of docs/RESTORE.md begins with, and the test of that row.
ROWS = {
    "the store is missing": "test_store[Day.lose",
    "`it is missing or empty": "test_store[Day.empty",
    "`store: StoreFailed` at every start": "test_store[damage_log",
    "`the log is of an earlier moment`": "test_older_log",
    "`guard: not served: .. are missing`": "test_store[Day.put_older",
    "`guard: not served: .. another history`": "test_store[put_other",
    "`the store was deleted": "test_deleted_while_served",
    "`process N serves from": "test_served",
    "the archive is lost, damaged": "test_archive_alone",
    "store and archive are lost": "test_disk_and_archive",
    "store and log of requests": "test_store_and_log",
    "the machine is lost": "test_new_machine",
    "`this machine was taken back`": "test_taken_back_while_it_serves",
    "`FOLDER has no room`": "test_full_disk",
    "`FOLDER isn't a front": "test_two_histories",
    "`line N isn't whole`": "test_cut_line",
    "`tickets N to M are missing`": "test_missing_tickets",
    "`a reply differs`": "test_differing_reply",
    "`requests are known to be missing`": "test_known_to_be_missing",
    "a file that `sqlite3` or": "test_changed_store",
    "`Nothing is missing`": "test_nothing_missing",
    "the clock of the machine": "test_clock_set_back",
}


def test_rows_of_the_page() -> None:
    """Every row is a case of these tests, and every case that is named is there."""
    page = (TOP / "docs" / "RESTORE.md").read_text()
    rows_there = page.split("|---|---|\n")[1].split("\n\n")[0].splitlines()
    for line in rows_there:
        assert any(line.startswith(f"| {begins}") for begins in ROWS), line
    assert len(rows_there) == len(ROWS)
    files = [*TOP.glob("tests/restore/test_*.py"), TOP / "tests/samples/test_take_over.py"]
    tests = "".join(path.read_text() for path in files)
    for name in ROWS.values():
        test, _, case = name.partition("[")
        assert f"def {test}(" in tests and (not case or f"({case}, " in tests), name
