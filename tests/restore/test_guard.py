"""Nobody finds out by chance: what can't pass ends the unit at once, with its own reason, and the rest is tried again."""

import os
import shutil
from pathlib import Path
from typing import Callable

import pytest
from tests.restore.counter_day import RESTORE, Day, Served, copied, run
from tests.samples.books import script
from tests.samples.conftest import Mount, mount
from tests.shared.counter_calls import sql

__all__ = ["mount"]
FINAL, PASSING, SERVES = 4, 3, 124


#: What harms the store or the archive, how serve_guarded ends, and what it says.
ENDS: list[tuple[Callable[[Day], object], int, str]] = [
    (lambda day: None, SERVES, "guard: "),
    (Day.lose, FINAL, "is missing"),
    (Day.empty, FINAL, "is empty"),
    (lambda day: day.store.write_text("no store at all" * 100), FINAL, "not served"),
    (lambda day: shutil.rmtree(day.archive), FINAL, "No such file"),
    (lambda day: (day.archive / "requests.jsonl").unlink(), FINAL, "its lines were lost"),
    (Day.put_older, FINAL, "that were done are missing"),
    (lambda day: sql(day.store, "CREATE INDEX more ON paid (cents)"), FINAL, "store: "),
]


@pytest.mark.parametrize("harm, status, said", ENDS)
def test_ends(day: Day, harm: Callable[[Day], object], status: int, said: str) -> None:
    harm(day)
    ran = day.serve_guarded(day.archive)
    assert ran.returncode == status and said in ran.stdout + ran.stderr, ran.stdout + ran.stderr


@pytest.mark.parametrize("harm", [Day.lose, Day.empty])
def test_ends_without_an_archive(day: Day, harm: Callable[[Day], None]) -> None:
    """A missing store is final without archives too, and none is created."""
    harm(day)
    assert day.serve_guarded().returncode == FINAL
    assert not day.store.exists() or day.store.stat().st_size == 0


def test_in_use(day: Day, served: Served) -> None:
    """Control: another process uses the store. That may pass."""
    assert day.serve_guarded(day.archive).returncode == PASSING
    assert day.serve_guarded().returncode == PASSING


def test_reason_has_its_priority(day: Day) -> None:
    """Under systemd the reason comes with the priority by which call_somebody finds it."""
    day.lose()
    ran = day.serve_guarded(day.archive, JOURNAL_STREAM="1:1")
    assert ran.stderr.startswith("<2>guard: not served: "), ran.stderr


def test_call_has_the_reason(tmp_path: Path) -> None:
    """The first line of the call is the unit's own reason."""
    fakes = {
        "journalctl": 'case "$*" in *crit*) echo "guard: not served: why" ;; *) echo others ;; esac',
        "systemd-cat": "cat > $CALLED",
        "wall": "cat > /dev/null",
        "mail": "cat > /dev/null",
    }
    for name, text in fakes.items():
        script(tmp_path / name, f"#!/bin/sh\n{text}\n")
    called = tmp_path / "called"
    env = {"PATH": f"{tmp_path}:/usr/bin:/bin", "CALLED": str(called)}
    run(RESTORE / "call_somebody", "counter.service", env=env)
    assert called.read_text().splitlines()[0] == "counter.service: guard: not served: why"


@pytest.mark.root
def test_unreadable_archive(day: Day) -> None:
    """An archive that `scp -r` of root brought: the guard's user can't read it. restored by counter-restore it can."""
    run("chmod", "-R", "o+rX", day.folder)
    for path in (day.folder.parent, *day.folder.parent.parents):
        run("chmod", "o+x", path)
    run("chown", "-R", "nobody", day.store.parent)
    as_nobody = ["setpriv", "--reuid", "65534", "--regid", "65534", "--clear-groups"]
    words = [RESTORE / "serve_guarded", day.store, day.program, "1", day.archive]
    (day.archive / "requests.jsonl").chmod(0o600)
    refused = run(*as_nobody, *words)
    assert refused.returncode == FINAL and "Permission denied" in refused.stderr, refused.stderr
    (day.archive / "requests.jsonl").chmod(0o644)
    ran = run("timeout", "2", *as_nobody, *words)
    assert "ends with row" in ran.stdout, "control: with the rights it is read"


def put_on_small_disk(day: Day, mount: Mount, copies: int, more: int) -> None:
    """Puts the store on a disk that has room for these copies of it, and for `more` KiB."""
    files = list(day.store.parent.iterdir())
    size = copies * (sum(path.stat().st_size for path in files) >> 10) + more
    day.store = mount("tmpfs", f"small{more}", "-o", f"size={size}k") / "day.db"
    for path in files:
        shutil.copy(path, day.store.parent)


@pytest.mark.root
def test_room_for_one_copy(day: Day, mount: Mount) -> None:
    """The guard needs room for one copy of both files, and not for two."""
    put_on_small_disk(day, mount, 2, 80)
    assert day.guard(day.archive).returncode == 0
    assert set(os.listdir(day.store.parent)) <= {"day.db", "day.db-wal"}


@pytest.mark.root
def test_full_disk(day: Day, mount: Mount) -> None:
    """Without that room the reason names the disk, and it is final."""
    put_on_small_disk(day, mount, 1, 40)
    ran = day.serve_guarded(day.archive)
    assert ran.returncode == FINAL and "No space left on device" in ran.stderr, ran.stderr


def test_no_log_beside(day: Day, served: Served) -> None:
    """Control: the guard accepts what a killed server left, and a copy of it."""
    served.pay(range(200, 220))
    served.kill()
    assert day.guard(day.archive).returncode == 0
    assert day.guard(day.archive, store=copied(day.store, day.new("copy"))).returncode == 0
