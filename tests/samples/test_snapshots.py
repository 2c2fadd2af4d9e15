"""Copies of a store while it is served: snapshots of btrfs, what samples/snapshots/snapshot_copy sends and keeps, and samples/copy_store on each file system."""

import os
import random
import shutil
import signal
import time
from pathlib import Path
from typing import Any, Iterator

import pytest

from tests.conftest import TOP
from tests.restore.counter_day import Ran, copied, run
from tests.samples.books import forget, script, stopped
from tests.samples.conftest import Mount
from tests.samples.books import Busy
from tests.shared.counter_calls import Name, done, replaced

SNAPSHOT_COPY, COPY_STORE = TOP / "samples/snapshots/snapshot_copy", TOP / "samples/copy_store"
SNAPSHOTS, BONDS = 30, 8000
pytestmark = [pytest.mark.root, pytest.mark.needs("file:/dev/loop-control")]
btrfs = pytest.mark.needs("mkfs.btrfs")


class Disks:
    """A file system with the store's subvolume and the snapshots, and a second one for the copies."""

    def __init__(self, program: Path, mount: Mount) -> None:
        self.program, books = program, mount("btrfs", "books")
        self.copies = mount("btrfs", "copies")
        self.store, self.snapshots = books / "store", books / "snapshots"
        done("btrfs", "-q", "subvolume", "create", self.store)
        self.snapshots.mkdir()

    def command(
        self, by: Path = SNAPSHOT_COPY, to: Path | None = None, program: object = None
    ) -> list[object]:
        """The sample, which keeps two copies."""
        return [by, self.store, self.snapshots, to or self.copies, "2", program or self.program]

    def copy(self, *before: object, **more: Any) -> Ran:
        return run(*before, *self.command(**more))

    def names(self) -> tuple[set[str], set[str]]:
        return set(os.listdir(self.snapshots)), set(os.listdir(self.copies))

    def kept(self) -> list[list[str]]:
        return [sorted(name for name in names if name[0] == "2") for names in self.names()]


@pytest.fixture(scope="module")
def disks(program: Path, mount: Mount) -> Disks:
    return Disks(program, mount)


@pytest.fixture(scope="module")
def busy(disks: Disks) -> Iterator[Busy]:
    made = Busy(disks.program, disks.store / "day.db", BONDS)
    yield made
    made.stop()


def while_clients_redeem(busy: Busy, seconds: float) -> dict[Name, str]:
    """What is acknowledged after this time; the clients go on."""
    busy.load.start()
    time.sleep(seconds)
    return dict(busy.load.replies)


@btrfs
@pytest.mark.slow
def test_snapshots(busy: Busy, disks: Disks, dice: random.Random, folder: Path) -> None:
    """Each opens with all that was acknowledged before it, and answers a retry of all requests rightly."""
    taken: list[dict[Name, str]] = []
    busy.load.start()
    for nth in range(SNAPSHOTS):
        time.sleep(dice.uniform(0.02, 0.35))
        taken.append(dict(busy.load.replies))
        to = disks.snapshots / f"random-{nth}"
        done("btrfs", "subvolume", "snapshot", "-r", disks.store, to)
    assert busy.load.turn < BONDS, "the clients still redeem"
    busy.load.stop()
    for nth, acknowledged in enumerate(taken[1:], 1):
        copy = copied(disks.snapshots / f"random-{nth}" / "day.db", folder / str(nth))
        busy.is_right(copy, acknowledged)
        shutil.rmtree(copy.parent)
    assert len({len(acknowledged) for acknowledged in taken}) > SNAPSHOTS // 2


@btrfs
def test_sent(busy: Busy, disks: Disks, folder: Path) -> None:
    """Three nightly copies while clients redeem, of which two are kept."""
    for night in range(3):
        acknowledged = while_clients_redeem(busy, 1)
        name = done(*disks.command()).split(": ")[0]
        busy.load.stop()
        busy.is_right(copied(disks.copies / name / "day.db", folder / str(night)), acknowledged)
    assert [len(names) for names in disks.kept()] == [2, 2]


@btrfs
def test_refused_copies(busy: Busy, disks: Disks) -> None:
    """What can't be copied is told, no copy is deleted, and no snapshot stays on the store's disk."""
    before = disks.names()
    assert disks.copy(to=disks.copies / "none").returncode == 1 and disks.names() == before
    ran = disks.copy(program="/bin/false")
    (more,) = disks.names()[1] - before[1]
    assert ran.returncode == 1 and more.startswith("refused-") and before[1] < disks.names()[1]
    assert disks.names()[0] == before[0]


@btrfs
@pytest.mark.needs("faketime")
def test_clock_set_back(busy: Busy, disks: Disks, folder: Path) -> None:
    """A new copy is kept although its name is the oldest one, and the copy that was made first goes."""
    for _ in range(2):
        assert disks.copy().returncode == 0
    newest = disks.kept()[1][-1]
    assert disks.copy("faketime", "2001-02-03 04:05:06").returncode == 0
    assert [[name[:4] for name in kept] for kept in disks.kept()] == [["2001", newest[:4]]] * 2
    assert [kept[-1] for kept in disks.kept()] == [newest] * 2
    assert disks.copy().returncode == 0
    kept = disks.kept()[1]
    assert len(kept) == 2 and kept[0].startswith("2001") and kept[1] != newest
    by_names = replaced(SNAPSHOT_COPY.read_text(), [("| sort -n |", "| sort -k 2 |")])
    ran = disks.copy("faketime", "2000-02-03 04:05:06", by=script(folder / "by_names", by_names))
    assert ran.returncode == 0 and "arrived and opened" in ran.stdout
    assert disks.kept()[1] == kept, "control: a script that goes by names has deleted the new one"


@btrfs
def test_killed_copies(busy: Busy, disks: Disks, folder: Path) -> None:
    """A stopped copy leaves nothing; a killed one nothing that has a copy's name, and the next one removes what it left."""
    waits, before = script(folder / "waits", "#!/bin/sh\nexec sleep 600\n"), disks.names()
    for by, wanted in ((signal.SIGTERM, []), (signal.SIGKILL, ["opened-", "part-", "part-"])):
        opened = lambda: any(name.startswith("opened-") for name in os.listdir(disks.copies))
        stopped(disks.command(program=waits), opened, by)
        left = [now - then for now, then in zip(disks.names(), before)]
        assert sorted(name.split("2")[0] for names in left for name in names) == wanted
    assert disks.copy().returncode == 0
    names = set.union(*disks.names())
    assert not [name for name in names if name.startswith(("part-", "opened-"))]


@btrfs
def test_gone_back(busy: Busy, disks: Disks) -> None:
    """The store is lost, and the last copy takes its place."""
    acknowledged = while_clients_redeem(busy, 0.5)
    copy = disks.copies / done(*disks.command()).split(": ")[0]
    busy.load.stop()
    busy.stop()
    forget(busy.path)
    shutil.copytree(copy, disks.store, dirs_exist_ok=True)
    busy.start()
    answers = [busy.ask(busy.load.requests[name]) for name in acknowledged]
    assert answers == [(200, reply) for reply in acknowledged.values()]
    busy.stop()
    busy.is_right(busy.path, acknowledged)
    busy.start()


@pytest.mark.parametrize("kind", ["ext4", "xfs", "btrfs", "tmpfs"])
def test_copy_store(
    program: Path, mount: Mount, dice: random.Random, folder: Path, kind: str
) -> None:
    """Copies while clients redeem, on each file system that the script takes."""
    if kind != "tmpfs" and shutil.which(f"mkfs.{kind}") is None:
        pytest.skip(f"needs mkfs.{kind}")
    disk = mount(kind, f"copied-{kind}")
    busy = Busy(program, disk / "day.db", BONDS, pause=0.01 if kind == "tmpfs" else 0)
    taken: list[dict[Name, str]] = []
    try:
        busy.load.start()
        while len(taken) < 8 and busy.load.turn < BONDS * 3 // 4:
            time.sleep(dice.uniform(0.05, 0.2))
            taken.append(dict(busy.load.replies))
            done(COPY_STORE, busy.path, folder / str(len(taken)), program)
        assert busy.load.turn < BONDS and len(taken) >= 4
        busy.load.stop()
    finally:
        busy.stop()
    for nth, acknowledged in enumerate(taken, 1):
        busy.is_right(folder / str(nth) / "day.db", acknowledged)
