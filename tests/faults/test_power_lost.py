"""Losses of power under a load, on the file systems of this machine's kernel: what each leaves opens. A disk
in memory, served by FUSE, records its writes and flushes; images lose, keep, reorder or tear those since
the last flush. REQUESTS are sent, IMAGES are tried, OPTIONS are those of `mount`, and TORN=1 tears the
superblock of ext4 and btrfs too, which suppose that a disk doesn't."""

import ctypes
import filecmp
import os
import shutil
import subprocess
from collections import Counter
from collections.abc import Callable
from concurrent.futures import ProcessPoolExecutor
from multiprocessing import get_context
from pathlib import Path
from random import Random

import pytest

from tests.faults.power import cuts, day, recorder, volumes
from tests.shared.hostile import desk, judging, store
from tests.shared.hostile.judging import Wrong
from tests.shared.hostile.program import Ran

IMAGES, REQUESTS = int(os.environ.get("IMAGES", "60")), int(os.environ.get("REQUESTS", "160"))
OPTIONS, TORN = os.environ.get("OPTIONS", ""), "TORN" in os.environ
SECONDS = 120
pytestmark = [pytest.mark.root, pytest.mark.needs("file:/dev/fuse", "losetup")]


class Missing(Wrong):
    """Acknowledged requests are missing."""


class Case:
    """A load that was recorded over a new file system, and the images of it."""

    def __init__(self, program: Path, kind: str, folder: Path, dice: Random) -> None:
        self.program, self.kind, self.folder, self.dice = str(program), kind, str(folder), dice
        self.base, self.mounted = str(folder / "base"), str(folder / "mounted")
        self.store = os.path.join(self.mounted, "day.db")
        self.whole = (0, 0) if TORN else volumes.SUPERBLOCKS[kind]
        volumes.make(kind, self.base + ".made")
        volumes.copy(self.base + ".made", self.base)

    def mount(self, image: str) -> volumes.Mounted:
        return volumes.Mounted(self.kind, image, self.mounted, OPTIONS)

    def record(self, setup: Callable[[], None] | None = None) -> None:
        """Plays the load. Its steps, done again, make the disk that was served."""
        disk = recorder.Recorder(self.folder, self.base + ".made")
        try:
            with self.mount(disk.file):
                neighbour = day.Neighbour(self.mounted, Random(self.dice.random()))
                try:
                    messages = day.requests(REQUESTS, self.dice)
                    self.played = day.play(self, messages, disk.position, setup)
                finally:
                    neighbour.stop()
        finally:
            self.steps = disk.stop()
        again = os.path.join(self.folder, "again")
        end = len(self.steps)
        cuts.write_image(self.base, self.steps, end, "kept", self.dice, again, self.whole)
        assert filecmp.cmp(again, self.base + ".made", shallow=False), "control: the record"
        found = cuts.superblock_writes(self.base, self.steps, *volumes.SUPERBLOCKS[self.kind])
        self.superblocks = found if TORN else []

    def cut(self) -> int:
        turn = self.dice.random()
        if self.superblocks and self.dice.random() < 0.3:
            return self.dice.choice(self.superblocks)
        if turn < 0.4:
            came = self.dice.choice(self.played.came)
            return self.dice.randint(came, cuts.next_flush(self.steps, came))
        if turn < 0.55:
            return self.dice.randint(self.played.sent[0], self.played.came[0])
        return self.dice.randint(0, len(self.steps))

    def run(self, words: list[str], stream: bytes = b"") -> Ran:
        more = {"input": stream, "capture_output": True, "timeout": SECONDS}
        ran = subprocess.run([self.program, *words, "--db", self.store], **more)  # type: ignore[call-overload]
        return Ran(ran.returncode, ran.stdout, ran.stderr.decode(errors="replace"), {})

    def rows(self) -> store.Rows:
        copied = os.path.join(self.folder, "copied.db")
        shutil.copyfile(self.store, copied)
        if not store.is_whole(copied):
            raise Wrong("SQLite doesn't find the file whole")
        return store.rows(copied)

    def shown(self, keys: set[str]) -> set[str]:
        """The books that the next command shows, of those that may stand."""
        ran = self.run(["export", "7"])
        if ran.status != 0 or ran.faults:
            raise Wrong(f"the next command ended with {ran.status} {ran.faults!r}")
        rows, books, chain = self.rows(), self.played.books, self.played.chain
        right = {key for key in keys if desk.rows_of(books[key]) == rows}
        if not right:
            least = min(map(chain.index, keys))
            stand = [at for at, key in enumerate(chain) if desk.rows_of(books[key]) == rows]
            kind = Missing if stand and stand[-1] < least else Wrong
            raise kind(f"the books are those after {stand} requests; {least} were acknowledged")
        judging.exports_one([books[key] for key in right], ran, "the next command")
        return right

    def replies_again(self) -> None:
        """Every request again: the same replies, and the books of the undisturbed load."""
        again = self.run(["apply"], b"".join(self.played.messages))
        if (again.status, again.faults) != (0, ""):
            raise Wrong(f"the requests again ended with {again.status} {again.faults!r}")
        said = b"".join(self.played.answers)
        if again.told != said:
            raise Wrong(f"other replies: {again.told[-400:]!r}, and not {said[-400:]!r}")
        last = self.played.books[self.played.chain[-1]]
        judging.shows_books([last], self.rows(), "after the same requests again")

    def lose_again(self, image: str, keys: set[str], acknowledged: int) -> tuple[str, set[str]]:
        """Power is lost while an image is opened. Once books were shown, just those may stand."""
        volumes.copy(image, image + ".served")
        disk = recorder.Recorder(self.folder, image + ".served")
        try:
            with self.mount(disk.file):
                shown = self.shown(keys)
                at = disk.position()
                self.run(["apply"], b"".join(self.played.messages[:acknowledged]))
        finally:
            steps = disk.stop()
        cut, kind = self.dice.randint(0, len(steps)), self.dice.choice(cuts.KINDS)
        cuts.write_image(image, steps, cut, kind, self.dice, image + ".again", self.whole)
        return image + ".again", shown if cut >= at else keys

    def try_image(self, number: int, ignores_flushes: bool = False) -> int:
        """Tries an image; the result tells it from others."""
        cut, kind = self.cut(), cuts.KINDS[number % len(cuts.KINDS)]
        image = os.path.join(self.folder, "image")
        more = (kind, self.dice, image, self.whole, ignores_flushes)
        tag = cuts.write_image(self.base, self.steps, cut, *more)
        keys, acknowledged = self.played.allowed(cut), self.played.acknowledged(cut)
        try:
            if number % 5 == 4:
                image, keys = self.lose_again(image, keys, acknowledged)
            with self.mount(image):
                self.shown(keys)
                self.replies_again()
        except Wrong as wrong:
            named = f"image {number}, {kind}, cut at {cut} of {len(self.steps)}"
            raise type(wrong)(f"{named}: {wrong}") from wrong
        return tag


KINDS = [pytest.param(kind, marks=pytest.mark.needs(f"mkfs.{kind}")) for kind in volumes.MAKERS]


@pytest.fixture(params=KINDS)
def case(request: pytest.FixtureRequest, program: Path, folder: Path, dice: Random) -> Case:
    return Case(program, request.param, folder, dice)


def own_mounts() -> None:
    """A namespace of mounts of its own, in which alone a file system is mounted."""
    libc = ctypes.CDLL(None, use_errno=True)
    new_namespace, private = 0x20000, 0x4000 | 0x40000
    assert libc.unshare(new_namespace) == 0 and libc.mount(None, b"/", None, private, None) == 0


def apart(work: Callable[..., None], *given: object) -> None:
    """Does it in a process that has mounts of its own."""
    with ProcessPoolExecutor(1, get_context("fork"), own_mounts) as pool:
        pool.submit(work, *given).result()


def try_images(case: Case) -> None:
    case.record()
    flushes = sum(step.kind == recorder.FLUSH for step in case.steps)
    assert flushes > REQUESTS, "control: the disk was told to flush"
    tags = Counter(case.try_image(number) for number in range(IMAGES))
    assert len(tags) > IMAGES // 3, "control: images differ"


def find_missing(case: Case, control: str) -> None:
    case.record(day.drop_syncs if control == "no_syncs" else None)
    for number in range(10 * IMAGES):
        try:
            case.try_image(number, control == "no_flushes")
        except Missing:
            return
        except (Wrong, volumes.NotMounted):
            pass
    raise AssertionError("no image shows acknowledged requests missing")


def test_images(case: Case) -> None:
    apart(try_images, case)


@pytest.mark.parametrize("control", ["no_syncs", "no_flushes"])
def test_missing_requests_are_found(case: Case, control: str) -> None:
    """Control: the program's syncs do nothing, or the disk's flushes count for nothing."""
    apart(find_missing, case, control)
