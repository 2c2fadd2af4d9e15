"""What a crash may leave of a store at every point between two calls opens rightly: the books after the
requests that were answered, or one more, each of which keeps its one reply. Images lose, keep or tear
unsynced steps (tests/shared/hostile/disk.py); all lost or kept are tried always, IMAGES others by chance."""

import os
import random
from itertools import accumulate
from pathlib import Path
from typing import Iterator

import pytest

from tests.shared.hostile import commands, counter, decoding, desk, disk
from tests.shared.hostile import judging, scenes, store, talk
from tests.shared.hostile.judging import Wrong
from tests.shared.hostile.program import Program

NAMES = ["new", "with a log", "version 1", "version 1 without extensions"]
IMAGES, NESTED = int(os.environ.get("IMAGES", "100")), 2
DAY = """POST /redeem {"number":4,"day":"2012-02-06","payee":7,"serials":["L1EE","M3EE"]}
POST /redeem {"desk":1,"number":4,"day":"2012-02-06","payee":8,"serials":["K2EE"]}
POST /redeem {"number":6,"day":"2012-02-06","payee":7,"serials":["L1EE"]}
POST /redeem {"number":4,"day":"2012-02-06","payee":7,"serials":["L1EE"]}
POST /rates {"desk":2,"number":1,"rates":[{"from":"2011-05","rate":"3.40","extension":"4.00"}]}
POST /day/close {"number":5,"day":"2012-02-06"}"""
CLASH = 'POST /day/close {"desk":%d,"number":%d,"day":"2005-05-01"}'


class Run:
    """A recorded run: the files and the books that it began with, its stream and its steps."""

    def __init__(self, program: Program, base: disk.Image, starts: list[desk.Books], stream: bytes):
        self.program, self.base, self.starts, self.stream = program, base, starts, stream
        self.command = commands.Connection(stream)
        #: The books after none of the messages, after the first, and so on, from each start.
        after = lambda books, message: judging.delivered(books, message)[0]
        messages = self.command.messages
        self.chains = [list(accumulate(messages, after, initial=books)) for books in starts]
        self.steps: list[disk.Step] = []

    def record(self, plant: str = "") -> "Run":
        path = self.program.place(f"recorded{os.getpid()}")
        lay(path, self.base)
        record = path + ".record"
        ran = self.program.apply(path, self.stream, record=record, plant=plant)
        self.steps = disk.read_record(record)
        ended = self.command.ample(ran, self.starts)
        judging.shows_books(ended, store.rows(path), "a run without a crash")
        *_, last = self.points()
        assert contents(path) == last[1].whole({disk.DB: True, disk.LOG: True}), "the record"
        return self

    def allowed(self, answered: int) -> list[desk.Books]:
        """The books after that many answers, and after one message more."""
        return [books for chain in self.chains for books in chain[answered : answered + 2]]

    def points(self) -> Iterator[tuple[int, disk.Disk, int]]:
        """Every point: its number, the disk as it then is, and how many answers were said."""
        device, said = disk.Disk(*self.base), b""
        yield 0, device, 0
        for at, step in enumerate(self.steps, 1):
            device.take(step)
            said += step.bytes_ if step.kind == disk.TELL else b""
            yield at, device, answers_in(said)

    def images(self, dice: random.Random, most: int) -> Iterator[tuple[disk.Image, int]]:
        more: list[tuple[disk.Image, int]] = []
        for _, device, answered in self.points():
            sure, others = device.images(dice)
            yield from ((image, answered) for image in sure)
            chosen = dice.sample(others, min(len(others), 1 + 2 * most // len(self.steps)))
            more += [(image, answered) for image in chosen]
        yield from dice.sample(more, min(len(more), most))


def answers_in(said: bytes) -> int:
    count = at = 0
    while (end := said.find(b"\r\n\r\n", at) + 4) > 3:
        at = end + int(said[at:end].split(b"Content-Length: ")[1].split(b"\r\n")[0])
        count += at <= len(said)
    return count


def contents(path: str) -> disk.Image:
    files = [Path(path + end) for end in ("", "-wal")]
    return tuple(file.read_bytes() if file.exists() else None for file in files)


def lay(path: str, image: disk.Image) -> None:
    store.remove(path)
    for end, content in zip(("", "-wal"), image):
        if content is not None:
            Path(path + end).write_bytes(content)


def try_image(run: Run, image: disk.Image, answered: int, by_clashes: bool) -> None:
    """The next command shows books that may stand, and refuses other acts; then all again."""
    path = run.program.place(f"image{os.getpid()}")
    lay(path, image)
    many = judging.distinct(run.allowed(answered))
    if by_clashes:
        acts = filter(counter.is_act, run.command.messages[:answered])
        clashes = b"".join(talk.message(CLASH % decoding.call(act)[1]) for act in acts)
        again = commands.Connection(clashes + run.stream)
    else:
        many = judging.exports_one(many, run.program.export(path), "the next command")
        many = judging.shows_books(many, store.rows(path), "after the next command")
        again = run.command
    ended = again.ample(run.program.apply(path, again.stream), many)
    judging.shows_books(ended, store.rows(path), "after the same requests again")
    if not store.is_whole(path):
        raise Wrong("SQLite doesn't find the store whole")


def try_images(run: Run, dice: random.Random, most: int) -> int:
    tried = set()
    for image, answered in run.images(dice, most):
        if (image, answered) not in tried:
            tried.add((image, answered))
            try_image(run, image, answered, dice.random() < 0.5)
    return len(tried)


def runs_of(program: Program) -> dict[str, Run]:
    begun = talk.texts("BEGUN")["BEGUN"]
    worked = b"".join(talk.message(line) for line in DAY.split("\n"))
    day, start = talk.stream(begun) + worked, judging.start([begun])
    logged = scenes.made(program, "logged", talk.stream(begun), "truncate log 1 1 e 5")
    found = {
        "new": Run(program, (None, None), [desk.Books()], day),
        "with a log": Run(program, contents(logged), [start], day),
    }
    earlier, five = talk.texts("NAMED"), talk.texts("FIVE")["FIVE"]
    stream = talk.stream(five + earlier["NAMED"] + earlier["OTHER"])
    for name in NAMES[2:]:
        path, books = scenes.first_version(program, "earlier", name == "version 1")
        found[name] = Run(program, (contents(path)[0], None), [books], stream)
    return found


@pytest.mark.parametrize("name", NAMES)
def test_images(hostile: Program, name: str, dice: random.Random) -> None:
    run = runs_of(hostile)[name].record()
    assert sum(step.kind == disk.SYNC for step in run.steps) > 5, "control: syncs were recorded"
    assert try_images(run, dice, IMAGES) > IMAGES // 2


@pytest.mark.parametrize("name", NAMES[:3])
def test_crash_as_a_crash_is_mended(hostile: Program, name: str, dice: random.Random) -> None:
    """Images are opened by runs that are recorded, and crash in their turn."""
    run = runs_of(hostile)[name].record()
    chosen = dice.sample(list(run.images(dice, IMAGES)), NESTED)
    for image, answered in chosen:
        starts = judging.distinct(run.allowed(answered))
        try_images(Run(hostile, image, starts, run.stream).record(), dice, IMAGES // 5)


def too_early(steps: list[disk.Step]) -> list[disk.Step]:
    """The steps, in which every answer stands before the log's sync that it waited for."""
    moved: list[disk.Step] = []
    for step in steps:
        kinds = [(other.kind, other.file) for other in moved]
        syncs = [at for at, kind in enumerate(kinds) if kind == (disk.SYNC, disk.LOG)]
        moved.insert(max(syncs, default=len(moved)) if step.kind == disk.TELL else len(moved), step)
    return moved


@pytest.mark.parametrize("plant", ["dropped_sync", "early_answer"])
def test_wrong_program_is_found(hostile: Program, plant: str, dice: random.Random) -> None:
    """Control: a program that syncs no log, and one that answers before the sync."""
    run = runs_of(hostile)["new"].record(plant if plant == "dropped_sync" else "")
    if plant == "early_answer":
        run.steps = too_early(run.steps)
    with pytest.raises(Wrong):
        try_images(run, dice, 20 * IMAGES)
