"""What a disk may hold after a power loss: any sectors of any writes since the last flush."""

import os
import zlib
from random import Random
from typing import Iterator

from . import volumes
from .recorder import FLUSH, WRITE, Step

SECTOR = 512
KINDS = ("lost", "kept", "some", "reordered", "torn", "last torn")
#: From where on, and up to where.
Range = tuple[int, int]


def last_flush(steps: list[Step], cut: int) -> int:
    return next((at for at in range(cut - 1, -1, -1) if steps[at].kind == FLUSH), 0)


def next_flush(steps: list[Step], cut: int) -> int:
    return next((at for at in range(cut, len(steps)) if steps[at].kind == FLUSH), len(steps))


def superblock_writes(base: str, steps: list[Step], begin: int, end: int) -> list[int]:
    """The places after each write of the superblock that a tear may break."""
    with open(base, "rb") as file:
        file.seek(begin)
        last = file.read(end - begin)
    found: list[int] = []
    for place, step in enumerate(steps, 1):
        if step.kind == WRITE and step.at <= begin and end <= step.at + step.size:
            now = step.bytes_[begin - step.at : end - step.at]
            places = range(0, end - begin, SECTOR)
            if sum(now[at : at + SECTOR] != last[at : at + SECTOR] for at in places) > 1:
                found.append(place)
            last = now
    return found


def units(step: Step, whole: Range) -> Iterator[Range]:
    """The parts of a step that arrive or not: sectors, and the range `whole` in one."""
    at, end = step.at, step.at + step.size
    while at < end:
        ends = min(end, whole[1] if whole[0] <= at < whole[1] else at + SECTOR)
        yield at - step.at, ends - step.at
        at = ends


class Image:
    """A file that gets what a disk holds, and a checksum of which steps it got."""

    def __init__(self, base: str, path: str, whole: Range) -> None:
        volumes.copy(base, path)
        self.file, self.sum, self.whole = os.open(path, os.O_RDWR), 0, whole

    def put(self, step: Step, begin: int, end: int) -> None:
        if step.kind == FLUSH or begin >= end:
            return
        if step.kind == WRITE:
            os.pwrite(self.file, memoryview(step.bytes_)[begin:end], step.at + begin)
        else:
            volumes.punch(self.file, step.at + begin, end - begin)
        self.sum = zlib.crc32(b"%d %d %d" % (id(step), begin, end), self.sum)

    def put_torn(self, step: Step, dice: Random) -> None:
        if step.kind != WRITE:
            self.put(step, 0, SECTOR * dice.randint(0, step.size // SECTOR))
            return
        parts = list(units(step, self.whole))
        if dice.random() < 0.4:
            parts = parts[: dice.randint(0, len(parts))]
        else:
            parts = [part for part in parts if dice.getrandbits(1)]
        for begin, end in parts:
            self.put(step, begin, end)

    def put_some(self, steps: list[Step], kind: str, dice: Random) -> None:
        """Do what an image of a kind has of unflushed steps."""
        if kind == "lost":
            return
        if kind == "reordered":
            dice.shuffle(steps)
            steps = steps[: dice.randint(0, len(steps))]
        share = 1 if kind == "kept" else dice.random()
        for place, step in enumerate(steps, 1):
            is_last = kind == "last torn" and place == len(steps)
            if is_last or kind == "torn" and dice.random() < 0.6:
                self.put_torn(step, dice)
            elif kind not in ("some", "torn") or dice.random() < share:
                self.put(step, 0, step.size)


def write_image(
    base: str,
    steps: list[Step],
    cut: int,
    kind: str,
    dice: Random,
    path: str,
    whole: Range,
    ignores_flushes: bool = False,
) -> int:
    """Write what the disk may hold if power is lost at a cut. The result tells images apart."""
    image = Image(base, path, whole)
    sure = 0 if ignores_flushes else last_flush(steps, cut)
    try:
        for step in steps[:sure]:
            image.put(step, 0, step.size)
        image.put_some([step for step in steps[sure:cut] if step.kind != FLUSH], kind, dice)
    finally:
        os.close(image.file)
    return image.sum
