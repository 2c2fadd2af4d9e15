"""The model of a disk: what a crash may leave of two files. Each byte below the last synced length is the old
one or one written since; past it there may be anything; the length is between the synced one and those
reached since. A file that was made is there for sure once its folder was synced."""
import dataclasses
import random
import struct
from typing import Callable, Iterable, Iterator

HEAD = struct.Struct("=IIQQ")
OPEN, READ, WRITE, TRUNCATE, SYNC = range(5)
TELL = 11
DB, LOG, FOLDER, INPUT, OUTPUT = range(1, 6)
SECTOR = 512
LAST_FEW = 6
ALL_OR_NONE = bytes(255 * (byte & 1) for byte in range(256))


@dataclasses.dataclass(frozen=True)
class Step:
    kind: int
    file: int
    at: int
    size: int
    bytes_: bytes = b""


#: How a step is taken: it changes a content.
Take = Callable[[bytearray, Step], None]
#: The content of each file that a crash leaves; None: there is none.
Image = tuple[bytes | None, ...]


def read_record(path: str) -> list[Step]:
    with open(path, "rb") as file:
        text = file.read()
    steps, at = [], 0
    while at < len(text):
        kind, on, offset, size = HEAD.unpack_from(text, at)
        at += HEAD.size
        has_bytes = kind in (WRITE, TELL)
        steps.append(Step(kind, on, offset, size, text[at : at + size] if has_bytes else b""))
        at += size if has_bytes else 0
    return steps


def overwrite(content: bytearray, at: int, bytes_: bytes) -> None:
    """Put bytes at a place; a hole is zeros."""
    if len(content) < at:
        content.extend(bytes(at - len(content)))
    content[at : at + len(bytes_)] = bytes_


def resize(content: bytearray, size: int) -> None:
    if size < len(content):
        del content[size:]
    else:
        content.extend(bytes(size - len(content)))


def kept(content: bytearray, step: Step) -> None:
    if step.kind == WRITE:
        overwrite(content, step.at, step.bytes_)
    else:
        resize(content, step.size)


class File:
    """What is synced of a file (None where it may be missing), and the steps since."""

    def __init__(self, content: bytes | None) -> None:
        self.synced, self.is_sure = content, content is not None
        self.steps: list[Step] = []
        self.now = bytearray(content or b"")
        self.shown: bytes | None = None

    def take(self, step: Step) -> None:
        if step.kind == OPEN:
            self.synced, self.steps = b"", []
        elif step.kind == SYNC:
            self.synced, self.steps = self.seen(), []
        else:
            kept(self.now, step)
            self.steps.append(step)
            self.shown = None

    def seen(self) -> bytes | None:
        """The content by all steps; None where there is no file."""
        if self.synced is None:
            return None
        if self.shown is None:
            self.shown = bytes(self.now)
        return self.shown

    def outcome(self, takes: Iterable[Take]) -> bytes:
        """The content where each step since the sync is taken by its function."""
        content = bytearray(self.synced or b"")
        for step, take in zip(self.steps, takes):
            take(content, step)
        return bytes(content)


def lost(content: bytearray, step: Step) -> None:
    """Nothing of a step arrived."""


def torn_prefix(length: int) -> Take:
    """Only so many bytes of a write arrived."""
    return lambda content, step: overwrite(content, step.at, step.bytes_[:length])


def mixed(dice: random.Random, old: bytes | bytearray, new: bytes, unit: int) -> bytes:
    """Of each unit of bytes the old or the new ones."""
    count = -(-len(new) // unit)
    choice = dice.randbytes(count).translate(ALL_OR_NONE)
    mask = b"".join(choice[at : at + 1] * unit for at in range(count))[: len(new)]
    before, after, bits = (int.from_bytes(part, "little") for part in (old, new, mask))
    return (before ^ ((before ^ after) & bits)).to_bytes(len(new), "little")


def torn_mixed(dice: random.Random, unit: int) -> Take:
    """Of each unit of a write, old or new is there; past the end, zeros may be."""

    def take(content: bytearray, step: Step) -> None:
        length = len(content)
        if step.kind != WRITE:
            resize(content, dice.randint(*sorted((length, step.size))))
            return
        old = content[step.at : step.at + step.size].ljust(step.size, b"\0")
        overwrite(content, step.at, mixed(dice, old, step.bytes_, unit))
        if len(content) > length and dice.getrandbits(1):
            resize(content, dice.randint(length, len(content)))

    return take


def torn_garbage(dice: random.Random, synced_length: int) -> Take:
    """Of a write, what lies past the synced length is anything."""

    def take(content: bytearray, step: Step) -> None:
        kept(content, step)
        begins, ends = max(synced_length, step.at), step.at + step.size
        if step.kind == WRITE and ends > begins:
            content[begins:ends] = dice.randbytes(ends - begins)

    return take


def subsets(count: int, most: int) -> Iterator[list[bool]]:
    """Each choice of the last steps, `most` of them, with the earlier ones taken or not."""
    free = min(count, most)
    for mask in range(2**free):
        chosen = [bool(mask >> place & 1) for place in range(free)]
        yield [True] * (count - free) + chosen
        if count > free:
            yield [False] * (count - free) + chosen


class Disk:
    def __init__(self, db: bytes | None, log: bytes | None) -> None:
        self.files = {DB: File(db), LOG: File(log)}

    def take(self, step: Step) -> None:
        if step.file == FOLDER and step.kind == SYNC:
            for file in self.files.values():
                file.is_sure = file.synced is not None
        elif step.file in self.files:
            self.files[step.file].take(step)

    def whole(self, is_kept: dict[int, bool]) -> Image:
        return tuple(file.seen() if is_kept[on] else file.synced for on, file in self.files.items())

    def plain_images(self) -> list[Image]:
        """All unsynced steps of each file lost or kept, and files that may be missing."""
        found = [self.whole({DB: db, LOG: log}) for db in (True, False) for log in (True, False)]
        if not all(file.is_sure for file in self.files.values()):
            for missing in (DB, LOG):
                if not self.files[missing].is_sure:
                    rest = zip(self.files, found[0])
                    found.append(tuple(None if on == missing else text for on, text in rest))
            sure = (file.synced if file.is_sure else None for file in self.files.values())
            found.append(tuple(sure))
        return found

    def subset_images(self) -> Iterator[Image]:
        """Each subset of a file's last steps, beside the other file with all or nothing."""
        for on, file in self.files.items():
            if not file.steps:
                continue
            other = self.files[LOG if on == DB else DB]
            for chosen in subsets(len(file.steps), LAST_FEW):
                content = file.outcome([kept if is_taken else lost for is_taken in chosen])
                for beside in dict.fromkeys((other.seen(), other.synced)):
                    yield (content, beside) if on == DB else (beside, content)

    def torn_takes(self, file: File, dice: random.Random) -> Iterator[Take]:
        """Ways in which the last step of a file is torn."""
        last = file.steps[-1]
        if last.kind == WRITE:
            edges = {1, last.size // 2, last.size - 1, SECTOR * (last.size // (2 * SECTOR))}
            edges.add(dice.randrange(last.size + 1))
            yield from (torn_prefix(edge) for edge in sorted(edges) if 0 < edge < last.size)
        yield from (torn_mixed(dice, unit) for unit in (SECTOR, SECTOR, 1, 24))
        yield torn_garbage(dice, len(file.synced or b""))

    def torn_images(self, dice: random.Random) -> Iterator[Image]:
        """The last step of each file torn, beside the other file with all or nothing."""
        for on, file in self.files.items():
            if not file.steps:
                continue
            other = self.files[LOG if on == DB else DB]
            for take in self.torn_takes(file, dice):
                for before in (kept, lost):
                    content = file.outcome([before] * (len(file.steps) - 1) + [take])
                    beside = dice.choice((other.seen(), other.synced))
                    yield (content, beside) if on == DB else (beside, content)

    def random_images(self, dice: random.Random, count: int) -> Iterator[Image]:
        """Each unsynced step of each file taken, lost or torn by chance."""
        torn = (torn_mixed(dice, SECTOR), torn_mixed(dice, 1))

        def outcome(file: File) -> bytes:
            ways = (kept, kept, lost, *torn, torn_garbage(dice, len(file.synced or b"")))
            return file.outcome(dice.choices(ways, k=len(file.steps)))

        for _ in range(count):
            yield tuple(map(outcome, self.files.values()))

    def images(self, dice: random.Random) -> tuple[list[Image], list[Image]]:
        """Images that a crash now may leave: what is always tried, and what may be chosen from."""
        if any(file.synced is None for file in self.files.values()):
            return self.plain_images(), []
        steps = sum(len(file.steps) for file in self.files.values())
        more = [*self.subset_images(), *self.torn_images(dice)]
        return self.plain_images(), more + [*self.random_images(dice, 12 if steps > 1 else 0)]
