"""Which logs docs/FORMATS.md calls damaged, logs by hand, and what a disk does to one."""

import functools
import random
import struct
from dataclasses import dataclass
from typing import Callable

from tests.shared import checksums
from tests.shared.checksums import Sums, checksum

#: The page number of a count, the version of a log's header, and the sizes that a page may have.
COUNT_PAGE, VERSION = 0xFF000000, 3007000
PAGE_SIZES = tuple(512 << n for n in range(8))
#: The length of the log of a new store, and its count of checkpoints.
NEW_LOG, MARK = 41, b"\xff" * 4
SALT = b"\x01\x02\x03\x04\x05\x06\x07\x08"
sums = functools.lru_cache(maxsize=1 << 16)(checksums.sums)


def number(content: bytes, at: int) -> int:
    return int.from_bytes(content[at : at + 4], "big") if at + 4 <= len(content) else 0


class Log:
    """A log's header, and the numbers of the pages in the frames that recovery takes."""

    def __init__(self, content: bytes) -> None:
        self.content, self.page_size = content, number(content, 8)
        self.is_log = len(content) >= 56 and content[0] == 0x37
        self.is_big = content[3:4] == b"\x83"
        is_named = self.is_log and content[1:4] in (b"\x7f\x06\x82", b"\x7f\x06\x83")
        self.is_signed = is_named and self.after(content[:24], (0, 0)) == self.sums_at(24)
        self.is_known = number(content, 4) == VERSION and self.page_size in PAGE_SIZES
        frame = taken = 0
        while self.is_signed and self.is_known and self.passes(frame):
            frame += 1
            taken = frame if self.size(frame - 1) else taken
        self.taken = [self.page_number(one) for one in range(taken)]

    def after(self, content: bytes, begun: Sums) -> Sums:
        return sums(content, begun, self.is_big)

    def sums_at(self, at: int) -> Sums:
        return number(self.content, at), number(self.content, at + 4)

    def at(self, frame: int) -> int:
        return 32 + frame * (24 + self.page_size)

    def has(self, frame: int) -> bool:
        return self.at(frame + 1) <= len(self.content)

    def page_number(self, frame: int) -> int:
        return number(self.content, self.at(frame))

    def size(self, frame: int) -> int:
        return number(self.content, self.at(frame) + 4)

    def is_open(self, frame: int) -> bool:
        return self.has(frame) and self.content[self.at(frame) + 8] == self.content[16]

    def is_ours(self, frame: int) -> bool:
        return self.content[self.at(frame) + 8 : self.at(frame) + 16] == self.content[16:24]

    def page(self, frame: int) -> bytes:
        return self.content[self.at(frame) + 24 : self.at(frame + 1)]

    def passes(self, frame: int) -> bool:
        return self.is_ours(frame) and self.page_number(frame) != 0 and self.is_right(frame)

    def is_right(self, frame: int) -> bool:
        """Whether the file has a frame, and its checksum is right behind the frame before it."""
        if not self.has(frame):
            return False
        at = self.at(frame)
        before = self.sums_at(self.at(frame - 1) + 16 if frame else 24)
        front = self.after(self.content[at : at + 8], before)
        return self.after(self.page(frame), front) == self.sums_at(at + 16)

    def ends(self) -> list[int]:
        """The frames that end the transactions that recovery takes."""
        return [frame for frame in range(len(self.taken)) if self.size(frame)]

    def end(self) -> int:
        return self.at(len(self.taken))

    def behind(self) -> range:
        return range(len(self.taken), (len(self.content) - 32) // (24 + self.page_size))

    def has_two_more(self) -> bool:
        frame, found = len(self.taken), 0
        while found < 2 and self.is_open(frame):
            found += self.is_ours(frame) and self.size(frame) != 0
            frame += 1
        return found == 2

    def later_counts(self) -> list[int]:
        """The counts behind the frame after those that recovery takes, whatever their salts."""
        later = (frame for frame in self.behind()[1:] if self.page_number(frame) == COUNT_PAGE)
        return [frame for frame in later if self.is_right(frame)]

    def has_late_count(self, in_file: int) -> bool:
        is_doubted = not self.taken and self.content[32:56] == bytes(24)
        return any(
            self.is_ours(count) or (is_doubted and self.size(count - 1) > in_file)
            for count in self.later_counts()
        )

    def lacks_sum(self) -> bool:
        newest = {page: frame for frame, page in enumerate(self.taken) if page != COUNT_PAGE}
        pages = (self.page(frame) for frame in newest.values())
        return any(page[-8:] != checksum(page) for page in pages)


def is_refused(file: bytes, log: Log) -> bool:
    """Whether the program has to refuse a log beside a file."""
    begins = log.content[:1] == b"\x37"
    if not file:
        return len(log.content) > NEW_LOG or (begins and log.content[12:16] != MARK)
    if not log.is_log:
        return len(log.content) >= 56 and not begins and log.content[1:3] != b"\x7f\x06"
    if not log.is_signed or not log.is_known or log.has_two_more():
        return True
    if log.has_late_count(len(file) // log.page_size):
        return True
    return number(file, 20) == 0x08402020 and log.lacks_sum()


# ---- logs by hand
@dataclass
class Transaction:
    """The pages that a transaction writes, by their numbers, and the size of the database at its end."""

    pages: list[tuple[int, bytes]]
    size: int

    def counted(self) -> "Transaction":
        """The same behind a frame that counts what it lacks."""
        zeros = sum(page.count(0) + COUNT_PAGE - at for at, page in self.pages)
        blank = bytes(len(self.pages[0][1]) - 8)
        said = len(blank) + zeros + COUNT_PAGE - self.size
        return Transaction([(COUNT_PAGE, struct.pack(">Q", said) + blank), *self.pages], self.size)


def made_log(page_size: int, transactions: list[Transaction], salt: bytes = SALT) -> bytes:
    log = bytes.fromhex("377f0682") + struct.pack(">III", VERSION, page_size, 5) + salt
    ends = sums(log)
    log += struct.pack(">II", *ends)
    for one in transactions:
        for place, (page, content) in enumerate(one.pages, 1):
            front = struct.pack(">II", page, one.size if place == len(one.pages) else 0)
            ends = sums(content, sums(front, ends))
            log += front + salt + struct.pack(">II", *ends) + content
    return log


def with_bytes(content: bytes, at: int, new: bytes) -> bytes:
    return content[:at] + new + content[at + len(new) :]


def with_header(content: bytes, at: int, value: int) -> bytes:
    """The log with this number in its header, and the header's checksum made anew."""
    head = with_bytes(content[:24], at, struct.pack(">I", value))
    return head + struct.pack(">II", *sums(head)) + content[32:]


def turned(content: bytes, at: int, bits: int = 1) -> bytes:
    return with_bytes(content, at, bytes([content[at] ^ bits]))


# ---- what a disk does to a log
#: The log, where its last transaction ends, what the same file held before, and dice.
Harm = Callable[[bytes, int, bytes, random.Random], bytes]


def in_sector(size: int, put: Callable[[int, int, bytes, random.Random], bytes]) -> Harm:
    """Other bytes in one sector of that size, up to the end of the file."""

    def harmed(log: bytes, end: int, older: bytes, dice: random.Random) -> bytes:
        at = dice.randrange(-(-end // size)) * size
        return with_bytes(log, at, put(at, min(size, len(log) - at), older, dice))

    return harmed


def older_bytes(at: int, size: int, older: bytes, dice: random.Random) -> bytes:
    """What the file held there before; zeros where it was shorter."""
    return older[at : at + size].ljust(size, b"\0")


HARMS: dict[str, Harm] = {
    "a turned bit": lambda log, n, _, dice: turned(log, dice.randrange(n), 1 << dice.randrange(8)),
    "another byte": lambda log, n, _, dice: turned(log, dice.randrange(n), dice.randrange(1, 256)),
    "512 zeros": in_sector(512, lambda at, size, older, dice: bytes(size)),
    "4096 zeros": in_sector(4096, lambda at, size, older, dice: bytes(size)),
    "512 older bytes": in_sector(512, older_bytes),
    "4096 older bytes": in_sector(4096, older_bytes),
    "512 random bytes": in_sector(512, lambda at, size, older, dice: dice.randbytes(size)),
}
