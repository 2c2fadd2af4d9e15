"""The checksums of SQLite's pages and logs; a store that was changed by hand gets right ones again."""

import struct
from pathlib import Path

#: The two sums of a checksum.
Sums = tuple[int, int]


def sums(content: bytes, begun: Sums = (0, 0), is_big: bool = False) -> Sums:
    """The sums over a content, from those over what stands before it on."""
    first, second = begun
    words = struct.unpack(f"{'>' if is_big else '<'}{len(content) // 4}I", content)
    for one, other in zip(words[::2], words[1::2]):
        first = (first + one + second) & 0xFFFFFFFF
        second = (second + other + first) & 0xFFFFFFFF
    return first, second


def checksum(page: bytes) -> bytes:
    """The sum of SQLite's cksumvfs over a page without its last 8 bytes."""
    return struct.pack("<II", *sums(page[:-8]))


def size_of_pages(data: bytes | bytearray) -> int:
    return int.from_bytes(data[16:18], "big")


def with_checksums(path: str | Path) -> None:
    """Write the right checksum to each page of a store at rest, as anyone can who wants to."""
    data = bytearray(Path(path).read_bytes())
    size = size_of_pages(data)
    for at in range(0, len(data), size):
        data[at + size - 8 : at + size] = checksum(bytes(data[at : at + size]))
    Path(path).write_bytes(data)
