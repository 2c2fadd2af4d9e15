"""What the tests of samples/ share: file systems of their own."""

import subprocess
from pathlib import Path
from typing import Callable, Iterator

import pytest

from tests.fence.conftest import machines, root
from tests.restore.counter_day import run

__all__ = ["machines", "mount", "root"]


#: Mounts a file system of a kind under a name, with options and `size=`.
Mount = Callable[..., Path]


@pytest.fixture(scope="module")
def mount(place: Path) -> Iterator[Mount]:
    """Mounts new file systems, each in a file of its own or in memory, until the module's end. It wants root."""
    mounted: list[Path] = []

    def make(kind: str, name: str, *options: str, size: int = 1 << 30) -> Path:
        at = place / name
        at.mkdir()
        words: list[object] = ["-t", kind, *options, "memory"]
        if kind not in ("tmpfs", "ramfs"):
            disk = place / f"{name}.disk"
            with open(disk, "w") as file:
                file.truncate(size)
            subprocess.run([f"mkfs.{kind}", "-q", disk], check=True)
            words = ["-o", "loop", disk]
        subprocess.run(["mount", *map(str, words), at], check=True)
        mounted.append(at)
        return at

    yield make
    for at in reversed(mounted):
        run("umount", "-l", at)
