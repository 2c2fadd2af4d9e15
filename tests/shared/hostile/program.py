"""The program, and what shim.c does to it: faults of files, refused memory, records of writes."""

import dataclasses
import os
import shutil
import struct
import subprocess
from typing import Any, Callable, Sequence

HERE = os.path.dirname(os.path.abspath(__file__))
KINDS = "open read write truncate sync stat lock advise own hear tell".split()
COUNTS = (*KINDS, "met", "asked", "refused", "told_before", "told")
SECONDS = 120
COMPILE = ["cc", "-O1", "-Wall", "-Wextra", "-Werror", "-shared", "-fPIC"]


@dataclasses.dataclass
class Ran:
    """How a command ended, and what the shim counted."""

    status: int
    told: bytes
    faults: str
    counts: dict[str, int]

    @property
    def met(self) -> int:
        return self.counts.get("met", 0)

    @property
    def refused(self) -> int:
        return self.counts.get("refused", 0)


class Program:
    """The program, a shim for it, and a folder in which stores are made."""

    def __init__(self, path: str, folder: str) -> None:
        self.path, self.folder = path, folder
        self.shim = os.path.join(folder, "shim.so")
        subprocess.run([*COMPILE, "-o", self.shim, os.path.join(HERE, "shim.c")], check=True)

    def place(self, name: str) -> str:
        """An empty folder of that name for a store, whose path is the result."""
        folder = os.path.join(self.folder, name)
        shutil.rmtree(folder, ignore_errors=True)
        os.mkdir(folder)
        return os.path.join(folder, "day.db")

    def environment(self, store: str, **hostile: str | None) -> dict[str, str]:
        """What shim.c reads: `fault`, `refuse`, `record`, `plant` and `file`, if they are given."""
        wanted = {f"HOSTILE_{name.upper()}": value for name, value in hostile.items() if value}
        wanted |= {"LD_PRELOAD": self.shim, "HOSTILE_STORE": store}
        return {**wanted, "HOSTILE_COUNTS": store + ".counts"}

    def run(
        self,
        store: str,
        words: Sequence[str],
        stream: bytes = b"",
        shimmed: bool = True,
        limit: Callable[[], None] | None = None,
        **hostile: Any,
    ) -> Ran:
        """Run a command over a store, on an input; `limit` is called in the new process."""
        counts = store + ".counts"
        if os.path.exists(counts):
            os.remove(counts)
        env, line = self.environment(store, **hostile) if shimmed else {}, [self.path, *words]
        more: dict[str, Any] = {"env": env, "timeout": SECONDS, "preexec_fn": limit}
        try:
            ran = subprocess.run(line, input=stream, capture_output=True, **more)
        except subprocess.TimeoutExpired:
            return Ran(-99, b"", f"didn't end within {SECONDS} seconds", read_counts(counts))
        said = ran.stderr.decode(errors="replace")
        return Ran(ran.returncode, ran.stdout, said, read_counts(counts))

    def apply(self, store: str, stream: bytes, **hostile: Any) -> Ran:
        return self.run(store, ["apply", "--db", store], stream, **hostile)

    def enter(
        self, store: str, kind: str, path: str, number: int, desk: int = 0, **hostile: Any
    ) -> Ran:
        words = ["import", kind, path, "--db", store, "--number", str(number)]
        return self.run(store, words + (["--desk", str(desk)] if desk else []), **hostile)

    def export(self, store: str, customer: int = 7, **hostile: Any) -> Ran:
        return self.run(store, ["export", str(customer), "--db", store], **hostile)

    def sheet(self, store: str, customer: int, month: str, **hostile: Any) -> Ran:
        return self.run(store, ["sheet", str(customer), month, "--db", store], **hostile)


def read_counts(path: str) -> dict[str, int]:
    """What the shim counted, or nothing where it wasn't loaded."""
    if not os.path.exists(path):
        return {}
    with open(path, "rb") as file:
        text = file.read()
    if len(text) < 8 * len(COUNTS):
        return {}
    return dict(zip(COUNTS, struct.unpack(f"{len(COUNTS)}Q", text[: 8 * len(COUNTS)])))
