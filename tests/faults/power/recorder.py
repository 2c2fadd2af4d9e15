"""A disk whose writes and flushes are recorded in order: a file that a process serves by FUSE, for a loop
device over it. It offers no forced writes (FUA), and does each step before it takes the next one."""

import ctypes
import dataclasses
import mmap
import os
import signal
import struct
from typing import IO, NoReturn, Sequence

from . import volumes

GET_ATTRIBUTES, SET_ATTRIBUTES, OPEN, READ, WRITTEN, STATFS = 3, 4, 14, 15, 16, 17
RELEASE, FSYNC, CLOSE, INIT, DESTROY, FALLOCATE = 18, 20, 25, 26, 38, 43
WITHOUT_ANSWER = (2, 36, 42)
NOT_SERVED = -38
HEAD, ANSWER, STEP = struct.Struct("=2I2Q4I"), struct.Struct("=IiQ"), struct.Struct("=3Q")
WRITE, ZEROS, FLUSH = 1, 2, 3
MOST_BYTES = 1 << 20
DIRECT_IO, BIG_WRITES, MAX_PAGES = 1, 1 << 5, 1 << 22
DIES_WITH_PARENT = 1
#: The parts of an answer.
Parts = Sequence[bytes]
libc = ctypes.CDLL(None, use_errno=True)


@dataclasses.dataclass(frozen=True)
class Step:
    kind: int
    at: int
    size: int
    bytes_: bytes


def read_record(path: str) -> list[Step]:
    with open(path, "rb") as file:
        text = file.read()
    steps: list[Step] = []
    place = 0
    while place < len(text):
        kind, at, size = STEP.unpack_from(text, place)
        place += STEP.size
        length = size if kind == WRITE else 0
        steps.append(Step(kind, at, size, text[place : place + length]))
        place += length
    return steps


class Server:
    """Answers the kernel. The mounted root is the file itself, so there are no names."""

    def __init__(self, device: int, image: str, record: IO[bytes], count: mmap.mmap) -> None:
        self.device, self.record, self.count = device, record, count
        self.size = os.path.getsize(image)
        with open(image, "r+b") as file:
            self.disk = mmap.mmap(file.fileno(), self.size)

    def serve(self) -> None:
        while True:
            try:
                asked = os.read(self.device, MOST_BYTES + 4096)
            except OSError:
                return
            _, kind, unique, *_ = HEAD.unpack_from(asked)
            if kind not in WITHOUT_ANSWER:
                parts = self.answer(kind, memoryview(asked)[HEAD.size :])
                error = NOT_SERVED if parts is None else 0
                size = ANSWER.size + sum(map(len, parts or []))
                os.writev(self.device, [ANSWER.pack(size, error, unique), *(parts or [])])
            if kind == DESTROY:
                return

    def answer(self, kind: int, asked: memoryview) -> Parts | None:
        """The parts of an answer; None for a request that a disk doesn't need."""
        if kind == INIT:
            _, _, ahead, flags = struct.unpack_from("=4I", asked)
            limits = (16, 12, MOST_BYTES, 1, MOST_BYTES // 4096, 0, 0, 0)
            known = flags & (BIG_WRITES | MAX_PAGES)
            return [struct.pack("=4I2H2I2H2I24x", 7, 31, ahead, known, *limits)]
        if kind in (GET_ATTRIBUTES, SET_ATTRIBUTES):
            sizes = (1, self.size, self.size // 512)
            found = struct.pack("=3Q36x2I12xI4x", *sizes, 0o100600, 1, 4096)
            return [struct.pack("=Q2I", 3600, 0, 0), found]
        if kind == OPEN:
            return [struct.pack("=Q2I", 0, DIRECT_IO, 0)]
        if kind == STATFS:
            return [struct.pack("=5Q4I24x", self.size // 4096, 0, 0, 1, 0, 4096, 255, 4096, 0)]
        if kind == READ:
            _, at, size = struct.unpack_from("=2QI", asked)
            return [self.disk[at : at + size]]
        if kind in (WRITTEN, FALLOCATE, FSYNC):
            return self.take_step(kind, asked)
        return [] if kind in (RELEASE, CLOSE, DESTROY) else None

    def take_step(self, kind: int, asked: memoryview) -> Parts:
        """Record a step and do it. What is discarded becomes zeros."""
        if kind == FSYNC:
            self.note(FLUSH, 0, 0, b"")
            return []
        _, at, size = struct.unpack_from("=3Q" if kind == FALLOCATE else "=2QI", asked)
        if kind == FALLOCATE:
            self.note(ZEROS, at, size, b"")
            self.disk[at : at + size] = bytes(size)
            return []
        bytes_ = asked[40 : 40 + size]
        self.note(WRITE, at, size, bytes_)
        self.disk[at : at + size] = bytes_
        return [struct.pack("=2I", size, 0)]

    def note(self, kind: int, at: int, size: int, bytes_: bytes | memoryview) -> None:
        self.record.write(STEP.pack(kind, at, size))
        self.record.write(bytes_)
        struct.pack_into("=Q", self.count, 0, struct.unpack_from("=Q", self.count)[0] + 1)


class Recorder:
    """A disk that is served from an image, which keeps what is written."""

    def __init__(self, folder: str, image: str) -> None:
        self.file, self.record = os.path.join(folder, "disk"), os.path.join(folder, "record")
        open(self.file, "w").close()
        self.count = mmap.mmap(-1, 8)
        device = os.open("/dev/fuse", os.O_RDWR)
        options = f"fd={device},rootmode=100600,user_id=0,group_id=0"
        if libc.mount(b"power_lost", self.file.encode(), b"fuse", 0, options.encode()) != 0:
            raise volumes.Failed(f"FUSE can't mount it: {os.strerror(ctypes.get_errno())}")
        self.server = os.fork()
        if self.server == 0:
            self.serve(device, image)
        os.close(device)

    def serve(self, device: int, image: str) -> NoReturn:
        try:
            libc.prctl(DIES_WITH_PARENT, signal.SIGKILL)
            for kind in (signal.SIGINT, signal.SIGTERM):
                signal.signal(kind, signal.SIG_IGN)
            with open(self.record, "wb") as record:
                Server(device, image, record, self.count).serve()
        finally:
            os._exit(0)

    def position(self) -> int:
        return int(struct.unpack_from("=Q", self.count)[0])

    def stop(self) -> list[Step]:
        volumes.patiently("umount", self.file)
        os.waitpid(self.server, 0)
        return read_record(self.record)
