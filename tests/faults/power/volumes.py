"""File systems in files: creating, copying, mounting over a loop device, unmounting."""

import ctypes
import os
import subprocess
import time

NO_LAZY = "lazy_itable_init=0,lazy_journal_init=0,nodiscard"
MAKERS = {
    "ext4": (192, ["mkfs.ext4", "-q", "-F", "-b", "4096", "-E", NO_LAZY]),
    "xfs": (320, ["mkfs.xfs", "-q", "-f", "-K"]),
    "btrfs": (256, ["mkfs.btrfs", "-q", "-f", "-K"]),
}
# The superblock, which a file system supposes to arrive whole, as a range of bytes. That of xfs is
# one sector.
SUPERBLOCKS = {"ext4": (0, 4096), "xfs": (0, 512), "btrfs": (65536, 69632)}
# What repairs a file system whose superblock was torn.
REPAIRS = {"ext4": ["e2fsck", "-f", "-y"], "xfs": ["xfs_repair"]}
REPAIRS |= {"btrfs": ["btrfs", "rescue", "super-recover", "-y"]}
SECONDS = 60
BLOCK = 65536
PUNCH_HOLE, KEEP_SIZE = 2, 1
PLACES = os.environ.get("PATH", "") + ":/usr/sbin:/sbin"
libc = ctypes.CDLL(None, use_errno=True)
libc.fallocate.argtypes = [ctypes.c_int, ctypes.c_int, ctypes.c_long, ctypes.c_long]


class Failed(Exception):
    """Something that the test needs of the machine failed."""


class NotMounted(Exception):
    """The kernel refused to mount an image, even after a repair."""


def command(*words: str) -> tuple[int, str]:
    env, both = {**os.environ, "PATH": PLACES}, subprocess.STDOUT
    ran = subprocess.run(words, stdout=subprocess.PIPE, stderr=both, env=env)
    return ran.returncode, ran.stdout.decode(errors="replace").strip()


def done(*words: str) -> str:
    status, told = command(*words)
    if status:
        raise Failed(f"{' '.join(words)} ended with status {status}: {told}")
    return told


def make(kind: str, image: str) -> None:
    megabytes, words = MAKERS[kind]
    with open(image, "wb") as file:
        file.truncate(megabytes << 20)
    done(*words, image)


def copy(image: str, to: str) -> None:
    with open(image, "rb") as source, open(to, "wb") as target:
        size, at = os.fstat(source.fileno()).st_size, 0
        target.truncate(size)
        while (at := next_data(source.fileno(), at)) < size:
            part = os.pread(source.fileno(), BLOCK, at)
            if part.count(0) < len(part):
                os.pwrite(target.fileno(), part, at)
            at += len(part)


def next_data(file: int, at: int) -> int:
    try:
        return os.lseek(file, at, os.SEEK_DATA) // BLOCK * BLOCK
    except OSError:
        return os.fstat(file).st_size


def punch(file: int, at: int, size: int) -> None:
    if libc.fallocate(file, PUNCH_HOLE | KEEP_SIZE, at, size) != 0:
        raise OSError(ctypes.get_errno(), "fallocate")


def patiently(*words: str) -> str:
    until = time.time() + SECONDS
    while (ended := command(*words))[0]:
        if time.time() > until:
            raise Failed(f"{' '.join(words)} ended with status {ended[0]}: {ended[1]}")
        time.sleep(0.01)
    return ended[1]


class Mounted:
    """An image that is mounted over a loop device, for a `with`, and repaired if that is refused."""

    def __init__(self, kind: str, image: str, folder: str, options: str) -> None:
        self.kind, self.image, self.folder = kind, image, folder
        self.refusal: str | None = None
        self.options = ["-o", options] if options else []

    def __enter__(self) -> "Mounted":
        os.makedirs(self.folder, exist_ok=True)
        self.device = patiently("losetup", "--find", "--show", self.image)
        status, told = self.mount()
        if status:
            self.refusal = told
            _, repair = command(*REPAIRS[self.kind], self.device)
            status, told = self.mount()
        if status:
            self.detach()
            raise NotMounted(f"{told}; {' '.join(REPAIRS[self.kind])} told {repair}")
        return self

    def mount(self) -> tuple[int, str]:
        return command("mount", "-t", self.kind, *self.options, self.device, self.folder)

    def __exit__(self, *_: object) -> None:
        patiently("umount", self.folder)
        self.detach()

    def detach(self) -> None:
        """Detach the loop device. btrfs would refuse an older image of a device that it knows."""
        if self.kind == "btrfs":
            command("btrfs", "device", "scan", "--forget", self.device)
        patiently("losetup", "--detach", self.device)
