"""The archive of a desk's requests: docs/FORMATS.md, "The archive of requests"."""
from __future__ import annotations

import datetime
import fcntl
import hashlib
import os
import re
from typing import Optional

from .answers import compact
from .errors import BadArchive, FileFailed, JournalInUse
from .spelling import Json

ACTS = {
    "/rates": "rates",
    "/bonds": "bonds",
    "/day/open": "open",
    "/redeem": "redeem",
    "/day/close": "close",
}
ARCHIVED = re.compile(
    rb'\{"before":"([0-9a-f]{64})","time":"[^"]+","desk":\d{1,3},"number":\d+,"act":\{.*\}\}'
)


def printed_rate(text: str) -> str:
    """A rate as the counter prints it."""
    whole_part, _, rest = text.rstrip("%").partition(".")
    return f"{int(whole_part)}.{rest:0<2}%"


def terms_of(row: Json) -> Json:
    """A row of rates as the counter keeps it: an extension that is the fixed rate isn't named."""
    kept = {"from": row["from"], "rate": printed_rate(row["rate"])}
    extension = printed_rate(row.get("extension", row["rate"]))
    return kept if extension == kept["rate"] else {"extension": extension, **kept}


def act_text(path: str, fields: Json) -> str:
    """The canonical text of the act that is asked for."""
    kept = fields
    if path == "/rates":
        kept = {"rates": [terms_of(row) for row in fields["rates"]]}
    elif path == "/bonds":
        kept = {"bonds": [dict(sorted(bond.items())) for bond in fields["bonds"]]}
    return compact({"act": ACTS[path], **dict(sorted(kept.items()))})


class Archive:
    """A file with every request before it is sent, and again with its reply. Every line names the checksum of the line before.

    `end` is the size of the file and its last line, as far as the lines are known to be on the disk. After an interrupted write both are read back.
    """

    file, process = -1, 0

    def __init__(self, path: str) -> None:
        self.file, self.process = -1, os.getpid()
        self.path = os.path.realpath(path)
        self.end = 0, b""
        try:
            self.file = os.open(
                self.path, os.O_RDWR | os.O_CREAT | os.O_APPEND | os.O_CLOEXEC, 0o600
            )
            try:
                fcntl.flock(self.file, fcntl.LOCK_EX | fcntl.LOCK_NB)
            except BlockingIOError:
                raise JournalInUse(f"another process has the archive {path}") from None
            self.test()
        except OSError as failure:
            self.close()
            raise FileFailed(f"the archive {self.path} can't be used: {failure}") from failure
        except BaseException:
            self.close()
            raise

    def __del__(self) -> None:
        """Gives the lock back if an interruption lost the Counter before it was closed. In a forked process it would take the lock from the parent."""
        if self.process == os.getpid():
            self.close()

    def test(self) -> None:
        """Reads the file, or begins it. A last line without an end, as a stop leaves it, is taken off."""
        with open(self.path, "rb") as file:
            lines = file.read().split(b"\n")
        rest, lines = lines[-1], lines[:-1]
        size = sum(len(line) + 1 for line in lines)
        if rest:
            os.ftruncate(self.file, size)
        if not lines:
            return self.write(
                compact(
                    {"archive": 1, "of": "desk", "id": os.urandom(16).hex(), "time": self.time()}
                ).encode()
            )
        if not lines[0].startswith(b'{"archive":1,"of":"desk",'):
            raise BadArchive(f"{self.path} is no archive of a desk")
        for count, (before, line) in enumerate(zip(lines, lines[1:]), 2):
            found = ARCHIVED.fullmatch(line)
            if found is None or found[1].decode() != hashlib.sha256(before).hexdigest():
                raise BadArchive(
                    f"{self.path}: line {count} doesn't follow line {count - 1}: one of them was changed, taken out or moved"
                )
        self.end = size, lines[-1]

    @staticmethod
    def time() -> str:
        """The time, in UTC."""
        return (
            datetime.datetime.now(datetime.timezone.utc).strftime("%Y-%m-%dT%H:%M:%S.%f")[:-3] + "Z"
        )

    def write(self, line: bytes) -> None:
        """Writes a line to the disk. FileFailed if that fails; `read_back` then mends the file."""
        try:
            if os.write(self.file, line + b"\n") != len(line) + 1:
                raise OSError("the line was cut")
            os.fsync(self.file)
        except OSError as failure:
            raise FileFailed(f"the archive {self.path} can't be written: {failure}") from failure
        self.end = self.end[0] + len(line) + 1, line

    def read_back(self) -> None:
        """Mends the end of the file after an interrupted write. A whole line is written once more, since it may not be on the disk. A part of one is taken off."""
        size = self.end[0]
        try:
            found = os.fstat(self.file).st_size
            if found == size:
                return
            line, is_whole, _ = os.pread(self.file, max(0, found - size), size).partition(b"\n")
            os.ftruncate(self.file, size)
        except OSError as failure:
            raise FileFailed(f"the archive {self.path} can't be mended: {failure}") from failure
        if is_whole:
            self.write(line)

    def add(self, desk: int, request: Json, reply: Optional[Json] = None) -> None:
        """Writes a request, with its reply if it has come."""
        self.read_back()
        before, act = hashlib.sha256(self.end[1]).hexdigest(), act_text(
            request["path"], request["fields"]
        )
        told = "" if reply is None else f',"reply":{compact(reply)}'
        text = f'{{"before":"{before}","time":"{self.time()}","desk":{desk},"number":{request["number"]},"act":{act}{told}}}'
        self.write(text.encode())

    def close(self) -> None:
        """Closes the file, and gives its lock back. A second call does nothing, or what an interruption of the first one left."""
        if self.file >= 0:
            fcntl.flock(self.file, fcntl.LOCK_UN)
            file, self.file = self.file, -1
            os.close(file)
