"""The journal: the file of a desk's numbers, and beside it the file of the caller's own keys."""
from __future__ import annotations

import contextlib
import fcntl
import json
import os
import time
from typing import Any, Dict, NamedTuple, Optional

from .answers import compact
from .errors import BadJournal, FileFailed, JournalInUse
from .results import Request
from .spelling import Json, whole

#: The names of a journal's record. Earlier journals have the first five.
EARLIER = {"desk", "next", "open", "last", "bookmark"}
NAMES = {*EARLIER, "abandoned", "keyed"}
#: What every request in it has. One that was made by this version has a "key" too.
REQUEST = {"number", "sent", "path", "fields", "bookmark"}


def is_record(record: object) -> bool:
    """Whether it has the form of a journal's record."""
    if (
        not isinstance(record, dict)
        or set(record) not in (EARLIER, NAMES)
        or type(record["desk"]) is not int
        or type(record["next"]) is not int
    ):
        return False
    requests = [record[name] for name in ("open", "last") if record[name] is not None] + list(
        record.get("abandoned", ())
    )
    return all(isinstance(request, dict) and REQUEST <= set(request) for request in requests)


class Journal:
    """The file of a desk's numbers. Every change is a new file, which is whole on the disk before it takes the old one's name.

    The path is resolved first, so that two paths to one journal have one lock. A journal with two names (a hard link) is refused: a change would part them.

    If a change is interrupted (by Ctrl-C, a signal or the disk), the record stays as it was, and `restore` gives it back to the file.
    """

    lock, process = -1, 0

    def __init__(self, path: str, desk: Optional[int]) -> None:
        self.lock, self.process, self.is_written = -1, os.getpid(), True
        self.path = os.path.realpath(path)
        try:
            self.take_lock(path)
            self.record = self.begun(desk)
            self.keys = Keys(f"{self.path}.keys", self.record["keyed"])
            self.settled()
        except OSError as failure:
            self.unlock()
            raise FileFailed(f"the journal {self.path} can't be used: {failure}") from failure
        except BaseException:
            self.unlock()
            raise

    def __del__(self) -> None:
        """Gives the lock back if an interruption lost the Counter before it was closed. In a forked process it would take the lock from the parent."""
        if self.process == os.getpid():
            self.unlock()

    def take_lock(self, path: str) -> None:
        """Takes the lock: the file NAME.lock, as long as it has that name."""
        name = self.path + ".lock"
        while True:
            self.lock = os.open(name, os.O_RDWR | os.O_CREAT | os.O_CLOEXEC, 0o600)
            try:
                fcntl.flock(self.lock, fcntl.LOCK_EX | fcntl.LOCK_NB)
            except BlockingIOError:
                raise JournalInUse(f"another process has the journal {path}") from None
            with contextlib.suppress(FileNotFoundError):
                if os.path.samestat(os.fstat(self.lock), os.stat(name)):
                    return
            self.unlock()

    def unlock(self) -> None:
        """Gives the lock back, also from processes that were forked from this one."""
        if self.lock >= 0:
            fcntl.flock(self.lock, fcntl.LOCK_UN)
            lock, self.lock = self.lock, -1
            os.close(lock)

    def begun(self, desk: Optional[int]) -> Json:
        """Reads the file, or makes a new desk's record. Its first number is the time in milliseconds: above every number that the desk has reached by counting up from
        an earlier time."""
        try:
            with open(self.path, encoding="utf-8") as file:
                if os.fstat(file.fileno()).st_nlink > 1:
                    raise BadJournal(
                        f"{self.path} has a second name (a hard link): the two would part"
                    )
                record = json.load(file)
        except FileNotFoundError:
            if desk is None:
                raise BadJournal(
                    f"there is no journal {self.path}; a new one needs the number of its desk"
                ) from None
            record = {
                "desk": whole(desk, 0, 999, "a desk"),
                "next": time.time_ns() // 1_000_000,
                "open": None,
                "last": None,
                "bookmark": None,
            }
            self.write(record)
        except ValueError:
            raise BadJournal(f"{self.path} is no journal") from None
        if not is_record(record):
            raise BadJournal(f"{self.path} is no journal")
        if desk is not None and record["desk"] != desk:
            raise BadJournal(
                f"{self.path} is the journal of desk {record['desk']}, and not of desk {desk}"
            )
        return {"abandoned": [], "keyed": 0, **record}

    def change(self, **changes: Any) -> None:
        """Writes the record with these changes. FileFailed if it can't be written. After any error the record is as it was."""
        record = {**self.record, **changes}
        self.is_written = False
        try:
            self.write(record)
            self.record = record
            self.is_written = True
        except BaseException as failure:
            self.is_written = False
            with contextlib.suppress(OSError):
                self.restore()
            if isinstance(failure, OSError):
                raise FileFailed(
                    f"the journal {self.path} can't be written: {failure}"
                ) from failure
            raise

    def drop(self) -> None:
        """Writes that the open request ended, and that nothing was done. It ended also if that can't be written: `mend`, or `close`, writes it then."""
        dropped = {**self.record, "open": None}
        try:
            self.change(open=None)
        except BaseException:
            self.record, self.is_written = dropped, False
            raise

    def restore(self) -> None:
        """After a change that was interrupted: writes the record, if the file has another one. The file may have got the changed one before the interruption."""
        if not self.is_written:
            with open(self.path, encoding="utf-8", errors="replace") as file:
                found = file.read()
            if found != compact(self.record) + "\n":
                self.write(self.record)
            self.is_written = True

    def mend(self) -> None:
        """Before an act: ends what an interruption left."""
        try:
            self.restore()
        except OSError as failure:
            raise FileFailed(f"the journal {self.path} can't be written: {failure}") from failure
        self.settled()

    def settled(self) -> Json:
        """The record. If the reply to the open request is in the file of keys, and not yet in the journal, the request is done; the next change writes it."""
        still = self.record["open"]
        kept = (
            None if still is None or still.get("key") is None else self.keys.kept.get(still["key"])
        )
        if still is not None and kept is not None and kept.number == still["number"]:
            self.record = self.with_reply(still, kept.reply)
        return self.record

    def with_reply(self, request: Json, reply: Json) -> Json:
        """The record once a request has its reply. A refusal leaves the bookmark as it was."""
        is_marked = "refused" not in reply and request["bookmark"] is not None
        bookmark = request["bookmark"] if is_marked else self.record["bookmark"]
        return {
            **self.record,
            "open": None,
            "last": {**request, "reply": reply},
            "bookmark": bookmark,
            "keyed": self.keys.size,
        }

    def write(self, record: Json) -> None:
        """Writes a record whole, and then gives it the journal's name."""
        new = self.path + ".new"
        file = os.open(new, os.O_WRONLY | os.O_CREAT | os.O_TRUNC | os.O_CLOEXEC, 0o600)
        with os.fdopen(file, "w", encoding="utf-8") as stream:
            stream.write(compact(record) + "\n")
            stream.flush()
            os.fsync(stream.fileno())
        os.replace(new, self.path)
        folder = os.open(os.path.dirname(self.path), os.O_RDONLY)
        try:
            os.fsync(folder)
        finally:
            os.close(folder)

    def request_of(self, kept: Json) -> Request:
        """The request that a record of it stands for."""
        return Request(
            self.record["desk"],
            kept["number"],
            kept["path"],
            kept["fields"],
            kept["sent"],
            kept.get("key"),
            kept["bookmark"],
        )

    def close(self) -> None:
        """Closes the files, and gives the lock back. A second call does nothing, or what an interruption of the first one left."""
        if self.lock >= 0:
            with contextlib.suppress(OSError):
                self.restore()
        self.keys.close()
        self.unlock()


class Kept(NamedTuple):
    """What a key stands for: a request, and its reply."""

    number: int
    path: str
    fields: Json
    reply: Json


class Keys:
    """The keys whose requests have their reply: the file NAME.keys, of one JSON object in a line. It is created with the first key.

    A line is on the disk before the journal says that its request is done. After a stop in between, the journal takes the reply from the line. The journal knows how
    many bytes of the file it relies on (`keyed`). A shorter file is refused. What a loss of power left after them, and is no line, is taken off.

    `size` is the position at which the next line is written. What an interrupted write left there is taken off.
    """

    def __init__(self, path: str, keyed: int) -> None:
        self.path, self.file = path, -1
        self.kept: Dict[str, Kept] = {}
        self.size = 0
        if os.path.exists(path):
            self.read(keyed)
        if self.size < keyed:
            raise BadJournal(
                f"{path} lacks keys that its journal relies on: it was cut, or left behind when the journal was moved"
            )
        if self.size > keyed:
            os.fsync(self.opened())

    def read(self, keyed: int) -> None:
        """Reads the lines. A last line without an end, as a stop leaves it, isn't counted."""
        with open(self.path, "rb") as file:
            lines = file.read().split(b"\n")[:-1]
        for line in lines:
            try:
                value = json.loads(line)
                key, kept = str(value["key"]), Kept(
                    value["number"], value["path"], value["fields"], value["reply"]
                )
            except (ValueError, TypeError, KeyError):
                if self.size >= keyed:
                    return
                raise BadJournal(f"{self.path} isn't as it was written: {line[:60]!r}") from None
            self.kept[key] = kept
            self.size += len(line) + 1

    def opened(self) -> int:
        """Opens the file, or creates it."""
        if self.file < 0:
            self.file = os.open(self.path, os.O_RDWR | os.O_CREAT | os.O_CLOEXEC, 0o600)
        return self.file

    def add(self, key: str, request: Json, reply: Json) -> None:
        """Writes a key with its reply. FileFailed if that fails. After any error the key isn't kept, and its line is taken off."""
        kept = Kept(request["number"], request["path"], request["fields"], reply)
        line = compact({"key": key, **kept._asdict()}).encode() + b"\n"
        before = self.size
        try:
            os.ftruncate(self.opened(), before)
            if os.pwrite(self.file, line, before) != len(line):
                raise OSError("the line was cut")
            os.fsync(self.file)
            self.kept[key] = kept
            self.size = before + len(line)
        except BaseException as failure:
            self.kept.pop(key, None)
            self.size = before
            with contextlib.suppress(OSError):
                os.ftruncate(self.opened(), before)
            if isinstance(failure, OSError):
                raise FileFailed(f"{self.path} can't be written: {failure}") from failure
            raise

    def close(self) -> None:
        """Closes the file."""
        if self.file >= 0:
            file, self.file = self.file, -1
            os.close(file)
