"""The archive of requests, as README.md has it, and reading a store without touching it.

The scripts beside this module share it. It needs Python's standard library alone, on Linux."""
from __future__ import annotations

import collections
import contextlib
import datetime
import fcntl
import hashlib
import json
import os
import re
import shlex
import shutil
import sqlite3
import struct
import subprocess
import sys
import tempfile
import time
from pathlib import Path
from typing import IO, Any, Callable, Iterable, Iterator, NamedTuple, NoReturn, Sequence

LINES, END, FIRST = "requests.jsonl", "end.json", "first.db"
#: The files of a copy of a store: their names in an archive's first line, and how they end.
PARTS = (("file", ""), ("log", "-wal"))
#: What a text raises that is no JSON, or not the one that is wanted.
UNREADABLE = (ValueError, KeyError, TypeError, AttributeError, RecursionError)
#: With this the names of folders begin in which a copy of a store is read.
READ = "counter-read-"
FRONT = rb'\{"before":"([0-9a-f]{64})","time":"(\d{4}-\d\d-\d\dT\d\d:\d\d:\d\d\.\d{3}Z)",'
KEY = rb'"desk":(\d{1,3}),"number":([1-9]\d*),"act":(\{.*?\})'
LINE = re.compile(FRONT + rb'"row":([1-9]\d*),' + KEY + rb',"reply":(\{.*\})\}')
#: The bytes of a read, and of an archive's end.
BLOCK, NEAR_END = 1 << 20, 1 << 18


class Refused(Exception):
    """A store, an archive or a log isn't as it has to be, and no further try can help."""


class Busy(OSError):
    """Another process uses it, or what is asked doesn't answer. That may pass."""


class Request(NamedTuple):
    """A kept request: `row` is its row in `answers`, and `time` when the archive had it."""

    row: int
    desk: int
    number: int
    act: str
    reply: str
    time: str = ""


#: The first line of an archive, or what its end.json says: the keys that docs/FORMATS.md names.
Texts = dict[str, Any]


def alert(text: object) -> None:
    """Says why a unit ends for good, with the priority by which `call_somebody` finds it."""
    print(f"{'<2>' if 'JOURNAL_STREAM' in os.environ else ''}{text}", file=sys.stderr, flush=True)


def tell(text: object) -> None:
    print(text, file=sys.stderr, flush=True)


def status_of(name: str, run: Callable[[], int]) -> int:
    """Runs a script. Status 1: no further try can help. 3: a file, SQLite or a command failed."""
    try:
        return run()
    except Refused as fault:
        alert(f"{name}: {fault}")
        return 1
    except (OSError, sqlite3.Error) as fault:
        tell(f"{name}: {fault}")
        return 3
    except KeyboardInterrupt:
        return 0


def repeat(name: str, seconds: float, turn: Callable[[], object]) -> NoReturn:
    """Does a turn every few seconds. What fails is reported once, and tried again."""
    met = ""
    while True:
        begun, fault = time.monotonic(), ""
        try:
            turn()
        except (OSError, sqlite3.Error) as failed:
            fault = str(failed)
        if fault != met:
            tell(f"{name}: " + (f"fails, and tries again: {fault}" if fault else "works again"))
        met = fault
        time.sleep(max(0.0, seconds - (time.monotonic() - begun)))


def now() -> str:
    return datetime.datetime.now(datetime.timezone.utc).strftime("%Y-%m-%dT%H:%M:%S.%f")[:-3] + "Z"


def checksum(line: bytes) -> str:
    return hashlib.sha256(line).hexdigest()


def compact(value: object) -> str:
    return json.dumps(value, separators=(",", ":"))


def file_checksum(path: str) -> str:
    digest = hashlib.sha256()
    with open(path, "rb") as file:
        while block := file.read(BLOCK):
            digest.update(block)
    return digest.hexdigest()


def line_of(before: str, request: Request) -> bytes:
    """The line of a request, without its line feed."""
    front = f'{{"before":"{before}","time":"{request.time}","row":{request.row}'
    key = f'"desk":{request.desk},"number":{request.number}'
    line = f'{front},{key},"act":{request.act},"reply":{request.reply}}}'.encode()
    if b"\n" in line or request_in(line)[1] != request:
        raise Refused(f"row {request.row} has a text that isn't an act or a reply")
    return line


def request_in(line: bytes) -> tuple[str, Request | None]:
    """The checksum that a line names, and its request; None if it isn't a line of an archive."""
    found = LINE.fullmatch(line)
    if found is None or not line.isascii():
        return "", None
    before, time, row, desk, number, act, reply = (part.decode() for part in found.groups())
    return before, Request(int(row), int(desk), int(number), act, reply, time)


def chained(file: IO[bytes], row: int, before: str) -> Iterator[tuple[Request, str, int]]:
    """The next lines' requests that follow `row`, with their checksums, and where each ends."""
    at = file.tell()
    for line in file:
        named, request = request_in(line[:-1])
        is_next = request is not None and (named, request.row) == (before, row + 1)
        if request is None or not is_next or not line.endswith(b"\n"):
            return
        row, before, at = row + 1, checksum(line[:-1]), at + len(line)
        yield request, before, at


def lock(folder: str) -> None:
    """Keeps other writers from the folder until this process ends."""
    try:
        fcntl.flock(os.open(folder, os.O_RDONLY), fcntl.LOCK_EX | fcntl.LOCK_NB)
    except BlockingIOError:
        raise Busy(f"another process writes {folder}") from None


def sync_folder(folder: str) -> None:
    handle = os.open(folder, os.O_RDONLY)
    try:
        os.fsync(handle)
    finally:
        os.close(handle)


@contextlib.contextmanager
def replacing(path: str) -> Iterator[IO[bytes]]:
    """A new file `PATH.new`, which is whole on the disk before it takes the place of the old one."""
    with open(path + ".new", "wb") as file:
        yield file
        file.flush()
        os.fsync(file.fileno())
    os.replace(path + ".new", path)
    sync_folder(os.path.dirname(path) or ".")


def copied(source: contextlib.AbstractContextManager[IO[bytes]], target: str) -> str:
    """Copies a file that is read from, whole, and returns its checksum."""
    with source as read, replacing(target) as write:
        shutil.copyfileobj(read, write, BLOCK)
    return file_checksum(target)


def is_begun(folder: str) -> bool:
    """Tells whether a folder has an archive. Refuses one of which only the lines are missing."""
    names = sorted(os.listdir(folder))
    left = [name for name in names if not name.endswith(".new")]
    if LINES not in names and (END in names or (left and LINES + ".new" not in names)):
        lost = END if END in names else left[0]
        raise Refused(f"{folder} has {lost}, and no {LINES}: its lines were lost")
    return LINES in names


def head_in(line: bytes, where: str) -> Texts:
    with contextlib.suppress(*UNREADABLE):
        head: Texts = json.loads(line)
        is_head = list(head) == ["archive", "of", "id", "time", "row", "first"]
        is_ours = is_head and (head["archive"], head["of"]) == (1, "store")
        if is_ours and (compact(head) + "\n").encode() == line:
            return head
    raise Refused(f"{where}: line 1 isn't the first line of an archive")


def end_in(text: str, where: str) -> Texts:
    with contextlib.suppress(*UNREADABLE):
        end: Texts = json.loads(text)
        end["row"] + 0, end["checksum"] + "", end["time"] + ""
        return end
    raise Refused(f"{where} is missing, or says nothing")


class Archive:
    """An archive in its folder. `head` is its first line, and `end` what end.json says.

    As its lines are read, `last_row` and `last_checksum` become those of the last whole line. The
    line of `end` ends at byte `sealed`, the last whole one at `whole`, and `cut` stands behind."""

    last_row: int
    last_checksum: str
    sealed: int
    whole: int
    cut: bytes

    def __init__(self, folder: str) -> None:
        self.folder, self.path = folder, os.path.join(folder, LINES)
        if not is_begun(folder):
            raise FileNotFoundError(f"there is no archive in {folder}")
        with open(self.path, "rb") as file:
            self.head_line = file.readline()
            self.is_new = not file.read(1)
        self.head, path = head_in(self.head_line, folder), os.path.join(folder, END)
        row, found = self.head["row"], checksum(self.head_line[:-1])
        self.end: Texts = {"row": row, "checksum": found, "time": self.head["time"]}
        if not self.is_new or os.path.exists(path):
            try:
                self.end = end_in(Path(path).read_text("ascii", "replace"), path)
            except FileNotFoundError:
                raise Refused(f"{path} is missing") from None

    def checked(self, near_end: bool = False) -> Iterator[tuple[Request, str]]:
        """Yields request and checksum of every line, or of the last ones, and tests them."""
        row, before, at = self.head["row"], checksum(self.head_line[:-1]), len(self.head_line)
        self.sealed, self.cut = 0, b""
        with open(self.path, "rb") as file:
            start = file.seek(0, os.SEEK_END) - NEAR_END
            if near_end and start > at:
                file.seek(start)
                at = start + len(file.readline())
                before, first = request_in(file.readline()[:-1])
                if first is None:
                    yield from self.checked()
                    return
                row = first.row - 1
            file.seek(at)
            self.mark(row, before, at)
            for request, before, at in chained(file, row, before):
                row = request.row
                self.mark(row, before, at)
                yield request, before
            file.seek(at)
            rest = file.readline()
        self.last_row, self.last_checksum, self.whole = row, before, at
        if rest.endswith(b"\n"):
            where = f"{self.folder}: the line behind row {row}"
            raise Refused(f"{where} isn't the one that was written")
        self.cut, wanted = rest, self.end
        if row < wanted["row"] or not (self.sealed or near_end):
            had = f"had {wanted['row']} rows on {wanted['time']}"
            raise Refused(f"{self.folder}: it ends with row {row}, and {had}")

    def mark(self, row: int, found: str, at: int) -> None:
        if row == self.end["row"]:
            self.sealed = at
            if found != self.end["checksum"]:
                raise Refused(f"{self.folder}: row {row} isn't the one that {END} names")

    def check(self) -> None:
        """Tests every line, and the first copy."""
        collections.deque(self.checked(), 0)
        self.first()

    def last(self, most: int = 1) -> list[Request]:
        """The last requests."""
        found = collections.deque(self.checked(near_end=True), most)
        found = found if self.sealed else collections.deque(self.checked(), most)
        return [request for request, _ in found]

    def compare(self, store: Store, most: int = 1) -> int:
        """Refuses a store that isn't what the archive ends with. Returns how many it has more."""
        last, has = self.last(most), store.last()
        refuse_fewer(has, self.last_row, self.folder)
        refuse_differing(store, last[0].row - 1 if last else has, last, self.folder)
        return has - self.last_row

    def checksum_of(self, row: int) -> str | None:
        """The checksum of a row's line, None if the archive doesn't reach it."""
        if row in (self.head["row"], self.last_row):
            return self.last_checksum if row == self.last_row else checksum(self.head_line[:-1])
        for near_end in (True, False) if row < self.last_row else ():
            for request, found in self.checked(near_end):
                if request.row == row:
                    return found
        return None

    def first(self) -> str | None:
        """The file of the first copy, once its checksums are tested; None if there is none."""
        path, sums = os.path.join(self.folder, FIRST), self.head["first"]
        for part, end in PARTS if sums else ():
            found = file_checksum(path + end) if os.path.exists(path + end) else None
            if sums and found != sums[part]:
                raise Refused(f"{path}{end} isn't the file with which the archive begins")
        return path if sums else None

    def rows(self, room: str) -> Iterator[Request]:
        """All requests from row 1 on. The first copy is read in the folder `room`."""
        first = self.first()
        if first is not None:
            with opened(first, room=room) as store:
                yield from store.requests()
        yield from (request for request, _ in self.checked())

    def cut_back(self) -> None:
        """Takes off what a stop or a full disk left behind the line that end.json names."""
        if os.path.getsize(self.path) > self.sealed:
            os.truncate(self.path, self.sealed)
        self.last_row, self.last_checksum = self.end["row"], self.end["checksum"]
        self.whole, self.cut = self.sealed, b""

    def seal(self) -> None:
        """Writes end.json before the first line is written behind the head."""
        if self.is_new:
            self.say_end(self.end["row"], self.end["checksum"], self.end["time"])

    def say_end(self, row: int, found: str, time: str) -> None:
        self.end = {"row": row, "checksum": found, "time": time}
        with replacing(os.path.join(self.folder, END)) as file:
            file.write((compact(self.end) + "\n").encode())
        self.last_row, self.last_checksum = row, found


def begin(folder: str, row: int, first: str | None, time: str) -> Archive:
    """Begins an archive in an empty folder, with a copy of the store at `first` if there is one."""
    with replacing(os.path.join(folder, LINES)) as file:
        sums: dict[str, str | None] = {}
        for part, end in PARTS if first else ():
            is_there, target = os.path.exists(f"{first}{end}"), os.path.join(folder, FIRST + end)
            sums[part] = copied(open(f"{first}{end}", "rb"), target) if is_there else None
        head: Texts = {"archive": 1, "of": "store", "id": os.urandom(16).hex(), "time": time}
        file.write((compact({**head, "row": row, "first": sums or None}) + "\n").encode())
    return Archive(folder)


class Source:
    """An archive that is read by `tail`: here, or on another machine by the command `over`."""

    def __init__(self, folder: str, over: Sequence[str] = ()) -> None:
        self.folder, self.over = folder, over
        with self.read(END) as file:
            text = file.read().decode("ascii", "replace")
        self.end = end_in(text, os.path.join(folder, END))

    @contextlib.contextmanager
    def read(self, name: str, start: int = 0) -> Iterator[IO[bytes]]:
        """The bytes of a file from `start` on. Raises OSError if the command failed."""
        words = ["tail", "-c", f"+{start + 1}", os.path.join(self.folder, name)]
        command = [*self.over, shlex.join(words)] if self.over else words
        nothing, pipe = subprocess.DEVNULL, subprocess.PIPE
        with subprocess.Popen(command, stdin=nothing, stdout=pipe) as process:
            assert process.stdout is not None
            try:
                yield process.stdout
                if not process.stdout.read(1) and (status := process.wait()) != 0:
                    what = f"{name} of {self.folder} can't be read"
                    raise OSError(f"{what}: the command ended with status {status}")
            finally:
                process.kill()


def begin_as(source: Source, folder: str) -> Archive:
    """Begins an archive in an empty folder as another one began."""
    with source.read(LINES) as lines:
        line = lines.readline()
    first = head_in(line, source.folder)["first"] or {}
    with replacing(os.path.join(folder, LINES)) as file:
        for name, wanted in ((FIRST + end, first.get(part)) for part, end in PARTS):
            if wanted and copied(source.read(name), os.path.join(folder, name)) != wanted:
                what = f"{name} of {source.folder}"
                raise Refused(f"{what} isn't the file with which the archive begins")
        file.write(line)
    return Archive(folder)


def bring(source: Source, folder: str) -> Archive:
    """Appends what `source` has more, up to the row that its end.json names. All lines are verified
    before the first is appended. Until then they are in a file of their own, which a broken
    connection leaves for the next time. Refuses a source that has less, or that was changed."""
    archive = Archive(folder) if is_begun(folder) else begin_as(source, folder)
    archive.last()
    archive.seal()
    end, part = source.end, archive.path + ".part"
    if end["row"] < archive.last_row:
        less = f"{source.folder} has {end['row']} requests, and {folder} {archive.last_row}"
        raise Refused(f"{less}: {source.folder} was taken back")
    with open(part, "a+b") as file:
        row, found = reached(archive, file, end["row"])
        if row < end["row"]:
            with source.read(LINES, archive.whole + file.tell()) as lines:
                shutil.copyfileobj(lines, file, BLOCK)
            row, found = reached(archive, file, end["row"])
        file.seek(0)
        is_behind = file.read(len(archive.cut)) == archive.cut or row == archive.last_row
        if (row, found) != (end["row"], end["checksum"]) or not is_behind:
            os.remove(part)
            what = f"{source.folder} doesn't go on from row {row} of {folder}"
            raise Refused(f"{what} to the row {end['row']} of its {END}: it was changed")
        with open(archive.path, "ab") as target:
            shutil.copyfileobj(file, target, BLOCK)
            target.flush()
            os.fsync(target.fileno())
    archive.say_end(row, found, end["time"])
    os.remove(part)
    return archive


def reached(archive: Archive, file: IO[bytes], most: int) -> tuple[int, str]:
    """The last row of a file's lines that follow an archive, up to `most`. Takes off the others."""
    row, found, at = archive.last_row, archive.last_checksum, 0
    file.seek(0)
    for request, checksum, end in chained(file, row, found) if row < most else ():
        row, found, at = request.row, checksum, end
        if row == most:
            break
    file.truncate(at)
    file.seek(at)
    return row, found


class Store:
    """A store that is read by SQLite, from a copy of its file and its log."""

    def __init__(self, books: sqlite3.Connection) -> None:
        self.books = books
        tables = [name for (name,) in self.ask("SELECT name FROM sqlite_schema")]
        self.is_new = not tables
        if tables and "answers" not in tables:
            first = "Let any command of the program open a store of version 1 first"
            raise Refused(f"it isn't a store of version 2. {first}")

    def ask(self, statement: str, *values: Any) -> list[tuple[Any, ...]]:
        return self.books.execute(statement, values).fetchall()

    def last(self) -> int:
        most = "SELECT ifnull(max(rowid), 0) FROM answers"
        return 0 if self.is_new else int(self.ask(most)[0][0])

    def count(self) -> int:
        """How many requests are kept. Rows are numbered from 1 on, and none is taken out."""
        rows = 0 if self.is_new else self.ask("SELECT count(*) FROM answers")[0][0]
        if rows != self.last():
            raise Refused(f"the store has {rows} requests, and its last row is {self.last()}")
        return int(rows)

    def requests(self, above: int = 0) -> Iterator[Request]:
        wanted = "SELECT rowid, desk, number, act, reply FROM answers WHERE rowid > ? ORDER BY 1"
        for row in () if self.is_new else self.books.execute(wanted, (above,)):
            yield Request(*row)

    def reply(self, desk: int, number: int) -> str | None:
        found = self.ask("SELECT reply FROM answers WHERE desk = ? AND number = ?", desk, number)
        return found[0][0] if found else None


def refuse_fewer(has: int, row: int, where: str) -> None:
    if has < row:
        missing = f"{row - has} that were done are missing, and what they paid could be paid again"
        raise Refused(f"the store has {has} requests, and {where} has {row}: {missing}")


def refuse_differing(store: Store, above: int, wanted: Iterable[Request], where: str) -> None:
    """Refuses a store whose rows above one aren't those of an archive, as far as both go."""
    for held, one in zip(store.requests(above), wanted):
        if held[:5] != one[:5]:
            both = f"{held.desk}/{held.number} in the store and {one.desk}/{one.number} in {where}"
            differ = "or their texts differ: it has another history"
            raise Refused(f"row {one.row} is {both}, {differ}")


@contextlib.contextmanager
def read_here(path: str, how: str = "mode=ro") -> Iterator[Store]:
    """Reads a store in a snapshot or a copy: SQLite puts its index of the log beside it."""
    with contextlib.closing(sqlite3.connect(f"file:{path}?{how}", uri=True)) as books:
        try:
            yield Store(books)
        except sqlite3.OperationalError:
            raise
        except sqlite3.DatabaseError as fault:
            raise Refused(f"SQLite can't read it: {fault}") from None


@contextlib.contextmanager
def opened(path: str, room: str | None = None) -> Iterator[Store]:
    """Reads a store that no process uses, from a copy of both files in `room`, or beside it."""
    refuse_use(path)
    beside = os.path.dirname(os.path.abspath(path))
    with tempfile.TemporaryDirectory(prefix=READ, dir=room or beside) as folder:
        for _, end in PARTS:
            if os.path.exists(path + end):
                copy(path + end, f"{folder}/store{end}")
        with read_here(f"{folder}/store") as store:
            yield store


def copy(path: str, target: str) -> None:
    """Copies a file, by reflink if the file system can."""
    words = ["cp", "--reflink=auto", "--", path, target]
    ran = subprocess.run(words, stderr=subprocess.PIPE, text=True)
    if ran.returncode != 0:
        raise OSError(f"{path} can't be copied: {ran.stderr.strip()}")


def refuse_use(path: str) -> None:
    """Raises Busy if another process has a lock on the store."""
    with open(path, "rb") as file:
        asked = struct.pack("hhqqi", fcntl.F_WRLCK, os.SEEK_SET, 0, 0, 0)
        found = struct.unpack("hhqqi", fcntl.fcntl(file, fcntl.F_GETLK, asked))
    if found[0] != fcntl.F_UNLCK:
        raise Busy(f"another process uses {path}")


def refuse_older_log(path: str, together: int) -> None:
    """Refuses a file that has more requests alone than `together` with the log beside it."""
    alone = 0
    with contextlib.suppress(Refused, sqlite3.Error):
        if os.path.exists(path + "-wal"):
            with read_here(path, "immutable=1") as store:
                alone = store.last()
    if alone > together:
        both = f"the file has {alone} requests, and with the log beside it {together}"
        older = "the log is of an earlier moment. Put both files of one copy there, or restore"
        raise Refused(f"{both}: {older}")
