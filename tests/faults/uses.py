"""Wrong uses that need paths, stores, ports, streams or disks; and how a use is tried."""

import fcntl
import os
import shlex
import socket
import sqlite3
import subprocess
import threading
from collections.abc import Callable, Iterator
from contextlib import AbstractContextManager, closing, contextmanager, nullcontext, suppress
from dataclasses import dataclass
from pathlib import Path

from tests.faults import logs
from tests.shared.checksums import with_checksums
from tests.shared.counter_calls import free_port

#: Who runs the program if root runs the test, whom no permission stops.
NOBODY = 65534
RATES = b"from,rate\n2010-11,3.50\n"
BONDS = b"serial,denom,issued,owner,coowner\nL1EE,50,2010-11,7,\n"
FILES = {"rates": ("rates.csv", RATES), "inventory": ("bonds.csv", BONDS)}
#: The byte of a database file that SQLite locks for a reader, and how many it locks.
LOCKED_FROM, LOCKED = 1 << 30, 512
OTHER_LOG = logs.with_header(logs.made_log(1024, []), 4, logs.VERSION + 1) + bytes(24)
MESSAGE = b"GET /value/50/2010-11/2012-02 HTTP/1.1\r\n\r\n"


@dataclass(frozen=True)
class Ran:
    status: int
    printed: bytes
    said: str


@dataclass
class Streams:
    """A line's standard input, bytes or a descriptor, and its standard output."""

    given: bytes | int = b""
    output: int = subprocess.PIPE
    is_closed: bool = False


class Counter:
    """The program in a folder of its own, run as a user whom permissions stop."""

    def __init__(self, program: Path, folder: Path) -> None:
        self.program, self.folder = program, folder
        self.environment = dict(os.environ)

    def run(self, words: list[str | bytes], streams: Streams = Streams()) -> Ran:
        """A shell starts it without standard output if that is closed."""
        start: list[str | bytes] = ["sh", "-c", 'exec "$@" >&-', "sh"] if streams.is_closed else []
        if os.geteuid() == 0:
            start = ["setpriv", f"--reuid={NOBODY}", f"--regid={NOBODY}", "--clear-groups", *start]
        source = {"input" if isinstance(streams.given, bytes) else "stdin": streams.given}
        more = {"cwd": self.folder, "env": self.environment, "timeout": 600, **source}
        line = [*start, str(self.program), *words]
        error = subprocess.PIPE
        ran = subprocess.run(line, stdout=streams.output, stderr=error, **more)  # type: ignore[call-overload]
        said = ran.stderr.decode().removeprefix(f"listening on port {SERVED}\n")
        return Ran(ran.returncode, ran.stdout or b"", said)

    def path(self, name: str) -> Path:
        return self.folder / name

    def put(self, name: str, content: bytes) -> Path:
        self.path(name).write_bytes(content)
        self.path(name).chmod(0o666)
        return self.path(name)

    def store(self, name: str = "day.db") -> Path:
        for number, (kind, (file, content)) in enumerate(FILES.items(), 1):
            self.put(file, content)
            line = f"import {kind} {file} --db {name} --number {number}"
            assert self.run(list(line.split())).status == 0
        return self.path(name)


Make = Callable[[Counter], object]
During = Callable[[Counter], AbstractContextManager[Streams]]
nothing: Make = lambda it: None
alone: During = lambda it: nullcontext(Streams())


@dataclass(frozen=True)
class Use:
    """A kind of wrong use: the lines that do it, and the texts that they say, `None` for none."""

    kind: str
    lines: tuple[str, ...]
    first: str | None
    second: str | None
    status: int = 3
    make: Make = nothing
    during: During = alone
    is_claps: bool = False


def words_of(line: str) -> list[str | bytes]:
    words = shlex.split(line)
    return [word.encode("latin-1") if "\xff" in word else word for word in words]


# ---- paths that give no file
def closed_folder(it: Counter) -> None:
    it.path("closed").mkdir()
    (it.path("closed") / "rates.csv").write_bytes(RATES)
    it.path("closed").chmod(0)


def loop(it: Counter) -> None:
    it.path("one").symlink_to("other")
    it.path("other").symlink_to("one")


def socket_at(name: str) -> Make:
    def make(it: Counter) -> None:
        with socket.socket(socket.AF_UNIX) as made:
            made.bind(str(it.path(name)))
        it.path(name).chmod(0o666)

    return make


def has(name: str, content: bytes) -> Make:
    return lambda it: it.put(name, content)


def imports(kind: str, file: str, first: str, second: str, make: Make = nothing) -> Use:
    lines = [f"import {what} '{file}' --db day.db --number 1" for what in FILES]
    return Use(kind, tuple(lines), first, f"{file}: {second}", make=make)


def path(kind: str, file: str, cause: str, make: Make = nothing) -> Use:
    again = "correct the path, and send the file again"
    return imports(kind, file, "input or output failed", f"{cause}; {again}", make)


def unread(kind: str, file: str, second: str, make: Make = nothing) -> Use:
    return imports(kind, file, "file: row 1 code 73", second, make)


MISSING, DENIED = "no such file or folder", "permission denied"
NO_FOLDER, CIRCLE = "a part of the path is no folder", "symbolic links lead in a circle"
LONG_NAME, FOLDER = "a name of the path is too long", "it is a folder"
PARTS = "it has more than 1048576 bytes; send it in parts, each under a number of its own"
CSV = "rates.csv"
IN_IT = "name a file in it"
PATHS = [
    path("no file", CSV, MISSING),
    path("no folder", "missing/rates.csv", MISSING),
    path("an empty path", "", MISSING),
    path("a link to nothing", CSV, MISSING, lambda it: it.path(CSV).symlink_to("x")),
    path("an unreadable file", CSV, DENIED, lambda it: it.put(CSV, RATES).chmod(0)),
    path("in a folder that may not be searched", "closed/rates.csv", DENIED, closed_folder),
    path("a path through a file", "note/rates.csv", NO_FOLDER, has("note", b"x")),
    path("a name that is too long", "r" * 256, LONG_NAME),
    path("symbolic links in a circle", "one", CIRCLE, loop),
    path("a socket", CSV, "it was not opened", socket_at(CSV)),
    unread("a folder", CSV, f"{FOLDER}; {IN_IT}", lambda it: it.path(CSV).mkdir()),
    unread("the folder where it runs", ".", f"{FOLDER}; {IN_IT}"),
    unread("a file whose first read fails", "/proc/self/mem", "a read failed; send the file again"),
    imports("a device that never ends", "/dev/zero", "file: row 1 code 75", PARTS),
]

# ---- stores that aren't opened, under each command that opens one
SYSTEM = "look at the path, and at who may use the file and its folder"
NO_PATH, BARRED = f"{MISSING}; {SYSTEM}", f"{DENIED}; {SYSTEM}"
IN_USE = "another process uses it; send requests to that process, or end it first"
ONE_NAME = "it is not one regular file with one name; correct the path, or remove the other name"
DAMAGED = "it or its log is damaged, or a page's checksum is wrong; restore a copy"
NO_DATABASE = "it is no SQLite database; correct the path"
NO_FILE = "SQLite takes it for no file; put ./ in front of it"
JOURNAL = "a rollback journal of SQLite lies beside it; open it with sqlite3 first"
VERSION = "its version is neither 2 nor 1; use the program that made it"
ROWS = "its tables or rows are not those of this program; restore a copy"
LOST = "it is missing or empty, and its log shows that it was there; "
LOST += "put the file back next to its log"
FAILED = "a read or a write of it failed; look at the disk, and send the same requests again"
TAKEN, SERVED = free_port(), free_port()
#: The store is opened before FILE is, so that isn't there.
OPENING = "apply|import rates missing.csv --number 9|export 7|sheet 7 2012-02"
OPENING += f"|serve --port {SERVED}"


def store(
    kind: str,
    second: str,
    make: Make = nothing,
    at: str = "day.db",
    fault: str = "StoreFailed",
    during: During = alone,
) -> Use:
    lines = tuple(f"{line} --db '{at}'" for line in OPENING.split("|"))
    return Use(f"a store: {kind}", lines, f"store: {fault}", f"{at}: {second}", 3, make, during)


@contextmanager
def locked(it: Counter) -> Iterator[Streams]:
    with open(it.store(), "r+b") as file:
        fcntl.lockf(file, fcntl.LOCK_EX, LOCKED, LOCKED_FROM)
        yield Streams()


@contextmanager
def read_by_sqlite(it: Counter) -> Iterator[Streams]:
    with closing(sqlite3.connect(it.store(), isolation_level=None)) as base:
        base.execute("BEGIN")
        base.execute("SELECT * FROM desk").fetchall()
        yield Streams()


def change_byte(at: int) -> Make:
    def make(it: Counter) -> None:
        content = bytearray(it.store().read_bytes())
        content[at] ^= 1
        it.path("day.db").write_bytes(content)

    return make


def changed(statement: str) -> Make:
    """A store that SQL changed, with right checksums."""

    def make(it: Counter) -> None:
        with closing(sqlite3.connect(it.store(), isolation_level=None)) as base:
            base.execute(statement)
        with_checksums(it.path("day.db"))

    return make


def scripted(it: Counter, script: str) -> None:
    with closing(sqlite3.connect(it.put("day.db", b""))) as base:
        base.executescript(script)


def read_back(it: Counter) -> None:
    """A dump of a store, which was read back: its tables come in another order."""
    with closing(sqlite3.connect(it.store("made.db"))) as made:
        dump = [line for line in made.iterdump() if line not in ("BEGIN TRANSACTION;", "COMMIT;")]
    dump.sort(key=lambda line: ("CREATE" not in line, "TABLE" not in line, line))
    scripted(it, "".join(dump))


def orphaned_log(it: Counter) -> None:
    """A log with a commit of SQLite's, whose file was moved away."""
    with closing(sqlite3.connect(it.store("moved.db"), isolation_level=None)) as base:
        for statement in ("PRAGMA journal_mode = WAL", "PRAGMA wal_autocheckpoint = 0"):
            base.execute(statement)
        base.execute("UPDATE bonds SET coowner = 8")
        it.put("day.db-wal", it.path("moved.db-wal").read_bytes())


def both(*makes: Make) -> Make:
    return lambda it: [make(it) for make in makes]


def beside(name: str, content: bytes) -> Make:
    return both(Counter.store, has(name, content))


def with_mode(name: str, mode: int) -> Make:
    """A store, one of whose files has other rights."""
    return both(Counter.store, lambda it: it.path(name).chmod(mode))


def pipe(it: Counter) -> None:
    os.mkfifo(it.path("day.db"))
    it.path("day.db").chmod(0o666)


STORES = [
    store("in a folder that is missing", NO_PATH, at="missing/day.db"),
    store("no path", NO_PATH, at=""),
    store("through a file", f"{NO_FOLDER}; {SYSTEM}", has("note", b"x"), "note/day.db"),
    store("a folder", ONE_NAME, lambda it: it.path("day.db").mkdir()),
    store("a pipe with a name", ONE_NAME, pipe),
    store("a socket", ONE_NAME, socket_at("day.db")),
    store("a device", ONE_NAME, at="/dev/null"),
    store("a file with a second name", ONE_NAME, lambda it: os.link(it.store(), it.path("other"))),
    store("unreadable", BARRED, with_mode("day.db", 0)),
    store("not to be written", BARRED, with_mode("day.db", 0o444)),
    store("a log not to be written", BARRED, with_mode("day.db-wal", 0o444)),
    store("new in a folder not to be written", BARRED, lambda it: it.folder.chmod(0o555)),
    store("in a folder not to be searched", BARRED, closed_folder, "closed/day.db"),
    store("a name that is too long", f"{LONG_NAME}; {SYSTEM}", at="d" * 256),
    store("symbolic links in a circle", f"{CIRCLE}; {SYSTEM}", loop, "one"),
    store("a name that SQLite takes for no file", NO_FILE, at=":memory:"),
    store("a URI", NO_FILE, at="file:day.db"),
    store("a text", NO_DATABASE, has("day.db", b"no store\n")),
    store("a file of rates", NO_DATABASE, has("day.db", b"from,rate\n" + b"2010-05,2.00\n" * 500)),
    store("one byte", NO_DATABASE, has("day.db", b"x")),
    store("a rollback journal", JOURNAL, beside("day.db-journal", b"\xd9\xd5\x05\xf9")),
    store("a changed byte of a page", DAMAGED, change_byte(3 * 1024 - 100)),
    store("a changed byte of the first page", DAMAGED, change_byte(200)),
    store("half of its pages", DAMAGED, lambda it: os.truncate(it.store(), 5 * 1024)),
    store("a damaged log", DAMAGED, beside("day.db-wal", b"\x37\x7f\x06\x82" + bytes(60))),
    store("a log of another version of SQLite", DAMAGED, beside("day.db-wal", OTHER_LOG)),
    store("none next to a log with changes", LOST, orphaned_log),
    store("empty next to a log with changes", LOST, both(orphaned_log, has("day.db", b""))),
    store("one that another process has open", IN_USE, during=locked),
    store("one that SQLite reads", IN_USE, during=read_by_sqlite),
]
UNUSABLE = {
    "a database of another program": lambda it: scripted(it, "CREATE TABLE notes (text)"),
    "a dump that was read back": read_back,
    "no version": changed("DELETE FROM desk"),
    "an index more": changed("CREATE INDEX more ON paid (cents)"),
    "a table less": changed("DROP TABLE extensions"),
    "an index less": changed("DROP INDEX bonds_owner"),
    "a bond without its ticket": changed("UPDATE bonds SET ticket = 1"),
    "a line without its ticket": changed("INSERT INTO paid VALUES (1, 1, 12, 1, 2588)"),
    "a denomination that no bond has": changed("UPDATE bonds SET denom = 51"),
    "a space in a kept act": changed("UPDATE answers SET act = act || ' '"),
}
STORES += [store(kind, ROWS, make, fault="Unusable") for kind, make in UNUSABLE.items()]
for version in (0, 3):
    make = changed(f"UPDATE desk SET version = {version}")
    STORES.append(store(f"of version {version}", VERSION, make, fault="WrongVersion"))


# ---- disks, which only root can mount
@contextmanager
def disk(it: Counter, options: str) -> Iterator[Path]:
    """A file system of its own at `disk`."""
    folder = it.path("disk")
    folder.mkdir()
    words = ["mount", "-t", "tmpfs", "-o", f"mode=777{options}", "tmpfs", str(folder)]
    subprocess.run(words, check=True)
    try:
        yield folder
    finally:
        subprocess.run(["umount", folder], check=True)


@contextmanager
def read_only(it: Counter) -> Iterator[Streams]:
    with disk(it, "") as folder:
        it.store("disk/day.db")
        subprocess.run(["mount", "-o", "remount,ro", folder], check=True)
        yield Streams()


@contextmanager
def full(it: Counter) -> Iterator[Streams]:
    with disk(it, ",size=128k"):
        yield Streams()


READ_ONLY = f"the file system is read-only; {SYSTEM}"
DISKS = [
    store("a file system that is read-only", READ_ONLY, at="disk/day.db", during=read_only),
    store("too little room for its log", FAILED, at="disk/day.db", during=full),
]


# ---- ports and streams
@contextmanager
def taken(it: Counter) -> Iterator[Streams]:
    with socket.create_server(("127.0.0.1", TAKEN)):
        yield Streams()


@contextmanager
def opened(it: Counter, descriptor: int, is_input: bool = False) -> Iterator[Streams]:
    it.store()
    try:
        yield Streams(given=descriptor) if is_input else Streams(MESSAGE, descriptor)
    finally:
        os.close(descriptor)


to_full: During = lambda it: opened(it, os.open("/dev/full", os.O_WRONLY))


def unread_output(it: Counter) -> AbstractContextManager[Streams]:
    """A pipe whose reader has gone, as after `| head`."""
    end, output = os.pipe()
    os.close(end)
    return opened(it, output)


@contextmanager
def closed_output(it: Counter) -> Iterator[Streams]:
    it.store()
    yield Streams(given=MESSAGE, is_closed=True)


folder_input: During = lambda it: opened(it, os.open(it.folder, os.O_RDONLY), is_input=True)


@contextmanager
def visited(it: Counter) -> Iterator[Streams]:
    """A server whose output is a full disk, and a client that asks it again and again."""
    is_over = threading.Event()

    def ask() -> None:
        while not is_over.wait(0.05):
            with suppress(OSError), socket.create_connection(("127.0.0.1", SERVED), 10) as client:
                client.sendall(MESSAGE)
                client.shutdown(socket.SHUT_WR)
                client.recv(1)

    client = threading.Thread(target=ask)
    with to_full(it) as streams:
        client.start()
        try:
            yield streams
        finally:
            is_over.set()
            client.join()


IO, APPLY = "input or output failed", ("apply --db day.db",)
SHOWN = ("export 7", "sheet 7 2012-02", "import rates rates.csv --number 1")
FULL, UNREAD = "standard output: no space left on the disk", "standard output: nothing reads it"
NO_WRITE, IS_FOLDER = "standard output: a write failed", f"standard input: {FOLDER}"
AGAIN = "run the line again: what was decided gets its reply"
SEND = "send again: what was decided gets its reply"
PORT = "choose another port, or end what uses it"
IN_USE_PORT = f"port {TAKEN}: address in use; {PORT}"
START = f"{FULL}; start the server again"
PRINTING = ("value 50 2010-05 2015-05 3.50", *(f"{what} --db day.db" for what in SHOWN))
ON_TAKEN, ON_SERVED = ((f"serve --db day.db --port {port}",) for port in (TAKEN, SERVED))
STREAMS = [
    Use("a port that is in use", ON_TAKEN, IO, IN_USE_PORT, during=taken),
    Use("a full disk behind the output", PRINTING, IO, f"{FULL}; {AGAIN}", during=to_full),
    Use("a full disk behind the answers", APPLY, IO, f"{FULL}; {SEND}", during=to_full),
    Use("a full disk behind a server's log", ON_SERVED, IO, START, during=visited),
    Use("an output that nothing reads", PRINTING, IO, f"{UNREAD}; {AGAIN}", during=unread_output),
    Use("answers that nothing reads", APPLY, IO, f"{UNREAD}; {SEND}", during=unread_output),
    Use("an output that is closed", PRINTING, IO, f"{NO_WRITE}; {AGAIN}", during=closed_output),
    Use("answers to a closed output", APPLY, IO, f"{NO_WRITE}; {SEND}", during=closed_output),
    Use("a folder for the input", APPLY, IO, f"{IS_FOLDER}; {SEND}", during=folder_input),
]
LOWEST = Path("/proc/sys/net/ipv4/ip_unprivileged_port_start")
if LOWEST.exists() and int(LOWEST.read_text()) > 80:
    line = "serve --db day.db --port 80"
    STREAMS.append(Use("a port of root's", (line,), IO, f"port 80: permission denied; {PORT}"))

# ---- a disk that fails during a command, by the library of tests/shared/hostile
MORE = "import rates more.csv --db day.db --number 3"
TWO = (MORE, "export 7 --db day.db")
ROOM = "no space left on the disk; make room, and run the line again"
NO_READ = "a read or a write of it failed; look at the disk, and run the line again"
AT, LOST_STORE, UNWRITTEN = "day.db: ", "store: StoreFailed", "store: NotWrittenBack"
MEMORY = "memory was refused; run the line again"
REFUSED = f"the system refused it; {SYSTEM}"
KEPT = "the work is done, and is kept in the file and its log together; look at the disk"
#: By kind: the lines, the fault, what the second line says, and which calls fail.
FAILING = {
    "full as a store is opened": (TWO, LOST_STORE, AT + ROOM, "write any 1 0 e 28"),
    "no write as a store is opened": (TWO, LOST_STORE, AT + NO_READ, "write any 1 0 e 5"),
    "no read as a store is opened": ((*TWO, *APPLY), LOST_STORE, AT + NO_READ, "read db 1 0 e 5"),
    "no file is opened": ((*TWO, *APPLY), LOST_STORE, AT + REFUSED, "open any 1 0 e 5"),
    "no memory as a file is opened": ((*TWO, *APPLY), "no memory", MEMORY, "open any 1 0 e 12"),
    "a failure during a command": ((MORE,), LOST_STORE, AT + FAILED, "write log 8 0 e 5"),
    "a log that can't be written back": ((MORE,), UNWRITTEN, AT + KEPT, "truncate log 1 1 e 5"),
}


def failing(kind: str, shim: str) -> Use:
    """A store over which calls fail as the library is asked."""
    lines, fault, second, calls = FAILING[kind]

    @contextmanager
    def loaded(it: Counter) -> Iterator[Streams]:
        it.environment["HOSTILE_STORE"] = str(it.store())
        it.put("more.csv", RATES.replace(b"2010-11", b"2010-05"))
        it.environment |= {"LD_PRELOAD": shim, "HOSTILE_FAULT": calls}
        yield Streams(given=MESSAGE)

    return Use(kind, lines, fault, second, during=loaded)
