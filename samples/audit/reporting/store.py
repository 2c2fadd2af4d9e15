"""Reading a store: a private copy of its files, the form of its tables, and its rows.

The file that is named is read as bytes and never opened by SQLite. SQLite opens the copy alone, and may
only read it."""

import dataclasses
import fcntl
import hashlib
import os
import sqlite3
import struct
from typing import Any

CHUNK = 1 << 20
LOCKED_FROM, LOCKED_BYTES = 0x40000000, 512  # the bytes that SQLite and the program lock
MAGIC = b"SQLite format 3\0"

# docs/FORMATS.md, "The tables of a store": the statements that make the tables of version 2, in order.
COMMON = (
    "CREATE TABLE desk (id INTEGER NOT NULL PRIMARY KEY, version INTEGER NOT NULL, day INTEGER, last_day INTEGER) STRICT",
    "CREATE TABLE rates (period INTEGER NOT NULL PRIMARY KEY, rate INTEGER NOT NULL) STRICT",
    "CREATE TABLE bonds (letter INTEGER NOT NULL, number INTEGER NOT NULL, denom INTEGER NOT NULL, issued INTEGER NOT NULL, owner INTEGER NOT NULL, coowner INTEGER, ticket INTEGER, PRIMARY KEY (letter, number)) STRICT",
    "CREATE INDEX bonds_owner ON bonds (owner, letter, number)",
    "CREATE TABLE tickets (ticket INTEGER NOT NULL PRIMARY KEY, day INTEGER NOT NULL, payee INTEGER NOT NULL, bonds INTEGER NOT NULL, total INTEGER NOT NULL) STRICT",
    "CREATE INDEX tickets_day ON tickets (day, ticket)",
    "CREATE TABLE paid (ticket INTEGER NOT NULL, place INTEGER NOT NULL, letter INTEGER NOT NULL, number INTEGER NOT NULL, cents INTEGER NOT NULL, PRIMARY KEY (ticket, place), UNIQUE (letter, number)) STRICT",
    "CREATE TABLE batches (day INTEGER NOT NULL PRIMARY KEY, tickets INTEGER NOT NULL, bonds INTEGER NOT NULL, total INTEGER NOT NULL) STRICT",
)
EXTENSIONS = (
    "CREATE TABLE extensions (period INTEGER NOT NULL PRIMARY KEY, rate INTEGER NOT NULL) STRICT"
)
ANSWERS = "CREATE TABLE answers (desk INTEGER NOT NULL, number INTEGER NOT NULL, act TEXT NOT NULL, reply TEXT NOT NULL, PRIMARY KEY (desk, number)) STRICT"
REPLIES = "CREATE TABLE replies (number INTEGER NOT NULL PRIMARY KEY, act TEXT NOT NULL, reply TEXT NOT NULL) STRICT"
FORMS: dict[int, list[tuple[str, ...]]] = {
    2: [(*COMMON, EXTENSIONS, ANSWERS)],
    1: [(*COMMON, REPLIES), (*COMMON, REPLIES, EXTENSIONS)],
}
TABLES = ("desk", "rates", "extensions", "bonds", "tickets", "paid", "batches", "answers")


class NoStore(Exception):
    """Why a file can't be reported on."""


@dataclasses.dataclass(frozen=True)
class Source:
    """A file that was read: its name, its length and its SHA-256."""

    name: str
    length: int
    sha256: str


@dataclasses.dataclass(frozen=True)
class Store:
    """The copy, as SQLite reads it, with the files that it is a copy of."""

    path: str
    base: sqlite3.Connection
    sources: tuple[Source, ...]
    version: int | None
    statements: tuple[str, ...]

    def rows(self, statement: str, *values: Any) -> sqlite3.Cursor:
        return self.base.execute(statement, values)

    def one(self, statement: str, *values: Any) -> Any:
        return self.base.execute(statement, values).fetchone()

    def open_day(self) -> int | None:
        """The open day; None if there is none, or the desk has no row."""
        found = self.one("SELECT day FROM desk")
        return found[0] if found else None

    def count(self, table: str) -> int:
        (rows,) = self.one(f"SELECT count(*) FROM {table}")
        return int(rows)


def is_locked(path: str) -> bool:
    """Whether a process holds the lock that the program holds while it serves a store."""
    with open(path, "rb") as file:
        asked = struct.pack("hhqqi", fcntl.F_WRLCK, os.SEEK_SET, LOCKED_FROM, LOCKED_BYTES, 0)
        return bool(
            struct.unpack("hhqqi", fcntl.fcntl(file, fcntl.F_GETLK, asked))[0] != fcntl.F_UNLCK
        )


def copied(path: str, to: str, kind: str = "") -> Source:
    """Copy a file, and say what it is. `kind` is put before its name."""
    total, length = hashlib.sha256(), 0
    with open(path, "rb") as source, open(to, "wb") as target:
        while chunk := source.read(CHUNK):
            total.update(chunk)
            target.write(chunk)
            length += len(chunk)
    return Source(kind + os.path.basename(path), length, total.hexdigest())


def copy_of(path: str, folder: str) -> tuple[str, tuple[Source, ...]]:
    """A copy of a store in a folder: its file, and the log beside it if there is one."""
    if is_locked(path):
        raise NoStore("a process is using this store; give a copy or a snapshot of it")
    with open(path, "rb") as file:
        if file.read(len(MAGIC)) != MAGIC:
            raise NoStore("this file is no SQLite database")
    to = os.path.join(folder, "store.db")
    ends = ("", "-wal") if os.path.exists(path + "-wal") else ("",)
    return to, tuple(copied(path + end, to + end) for end in ends)


def open_copy(path: str, sources: tuple[Source, ...]) -> Store:
    base = sqlite3.connect(path, isolation_level=None)
    base.text_factory = lambda text: text.decode("utf-8", "replace")
    base.execute(
        "PRAGMA wal_checkpoint(TRUNCATE)"
    ).fetchall()  # the log of the copy goes into the copy
    base.execute("PRAGMA query_only = ON")
    base.execute("PRAGMA trusted_schema = OFF")
    statements = tuple(
        sql
        for (sql,) in base.execute(
            "SELECT sql FROM sqlite_schema WHERE sql IS NOT NULL ORDER BY rowid"
        )
    )
    return Store(path, base, sources, version_of(base), statements)


def version_of(base: sqlite3.Connection) -> int | None:
    try:
        found = base.execute("SELECT version FROM desk WHERE id = 1").fetchone()
    except sqlite3.OperationalError:
        return None
    return found[0] if found else None


def needed_tables_are_there(store: Store) -> bool:
    """Whether the tables are there that the report reads, whatever their schema is otherwise."""
    names = {name for (name,) in store.rows("SELECT name FROM sqlite_schema WHERE type = 'table'")}
    kept = "replies" if store.version == 1 else "answers"
    return {*TABLES, kept} - {"answers", "extensions"} <= names


def make_views(store: Store) -> None:
    """Views of this connection alone, which show any version as version 2: `kept` has the kept requests
    with the number of their row, `terms` both rates of every period."""
    base = store.base
    base.execute("PRAGMA query_only = OFF")
    has_extensions = store.one("SELECT 1 FROM sqlite_schema WHERE name = 'extensions'") is not None
    extension = (
        "(SELECT x.rate FROM extensions AS x WHERE x.period = r.period)"
        if has_extensions
        else "NULL"
    )
    kept = (
        "SELECT number AS place, 0 AS desk, number, act, reply FROM replies"
        if store.version == 1
        else "SELECT rowid AS place, desk, number, act, reply FROM answers"
    )
    base.execute(f"CREATE TEMP VIEW kept AS {kept}")
    base.execute(
        f"CREATE TEMP VIEW terms AS SELECT r.period, r.rate AS fixed, coalesce({extension}, r.rate) AS extension FROM rates AS r"
    )
    base.execute(
        "CREATE TEMP VIEW named_extensions AS "
        + (
            "SELECT period, rate FROM extensions"
            if has_extensions
            else "SELECT 0 AS period, 0 AS rate WHERE 0"
        )
    )
    base.execute("PRAGMA query_only = ON")
