"""Stores on disk: their rows, read by SQLite; and stores of version 1."""
import os
import shutil
import sqlite3
from contextlib import closing, suppress
from typing import Any, Mapping

from . import talk

#: The rows of each table; of an unreadable store what SQLite says.
Rows = dict[str, Any]
ORDERS = {
    "desk": "SELECT id, version, day, last_day FROM desk ORDER BY id",
    "rates": "SELECT period, rate FROM rates ORDER BY period",
    "extensions": "SELECT period, rate FROM extensions ORDER BY period",
    "bonds": "SELECT letter, number, denom, issued, owner, coowner, ticket FROM bonds ORDER BY letter, number",
    "tickets": "SELECT ticket, day, payee, bonds, total FROM tickets ORDER BY ticket",
    "paid": "SELECT ticket, place, letter, number, cents FROM paid ORDER BY ticket, place",
    "batches": "SELECT day, tickets, bonds, total FROM batches ORDER BY day",
    "answers": "SELECT desk, number, act, reply FROM answers ORDER BY desk, number",
    "replies": "SELECT number, act, reply FROM replies ORDER BY number",
}


def log_of(store: str) -> str:
    return store + "-wal"


def copy(store: str, to: str) -> None:
    for end in ("", "-wal"):
        if os.path.exists(store + end):
            shutil.copyfile(store + end, to + end)
        elif os.path.exists(to + end):
            os.remove(to + end)


def remove(store: str) -> None:
    for end in ("", "-wal", "-shm", ".counts", ".record"):
        if os.path.exists(store + end):
            os.remove(store + end)


def rows(store: str) -> Rows:
    """The rows of each table that is there, in order of key, of a copy without its log."""
    looked_at = store + ".looked"
    remove(looked_at)
    shutil.copyfile(store, looked_at)
    try:
        with closing(sqlite3.connect(looked_at)) as base:
            found = base.execute("SELECT name FROM sqlite_master WHERE type = 'table'")
            there = {name for (name,) in found}
            return {name: base.execute(ORDERS[name]).fetchall() for name in ORDERS if name in there}
    except sqlite3.DatabaseError as error:
        return {"unreadable": str(error)}
    finally:
        remove(looked_at)


def is_whole(store: str) -> bool:
    with closing(sqlite3.connect(f"file:{store}?mode=ro&immutable=1", uri=True)) as base:
        with suppress(sqlite3.DatabaseError):
            return base.execute("PRAGMA integrity_check").fetchall() == [("ok",)]
    return False


def difference(found: Mapping[str, object], wanted: Mapping[str, object]) -> str | None:
    """The first table in which rows differ, and how; or None."""
    for table in sorted(set(found) | set(wanted)):
        if found.get(table) != wanted.get(table):
            return f"{table}: found {found.get(table)!r:.1500}, wanted {wanted.get(table)!r:.1500}"
    return None


def make_version_one(store: str, with_extensions: bool) -> None:
    """The store of five requests, and of a sixth, which enters an extension, from before desks."""
    earlier = talk.texts("NAMED")
    remove(store)
    base = sqlite3.connect(store, isolation_level=None)
    base.execute("PRAGMA journal_mode = WAL")
    names = ["SEVEN_TABLES", "EXTENSIONS", "ROWS", "EXTENDED_ROWS"][:: 1 if with_extensions else 2]
    base.executescript("BEGIN;" + "".join(earlier[name] for name in names) + "COMMIT;")
    base.close()
    if os.path.exists(log_of(store)):
        os.remove(log_of(store))
