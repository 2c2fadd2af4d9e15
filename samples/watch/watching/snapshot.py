"""The newest snapshot of a store, read by SQLite without a lock, a log or an index beside it: nothing is written, and the live store is never opened."""
from __future__ import annotations

import calendar
import contextlib
import os
import re
import sqlite3
import time
import urllib.parse
from typing import Any, Iterator

from .exposition import Metrics

#: The names that samples/snapshots/snapshot_copy gives, and those of samples/watch/prepare.
NAME = re.compile(r"(?:watch-)?(\d{4}-\d\d-\d\dT\d\d-\d\d-\d\d)\.(\d{9})Z")
VERSION = 2
UNPAID = "SELECT count(*), ifnull(sum(denom), 0) FROM bonds WHERE ticket IS NULL"


def seconds_of(name: str) -> float | None:
    """When a snapshot of this name was taken. None for any other name."""
    found = NAME.fullmatch(name)
    return (
        calendar.timegm(time.strptime(found[1], "%Y-%m-%dT%H-%M-%S")) + int(found[2]) / 1e9
        if found
        else None
    )


def named_in(folder: str) -> list[tuple[float, str]]:
    """The snapshots of a folder, with their seconds, the oldest first."""
    found = ((seconds_of(name), os.path.join(folder, name)) for name in os.listdir(folder))
    return sorted((seconds, path) for seconds, path in found if seconds is not None)


def newest(folders: list[str]) -> tuple[float, str]:
    """The newest snapshot of all these folders, with its second."""
    found = []
    for folder in folders:
        with contextlib.suppress(OSError):
            found += named_in(folder)
    if not found:
        raise FileNotFoundError(f"no snapshot in {', '.join(folders)}")
    return max(found)


@contextlib.contextmanager
def opened(path: str) -> Iterator[sqlite3.Connection]:
    """Reads a store in a snapshot that nothing writes. With exclusive locking SQLite keeps its index of the log in memory, and `unix-none` takes no lock, so it
    works in a folder that can't be written. Never use this for a store that a process has open."""
    books = sqlite3.connect(f"file:{urllib.parse.quote(path)}?mode=ro&vfs=unix-none", uri=True)
    try:
        books.execute("PRAGMA locking_mode = EXCLUSIVE").fetchall()
        yield books
    finally:
        books.close()


def figures(path: str) -> dict[str, Any]:
    """What the store's tables tell. Money is in cents, a day is its number from 1970-01-01."""
    with opened(path) as books:

        def ask(statement: str, *values: object) -> Any:
            return books.execute(statement, values).fetchone()

        version, day, last_day = ask("SELECT version, day, last_day FROM desk WHERE id = 1")
        if version != VERSION:
            raise ValueError(f"the store is of version {version}")
        return {
            "day": day,
            "last_day": last_day,
            "of_day": ask(
                "SELECT count(*), ifnull(sum(bonds), 0), ifnull(sum(total), 0) FROM tickets WHERE day = ?",
                day,
            ),
            "last_batch": ask("SELECT tickets, bonds, total FROM batches WHERE day = ?", last_day),
            "batches": ask("SELECT count(*) FROM batches")[0],
            "bonds": ask("SELECT count(*) FROM bonds")[0],
            "unpaid": ask(UNPAID),
            "tickets": ask("SELECT ifnull(max(ticket), 0) FROM tickets")[0],
            "requests": ask("SELECT ifnull(max(rowid), 0) FROM answers")[0],
        }


def day_starts(day: int) -> tuple[float, float]:
    """The second at which a day begins by the machine's clock, and the second at which it ends."""
    date = time.gmtime(day * 86400)
    start, end = (
        time.mktime((date.tm_year, date.tm_mon, date.tm_mday + later, 0, 0, 0, 0, 0, -1))
        for later in (0, 1)
    )
    return start, end


def tell(metrics: Metrics, taken: float, found: dict[str, Any]) -> None:
    """Adds the metrics of a snapshot."""

    def gauge(name: str, about: str, value: str | int) -> None:
        metrics.add(f"ladwenpik_{name}", "gauge", about, value)

    gauge(
        "snapshot_timestamp_seconds",
        "When the snapshot was taken that the metrics of books are of.",
        f"{taken:.3f}",
    )
    gauge("day_open", "1 if a business day is open.", int(found["day"] is not None))
    if found["day"] is not None:
        start, end = day_starts(found["day"])
        gauge(
            "open_day_start_timestamp_seconds",
            "Midnight with which the date of the open day begins.",
            f"{start:.0f}",
        )
        gauge(
            "open_day_end_timestamp_seconds",
            "Midnight with which the date of the open day ends.",
            f"{end:.0f}",
        )
    tickets, bonds, total = found["of_day"]
    gauge("open_day_tickets", "Tickets of the open day, of 1,000 at most. 0 without one.", tickets)
    gauge("open_day_bonds", "Bonds on these tickets.", bonds)
    gauge("open_day_dollars", "Sum of these tickets.", f"{total / 100:.2f}")
    if found["last_batch"] is not None:
        tickets, bonds, total = found["last_batch"]
        gauge(
            "last_batch_timestamp_seconds",
            "Midnight with which the date of the day that was closed last begins.",
            f"{day_starts(found['last_day'])[0]:.0f}",
        )
        gauge("last_batch_tickets", "Tickets of the last batch.", tickets)
        gauge("last_batch_bonds", "Bonds of the last batch.", bonds)
        gauge("last_batch_dollars", "Sum of the last batch.", f"{total / 100:.2f}")
    gauge("batches", "Closed days.", found["batches"])
    gauge("bonds", "Registered bonds.", found["bonds"])
    gauge("unpaid_bonds", "Registered bonds that aren't paid.", found["unpaid"][0])
    gauge(
        "unpaid_face_dollars",
        "Sum of the denominations of the bonds that aren't paid.",
        found["unpaid"][1],
    )
    gauge("last_ticket", "The number of the last ticket.", found["tickets"])
    gauge("kept_requests", "Requests whose replies the store keeps.", found["requests"])
