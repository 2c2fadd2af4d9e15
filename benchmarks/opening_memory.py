#!/usr/bin/env python3
"""Measures whose memory an opening takes: opening_memory.py PROGRAM FOLDER [BONDS], where FOLDER, which is made, is for the stores, and BONDS is 100,000.

Two stores have as many bonds: in one none is paid, in the other all are, one on each ticket. Each is opened as it is, and once more with the same rows and a version that the program doesn't know: that
is refused as soon as `sqlite` has opened and tested the file, so it shows `sqlite`'s part. Memory is the most that the process had, less what a store of ten bonds takes."""
from __future__ import annotations

import contextlib
import datetime
import os
import sqlite3
import subprocess
import sys
from pathlib import Path

sys.dont_write_bytecode = True

from asking import post  # noqa: E402
from stores import EACH, made, served  # noqa: E402

PROGRAM, FOLDER = os.path.abspath(sys.argv[1]), Path(sys.argv[2])
BONDS = int((sys.argv[3:] or ["100000"])[0])
DAY_TICKETS, FIRST_DAY = 1000, datetime.date(2026, 1, 1)
WRONG_VERSION = "WrongVersion"


def pay_all(store: Path) -> None:
    """Pays each bond on a ticket of its own, on as many days as that takes."""
    with served(PROGRAM, store) as server:
        for first in range(1, BONDS + 1, DAY_TICKETS):
            day, number = (
                FIRST_DAY + datetime.timedelta(first // DAY_TICKETS)
            ).isoformat(), 10**15 + 2 * first
            server.ask(post("/day/open", {"number": number, "day": day}))
            for n in range(first, min(first + DAY_TICKETS, BONDS + 1)):
                server.ask(
                    post(
                        "/redeem",
                        {
                            "desk": 1,
                            "number": n,
                            "day": day,
                            "payee": (n - 1) // EACH + 1,
                            "serials": [f"A{n}EE"],
                        },
                    )
                )
            server.ask(post("/day/close", {"number": number + 1, "day": day}))
    subprocess.run(
        [PROGRAM, "export", "999999999", "--db", store], stdout=subprocess.DEVNULL, check=True
    )


def refused(store: Path) -> Path:
    """A store with the same rows, tables and page size, and a version that the program refuses."""
    other = store.with_suffix(".refused.db")
    with contextlib.closing(sqlite3.connect(other)) as copy:
        copy.execute("PRAGMA page_size = 1024")
        copy.execute("PRAGMA journal_mode = WAL")
        copy.execute("ATTACH ? AS old", (str(store),))
        for kind, name, text in copy.execute(
            "SELECT type, name, sql FROM old.sqlite_schema WHERE sql IS NOT NULL ORDER BY rowid"
        ).fetchall():
            copy.execute(text)
            if kind == "table":
                copy.execute(f"INSERT INTO main.{name} SELECT * FROM old.{name}")
        copy.execute("UPDATE main.desk SET version = 99")
        copy.commit()
    return other


def memory(store: Path, status: int) -> int:
    """The bytes that the process had at most."""
    process = subprocess.Popen(
        [PROGRAM, "export", "999999999", "--db", store],
        stdout=subprocess.DEVNULL,
        stderr=subprocess.PIPE,
    )
    assert process.stderr
    words = process.stderr.read().decode()
    _, ended, usage = os.wait4(process.pid, 0)
    process.returncode = os.waitstatus_to_exitcode(ended)
    assert (process.returncode == 0) == (status == 0) and (status == 0 or WRONG_VERSION in words), (
        process.returncode,
        words,
    )
    most: int = usage.ru_maxrss * 1024
    return most


def main() -> None:
    FOLDER.mkdir()
    none, unpaid, paid = (FOLDER / f"{name}.db" for name in ("none", "unpaid", "paid"))
    for store, count in ((none, 10), (unpaid, BONDS), (paid, BONDS)):
        made(PROGRAM, store, count)
    pay_all(paid)
    base = memory(none, 0)
    print("| Store | Opening | `sqlite`'s part |\n|---|---|---|")
    for name, store in (
        (f"{BONDS:,} bonds, none paid", unpaid),
        (f"{BONDS:,} bonds, all paid, one a ticket", paid),
    ):
        whole, alone = (memory(*of) - base for of in ((store, 0), (refused(store), 1)))
        print(f"| {name} | {whole / BONDS:,.0f} bytes a bond | {alone / BONDS:,.0f} |", flush=True)


if __name__ == "__main__":
    main()
