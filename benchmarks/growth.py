#!/usr/bin/env python3
"""Measures what a store costs as it grows: growth.py PROGRAM FOLDER [BONDS ..], where FOLDER, which is made unless it is there, is on the disk to measure; 100,000, 1,000,000 and 10,000,000 bonds without numbers.
Ten million take 2 GB of memory and a quarter of an hour. A store that is in FOLDER as BONDS.db is measured as it is: it has to be unpaid bonds alone, as stores.py makes them.

A row for each: the file, an opening, a redemption of one bond and an inventory of ten of customers all over the store, and the close of a day with 1,000 tickets. Times are of the processor, medians of
1,000 redemptions and 100 inventories. The last row is extrapolated from the largest two for 71 million bonds: file and
opening in a straight line, and requests by the logarithm, as a tree gets deeper."""
from __future__ import annotations

import math
import os
import statistics
import subprocess
import sys
from pathlib import Path
from typing import NamedTuple

sys.dont_write_bytecode = True

from asking import get, post  # noqa: E402
from stores import EACH, Served, made, served  # noqa: E402

PROGRAM, FOLDER = os.path.abspath(sys.argv[1]), Path(sys.argv[2])
SIZES = [int(word) for word in sys.argv[3:]] or [100_000, 1_000_000, 10_000_000]
RECKONED, TICKETS, INVENTORIES, DAY, MONTH = 71_000_000, 1000, 100, "2026-11-30", "2026-11"


class Row(NamedTuple):
    """Megabytes of the file, seconds and megabytes of an opening, microseconds of a redemption and of an inventory, milliseconds of a close."""

    file: float
    opening: float
    memory: float
    redemption: float
    inventory: float
    close: float

    def cells(self) -> str:
        return f"{self.file:,.0f} MB | {self.opening:,.1f} s | {self.memory:,.0f} MB | {self.redemption:,.0f} us | {self.inventory:,.0f} us | {self.close:,.1f} ms"


def opening(store: Path) -> tuple[float, float]:
    """Seconds of the processor, and megabytes of memory at most."""
    process = subprocess.Popen(
        [PROGRAM, "export", "999999999", "--db", store], stdout=subprocess.DEVNULL
    )
    _, status, usage = os.wait4(process.pid, 0)
    process.returncode = os.waitstatus_to_exitcode(status)
    assert process.returncode == 0
    return usage.ru_utime + usage.ru_stime, usage.ru_maxrss / 1000


def spent(server: Served, message: bytes) -> float:
    before = server.busy()
    server.ask(message)
    return server.busy() - before


def measured(count: int) -> Row:
    store = FOLDER / f"{count}.db"
    if not store.exists():
        made(PROGRAM, store, count)
    size, (seconds, memory) = store.stat().st_size / 1e6, opening(store)
    step = count // TICKETS
    with served(PROGRAM, store) as server:
        server.ask(post("/day/open", {"number": 10**15, "day": DAY}))
        paid = [
            spent(
                server,
                post(
                    "/redeem",
                    {
                        "desk": 1,
                        "number": place + 1,
                        "day": DAY,
                        "payee": place * step // EACH + 1,
                        "serials": [f"A{place * step + 1}EE"],
                    },
                ),
            )
            for place in range(TICKETS)
        ]
        shown = [
            spent(server, get(f"/inventory/{place * (count // EACH // INVENTORIES) + 2}/{MONTH}"))
            for place in range(INVENTORIES)
        ]
        closed = spent(server, post("/day/close", {"number": 10**15 + 1, "day": DAY}))
    return Row(
        size,
        seconds,
        memory,
        statistics.median(paid) * 1e6,
        statistics.median(shown) * 1e6,
        closed * 1e3,
    )


def extrapolated(small: int, less: Row, large: int, more: Row) -> Row:
    straight = (RECKONED - large) / (large - small)
    by_levels = math.log(RECKONED / large) / math.log(large / small)
    return Row(
        *(
            after + (after - before) * (straight if place < 3 else by_levels)
            for place, (before, after) in enumerate(zip(less, more))
        )
    )


FOLDER.mkdir(exist_ok=True)
print(
    "| Bonds | File | Opening | Its memory | A redemption | An inventory of ten | Closing a day of 1,000 tickets |\n|---|---|---|---|---|---|---|"
)
rows = {}
for size in SIZES:
    rows[size] = measured(size)
    print(f"| {size:,} | {rows[size].cells()} |", flush=True)
if len(rows) > 1:
    (small, less), (large, more) = sorted(rows.items())[-2:]
    print(f"| {RECKONED:,}, extrapolated | {extrapolated(small, less, large, more).cells()} |")
