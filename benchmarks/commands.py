#!/usr/bin/env python3
"""Measures what many commands over a large store cost: commands.py PROGRAM FOLDER [BONDS [COMMANDS]], where FOLDER, which is made, is on the disk to measure; 1,000,000 bonds and 20 commands without
the numbers. The sheets of as many customers are printed by a command `sheet` each, and by one `apply` that gets all queries on standard input: both print the same bytes. Prints a row for each way:
seconds by the clock and of the processor, and memory at most."""
from __future__ import annotations

import os
import re
import subprocess
import sys
import time
from pathlib import Path
from typing import Callable

sys.dont_write_bytecode = True

from stores import made  # noqa: E402

PROGRAM, FOLDER = os.path.abspath(sys.argv[1]), Path(sys.argv[2])
BONDS, COMMANDS = (int(word) for word in (sys.argv[3:] + ["1000000", "20"][len(sys.argv) - 3 :]))
CUSTOMERS, MONTH = range(1, COMMANDS + 1), "2026-11"


def by_commands(store: Path) -> bytes:
    return b"".join(
        subprocess.run(
            [PROGRAM, "sheet", str(customer), MONTH, "--db", store],
            stdout=subprocess.PIPE,
            check=True,
        ).stdout
        for customer in CUSTOMERS
    )


def by_one(store: Path) -> bytes:
    queries = "".join(
        f"GET /inventory/{customer}/{MONTH} HTTP/1.1\r\n\r\n" for customer in CUSTOMERS
    )
    text = subprocess.run(
        [PROGRAM, "apply", "--db", store],
        input=queries.encode(),
        stdout=subprocess.PIPE,
        check=True,
    ).stdout
    return re.sub(rb"HTTP/1\.1 200 OK\r\n(?:[^\r\n]+\r\n)*\r\n", b"", text)


def measured(way: Callable[[Path], bytes], store: Path) -> tuple[bytes, float, float, float]:
    """What it printed, seconds by the clock and of the processor, and megabytes of memory at most, in a process of its own."""
    reading, writing = os.pipe()
    begun = time.monotonic()
    if (child := os.fork()) == 0:
        with open(writing, "wb") as file:
            file.write(way(store))
        os._exit(0)
    os.close(writing)
    with open(reading, "rb") as file:
        text = file.read()
    _, status, usage = os.wait4(child, 0)
    assert status == 0
    return text, time.monotonic() - begun, usage.ru_utime + usage.ru_stime, usage.ru_maxrss / 1000


FOLDER.mkdir()
STORE = FOLDER / "day.db"
made(PROGRAM, STORE, BONDS)
print(
    "| Sheets of customers | Seconds | Seconds of the processor | Memory at most |\n|---|---|---|---|"
)
texts = []
for name, way in (
    ("by `apply`, all in one command", by_one),
    ("by `sheet`, a command each", by_commands),
):
    text, clock, processor, memory = measured(way, STORE)
    texts.append(text)
    print(f"| {COMMANDS} {name} | {clock:,.0f} | {processor:,.0f} | {memory:,.0f} MB |", flush=True)
assert (
    texts[0] == texts[1] and texts[0].count(b"Total") == COMMANDS
), "both ways print the same bytes"
assert texts[0] != by_one(STORE).replace(b"Total", b"total", 1), "a byte that differs is seen"
