#!/usr/bin/env python3
"""Compares the counter with others that do the same work: peers.py PROGRAM FOLDER [BONDS [ROUNDS [KIND]]]. FOLDER, which is made, is where the stores lie: in /dev/shm a sync costs nothing, on a disk every
commit waits for one. BONDS (1,000) is how many bonds of other owners are in the store, and ROUNDS is 8 and at most 8, since a day has 1,000 tickets. With `writes` as
KIND only what writes is measured. It needs cc and SQLite's header and library.

The others are peer.c, with SQLite's default pages and as the best that we could write, and server.py, in Python with its standard library. All make their stores by the same requests (Python has a
copy). In every round every server is asked the same requests over one connection that stays, kind by kind, in an order that turns from round to round. Every response of another has to be the
counter's, byte for byte, and in the end the tables of the stores in C have the counter's rows.

It prints medians (leasts) over the rounds, in microseconds of the server's processor per response, of all its threads: other work on the machine disturbs these less than the time at the client. A
ratio is the other's median divided by the counter's: below 1 the other is faster."""
from __future__ import annotations

import contextlib
import os
import socket
import sqlite3
import subprocess
import sys
import time
from pathlib import Path
from statistics import median
from typing import Sequence

sys.dont_write_bytecode = True

from asking import (
    HALF_PAID,
    HUNDRED,
    IMPORT,
    LISTS,
    MANY,
    MANY_AGAIN,
    ONE,
    ONE_AGAIN,
    PAYEE,
    TEN,
    TWO_THOUSAND,
    VALUE,
    Bonds,
    beginning,
    bonds_of,
    built_peer,
    entered,
    inventory,
    redemption,
    value,
)  # noqa: E402

PROGRAM, FOLDER = os.path.abspath(sys.argv[1]), Path(sys.argv[2])
BONDS, ROUNDS = (int(word) for word in (sys.argv[3:5] + ["1000", "8"][len(sys.argv[3:5]) :]))
WRITES = sys.argv[5:] == ["writes"]
assert 1 <= ROUNDS <= 8
COUNTER, PYTHON = "The counter", "Python"
#: Requests of a round.
SINGLE, MANY_TICKETS, IMPORTS = 100, 10, 3
QUERIES = {TEN: 50, HUNDRED: 30, TWO_THOUSAND: 5, HALF_PAID: 20}
TABLES = ("desk", "rates", "extensions", "bonds", "tickets", "paid", "batches", "answers")


class Server:
    def __init__(self, name: str, words: list[str]) -> None:
        self.name, self.store = name, FOLDER / f"{name.replace(' ', '')}.db"
        with socket.socket() as free:
            free.bind(("127.0.0.1", 0))
            self.port: int = free.getsockname()[1]
        self.process = subprocess.Popen(
            [word.format(store=self.store, port=self.port) for word in words],
            stdout=subprocess.DEVNULL,
        )

    def connected(self) -> socket.socket:
        for _ in range(500):
            try:
                client = socket.create_connection(("127.0.0.1", self.port))
                client.setsockopt(socket.IPPROTO_TCP, socket.TCP_NODELAY, 1)
                return client
            except OSError:
                time.sleep(0.02)
        sys.exit(f"peers.py: {self.name} doesn't listen")

    def busy(self) -> float:
        """Microseconds of the processor so far, of all threads."""
        return (
            sum(
                int(file.read_text().split()[0])
                for file in Path(f"/proc/{self.process.pid}/task").glob("*/schedstat")
            )
            / 1000
        )

    def asked(self, messages: list[bytes]) -> tuple[list[bytes], float]:
        """The responses, and microseconds of the processor for one of them."""
        with self.connected() as client:
            whole_answer(client, value(0))  # the connection is taken before the clock starts
            busy = self.busy()
            answers = [whole_answer(client, message) for message in messages]
            return answers, (self.busy() - busy) / len(messages)

    def fed(self, messages: list[bytes]) -> None:
        for first in range(0, len(messages), 900):
            with self.connected() as client:
                for message in messages[first : first + 900]:
                    answer = whole_answer(client, message)
                    assert answer.startswith(b"HTTP/1.1 200 OK"), (self.name, message[:200], answer)

    def end(self) -> None:
        self.process.kill()
        self.process.wait()


def whole_answer(client: socket.socket, message: bytes) -> bytes:
    client.sendall(message)
    text = client.recv(1 << 20)
    while (end := text.find(b"\r\n\r\n")) < 0 or len(text) < end + 4 + int(
        text[text.index(b"Length: ") + 8 : text.index(b"\r\n", text.index(b"Length: "))]
    ):
        more = client.recv(1 << 20)
        assert more, text
        text += more
    return text


def kinds(place: int) -> dict[str, list[bytes]]:
    """The requests of a round, by their kinds."""
    single = range(place * SINGLE + 1, (place + 1) * SINGLE + 1)
    tickets = range(
        SINGLE * ROUNDS + place * MANY_TICKETS * 100 + 1,
        SINGLE * ROUNDS + (place + 1) * MANY_TICKETS * 100,
        100,
    )
    new: Bonds = bonds_of(PAYEE, "G", place * IMPORTS * 500 + 1, (place + 1) * IMPORTS * 500)
    found = {
        VALUE: [value(n) for n in range(200)],
        ONE: (ones := [redemption(100_000 + n, PAYEE, "F", n, n) for n in single]),
        ONE_AGAIN: ones,
        MANY: (many := [redemption(200_000 + n, PAYEE, "F", n, n + 99) for n in tickets]),
        MANY_AGAIN: many,
        **{name: [inventory(owner)] * QUERIES[owner] for name, owner in LISTS.items()},
        IMPORT: entered(3_000_000 + place * 10_000, new),
    }
    return {
        kind: messages
        for kind, messages in found.items()
        if not WRITES or kind in (ONE, MANY, IMPORT)
    }


def differing(answers: Sequence[bytes], others: Sequence[bytes]) -> list[int]:
    """The places at which responses differ."""
    assert len(answers) == len(others)
    return [place for place, (answer, other) in enumerate(zip(answers, others)) if answer != other]


def compare(kind: str, got: dict[str, tuple[list[bytes], float]]) -> None:
    ours = got[COUNTER][0]
    for name, (answers, _) in got.items():
        for place in differing(ours, answers):
            sys.exit(
                f"peers.py: {kind}: the counter answers\n{ours[place]!r}\n{name}:\n{answers[place]!r}"
            )
    assert all(answer.startswith(b"HTTP/1.1 200 OK") for answer in ours), kind
    assert differing(ours, [*ours[:-1], ours[-1] + b" "]) == [
        len(ours) - 1
    ], "a response that differs is seen"


def rows(store: Path) -> list[list[tuple[object, ...]]]:
    with contextlib.closing(sqlite3.connect(store)) as books:
        return [
            sorted(books.execute(f"SELECT * FROM {table}").fetchall(), key=repr) for table in TABLES
        ]


def cell(figures: Sequence[float]) -> str:
    return f"{median(figures):,.0f} ({min(figures):,.0f})"


def printed(figures: dict[str, dict[str, list[float]]], names: list[str]) -> None:
    print(
        f"{BONDS:,} bonds, {ROUNDS} rounds, stores in {FOLDER}, load of the machine {os.getloadavg()[0]:.1f}\n"
    )
    heads = [head for name in names for head in ([name] if name == COUNTER else [name, "Ratio"])]
    print(f"| Response | {' | '.join(heads)} |\n|{'---|' * (len(heads) + 1)}")
    for kind, runs in figures.items():
        cells = [cell(runs[COUNTER])]
        for name in names[1:]:
            cells += (
                [cell(runs[name]), f"{median(runs[name]) / median(runs[COUNTER]):.2f}"]
                if name in runs
                else ["", ""]
            )
        print(f"| {kind} | {' | '.join(cells)} |")


FOLDER.mkdir()
PEER = built_peer(FOLDER)
servers = [
    Server(COUNTER, [PROGRAM, "serve", "--db", "{store}", "--port", "{port}"]),
    Server("C, default pages", [PEER, "serve", "{store}", "{port}", "default"]),
    Server("C, the best", [PEER, "serve", "{store}", "{port}", "best"]),
]
try:
    for server in servers:
        server.fed(beginning(BONDS, ROUNDS * (SINGLE + 100 * MANY_TICKETS)))
    with contextlib.closing(sqlite3.connect(servers[1].store)) as made, contextlib.closing(
        sqlite3.connect(FOLDER / f"{PYTHON}.db")
    ) as copy:
        made.backup(copy)
    servers.append(
        Server(
            PYTHON,
            [sys.executable, str(Path(__file__).with_name("server.py")), "{store}", "{port}"],
        )
    )
    figures: dict[str, dict[str, list[float]]] = {}
    for place in range(ROUNDS):
        for turn, (kind, messages) in enumerate(kinds(place).items()):
            first = (place + turn) % len(servers)
            got = {
                server.name: server.asked(messages)
                for server in servers[first:] + servers[:first]
                if (kind, server.name) != (IMPORT, PYTHON)
            }
            compare(kind, got)
            for name, (_, busy) in got.items():
                figures.setdefault(kind, {}).setdefault(name, []).append(busy)
    for server in servers:
        server.end()
    ours, *others = (rows(server.store) for server in servers[:3])
    assert all(other == ours for other in others), "the tables in C have the counter's rows"
    printed(figures, [server.name for server in servers])
finally:
    for server in servers:
        server.end()
