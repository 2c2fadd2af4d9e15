#!/usr/bin/env python3
"""How long the built counter takes to refuse lists that are too long. Usage: long_lists.py PROGRAM [ROUNDS]. Each request is timed at the client, from its first byte
to the last of its response, over one connection to `serve`: with a new number, and again under it. It prints a table of medians, with the least and most, in milliseconds."""
from __future__ import annotations

import json, os, socket, subprocess, sys, tempfile, time
from statistics import median
from typing import Sequence

program = os.path.abspath(sys.argv[1])
rounds = int(sys.argv[2]) if len(sys.argv) > 2 else 15
store = os.path.join(tempfile.mkdtemp(), "day.db")
with socket.socket() as free:
    free.bind(("127.0.0.1", 0))
    port = free.getsockname()[1]
server = subprocess.Popen(
    [program, "serve", "--db", store, "--port", str(port)], stdout=subprocess.DEVNULL
)
time.sleep(0.5)
number = 0

RATES = [{"from": "2010-11", "rate": "3.50"}] * 31_774
BONDS = [
    {"serial": f"A{n}EE", "denom": 50, "issued": "2010-11", "owner": 7} for n in range(1, 17_091)
]
SERIALS = [f"A{n}EE" for n in range(1, 96_329)]
#: Path, the key of the list, its rows, and how many are allowed.
LISTS: list[tuple[str, str, Sequence[object], int]] = [
    ("/rates", "rates", RATES, 500),
    ("/bonds", "bonds", BONDS, 500),
    ("/redeem", "serials", SERIALS, 100),
]


def timed(client: socket.socket, stream: bytes) -> float:
    begun = time.perf_counter()
    client.sendall(stream)
    answer = b""
    while not answer.endswith(b"}"):
        answer += client.recv(4096)
    assert answer.endswith(b'{"code":12,"refused":"TooMany"}'), answer
    return (time.perf_counter() - begun) * 1000


def message(path: str, value: object) -> bytes:
    body = json.dumps(value, separators=(",", ":")).encode()
    assert len(body) <= 1_048_576
    return b"POST %s HTTP/1.1\r\nContent-Length: %d\r\n\r\n%s" % (path.encode(), len(body), body)


def told(times: list[float]) -> str:
    return f"{median(times):.0f} ({min(times):.0f} to {max(times):.0f})"


print("| Request | Rows | Bytes | New | Again |\n|---|---|---|---|---|")
try:
    with socket.create_connection(("127.0.0.1", port)) as client:
        for path, key, rows, most in LISTS:
            for count in (most + 1, 16_384, len(rows)):
                new: list[float] = []
                again: list[float] = []
                for _ in range(rounds):
                    number += 1
                    value = {
                        "number": number,
                        **({"day": "2012-02-06", "payee": 7} if key == "serials" else {}),
                        key: rows[:count],
                    }
                    stream = message(path, value)
                    new.append(timed(client, stream))
                    again.append(timed(client, stream))
                print(
                    f"| {path} | {count:,} | {len(stream):,} | {told(new)} | {told(again)} |",
                    flush=True,
                )
finally:
    server.kill()
