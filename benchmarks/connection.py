#!/usr/bin/env python3
"""Requests a second on one connection over loopback, of the program in crates/ee_cli/out.
Usage: connection.py PROGRAM FOLDER [BONDS]. It makes a store in FOLDER, enters BONDS bonds (1,000 without the argument), and serves connections of
900 messages each: redemptions of one bond, then values, then inventories. It waits for each answer before the next request."""
from __future__ import annotations

import json, os, socket, subprocess, sys, time

program, folder, bonds = sys.argv[1], sys.argv[2], int(sys.argv[3]) if len(sys.argv) > 3 else 1000
store, port, count = os.path.join(folder, "bench.db"), 8399, 900


def connect() -> socket.socket:
    for _ in range(200):
        try:
            return socket.create_connection(("127.0.0.1", port))
        except OSError:
            time.sleep(0.02)
    sys.exit("no server")


def ask(connection: socket.socket, message: bytes, first: bytes = b"HTTP/1.1 200") -> bytes:
    connection.sendall(message)
    got = b""
    while b"\r\n\r\n" not in got:
        got += connection.recv(65536)
    head, body = got.split(b"\r\n\r\n", 1)
    length = next(
        int(line.split(b":")[1])
        for line in head.split(b"\r\n")
        if line.lower().startswith(b"content-length")
    )
    while len(body) < length:
        body += connection.recv(65536)
    if not head.startswith(first):
        sys.exit(f"{head!r} {body!r}")
    return body


def post(path: str, value: object) -> bytes:
    body = json.dumps(value, separators=(",", ":")).encode()
    return b"POST %s HTTP/1.1\r\nContent-Length: %d\r\n\r\n%s" % (path.encode(), len(body), body)


def get(path: str) -> bytes:
    return b"GET %s HTTP/1.1\r\n\r\n" % path.encode()


def served(name: str | None, messages: list[bytes]) -> None:
    connection = connect()
    connection.setsockopt(socket.IPPROTO_TCP, socket.TCP_NODELAY, 1)
    start = time.perf_counter()
    for message in messages:
        ask(connection, message)
    took = time.perf_counter() - start
    connection.close()
    if name:
        print(
            f"{name}: {took / len(messages) * 1e6:.0f} microseconds a request, {len(messages) / took:.0f} a second"
        )


rows = [
    {"serial": f"A{i}EE", "denom": 50, "issued": "2010-05", "owner": i // 100 + 1}
    for i in range(1, bonds + 1)
]
imports = [
    post("/bonds", {"number": 2 + i // 500, "bonds": rows[i : i + 500]})
    for i in range(0, bonds, 500)
]
setup = [
    post("/rates", {"number": 1, "rates": [{"from": "2010-05", "rate": "3.50"}]}),
    *imports,
    post("/day/open", {"number": 10**9, "day": "2015-05-04"}),
]
groups = [setup[i : i + count] for i in range(0, len(setup), count)]
step = max(bonds // count, 1)
redemptions = [
    post(
        "/redeem",
        {
            "number": 2 * 10**9 + i,
            "day": "2015-05-04",
            "payee": (i * step + 1) // 100 + 1,
            "serials": [f"A{i * step + 1}EE"],
        },
    )
    for i in range(min(count, bonds))
]
values = [get("/value/50/2010-05/2015-05") for _ in range(count)]
sheets = [get(f"/inventory/{i * step // 100 + 1}/2015-05") for i in range(count)]

server = subprocess.Popen(
    [program, "serve", "--db", store, "--port", str(port), "--connections", str(len(groups) + 4)],
    stdout=subprocess.DEVNULL,
)
for group in groups:
    served(None, group)
print(f"{bonds} bonds")
served("redemptions", redemptions)
served("the same again", redemptions)
served("values", values)
served("inventories", sheets)
server.wait()
