"""Clients that do harm to `serve`, and CONNECTIONS connections that leave its memory as it was."""

import contextlib
import os
import re
import select
import socket
import subprocess
import time
from pathlib import Path
from typing import Any, Callable, Iterator

import pytest

from tests.shared.counter_calls import BONDS, RATES, answered, apply, end, free_port, get, matched
from tests.shared.counter_calls import piped, post, redeem, serve

#: The seconds after which `serve` lets a client go.
PATIENCE = 30
DAY = "2012-02-06"
BEGUN = [
    post("/rates", {"number": 1, "rates": RATES}, b""),
    post("/bonds", {"number": 2, "bonds": BONDS[:3]}, b""),
    post("/day/open", {"number": 3, "day": DAY}, b""),
]
TICKET, REDEEM = get("/ticket/1", b""), redeem(0, 4, DAY, 7, "L1EE")


class Server:
    def __init__(self, program: Path, store: Path, connections: int) -> None:
        self.port, words = free_port(), ("--connections", str(connections))
        self.process = serve(program, store, self.port, *words, stdout=subprocess.PIPE)

    def connect(self) -> socket.socket:
        client = socket.socket()
        client.setsockopt(socket.SOL_SOCKET, socket.SO_RCVBUF, 4096)
        client.connect(("127.0.0.1", self.port))
        return client

    def ask(self, stream: bytes) -> bytes:
        text = b""
        with self.connect() as client:
            client.sendall(stream)
            client.shutdown(socket.SHUT_WR)
            try:
                while more := client.recv(65536):
                    text += more
            except ConnectionResetError:
                text += b"RESET"
        return text

    def line(self) -> str:
        return str(piped(self.process.stdout).readline()).strip()


#: A server for that many connections.
MakeServer = Callable[[int], Server]


@pytest.fixture
def store(program: Path, folder: Path) -> Path:
    assert [status for status, _ in apply(program, folder / "day.db", BEGUN)] == [200] * 3
    return folder / "day.db"


@pytest.fixture
def server(program: Path, store: Path) -> Iterator[MakeServer]:
    with contextlib.ExitStack() as made:

        def begin(connections: int) -> Server:
            one = Server(program, store, connections)
            made.callback(end, one.process)
            return one

        yield begin


def send_nothing(server: Server, client: socket.socket) -> None:
    pass


def trickle(server: Server, client: socket.socket) -> None:
    """A byte now and then: every wait is short, and the whole is long."""
    with contextlib.suppress(OSError):
        for byte in REDEEM:
            client.sendall(bytes([byte]))
            time.sleep(2)


def hardly_read(server: Server, client: socket.socket) -> None:
    """Takes 16 bytes a second of sheets of 90 kilobytes."""
    client.sendall(get("/inventory/7/2012-02", b"") * 200)
    for _ in range(60):
        if not select.select([server.process.stdout], [], [], 0)[0]:
            client.recv(16)
            time.sleep(1)


@pytest.mark.slow
@pytest.mark.parametrize("behave", [send_nothing, trickle, hardly_read])
def test_slow_client_is_let_go(
    program: Path, store: Path, server: MakeServer, behave: Callable[[Server, socket.socket], None]
) -> None:
    bonds = [dict(BONDS[0], serial=f"A{n}EE") for n in range(1, 501)]
    apply(program, store, [post("/bonds", {"number": 9, "bonds": bonds}, b"")])
    one, fault = server(2), "Write" if behave is hardly_read else "Read"
    with one.connect() as client:
        begun = time.time()
        behave(one, client)
        assert re.fullmatch(rf"connection 1: \d+ messages, {fault}Failed", one.line())
    assert PATIENCE - 1 < time.time() - begun < PATIENCE + 8
    assert b'"fault":"NotFound"' in one.ask(TICKET), "the next client is answered"
    assert one.process.wait(120) == 0


def test_quick_client_is_kept(server: MakeServer) -> None:
    """Control: a client that sends and reads at once isn't let go."""
    one = server(1)
    assert b'"fault":"NotFound"' in one.ask(TICKET)
    assert one.line() == "connection 1: 1 messages, Closed"


def test_in_one_go(server: MakeServer) -> None:
    """Of 1,500 messages in one go 1,000 answers arrive, and the connection ends by its limit."""
    one = server(1)
    text = one.ask(TICKET * 1500)
    assert text.count(b"HTTP/1.1 404 Not Found") == 1000 and not text.endswith(b"RESET")
    assert one.line() == "connection 1: 1000 messages, Limit"


@pytest.mark.parametrize("size", [2_000_000, 30_000_000])
def test_long_body(server: MakeServer, size: int) -> None:
    """The answer to a body that is too long arrives."""
    head = b"POST /rates HTTP/1.1\r\nContent-Length: %d\r\n\r\n" % size
    text = server(1).ask(head + b"a" * size)
    assert text.startswith(b"HTTP/1.1 413 ")
    assert text.endswith(b'{"code":62,"fault":"BodyTooLong"}'), text[-200:]


CONNECTIONS, MOST = int(os.environ.get("CONNECTIONS", "5000")), 1024


def growth(process: int, connect: Callable[[], object]) -> int:
    """By how many resident kilobytes a process grows from a tenth of the connections on."""
    found = []
    for count in (CONNECTIONS // 10, CONNECTIONS - CONNECTIONS // 10):
        for _ in range(count):
            connect()
        status = Path(f"/proc/{process}/status").read_text()
        found.append(int(matched(r"VmRSS:\s*(\d+) kB", status)[1]))
    return found[1] - found[0]


def test_memory_stays(program: Path, store: Path) -> None:
    port = free_port()
    process = serve(program, store, port)

    def connect() -> None:
        status, body = answered(port, get("/value/50/2010-11/2015-11"))
        assert status == 200 and '"value":"29.74"' in body, body

    try:
        assert growth(process.pid, connect) <= MOST and process.poll() is None
    finally:
        end(process)


def test_a_leak_is_found() -> None:
    """Control: a process that keeps two kilobytes of every connection."""
    leaking = "kept = []\nwhile input(): kept.append(bytes(2048)); print(flush=True)"
    pipes: dict[str, Any] = {"stdin": subprocess.PIPE, "stdout": subprocess.PIPE, "text": True}
    with subprocess.Popen(["python3", "-c", leaking], **pipes) as process:

        def connect() -> None:
            piped(process.stdin).write("x\n")
            piped(process.stdin).flush()
            piped(process.stdout).readline()

        connect()
        assert growth(process.pid, connect) > MOST
        process.kill()
