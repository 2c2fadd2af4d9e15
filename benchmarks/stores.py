"""Makes large stores by the counter's own imports, sent to one `serve`, which opens the store once."""
from __future__ import annotations

import contextlib
import socket
import subprocess
import sys
import time
from pathlib import Path
from typing import Iterator

from asking import DENOMS, ISSUES, entered, post, Bonds

#: Bonds of a customer.
EACH = 10


class Served:
    """`serve` over a store, and one connection to it at a time."""

    def __init__(self, program: str, store: Path) -> None:
        with socket.socket() as free:
            free.bind(("127.0.0.1", 0))
            self.port: int = free.getsockname()[1]
        self.process = subprocess.Popen(
            [program, "serve", "--db", store, "--port", str(self.port)], stdout=subprocess.DEVNULL
        )
        self.client, self.left = self.connected(), 900

    def connected(self) -> socket.socket:
        while self.process.poll() is None:
            with contextlib.suppress(OSError):
                client = socket.create_connection(("127.0.0.1", self.port))
                client.setsockopt(socket.IPPROTO_TCP, socket.TCP_NODELAY, 1)
                return client
            time.sleep(0.02)
        sys.exit(f"`serve` ended with status {self.process.returncode}")

    def ask(self, message: bytes) -> bytes:
        """The response, which has to be a 200."""
        if self.left == 0:
            self.client.close()
            self.client, self.left = self.connected(), 900
        self.left -= 1
        self.client.sendall(message)
        text = self.client.recv(1 << 20)
        while (end := text.find(b"\r\n\r\n")) < 0 or len(text) < end + 4 + int(
            text[text.index(b"Length: ") + 8 : text.index(b"\r\n", text.index(b"Length: "))]
        ):
            more = self.client.recv(1 << 20)
            assert more, text
            text += more
        assert text.startswith(b"HTTP/1.1 200 OK"), text
        return text

    def busy(self) -> float:
        """Seconds of the processor so far."""
        return int(Path(f"/proc/{self.process.pid}/schedstat").read_text().split()[0]) / 1e9

    def memory(self) -> int:
        """Kilobytes of memory at most."""
        return int(
            Path(f"/proc/{self.process.pid}/status").read_text().split("VmHWM:")[1].split()[0]
        )

    def end(self) -> None:
        self.client.close()
        self.process.terminate()
        self.process.wait()


@contextlib.contextmanager
def served(program: str, store: Path) -> Iterator[Served]:
    server = Served(program, store)
    try:
        yield server
    finally:
        server.end()


def bonds(first: int, last: int) -> Bonds:
    return [
        {
            "serial": f"A{n}EE",
            "denom": DENOMS[n % 8],
            "issued": ISSUES[n % 72],
            "owner": (n - 1) // EACH + 1,
        }
        for n in range(first, last + 1)
    ]


def made(program: str, store: Path, count: int) -> None:
    """Makes a store of as many unpaid bonds, ten of a customer, and writes its log back."""
    with served(program, store) as server:
        server.ask(
            post(
                "/rates",
                {
                    "number": 1,
                    "rates": [
                        {
                            "from": f"{2005 + half // 2}-{5 + half % 2 * 6:02}",
                            "rate": f"{1 + half % 4}.{half:02}",
                        }
                        for half in range(20)
                    ],
                },
            )
        )
        for first in range(1, count + 1, 500):
            for message in entered(10 + first // 500, bonds(first, min(first + 499, count))):
                server.ask(message)
    subprocess.run(
        [program, "export", "999999999", "--db", store], stdout=subprocess.DEVNULL, check=True
    )
