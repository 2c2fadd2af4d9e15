"""The package's own gate, between nginx and `serve`, and a relay between a browser and nginx."""

import contextlib
import queue
import socket
import struct
import threading
import time
from typing import Callable, Iterator

from ee_counter_client.testing import gate


class Gate(gate.Gate):
    """Its faults meet POSTs: the first `passes` of them meet none. A lost answer calls `cut`, too. `changed` is a function of each GET's path and answer, which returns the answer that the client is given."""

    passes = 0
    changed: Callable[[str, bytes], bytes] | None = None
    cut: Callable[[], object] | None = None

    @contextlib.contextmanager
    def changes(self, path: str, change: Callable[[bytes], bytes]) -> Iterator[None]:
        """Meanwhile answers to GETs of paths that begin so are changed."""
        self.changed = lambda asked, text: change(text) if asked.startswith(path) else text
        yield
        self.changed = None

    def posts(self) -> list[str]:
        return [head.split(b" ", 2)[1].decode() for head in self.heads if head[:5] == b"POST "]

    def fault_of(self, message: bytes) -> str | None:
        if not self.passes or not message.startswith(b"POST "):
            return super().fault_of(message)
        self.passes -= 1
        faults, self.faults = self.faults, []
        super().fault_of(message)
        self.faults = faults
        return None

    def harm(self, client: socket.socket, fault: str, text: bytes) -> None:
        if fault == "lost answer" and self.cut is not None:
            self.cut()
        super().harm(client, fault, text)

    def answered(self, message: bytes) -> bytes:
        method, path, _ = message.split(b" ", 2)
        text = super().answered(message)
        return self.changed(path.decode(), text) if self.changed and method == b"GET" else text


class Relay:
    """Passes bytes on to a port, and can break every connection at once. As on a long line, a connection may take `first` seconds to come about, and `each` byte some on its way."""

    def __init__(self, port: int, first: float = 0.0, each: float = 0.0) -> None:
        self.to, self.first, self.each, self.lock = port, first, each, threading.Lock()
        self.clients: list[socket.socket] = []
        self.listener = socket.create_server(("127.0.0.1", 0), backlog=100)
        self.port: int = self.listener.getsockname()[1]
        threading.Thread(target=self.listen, daemon=True).start()

    def listen(self) -> None:
        while True:
            client, _ = self.listener.accept()
            with self.lock:
                self.clients.append(client)
            threading.Thread(target=self.connect, args=(client,), daemon=True).start()

    def connect(self, client: socket.socket) -> None:
        time.sleep(self.first)
        server = socket.create_connection(("127.0.0.1", self.to))
        for one, other in ((client, server), (server, client)):
            sent: queue.Queue[tuple[float, bytes]] = queue.Queue()
            threading.Thread(target=self.take, args=(one, sent), daemon=True).start()
            threading.Thread(target=self.give, args=(other, sent), daemon=True).start()

    def take(self, one: socket.socket, sent: queue.Queue[tuple[float, bytes]]) -> None:
        data = b"-"
        while data:
            try:
                data = one.recv(65536)
            except OSError:
                data = b""
            sent.put((time.monotonic() + self.each, data))

    @staticmethod
    def give(other: socket.socket, sent: queue.Queue[tuple[float, bytes]]) -> None:
        with contextlib.suppress(OSError):
            while True:
                moment, data = sent.get()
                time.sleep(max(0.0, moment - time.monotonic()))
                if not data:
                    break
                other.sendall(data)
            other.shutdown(socket.SHUT_WR)

    def cut(self) -> None:
        """Resets each connection of the browser, as a machine in between does that loses its memory of them."""
        with self.lock:
            clients, self.clients = self.clients, []
        for client in clients:
            client.setsockopt(socket.SOL_SOCKET, socket.SO_LINGER, struct.pack("ii", 1, 0))
            with contextlib.suppress(OSError):
                client.shutdown(socket.SHUT_RD)
            client.close()
