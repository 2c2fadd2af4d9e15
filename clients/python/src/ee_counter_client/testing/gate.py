"""A gate between a client and a counter. It passes messages on, and does harm to those that a test names, at an exact place.

A fault is done to the next POST:

  lost request    the message is dropped before it reaches the counter
  killed before   `kill` is called, and the message dropped
  killed after    the counter has committed and answered; `kill` is called, and the answer dropped
  lost answer     the counter has committed and answered, and the answer is dropped
  cut answer      the answer is cut in its middle
  failed after    the counter has committed, and 503 StoreFailed is answered
  failed before   503 NoMemory is answered, and nothing reaches the counter
  other page      the message is dropped, and another program answers with its own page
  no gateway      the message is dropped, and 502 is answered, as by nginx without its counter
  redirect        the message is dropped, and 302 to another address is answered
  too many        the message is dropped, and 429 is answered, as by nginx, which limits requests
  proxy page      the message is dropped, and 403 is answered with a page of another proxy
  damaged         the message is dropped, and answered as one that was cut
  silent          the counter has committed, and no answer comes until the client goes
  dripping        the counter has committed, and its answer comes a byte in every `drip` seconds

One ends the call, and the request stays open:

  no certificate  the message is dropped, and 400 is answered, as by nginx without a valid certificate of the staff

Two more answer one sending alone. They are final on the first sending of a request, and tell nothing on a later one:

  not json        the message is dropped, and 400 BadJson is answered, as if something had emptied it
  forbidden       the message is dropped, and 403 is answered, as by nginx if this user may not do it
"""
from __future__ import annotations

import socket
import threading
import time
from types import TracebackType
from typing import Callable, List, Optional, Type, Union

from .fake import FakeCounter

PAGE = b"<html><body>Please sign in to this network.</body></html>"


def response(status: bytes, kind: bytes, body: bytes, more: bytes = b"") -> bytes:
    """The bytes of a response."""
    return (
        b"HTTP/1.1 %s\r\nContent-Type: %s\r\nContent-Length: %d\r\nConnection: close\r\n%s\r\n%s"
        % (status, kind, len(body), more, body)
    )


JSON, HTML = b"application/json", b"text/html"
STANDING = {
    "failed after": response(
        b"503 Service Unavailable", JSON, b'{"code":2,"unserved":"StoreFailed"}'
    ),
    "failed before": response(
        b"503 Service Unavailable", JSON, b'{"code":1,"unserved":"NoMemory"}'
    ),
    "other page": response(b"200 OK", HTML, PAGE),
    "no gateway": response(b"502 Bad Gateway", JSON, b'{"unavailable":"counter"}'),
    "redirect": response(
        b"302 Found", HTML, PAGE, b"Location: https://elsewhere.example/login\r\n"
    ),
    "too many": response(b"429 Too Many Requests", JSON, b'{"forbidden":"rate"}'),
    "proxy page": response(b"403 Forbidden", HTML, PAGE),
    "no certificate": response(
        b"400 Bad Request", JSON, b'{"forbidden":"certificate","message":"No certificate."}'
    ),
    "damaged": response(b"400 Bad Request", JSON, b'{"code":68,"fault":"Truncated"}'),
    "not json": response(b"400 Bad Request", JSON, b'{"code":64,"fault":"BadJson"}'),
    "forbidden": response(b"403 Forbidden", JSON, b'{"forbidden":"group"}'),
}
#: Those under which the counter commits the request.
AFTER = ("killed after", "lost answer", "cut answer", "failed after", "silent", "dripping")
#: Those under which the request doesn't reach the counter.
BEFORE = (
    "lost request",
    "killed before",
    "failed before",
    "other page",
    "no gateway",
    "redirect",
    "too many",
    "proxy page",
    "damaged",
)
#: The one that ends a call, and leaves its request open. The request doesn't reach the counter.
ENDING = ("no certificate",)
#: Those that are final on a first sending. The request doesn't reach the counter either.
OF_ONE_SENDING = ("not json", "forbidden")
FAULTS = AFTER + BEFORE + ENDING + OF_ONE_SENDING


def whole_message(client: socket.socket) -> bytes:
    """Reads one message, head and body. Nothing if the client went before its end."""
    text = b""
    while b"\r\n\r\n" not in text:
        more = client.recv(65536)
        if not more:
            return b""
        text += more
    head, _, body = text.partition(b"\r\n\r\n")
    lengths = [
        line.split(b":")[1]
        for line in head.split(b"\r\n")
        if line.lower().startswith(b"content-length:")
    ]
    while len(body) < (int(lengths[0]) if lengths else 0):
        more = client.recv(65536)
        if not more:
            return b""
        body += more
    return head + b"\r\n\r\n" + body


def all_of(server: socket.socket) -> bytes:
    """Reads until the other side ends."""
    text = b""
    while more := server.recv(65536):
        text += more
    return text


class Gate:
    """Listens on a port of its own, before `counter`: a FakeCounter, or the port of a counter on this machine.

    `faults` are done to the next POSTs, one to each. If `is_wide`, they are done to GETs too. `met` are those that were done; `heads` and `bodies` what came.
    `kill` is called by the two faults that kill."""

    def __init__(
        self, counter: Union[FakeCounter, int], kill: Optional[Callable[[], None]] = None
    ) -> None:
        self.to = counter if isinstance(counter, int) else counter.port
        self.kill: Callable[[], None] = kill or (lambda: None)
        self.faults: List[str] = []
        self.met: List[str] = []
        self.bodies: List[bytes] = []
        self.heads: List[bytes] = []
        self.is_wide = False
        self.drip = 0.1
        self.lock = threading.Lock()
        self.listener = socket.create_server(("127.0.0.1", 0), backlog=2000)
        self.port: int = self.listener.getsockname()[1]
        self.address = f"http://127.0.0.1:{self.port}"
        threading.Thread(target=self.listen, daemon=True).start()

    def __enter__(self) -> "Gate":
        return self

    def __exit__(
        self,
        kind: Optional[Type[BaseException]],
        error: Optional[BaseException],
        trace: Optional[TracebackType],
    ) -> None:
        self.close()

    def close(self) -> None:
        """Stops listening."""
        try:
            self.listener.shutdown(socket.SHUT_RDWR)
        except OSError:
            pass
        self.listener.close()

    def listen(self) -> None:
        """Takes every connection, until it is closed."""
        while True:
            try:
                client, _ = self.listener.accept()
            except OSError:
                return
            threading.Thread(target=self.serve_one, args=(client,), daemon=True).start()

    def serve_one(self, client: socket.socket) -> None:
        """Passes one message on."""
        with client:
            try:
                message = whole_message(client)
                if message:
                    self.pass_on(client, message)
            except OSError:
                pass

    def fault_of(self, message: bytes) -> Optional[str]:
        """The fault that this message meets."""
        with self.lock:
            head, _, body = message.partition(b"\r\n\r\n")
            self.heads.append(head)
            is_post = message.startswith(b"POST ")
            if is_post:
                self.bodies.append(body)
            if not self.faults or not (is_post or self.is_wide):
                return None
            fault = self.faults.pop(0)
            if fault not in FAULTS:
                raise ValueError(f"{fault!r} is no fault of the gate")
            self.met.append(fault)
            return fault

    def pass_on(self, client: socket.socket, message: bytes) -> None:
        """Passes a message on, with the harm that it meets."""
        fault = self.fault_of(message)
        if fault == "killed before":
            self.kill()
        if fault in BEFORE + ENDING + OF_ONE_SENDING:
            client.sendall(STANDING.get(str(fault), b""))
            return
        text = self.answered(message)
        if fault is None:
            client.sendall(text)
        elif text:
            self.harm(client, fault, text)
        else:
            with self.lock:
                self.faults.insert(0, self.met.pop())

    def harm(self, client: socket.socket, fault: str, text: bytes) -> None:
        """Does the harm that comes after the commit."""
        if fault == "killed after":
            self.kill()
        elif fault == "cut answer":
            client.sendall(text[: len(text) - 20])
        elif fault == "failed after":
            client.sendall(STANDING[fault])
        elif fault == "silent":
            client.settimeout(120)
            client.recv(1)
        elif fault == "dripping":
            for place in range(len(text)):
                client.sendall(text[place : place + 1])
                time.sleep(self.drip)

    def answered(self, message: bytes) -> bytes:
        """The counter's whole answer. Nothing if it isn't there, or was killed."""
        try:
            with socket.create_connection(("127.0.0.1", self.to)) as server:
                server.sendall(message)
                return all_of(server)
        except OSError:
            return b""
