"""The way to the counter: one message at a time, each on a connection of its own, within a time that the caller gives."""
from __future__ import annotations

import contextlib
import contextvars
import functools
import http.client
import io
import queue
import socket
import ssl
import threading
import time
import urllib.parse
from typing import Any, Callable, Dict, Iterator, List, Optional, Tuple, Union, cast

from .answers import Answer, Reader, answer_of, compact
from .errors import BadValue, UnknownHost, UntrustedCertificate, shown
from .spelling import Json

#: A header that no page of another origin can send without asking first. The proxy demands it.
CLIENT = "X-Counter-Client"
#: The header by which the proxy names its entry in the log of who asked.
ENTRY = "X-Request-Id"
#: More than the longest sheet: a customer with 400,000 bonds.
MOST_BYTES = 64 << 20

Address = Tuple[int, int, int, str, Any]


class Stop:
    """Ends a call from another thread, and wakes what it waits for."""

    def __init__(self) -> None:
        self.event, self.lock = threading.Event(), threading.Lock()
        self.wake: Optional[Callable[[], object]] = None

    def set(self) -> None:
        """Ends the call."""
        with self.lock:
            self.event.set()
            if self.wake is not None:
                self.wake()

    def is_set(self) -> bool:
        """Whether the call was ended."""
        return self.event.is_set()

    @contextlib.contextmanager
    def waking(self, wake: Callable[[], object]) -> Iterator[None]:
        """What is done within waits for something that `wake` ends."""
        with self.lock:
            self.wake = wake
            if self.event.is_set():
                wake()
        try:
            yield
        finally:
            with self.lock:
                self.wake = None


#: What stops the calls of this context. None if nothing does.
STOP: "contextvars.ContextVar[Optional[Stop]]" = contextvars.ContextVar("STOP", default=None)


class Deadline:
    """A moment until which something may last, unless it is stopped before. Without seconds there is none."""

    def __init__(self, seconds: Optional[float], stop: Optional[Stop] = None) -> None:
        self.seconds, self.stop = seconds, stop or STOP.get() or Stop()
        self.end = None if seconds is None else time.monotonic() + seconds

    def left(self) -> Optional[float]:
        """The seconds that are left, 0 at least. None without an end."""
        if self.stop.is_set():
            return 0.0
        return None if self.end is None else max(0.0, self.end - time.monotonic())

    def is_over(self) -> bool:
        """Whether no time is left."""
        return self.left() == 0.0

    def within(self, seconds: float) -> "Deadline":
        """Returns the earlier of this deadline and the one in `seconds` seconds."""
        left = self.left()
        return Deadline(seconds if left is None else min(seconds, left), self.stop)

    def for_socket(self) -> Optional[float]:
        """The time limit of a socket's next call. Raises TimeoutError if no time is left."""
        left = self.left()
        if left == 0.0:
            raise TimeoutError("timed out")
        return left


class TimedSocket(io.RawIOBase):
    """A socket whose calls, all together, end by a deadline: a server that drips a byte a second gets no more time than one that is silent."""

    def __init__(self, plain: socket.socket, deadline: Deadline) -> None:
        super().__init__()
        self.socket, self.deadline, self.size = plain, deadline, 0

    def readable(self) -> bool:
        """Says that it can be read."""
        return True

    def readinto(self, buffer: Any) -> int:
        """Reads what has come. HTTPException if a response doesn't end within its limit, whatever it says about its length."""
        self.socket.settimeout(self.deadline.for_socket())
        count = self.socket.recv_into(buffer)
        self.size += count
        if self.size > 2 * MOST_BYTES:
            raise http.client.HTTPException(f"a response of more than {MOST_BYTES} bytes")
        return count

    def send_all(self, data: bytes) -> None:
        """Sends all of the bytes."""
        view = memoryview(data)
        while view:
            self.socket.settimeout(self.deadline.for_socket())
            view = view[self.socket.send(view) :]

    def makefile(self, *_: Any) -> io.BufferedReader:
        """The file from which http.client reads the response."""
        return io.BufferedReader(self)


class Way:
    """Sends one message at a time, each on its own connection: a kept one would hold the counter."""

    def __init__(
        self,
        address: str,
        certificate: Optional[str],
        key: Optional[str],
        ca: Optional[str],
        name: str,
    ) -> None:
        self.is_encrypted, self.host, self.port = parts_of(address)
        if key is not None and certificate is None:
            raise BadValue("a key needs its certificate")
        if certificate is not None and not self.is_encrypted:
            raise BadValue(f"a certificate needs an address of https, and not {address!r}")
        self.context = context_of(ca, certificate, key) if self.is_encrypted else None
        host = f"[{self.host}]" if ":" in self.host else self.host
        self.headers = {
            "Host": host if self.port in (80, 443) else f"{host}:{self.port}",
            "Connection": "close",
            "Accept-Encoding": "identity",
            CLIENT: name,
        }

    def exchange(
        self, method: str, path: str, value: Optional[Json], read: Reader, deadline: Deadline
    ) -> Answer:
        """Sends a message and reads its answer. Failures of the network are answers too, of the kind "none"."""
        try:
            status, text, entry = self.sent(method, path, value, deadline)
        except socket.gaierror as failure:
            met = f"the host {self.host!r} isn't known: {failure.strerror}"
            return Answer("none", met=met, setup=UnknownHost(met))
        except ssl.SSLCertVerificationError as failure:
            met = f"the certificate of {self.host!r} isn't trusted: {failure.verify_message}"
            return Answer("none", met=met, setup=UntrustedCertificate(met))
        except (
            OSError,
            http.client.HTTPException,
            ValueError,
        ) as failure:  # http.client lets a ValueError out, as for a chunk of size -5
            return Answer("none", met=shown(str(failure)) or type(failure).__name__)
        return answer_of(status, text, read)._replace(entry=entry)

    def sent(
        self, method: str, path: str, value: Optional[Json], deadline: Deadline
    ) -> Tuple[int, str, Optional[str]]:
        """Sends a message. Returns the status, the text and the log entry of its response."""
        body = b"" if value is None else compact(value).encode()
        headers: Dict[str, str] = dict(self.headers)
        if value is not None:
            headers.update({"Content-Type": "application/json", "Content-Length": str(len(body))})
        head = (
            f"{method} {path} HTTP/1.1\r\n"
            + "".join(f"{name}: {text}\r\n" for name, text in headers.items())
            + "\r\n"
        )
        connection = self.connected(deadline)
        try:
            timed = TimedSocket(connection, deadline)
            with deadline.stop.waking(lambda: shut(connection)):
                timed.send_all(head.encode("ascii") + body)
                return response_of(timed, method)
        finally:
            connection.close()

    def connected(self, deadline: Deadline) -> socket.socket:
        """Connects to the first address of the host that takes the connection."""
        failure: Optional[OSError] = None
        for family, kind, protocol, _, address in addresses_of(self.host, self.port, deadline):
            plain = socket.socket(family, kind, protocol)
            try:
                plain.settimeout(deadline.for_socket())
                with deadline.stop.waking(functools.partial(shut, plain)):
                    plain.connect(address)
                plain.setsockopt(socket.IPPROTO_TCP, socket.TCP_NODELAY, 1)
                return plain if self.context is None else self.encrypted(plain, deadline)
            except OSError as met:
                plain.close()
                failure = met
        raise failure or OSError("the host has no address")

    def encrypted(self, plain: socket.socket, deadline: Deadline) -> socket.socket:
        """Does the handshake, which the socket's time limit ends as a whole."""
        assert self.context is not None
        plain.settimeout(deadline.for_socket())
        wrapped = self.context.wrap_socket(
            plain, server_hostname=self.host, do_handshake_on_connect=False
        )
        try:
            with deadline.stop.waking(lambda: shut(wrapped)):
                wrapped.do_handshake()
        except BaseException:
            wrapped.close()
            raise
        return wrapped


def shut(connection: socket.socket) -> None:
    """Ends a call that another thread makes on a socket. The method of a TLS socket would also drop what that call uses."""
    with contextlib.suppress(OSError):
        socket.socket.shutdown(connection, socket.SHUT_RDWR)


def parts_of(address: object) -> Tuple[bool, str, int]:
    """Reads an address: whether it is https, the host and the port."""
    wrong = BadValue(f"{address!r} is no address, as http://127.0.0.1:8377")
    if (
        not isinstance(address, str)
        or not address.isascii()
        or not address.isprintable()
        or " " in address
    ):
        raise wrong
    try:
        parts = urllib.parse.urlsplit(address)
        port = parts.port
    except ValueError:
        raise wrong from None
    is_whole = (
        parts.scheme in ("http", "https")
        and parts.hostname
        and parts.path in ("", "/")
        and not (parts.query or parts.fragment)
    )
    if not is_whole or parts.username is not None or port == 0:
        raise wrong
    return (
        parts.scheme == "https",
        str(parts.hostname),
        port or (443 if parts.scheme == "https" else 80),
    )


def context_of(ca: Optional[str], certificate: Optional[str], key: Optional[str]) -> ssl.SSLContext:
    """The context that trusts the certificates of the file `ca`, or the system's, and sends the client's certificate."""
    try:
        context = ssl.create_default_context(cafile=ca)
    except (OSError, ValueError) as failure:
        raise BadValue(f"the certificates of {ca!r} can't be read: {failure}") from None
    if certificate is not None:
        try:
            context.load_cert_chain(certificate, key, lambda: "")
        except (OSError, ValueError) as failure:
            raise BadValue(
                f"the certificate {certificate!r} and the key {key or certificate!r} can't be used (a key belongs to its certificate, and has no passphrase): {failure}"
            ) from None
    return context


def addresses_of(host: str, port: int, deadline: Deadline) -> List[Address]:
    """Resolves a host. A name is resolved in a thread of its own, since the system's resolver takes no time limit."""
    try:
        return cast(
            List[Address],
            socket.getaddrinfo(host, port, type=socket.SOCK_STREAM, flags=socket.AI_NUMERICHOST),
        )
    except socket.gaierror:
        pass
    found: "queue.Queue[Union[List[Address], OSError]]" = queue.Queue()

    def resolve() -> None:
        try:
            found.put(cast(List[Address], socket.getaddrinfo(host, port, type=socket.SOCK_STREAM)))
        except (OSError, UnicodeError) as failure:
            found.put(
                failure
                if isinstance(failure, OSError)
                else socket.gaierror(socket.EAI_NONAME, str(failure))
            )

    threading.Thread(target=resolve, daemon=True).start()
    try:
        with deadline.stop.waking(lambda: found.put(TimeoutError("stopped"))):
            answer = found.get(timeout=deadline.for_socket())
    except queue.Empty:
        raise TimeoutError("the resolver timed out") from None
    if isinstance(answer, OSError):
        raise answer
    return answer


def response_of(timed: TimedSocket, method: str) -> Tuple[int, str, Optional[str]]:
    """Reads a response: its status, its text and its log entry. Raises HTTPException if it is cut or too long."""
    response = http.client.HTTPResponse(cast(socket.socket, timed), method=method)
    try:
        response.begin()
        pieces, size = [], 0
        while piece := response.read(65536):
            pieces.append(piece)
            size += len(piece)
            if size > MOST_BYTES:
                raise http.client.HTTPException(f"a response of more than {MOST_BYTES} bytes")
        if response.length:
            raise http.client.IncompleteRead(b"", response.length)
        entry = shown(response.getheader(ENTRY) or "") or None
        return response.status, b"".join(pieces).decode("utf-8", "replace"), entry
    finally:
        response.close()
