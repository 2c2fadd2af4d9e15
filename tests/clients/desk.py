"""What the clients' tests share: a desk at the package's own fake counter, the true counter, servers that aren't one, and controls."""

import contextlib
import io
import logging
import os
import socket
import ssl
import subprocess
import sys
import threading
import time
from pathlib import Path
from typing import Any, Callable, ContextManager, Iterator
from unittest import mock

import pytest

import ee_counter_client as client
from ee_counter_client.command import main
from ee_counter_client.testing import FakeCounter, Gate
from tests.conftest import TOP
from tests.shared.counter_calls import end, free_port, serve

DAY = "2012-02-06"
#: What is broken for a control; None without one.
Part = ContextManager[object] | None
#: What a server does with a connection.
Serving = Callable[[socket.socket], None]
#: The environment of a program that uses the client's sources.
OWN = {**os.environ, "PYTHONPATH": f"{TOP / 'clients/python/src'}:{TOP}"}
OWN |= {"PYTHONDONTWRITEBYTECODE": "1", "COLUMNS": "200"}
logging.getLogger("ee_counter_client").addHandler(logging.NullHandler())


# ---- controls
def controls(**parts: ContextManager[object]) -> pytest.MarkDecorator:
    """Runs a test as it is, and again with each broken part in place: then `holds_not(part)` wants it to fail."""
    names = [name.replace("_", " ") for name in parts]
    return pytest.mark.parametrize("part", [None, *parts.values()], ids=["whole", *names])


@contextlib.contextmanager
def holds_not(part: ContextManager[object] | None) -> Iterator[None]:
    """What is done within has to fail with that part in place. Without one it has to hold."""
    if part is None:
        yield
        return
    failures = (AssertionError, pytest.fail.Exception, client.CounterError)
    with part, pytest.raises(failures):
        yield


@contextlib.contextmanager
def within(most: float, least: float = 0.0) -> Iterator[None]:
    """What is done takes from `least` to `most` seconds."""
    begun = time.monotonic()
    yield
    assert least <= time.monotonic() - begun <= most


# ---- a desk at the fake counter
class Desk:
    """A folder, a fake counter in which a day is open and customer 7 has bonds of 50 dollars, and a gate before it."""

    def __init__(self, place: Path, fake: FakeCounter, gate: Gate, is_empty: bool = False) -> None:
        self.place, self.fake, self.gate = place, fake, gate
        self.journal, self.archive = place / "a.journal", place / "a.archive"
        if not is_empty:
            fake.answered("POST", "/day/open", b'{"number":1,"day":"2012-02-06"}')
            self.has("L1EE", "L2EE", "L3EE")

    def has(self, *serials: str) -> None:
        for serial in serials:
            bond = {"serial": serial, "denom": 50, "issued": "2010-11", "owner": 7}
            self.fake.bonds[serial] = bond

    def counter(self, **words: Any) -> client.Counter:
        words.setdefault("desk", 3)
        return client.Counter(self.journal, self.gate.address, **words)

    def known(self, patience: float = 300, **words: Any) -> client.Counter:
        counter = self.counter(**words)
        counter.ticket(1)
        counter.patience = patience
        return counter

    @contextlib.contextmanager
    def untouched(self) -> Iterator[None]:
        """What is done within sends no act and leaves the journal as it is."""
        before, sent = self.journal.read_bytes(), len(self.gate.bodies)
        yield
        assert (self.journal.read_bytes(), len(self.gate.bodies)) == (before, sent)


# ---- the true counter
class TrueCounter:
    """The program over a new store; `kill` kills it, and it is started again."""

    def __init__(self, program: Path, place: Path) -> None:
        self.program, self.store, self.port = program, place / "day.db", free_port()
        self.lock = threading.Lock()
        self.process = serve(program, self.store, self.port)
        self.address = f"http://127.0.0.1:{self.port}"

    def kill(self) -> None:
        with self.stopped():
            time.sleep(0.05)

    @contextlib.contextmanager
    def stopped(self) -> Iterator[None]:
        """It is killed, and started again after what is done meanwhile."""
        with self.lock:
            self.end()
            yield
            self.process = serve(self.program, self.store, self.port)

    def end(self) -> None:
        end(self.process)


# ---- other programs
@contextlib.contextmanager
def listening(serve: Serving) -> Iterator[int]:
    """A server that isn't a counter: `serve` is called with each connection, in a thread of its own. Yields its port."""

    def listen() -> None:
        with contextlib.suppress(OSError):
            while True:
                threading.Thread(target=quiet, args=server.accept()[:1], daemon=True).start()

    def quiet(connection: socket.socket) -> None:
        with connection, contextlib.suppress(OSError):
            serve(connection)

    with socket.create_server(("127.0.0.1", 0)) as server:
        threading.Thread(target=listen, daemon=True).start()
        yield server.getsockname()[1]
        with contextlib.suppress(OSError):
            server.shutdown(socket.SHUT_RDWR)


def encrypted(place: Path, to: int) -> Serving:
    """A server with a certificate of 127.0.0.1 that no system trusts, which passes each connection on to a port."""
    words = "req -x509 -newkey rsa:2048 -nodes -days 2 -subj /CN=counter -addext subjectAltName=IP:127.0.0.1"
    files = ["-out", f"{place}/certificate.pem", "-keyout", f"{place}/key.pem"]
    subprocess.run(["openssl", *words.split(), *files], check=True, capture_output=True)
    context = ssl.SSLContext(ssl.PROTOCOL_TLS_SERVER)
    context.load_cert_chain(place / "certificate.pem", place / "key.pem")

    def pump(one: socket.socket, other: socket.socket) -> None:
        with contextlib.suppress(OSError):
            while data := one.recv(65536):
                other.sendall(data)

    def serve(plain: socket.socket) -> None:
        inner = socket.create_connection(("127.0.0.1", to))
        with context.wrap_socket(plain, server_side=True) as secret, inner:
            threading.Thread(target=pump, args=(secret, inner), daemon=True).start()
            pump(inner, secret)

    return serve


def ran(*words: object, **more: Any) -> tuple[int, str, str]:
    more = {"stdout": subprocess.PIPE, "stderr": subprocess.PIPE, "env": OWN, **more}
    done = subprocess.run([str(word) for word in words], text=True, timeout=600, **more)
    return done.returncode, done.stdout, done.stderr


def by_process(*words: object, **more: Any) -> tuple[int, str, str]:
    return ran(sys.executable, "-W", "error", "-B", TOP / "clients/counter.py", *words, **more)


def command(*words: object) -> tuple[int, str, str]:
    """The same, in this process."""
    out, told = io.StringIO(), io.StringIO()
    with mock.patch.dict(os.environ, OWN), mock.patch.object(sys, "argv", ["counter-client"]):
        with contextlib.redirect_stdout(out), contextlib.redirect_stderr(told):
            try:
                status = main([str(word) for word in words])
            except SystemExit as ended:
                status = int(ended.code or 0)
    return status, out.getvalue(), told.getvalue()


def bonds_csv(*rows: str) -> str:
    return "".join(f"{row}\n" for row in ("serial,denom,issued,owner,coowner", *rows))
