"""samples/watch/check_counter over a real counter, and over servers that are silent, drip, or aren't the counter."""

import contextlib
import hashlib
import socket
import subprocess
import sys
import threading
import time
from pathlib import Path
from typing import Callable, Iterator

import pytest

from tests.conftest import TOP
from tests.fence.conftest import Counter
from tests.shared.counter_calls import run, serve

CHECK = TOP / "samples/watch/check_counter"
LIMIT = 2.0
NOT_FOUND = '{"code":69,"fault":"NotFound"}'
#: What a server does with a connection.
Serving = Callable[[socket.socket], object]


def checked(*words: str, check: Path = CHECK) -> tuple[int, str, float]:
    begun = time.monotonic()
    ran = run(sys.executable, check, *words, timeout=90)
    return ran.returncode, ran.stdout.strip(), time.monotonic() - begun


def test_a_counter(counter: Counter) -> None:
    """One connection with one message, which asks to close; the store is the same, byte for byte. Then the counter has ended."""
    counter.end()
    before = hashlib.sha256(counter.store.read_bytes()).hexdigest()
    words = (counter.program, counter.store, counter.port, "--connections", "1")
    served = serve(*words, stdout=subprocess.PIPE)
    status, line, _ = checked(counter.url)
    assert (status, line[:13]) == (0, "COUNTER OK - ") and " | time=0." in line
    assert served.communicate(timeout=60)[0] == "connection 1: 1 messages, Asked\n"
    assert served.returncode == 0
    assert hashlib.sha256(counter.store.read_bytes()).hexdigest() == before
    status, line, _ = checked(counter.url)
    assert status == 2 and "refused" in line


@contextlib.contextmanager
def server(answer: Serving) -> Iterator[str]:
    def accept() -> None:
        with contextlib.suppress(OSError):
            while True:
                line = listening.accept()[0]
                with line, contextlib.suppress(OSError):
                    answer(line)

    with socket.create_server(("127.0.0.1", 0)) as listening:
        threading.Thread(target=accept, daemon=True).start()
        yield f"http://127.0.0.1:{listening.getsockname()[1]}"


def drip(text: bytes) -> Serving:
    """Sends a byte each tenth of a second: each wait is short, and the whole is long."""

    def answer(line: socket.socket) -> None:
        for byte in text:
            line.sendall(bytes([byte]))
            time.sleep(0.1)

    return answer


def said(text: bytes, pause: float = 0.0) -> Serving:
    def answer(line: socket.socket) -> None:
        line.recv(65536)
        time.sleep(pause)
        line.sendall(text)

    return answer


def response(status: int, body: str, pause: float = 0.0) -> Serving:
    head = f"HTTP/1.1 {status} X\r\nContent-Length: {len(body)}\r\n\r\n"
    return said((head + body).encode(), pause)


def endless(line: socket.socket) -> None:
    for _ in range(10000):
        line.sendall(b"HTTP/1.1 404 X\r\n\r\n" + b"x" * 65536)


RIGHT = f"HTTP/1.1 404 X\r\nContent-Length: {len(NOT_FOUND)}\r\n\r\n{NOT_FOUND}".encode()
BATCH = '{"bonds":0,"day":"2005-05-01","tickets":0,"total":"0.00"}'
#: What a server does, further words, the status, and a part of the line.
SERVERS: dict[str, tuple[Serving, list[str], int, str]] = {
    "silent": (lambda line: time.sleep(30), [], 2, "within 2 seconds"),
    "drips its head": (drip(b"HTTP/1.1 200 OK\r\n" + b"X: y\r\n" * 100), [], 2, "within 2 seconds"),
    "drips the right answer": (drip(RIGHT), [], 2, "within 2 seconds"),
    "drips spaces before it": (drip(b" " * 1000), [], 2, "within 2 seconds"),
    "closes at once": (lambda line: line.recv(65536), [], 2, "without an answer"),
    "speaks no HTTP": (said(b"SSH-2.0-x\r\n"), [], 2, "no HTTP"),
    "never ends": (endless, [], 2, "isn't the counter's"),
    "a web server's 404": (response(404, "<h1>Not Found</h1>"), [], 2, "isn't the counter's"),
    "another service": (response(404, '{"code":66,"fault":"NoRoute"}'), [], 2, "isn't the counter"),
    "a failing store": (response(503, '{"code":2,"unserved":"StoreFailed"}'), [], 2, "StoreFailed"),
    "no counter": (response(502, '{"unavailable":"counter"}'), [], 2, "and the counter doesn't"),
    "no certificate": (response(400, '{"forbidden":"certificate"}'), [], 2, "no one can sign in"),
    "too often": (response(429, '{"forbidden":"rate"}'), [], 3, "doesn't pass the check on (429)"),
    "slow": (response(404, NOT_FOUND, 0.5), ["--warning", "0.2"], 1, "answers after 0."),
    "very slow": (response(404, NOT_FOUND, 0.5), ["-w", "0.1", "-c", "0.2"], 2, "answers after 0."),
    "right": (response(404, NOT_FOUND), [], 0, "answers after 0."),
    "a batch of that day": (response(200, BATCH), [], 0, "answers after"),
}


def is_right(name: str, check: Path = CHECK) -> bool:
    answer, words, wanted, part = SERVERS[name]
    limit = LIMIT if "within" in part else 20
    with server(answer) as url:
        status, line, took = checked(url, "--timeout", str(limit), *words, check=check)
    return status == wanted and part in line and took < limit + 6


@pytest.mark.parametrize("name", SERVERS)
def test_a_server(name: str) -> None:
    assert is_right(name)


@pytest.mark.parametrize(
    "old, new, name",
    [
        ("threading.Event().wait(words.timeout)", "threading.Event().wait(9)", "drips its head"),
        ('answer.get("code") == 69', "True", "a web server's 404"),
        ('answer.get("forbidden") == "certificate"', "False", "no certificate"),
    ],
)
def test_controls(tmp_path: Path, old: str, new: str, name: str) -> None:
    """A check without a limit of time, or that takes any 404, is told from the right one."""
    text = CHECK.read_text()
    assert old in text
    broken = tmp_path / "check"
    broken.write_text(text.replace(old, new))
    assert not is_right(name, broken) and is_right("right", broken)


@pytest.mark.parametrize(
    "words",
    ["--nonsense", "ftp://127.0.0.1", "unix:here", "https://127.0.0.1 --certificate /nowhere"]
    + ["http://127.0.0.1/path", "--key x", "http://no.such.invalid"],
)
def test_wrong_words(words: str) -> None:
    status, line, _ = checked(*words.split())
    assert status == 3 and line.startswith("COUNTER UNKNOWN - ")
