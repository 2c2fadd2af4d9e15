"""What the tests share: messages and answers, servers, and a load whose answers the rules give."""

import contextlib
import csv
import json
import os
import re
import socket
import sqlite3
import subprocess
import threading
import time
from pathlib import Path
from typing import IO, Any, AnyStr, Callable, Iterable, Iterator, Sequence

Place = str | Path
Server = subprocess.Popen[str]
#: The status and the body of an answer.
Answer = tuple[int, str]
#: A request of a load: what it does, and its turn.
Name = tuple[str, int]

TOP = os.path.dirname(os.path.dirname(os.path.dirname(os.path.abspath(__file__))))
TABLES = ("desk", "rates", "extensions", "bonds", "tickets", "paid", "batches", "answers")
DAY_TICKETS = 800
PIPE = subprocess.PIPE
FIRST_DAY = (2012, 2, 6)
RATES = [{"from": "2010-05", "rate": "2.00"}, {"from": "2010-11", "rate": "3.50"}]
# Denomination, issue month, and what such a bond pays in February 2012 at these rates.
KINDS = [(50, "2010-11", "25.88"), (75, "2010-10", "38.34"), (10000, "2011-02", "5132.00")]
# The bonds of a known day, of customers 7 and 9.
BONDS = [
    {"serial": "L1EE", "denom": 50, "issued": "2010-11", "owner": 7},
    {"serial": "K2EE", "denom": 75, "issued": "2010-10", "owner": 7, "coowner": 8},
    {"serial": "M3EE", "denom": 10000, "issued": "2011-02", "owner": 7},
    {"serial": "N4EE", "denom": 50, "issued": "2010-11", "owner": 9},
    {"serial": "N5EE", "denom": 50, "issued": "2010-11", "owner": 9},
]


def run(*words: object, **more: Any) -> subprocess.CompletedProcess[str]:
    more = {"stdout": PIPE, "stderr": subprocess.STDOUT, "text": True, **more}
    return subprocess.run([str(word) for word in words], **more)


def done(*words: object, **more: Any) -> str:
    """What a command prints. It has to end with status 0."""
    ran = run(*words, **{"stderr": PIPE, **more})
    assert ran.returncode == 0, ran
    return ran.stdout


def matched(pattern: AnyStr, text: AnyStr) -> re.Match[AnyStr]:
    """Where a pattern is first in a text, which has to have it."""
    found = re.search(pattern, text)
    assert found is not None, f"nothing is like {pattern!r} in {text!r}"
    return found


def piped(pipe: IO[AnyStr] | None) -> IO[AnyStr]:
    """The end of a pipe to a process that was begun with one."""
    assert pipe is not None
    return pipe


def replaced(text: str, changes: Iterable[tuple[str, str]]) -> str:
    """The text of a sample with each old part replaced, which has to be there."""
    for old, new in changes:
        assert old in text, f"the sample has no {old}"
        text = text.replace(old, new)
    return text


def sql(store: Place, text: str) -> str:
    words = ["sqlite3", store, text]
    return subprocess.run(words, capture_output=True, text=True, check=True).stdout


def make_version_one(store: Place, bonds: int, tickets: int, *words: str) -> None:
    """A store of version 1, as an earlier program would have made it."""
    line = [f"{TOP}/benchmarks/make_version_one.py", store, str(bonds), str(tickets), *words]
    subprocess.run(line, stdout=subprocess.DEVNULL, check=True)


def free_port() -> int:
    with socket.socket() as free:
        free.bind(("127.0.0.1", 0))
        port: int = free.getsockname()[1]
    return port


def post(path: str, value: object, headers: bytes = b"Connection: close\r\n") -> bytes:
    body = json.dumps(value, separators=(",", ":")).encode()
    head = f"POST {path} HTTP/1.1\r\n".encode() + headers
    return head + b"Content-Length: %d\r\n\r\n%s" % (len(body), body)


def redeem(desk: int, number: int, day: str, payee: int, *serials: str) -> bytes:
    value = {"desk": desk, "number": number, "day": day, "payee": payee, "serials": serials}
    return post("/redeem", value, b"")


def get(path: str, headers: bytes = b"Connection: close\r\n") -> bytes:
    return b"GET %s HTTP/1.1\r\n%s\r\n" % (path.encode(), headers)


def read_answer(client: socket.socket) -> Answer | None:
    """Status and body of one answer; None where the connection ended before all of it came."""
    text = b""
    while b"\r\n\r\n" not in text:
        more = client.recv(65536)
        if not more:
            return None
        text += more
    head, body = text.split(b"\r\n\r\n", 1)
    length = int(matched(rb"(?i)content-length: *(\d+)", head)[1])
    while len(body) < length:
        more = client.recv(65536)
        if not more:
            return None
        body += more
    return int(head.split(b" ")[1]), body.decode()


@contextlib.contextmanager
def connected(place: int | str, patience: float) -> Iterator[socket.socket]:
    """A connection to a port of this machine, or to the path of a Unix socket."""
    if isinstance(place, int):
        with socket.create_connection(("127.0.0.1", place), timeout=patience) as client:
            yield client
        return
    with socket.socket(socket.AF_UNIX) as client:
        client.settimeout(patience)
        client.connect(place)
        yield client


def ask(place: int | str, message: bytes, patience: float = 60) -> Answer | None:
    """The answer to one message on a connection of its own to a port or a Unix socket; None if
    none came."""
    try:
        with connected(place, patience) as client:
            client.sendall(message)
            return read_answer(client)
    except OSError:
        return None


def answered(place: int | str, message: bytes, patience: float = 60) -> Answer:
    answer = ask(place, message, patience)
    assert answer is not None, f"no answer came to {message!r}"
    return answer


def begun(
    program: Place, store: Place, port: int, *words: str, before: Sequence[Place] = (), **more: Any
) -> tuple[Server, str]:
    """A server, and what it says first. `before` are words before the program's path, `words`
    further ones of `serve`, `more` is what Popen knows."""
    line = [*before, program, "serve", "--db", store, "--port", str(port), *words]
    more = {"stdout": subprocess.DEVNULL, **more}
    server = subprocess.Popen(line, stderr=PIPE, text=True, **more)
    return server, piped(server.stderr).readline()


def serve(program: Place, store: Place, port: int, *words: str, **more: Any) -> Server:
    """A server that takes connections, as it says on standard error."""
    server, said = begun(program, store, port, *words, **more)
    assert said == f"listening on port {port}\n", f"the server doesn't listen: {said}"
    return server


def end(process: subprocess.Popen[Any]) -> None:
    process.kill()
    process.wait()


@contextlib.contextmanager
def served(program: Place, store: Place) -> Iterator[int]:
    """The port on which `serve` answers over a store, until it is killed at the end."""
    port = free_port()
    server = serve(program, store, port)
    try:
        yield port
    finally:
        end(server)


def apply(program: Place, store: Place, messages: list[bytes], most: int = 900) -> list[Answer]:
    """The answers to these messages, by as many connections as it takes."""
    answers = []
    for first in range(0, len(messages), most):
        part = messages[first : first + most]
        words = [program, "apply", "--db", store]
        ran = subprocess.run(words, input=b"".join(part), capture_output=True)
        found = split_answers(ran.stdout)
        if len(found) != len(part):
            said = ran.stderr.decode().strip()
            raise AssertionError(f"{len(found)} answers, status {ran.returncode}, {said}")
        answers += found
    return answers


def split_answers(text: bytes) -> list[Answer]:
    answers, at = [], 0
    while at < len(text):
        end = text.index(b"\r\n\r\n", at) + 4
        head = text[at:end]
        length = int(matched(rb"(?i)content-length: *(\d+)", head)[1])
        answers.append((int(head.split(b" ")[1]), text[end : end + length].decode()))
        at = end + length
    return answers


def csv_rows(path: Path) -> list[dict[str, str]]:
    return list(csv.DictReader(path.read_text().splitlines()))


def rows(store: Place, statement: str) -> list[tuple[Any, ...]]:
    """What SQLite reads. The file is closed at once: while another process has it open, the
    program doesn't open it."""
    with contextlib.closing(sqlite3.connect(store)) as books:
        return books.execute(statement).fetchall()


def day_text(turn: int) -> str:
    """The day of the turn of this number: a day has so many turns. All are in February 2012
    while there are at most 24."""
    year, month, day = FIRST_DAY
    return f"{year}-{month:02}-{day + turn // DAY_TICKETS:02}"


def bond(turn: int) -> dict[str, Any]:
    denom, issued, _ = KINDS[turn % 3]
    return {"serial": f"A{turn + 1}EE", "denom": denom, "issued": issued, "owner": 7}


def beginning(bonds: int) -> list[bytes]:
    """Messages that make a store with these rates and so many bonds of customer 7; desk 0."""
    messages = [post("/rates", {"number": 1, "rates": RATES}, b"")]
    for first in range(0, bonds, 500):
        part = [bond(turn) for turn in range(first, min(first + 500, bonds))]
        messages.append(post("/bonds", {"number": 2 + first // 500, "bonds": part}, b""))
    return messages


class Load:
    """Clients that redeem one bond after another, each at a desk of its own, and send each
    request again until it has its reply. What was acknowledged is kept, with the time when its
    reply had come. Turn T is the redemption of bond T. The day is closed and the next opened
    after so many turns, while no redemption is under way."""

    def __init__(self, ask_now: Callable[[bytes], Answer | None], bonds: int, clients: int) -> None:
        self.ask_now, self.bonds, self.clients = ask_now, bonds, clients
        self.requests: dict[Name, bytes] = {}
        self.replies: dict[Name, str] = {}
        self.came: dict[Name, float] = {}
        self.delays: list[float] = []
        self.turn, self.under_way, self.is_over, self.is_changing = 0, 0, False, False
        self.lock = threading.Condition()
        self.wrong: str | None = None

    def start(self) -> None:
        self.is_over = False
        desks = range(1, self.clients + 1)
        self.threads = [threading.Thread(target=self.run, args=(d,), daemon=True) for d in desks]
        for thread in self.threads:
            thread.start()

    def stop(self) -> None:
        """Ends when each request that was sent has its reply."""
        self.is_over = True
        for thread in self.threads:
            thread.join()
        if self.wrong:
            raise AssertionError(f"{self.wrong}")

    def run(self, desk: int) -> None:
        try:
            while not self.is_over and self.wrong is None:
                turn = self.take_turn()
                if turn is None:
                    return
                value = {"desk": desk, "number": turn + 1, "day": day_text(turn), "payee": 7}
                value["serials"] = [bond(turn)["serial"]]
                self.deliver(("redeem", turn), "/redeem", value)
                with self.lock:
                    self.under_way -= 1
                    self.lock.notify_all()
        except Exception as fault:
            with self.lock:
                self.wrong = f"{type(fault).__name__}: {fault}"
                self.lock.notify_all()

    def take_turn(self) -> int | None:
        """The next turn; None where there is none. Who takes the first turn of a day changes the
        day, while the others wait."""
        with self.lock:
            self.lock.wait_for(lambda: not self.is_changing or self.wrong)
            turn = self.turn
            if turn >= self.bonds or self.wrong:
                return None
            self.turn += 1
            if turn % DAY_TICKETS == 0:
                self.change_day(turn)
            self.under_way += 1
            return turn

    def change_day(self, turn: int) -> None:
        self.is_changing = True
        try:
            self.lock.wait_for(lambda: self.under_way == 0 or self.wrong)
            if turn > 0:
                value = {"number": 2_000_000 + turn, "day": day_text(turn - 1)}
                self.deliver(("close", turn), "/day/close", value)
            value = {"number": 1_000_000 + turn, "day": day_text(turn)}
            self.deliver(("open", turn), "/day/open", value)
        finally:
            self.is_changing = False
            self.lock.notify_all()

    def deliver(self, name: Name, path: str, value: dict[str, Any]) -> None:
        self.requests[name] = post(path, value)
        begun = time.time()
        while True:
            answer = self.ask_now(self.requests[name])
            if answer is not None and answer[0] in (200, 409):
                break
            if answer is not None and answer[0] not in (502, 503, 504):
                raise ValueError(f"{name} was answered {answer}")
            time.sleep(0.05)
        self.replies[name], self.came[name] = answer[1], time.time()
        self.delays.append(self.came[name] - begun)
        fault = fault_of(name, answer[1])
        if fault:
            raise ValueError(fault)

    def in_order(self) -> list[Name]:
        """All requests that were sent, in an order in which each can be done."""
        order = {"close": 0, "open": 1, "redeem": 2}
        return sorted(self.requests, key=lambda name: (name[1], order[name[0]]))


def fault_of(name: Name, reply: str) -> str | None:
    """What is wrong with a reply by the rules; None where it is right, whatever its ticket's
    number is."""
    kind, turn = name
    if kind == "open":
        wanted = '{"opened":"%s"}' % day_text(turn)
    elif kind == "close":
        wanted = batch_of(turn // DAY_TICKETS - 1, DAY_TICKETS)
    else:
        paid = KINDS[turn % 3][2]
        ticket = int((re.search(r'"ticket":(\d+)', reply) or ["", "0"])[1])
        lines = [{"paid": paid, "serial": bond(turn)["serial"]}]
        found = {"day": day_text(turn), "lines": lines, "payee": 7, "ticket": ticket}
        wanted = json.dumps({**found, "total": paid}, separators=(",", ":"))
    return None if reply == wanted else f"{name} was answered {reply}, and not {wanted}"


def batch_of(day: int, turns: int) -> str:
    """The batch of a day of which so many turns were taken."""
    first = day * DAY_TICKETS
    cents = sum(int(KINDS[turn % 3][2].replace(".", "")) for turn in range(first, first + turns))
    total = f"{cents // 100}.{cents % 100:02}"
    found = {"bonds": turns, "day": day_text(first), "tickets": turns, "total": total}
    return json.dumps(found, separators=(",", ":"))


def fault_of_books(store: Place, replies: dict[Name, str]) -> str | None:
    """Whether the books that SQLite reads have just these tickets, one for each bond; None where
    they do."""
    paid = {name[1]: reply for name, reply in replies.items() if name[0] == "redeem"}
    numbers = {turn: int(matched(r'"ticket":(\d+)', reply)[1]) for turn, reply in paid.items()}
    told = sorted((number, turn + 1) for turn, number in numbers.items())
    if rows(store, "PRAGMA integrity_check") != [("ok",)]:
        return "SQLite doesn't find the file whole"
    held = rows(store, "SELECT ticket, number FROM paid ORDER BY ticket")
    if held != told:
        return f"the books have {len(held)} payments, the replies {len(told)}"
    if [ticket for ticket, _ in held] != list(range(1, len(held) + 1)):
        return "the tickets aren't numbered one after the other"
    return None
