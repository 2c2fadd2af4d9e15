"""Commands over a store, and whether what one told is right."""
import socket as sockets
from typing import Any

from tests.fence.site import everything
from tests.shared.counter_calls import PIPE, begun, connected, free_port

from . import desk, judging, spelling
from .judging import Wrong
from .program import SECONDS, Program, Ran, read_counts


def rates_rows(file: bytes) -> tuple[tuple[int | None, int | None, int | None], ...]:
    rows = [line.split(",") for line in file.decode().splitlines()[1:]]
    whole = [(begins, rate, (rest and rest[0]) or rate) for begins, rate, *rest in rows]
    return tuple((spelling.issue(b), spelling.rate(r), spelling.rate(e)) for b, r, e in whole)


def bond_rows(file: bytes) -> tuple[tuple[Any, ...], ...]:
    rows = [line.split(",") for line in file.decode().splitlines()[1:]]
    return tuple(
        (spelling.serial(s), int(d), spelling.issue(i), int(o), int(c) if c else None)
        for s, d, i, o, c in rows
    )


class Connection:
    """A stream of messages, answered by `apply` as one connection."""

    name = "apply"

    def __init__(self, stream: bytes) -> None:
        self.stream = stream
        self.messages = judging.messages_of(stream)

    def run(self, program: Program, store: str, **hostile: Any) -> Ran:
        return program.apply(store, self.stream, **hostile)

    def judge(self, ran: Ran, many: list[desk.Books]) -> list[desk.Books]:
        """The books that may stand after a run, whatever it met."""
        if not ran.told and ran.status == 3 and ran.faults.strip() == "store: StoreFailed":
            return many
        heard = judging.follow(many, self.messages, ran.told)
        judging.ended_rightly(ran, heard, self.messages)
        return heard.books

    def ample(self, ran: Ran, many: list[desk.Books]) -> list[desk.Books]:
        """The books after a run that met nothing."""
        heard = judging.follow(many, self.messages, ran.told)
        is_ample = (heard.answered, heard.unserved) == (len(self.messages), 0)
        if ran.status != 0 or ran.faults or not is_ample:
            raise Wrong(f"without a fault it ended with {ran.status} {ran.faults!r} after {heard}")
        return heard.books


class Served(Connection):
    """The same, answered by `serve` on its first connection, which is its last one."""

    name = "serve"

    def run(self, program: Program, store: str, **hostile: Any) -> Ran:
        port, told = free_port(), b""
        more: dict[str, Any] = {"env": program.environment(store, **hostile), "stdout": PIPE}
        server, said = begun(program.path, store, port, "--connections", "1", **more)
        with server:
            if said == f"listening on port {port}\n":
                with connected(port, SECONDS) as client:
                    client.sendall(self.stream)
                    client.shutdown(sockets.SHUT_WR)
                    told, said = everything(client), ""
            out, faults = server.communicate(timeout=SECONDS)
        has_failed = "the store failed" in out
        if told and (b'"StoreFailed"' in told, out[:14]) != (has_failed, "connection 1: "):
            raise Wrong(f"`serve` told {out!r}")
        return Ran(server.returncode, told, said + faults, read_counts(f"{store}.counts"))


class Import:
    name = "import"

    def __init__(self, kind: str, path: str, file: bytes, number: int, asked_of: int = 0) -> None:
        self.kind, self.path, self.number, self.desk = kind, path, number, asked_of
        self.act = ("rates", rates_rows(file)) if kind == "rates" else ("bonds", bond_rows(file))

    def run(self, program: Program, store: str, **hostile: Any) -> Ran:
        words = (self.kind, self.path, self.number, self.desk)
        return program.enter(store, *words, file=self.path, **hostile)

    def delivered(self, books: desk.Books) -> tuple[desk.Books, bytes, int]:
        after = books.copy()
        reply = after.deliver((self.desk, self.number), self.act)
        return after, (desk.compact(reply) + "\n").encode(), 1 if "refused" in reply else 0

    def judge(self, ran: Ran, many: list[desk.Books]) -> list[desk.Books]:
        fault = ran.faults.strip()
        if ran.status in (0, 1) or fault == "store: NotWrittenBack":
            return self.replied(ran, many)
        if ran.status != 3:
            raise Wrong(f"an import ended with {ran.status} {fault!r}")
        if fault.startswith("file: row 1 code 7") and fault[-1] in "34" and not ran.told:
            return many
        if fault in ("input or output failed", "store: StoreFailed"):
            after = [self.delivered(books) for books in many]
            if not any(told.startswith(ran.told) for _, told, _ in after):
                raise Wrong(f"an import told {ran.told!r}")
            return judging.distinct(many + [books for books, _, _ in after])
        if fault == "no memory":
            return judging.distinct(many + [self.delivered(books)[0] for books in many])
        raise Wrong(f"an import told {fault!r}")

    def replied(self, ran: Ran, many: list[desk.Books]) -> list[desk.Books]:
        found = map(self.delivered, many)
        right = [a for a, told, status in found if told == ran.told and ran.status in (status, 3)]
        if not right:
            raise Wrong(f"an import ended with {ran.status}, {ran.told!r} {ran.faults!r}")
        return right

    def ample(self, ran: Ran, many: list[desk.Books]) -> list[desk.Books]:
        if ran.status == 3:
            raise Wrong(f"an import without a fault ended with {ran.faults!r}")
        return self.replied(ran, many)


class Shown:
    def __init__(self, customer: int, month: str | None = None) -> None:
        self.customer, self.month = customer, month
        self.name = "sheet" if month else "export"

    def run(self, program: Program, store: str, **hostile: Any) -> Ran:
        if self.month:
            return program.sheet(store, self.customer, self.month, **hostile)
        return program.export(store, self.customer, **hostile)

    def text(self, books: desk.Books) -> bytes:
        month = spelling.month(self.month) if self.month else None
        if month is None:
            return books.export(self.customer).encode()
        return books.ask_inventory(self.customer, month).encode()

    def judge(self, ran: Ran, many: list[desk.Books]) -> list[desk.Books]:
        fault = ran.faults.strip()
        if ran.status not in (0, 3) or fault not in (judging.FAULTS_TOLD if ran.status else {""}):
            raise Wrong(f"{self.name} ended with {ran.status} {ran.faults!r}")
        size = None if ran.status == 0 or fault == "store: NotWrittenBack" else len(ran.told)
        right = [books for books in many if self.text(books)[:size] == ran.told]
        if not right:
            raise Wrong(f"{self.name} told {ran.told!r} with {ran.status} {ran.faults!r}")
        return right

    def ample(self, ran: Ran, many: list[desk.Books]) -> list[desk.Books]:
        if ran.status:
            raise Wrong(f"{self.name} without a fault ended with {ran.faults!r}")
        return self.judge(ran, many)
