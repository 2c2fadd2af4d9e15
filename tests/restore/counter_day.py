"""A store with a day of payments, its archive, its log of requests and its second machine."""

import json
import os
import shutil
import signal
import subprocess
import time
from pathlib import Path
from typing import Any, Iterable

from tests.conftest import TOP
from tests.shared.counter_calls import TABLES, Answer, apply, ask, beginning, bond, day_text, done
from tests.shared.counter_calls import end, free_port, get, post, rows, serve

RESTORE = TOP / "samples" / "restore"
BONDS = 600
OPENING = post("/day/open", {"number": 1_000_000, "day": day_text(0)}, b"")
Tables = dict[str, list[tuple[Any, ...]]]
Ran = subprocess.CompletedProcess[str]


def run(*words: object, **more: Any) -> Ran:
    line = [str(word) for word in words]
    return subprocess.run(line, capture_output=True, text=True, timeout=300, **more)


def started(*words: object, **more: Any) -> subprocess.Popen[str]:
    return subprocess.Popen([str(word) for word in words], text=True, **more)


def redemption(turn: int, number: int | None = None) -> bytes:
    desk, serials = 1 + turn % 3, [bond(turn)["serial"]]
    value = {"desk": desk, "number": number or turn + 1, "day": day_text(0), "payee": 7}
    return post("/redeem", value | {"serials": serials}, b"")


def entry_of(message: bytes, reply: str | None, at: float, status: str = "200") -> str:
    """The line that nginx writes of a message."""
    head, _, body = message.partition(b"\r\n\r\n")
    name = f"{hash((message, at)) & (1 << 128) - 1:032x}"
    entry = {"time": "2026-02-06T09:30:00+00:00", "entry": name, "user": "anna"}
    entry |= {"address": "127.0.0.1", "route": head.split(b" ")[1].decode(), "status": status}
    entry |= {"counter": status, "at": f"{at:.3f}", "body": body.decode()}
    entry |= {} if reply is None else {"reply": reply}
    return json.dumps(entry, separators=(",", ":")) + "\n"


def copied(store: Path, folder: Path) -> Path:
    folder.mkdir(parents=True)
    for path in (store, Path(f"{store}-wal")):
        if path.exists():
            shutil.copy(path, folder)
    return folder / store.name


def with_settings(settings: dict[str, object]) -> dict[str, str]:
    return {**os.environ, "WITNESS_WAIT": "0"} | {name: str(it) for name, it in settings.items()}


class Day:
    """A store with a day of payments, archived meanwhile, its log of requests, and a copy from before the day."""

    def __init__(self, program: str, folder: Path, at: float = 0.0) -> None:
        self.program, self.folder, self.at, self.count = program, folder, at, 0
        self.store, self.archive = folder / "store" / "day.db", folder / "archives" / "counter"
        self.log, self.second = folder / "requests" / "requests.log", folder / "second"
        self.before, self.room = folder / "before" / "day.db", folder / "room"

    def begin(self) -> None:
        for path in (self.store.parent, self.archive, self.log.parent, self.second, self.room):
            path.mkdir(parents=True)
        apply(self.program, self.store, [*beginning(BONDS), OPENING])
        self.archive_now()
        copied(self.store, self.before.parent)

    def send(self, *messages: bytes) -> list[Answer]:
        """Sends requests, one connection for all, and logs them as nginx would."""
        answers = apply(self.program, self.store, list(messages))
        self.write_log(messages, answers)
        return answers

    def write_log(self, messages: Iterable[bytes], answers: Iterable[Answer]) -> None:
        with open(self.log, "a") as log:
            for message, (status, reply) in zip(messages, answers):
                self.at += 1
                log.write(entry_of(message, reply, self.at, str(status)))

    def pay(self, turns: Iterable[int]) -> list[Answer]:
        return self.send(*map(redemption, turns))

    def archive_now(self, *more: object) -> None:
        done(RESTORE / "archive", self.store, self.archive, *more)

    def pull(self, source: Path | None = None, *more: object) -> Ran:
        return run(RESTORE / "pull", source or self.archive, self.second, *more)

    def command(self, *words: object, sources: Iterable[Path] | None = None) -> list[object]:
        """counter-restore over the store and all sources, or those that are named."""
        given = [self.archive, self.log] if sources is None else sources
        named = [word for path in given for word in ("--from", path)]
        ours = ("--archive", self.archive, "--room", self.room, "--program", self.program)
        return [RESTORE / "counter-restore", self.store, *named, *ours, *words]

    def restore(self, *words: object, sources: Iterable[Path] | None = None, **more: Any) -> Ran:
        return run(*self.command(*words, sources=sources), **more)

    def restored(self, *words: object, **more: Any) -> str:
        """What counter-restore says as it restores."""
        return done(*self.command("--yes", *words, **more))

    def refuses(self, said: str, *words: object, **more: Any) -> None:
        """counter-restore says why, and restores nothing."""
        ran = self.restore("--yes", *words, **more)
        assert ran.returncode == 1 and said in ran.stdout + ran.stderr, ran
        assert not self.store.exists()

    def guard(self, *folders: Path, store: Path | None = None, **settings: object) -> Ran:
        return run(RESTORE / "guard", store or self.store, *folders, env=with_settings(settings))

    def serve_guarded(self, *folders: Path, **settings: object) -> Ran:
        """serve_guarded until it ends; or until it serves, with status 124."""
        port, begun, is_served = free_port(), time.time(), False
        words = [RESTORE / "serve_guarded", self.store, self.program, port, *folders]
        more: dict[str, Any] = {"env": with_settings(settings), "start_new_session": True}
        process = started(*words, stdout=subprocess.PIPE, stderr=subprocess.PIPE, **more)
        while process.poll() is None and not is_served and time.time() < begun + 120:
            is_served = ask(port, get("/ticket/1")) is not None
            time.sleep(0.1)
        if process.poll() is None:
            os.killpg(process.pid, signal.SIGKILL)
        said = process.communicate()
        status = 124 if is_served else process.returncode
        return subprocess.CompletedProcess([str(word) for word in words], status, *said)

    def new(self, name: str) -> Path:
        self.count += 1
        return self.folder / f"{name}-{self.count}"

    def tables(self, store: Path | None = None) -> Tables:
        """Every row of every table, read from a copy."""
        copy = copied(store or self.store, self.new("read"))
        return {table: rows(copy, f"SELECT * FROM {table} ORDER BY 1, 2") for table in TABLES}

    def pays(self, turn: int, store: Path | None = None) -> bool:
        """Whether the bond of a turn is paid under a new number. A copy is asked."""
        copy = copied(store or self.store, self.new("asked"))
        return apply(self.program, copy, [redemption(turn, 900_000)])[0][0] == 200

    def lose(self) -> None:
        for path in self.store.parent.glob("day.db*"):
            path.unlink()

    def empty(self) -> None:
        os.truncate(self.store, 0)

    def put_older(self) -> None:
        self.lose()
        shutil.copy(self.before, self.store)


class Served:
    """`serve` over a store, which is killed at the end."""

    def __init__(self, day: Day) -> None:
        self.day, self.port = day, free_port()
        self.process = serve(day.program, day.store, self.port)

    def pay(self, turns: Iterable[int]) -> list[Answer]:
        """Redeems bonds one after another; each reply is acknowledged before the next request."""
        found = []
        for turn in turns:
            message = redemption(turn)
            answer = ask(self.port, message.replace(b"\r\n", b"\r\nConnection: close\r\n", 1))
            assert answer is not None and answer[0] == 200, answer
            self.day.write_log([message], [answer])
            found.append(answer)
        return found

    def kill(self) -> None:
        end(self.process)
