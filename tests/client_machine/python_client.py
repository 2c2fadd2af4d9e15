"""The Python client beside the machine."""
import importlib
import json
import os
import shutil
import sys
import tempfile
from pathlib import Path
from types import ModuleType
from typing import Any, Optional

import pytest

from tests.client_machine.counter import DAY, PAYEE, STOPPED, Counter, Fate, Json, name_of
from tests.client_machine import machine as proved
from tests.client_machine.machine import Beside, Machine, Record

Edit = tuple[str, str, str]
SOURCES = Path(__file__).resolve().parents[2] / "clients" / "python" / "src"
#: Where files are in memory.
MEMORY = "/dev/shm"
#: The greatest number that a journal of Python holds as its next.
MOST = 2**63


class Killed(BaseException):
    """The client is killed."""


def edited(folder: Path, edit: Edit) -> None:
    file, old, new = edit
    text = (folder / file).read_text()
    assert text.count(old) == 1, f"{old!r} isn't once in {file}"
    (folder / file).write_text(text.replace(old, new))


def package(edit: Optional[Edit] = None) -> ModuleType:
    if edit is None:
        sys.path.insert(0, str(SOURCES))
        return importlib.import_module("ee_counter_client")
    folder = Path(tempfile.mkdtemp())
    name = f"wrong_{folder.name}"
    shutil.copytree(SOURCES / "ee_counter_client", folder / name)
    edited(folder / name, edit)
    sys.path.insert(0, str(folder))
    return importlib.import_module(name)


def record_of(record: Json) -> Record:
    still = record["open"]
    if still is None:
        return Record(record["next"])
    follower = name_of(still["then"]["fields"]) if "then" in still else 0
    number, step, sent = (still[key] for key in ("number", "step", "sent"))
    return Record(record["next"], number, step, sent, name_of(still["fields"]), follower)


def answered_kind(status: int, text: str) -> int:
    try:
        value = json.loads(text)
    except ValueError:
        return proved.NOTHING
    if status == 200:
        return proved.DONE
    if status == 409:
        return proved.REUSED if value["code"] == 10 else proved.REFUSED
    is_fault = status == 400 and value["code"] not in (60, 61, 63, 68)
    return proved.FAULT if is_fault or (status, text) == STOPPED[Fate.FORBIDDEN] else proved.NOTHING


class Told:
    """A client that is held to the machine, whose journal begins with a number."""

    def __init__(self, machine: Machine, most: int, first: int) -> None:
        self.counter, self.beside = Counter(), Beside(machine, most, Record(first))
        self.fates: list[Fate] = []
        self.writes: list[str] = []
        self.shown: dict[int, int] = {}
        self.followers: dict[int, int] = {}

    def told(self, outcome: int) -> None:
        """What the caller was told of the act that the machine showed last."""
        assert self.beside.last_shown is not None
        self.beside.shows(self.beside.last_shown.act, outcome)
        self.shown[self.beside.last_shown.act] = outcome


class PythonClient(Told):
    """A client whose journal is in a folder, with the machine beside it."""

    def __init__(self, package: ModuleType, machine: Machine, first: int) -> None:
        super().__init__(machine, MOST, first)
        self.package = package
        self.folder = Path(tempfile.mkdtemp(dir=MEMORY if os.path.isdir(MEMORY) else None))
        self.journal = str(self.folder / "journal")
        # In the client's own order, so that it needs no writing back.
        start: Json = {"abandoned": [], "keyed": 0, "desk": 3, "next": first, "open": None}
        start |= {"last": None, "bookmark": None}
        Path(self.journal).write_text(json.dumps(start, separators=(",", ":")) + "\n")
        self.trials = importlib.import_module(f"{package.__name__}.lookups").Trials
        self.true_pause = self.trials.pause
        self.trials.pause = lambda trials: bool(self.fates)
        self.client = self.started()

    def close(self) -> None:
        self.trials.pause = self.true_pause
        self.dropped()
        shutil.rmtree(self.folder)

    def started(self) -> Any:
        """A new process's client. It hears nothing of the one before."""
        client = self.package.Counter(self.journal, desk=3, patience=1_000_000)
        client._is_known = True
        is_killed = [False]
        real_write = client._journal.write

        def write(record: Json) -> None:
            if is_killed[0]:
                raise OSError("it is killed")
            self.beside.writes(record_of(record))
            outcome = self.writes.pop(0) if self.writes else "kept"
            if outcome == "failed":
                self.beside.happens(proved.UNWRITTEN)
                raise OSError("the disk is full")
            if outcome in ("kept", "killed after"):
                real_write(record)
            is_killed[0] = outcome != "kept"
            if is_killed[0]:
                self.beside.happens(proved.KILLED, detail=int(outcome == "killed after"))
                raise Killed
            self.beside.happens(proved.WRITTEN)

        def exchanged(method: str, path: str, value: Json, read: Any, deadline: Any) -> Any:
            assert method == "POST"
            number, act = value["number"], name_of(value)
            self.beside.sends(number, act)
            fate = self.fates.pop(0) if self.fates else Fate.LOST
            response = self.counter.meets(path, value, fate)
            answers = importlib.import_module(f"{self.package.__name__}.answers")
            kind = proved.NOTHING if response is None else answered_kind(*response)
            self.beside.happens(proved.ANSWERED, number, detail=kind)
            if response is None:
                return answers.Answer("none", met="nothing came")
            return answers.answer_of(*response, read)

        client._journal.write = write
        client._exchanged = exchanged
        self.beside.holds(record_of(client._journal.record))
        return client

    def dropped(self) -> None:
        """The process is gone: its lock too, and nothing else happens."""
        self.client._journal.unlock()
        self.client._journal.keys.close()

    def called(self, call: Any) -> None:
        errors = self.package
        try:
            result = call()
        except Killed:
            self.dropped()
            self.client = self.started()
        except errors.Refused:
            self.told(proved.REFUSED)
        except (errors.Fault, errors.Forbidden):
            self.told(proved.NOT_DONE)
        except errors.FileFailed as failure:
            last = [(event.kind, event.detail) for event in self.beside.events[-2:]]
            fault = [(proved.ANSWERED, proved.FAULT), (proved.UNWRITTEN, 0)]
            assert self.is_ended or last != fault, "a fault ended it"
            assert not (self.is_ended and failure.may_be_done)
            if not self.is_ended:
                self.beside.happens(proved.KILLED)
        except errors.NoReply:
            pass
        else:
            if isinstance(result, self.package.Ticket):
                self.beside.shows(int(result.lines[0].serial[1:-2]), proved.DONE)
                self.told(proved.DONE)
        if not self.is_ended:
            self.beside.holds(record_of(self.client._journal.record))

    @property
    def is_open(self) -> bool:
        return self.client._journal.record["open"] is not None

    @property
    def is_ended(self) -> bool:
        """Whether a fault ended a request, and the journal's file doesn't have that yet."""
        return self.beside.turn.journal.act != 0 and not self.is_open

    def submit(self, act: int, follower: int = 0) -> None:
        if self.is_ended:
            self.go_on()
        if self.is_ended:
            return
        self.beside.happens(proved.SUBMIT, act=act)
        if self.is_open:
            assert self.beside.turn.action == proved.REFUSE
            with pytest.raises(self.package.StillOpen):
                self.client.redeem(DAY, PAYEE, [f"L{act}EE"])
            return
        self.called(lambda: self.client.redeem(DAY, PAYEE, [f"L{act}EE"]))

    def go_on(self) -> None:
        """Sends the open request, or writes that it ended."""
        self.called(self.client.finish)

    def give_up(self) -> None:
        if not self.is_open:
            return
        self.beside.happens(proved.GIVE_UP)

        def call() -> None:
            given_up = self.client.abandon("tried")
            self.told(proved.GIVEN_UP if given_up.may_be_done else proved.NOT_DONE)

        self.called(call)

    def kill(self) -> None:
        self.beside.happens(proved.KILLED)
        self.dropped()
        self.client = self.started()
