"""Journals, keys and desks of the Python client: threads, processes, paths, files that are damaged or fail, and Ctrl-C at any moment."""

import contextlib
import errno
import hashlib
import json
import os
import random
import shutil
import time
import types
from concurrent.futures import ThreadPoolExecutor
from pathlib import Path
from typing import Any, ContextManager, Iterable
from unittest import mock

import pytest

import ee_counter_client as client
import ee_counter_client.counter as counter_module
from ee_counter_client.archive import Archive
from ee_counter_client.journal import Journal, Keys
from ee_counter_client.testing import fake as fake_module
from tests.clients.desk import DAY, Desk, Part, controls, holds_not, within
from tests.clients.interruptions import Failing, Interrupt, moments_of

#: Locks that keep nobody out.
LOCKLESS = types.SimpleNamespace(RLock=mock.MagicMock)


@controls(without_its_lock=mock.patch.object(counter_module, "threading", LOCKLESS))
def test_threads(desk: Desk, part: Part) -> None:
    """Threads that share a Counter wait for one another: each request is done once, one at a time, and each thread gets its own ticket."""
    serials = [f"A{number}EE" for number in range(1, 31)]
    desk.has(*serials)
    with holds_not(part), desk.counter() as counter:
        desk.gate.faults = ["lost answer", "lost request"] * 2
        with ThreadPoolExecutor(6) as workers:
            jobs = [workers.submit(counter.redeem, DAY, 7, [serial]) for serial in serials]
        assert [job.exception() for job in jobs] == [None] * len(serials)
        assert [job.result().lines[0].serial for job in jobs] == serials
        assert len(desk.fake.tickets) == len(serials) and counter.open_request is None


def test_busy(desk: Desk) -> None:
    """A thread that waits longer than the patience sends nothing."""
    with desk.known(patience=1.2) as counter:
        desk.gate.faults = ["silent"]
        with ThreadPoolExecutor(1) as other:
            ends = other.submit(counter.redeem, DAY, 7, ["L1EE"])
            time.sleep(0.3)
            counter.patience = 0.4
            with within(1, 0.39), pytest.raises(client.Busy) as raised:
                counter.redeem(DAY, 7, ["L2EE"])
            assert raised.value.retryable and not raised.value.may_be_done
            assert isinstance(ends.exception(), client.NoReply)


def test_forked(desk: Desk) -> None:
    """A forked process may not use the counter, and doesn't hold the journal once its parent has closed it."""
    counter = desk.counter()
    asleep, awake = os.pipe()
    child = os.fork()
    if child == 0:
        status = 1
        with contextlib.suppress(BaseException):
            try:
                counter.redeem(DAY, 7, ["L1EE"])
            except client.Closed:
                counter.close()
                status = 0
            os.read(asleep, 1)
        os._exit(status)
    time.sleep(0.5)
    assert desk.fake.tickets == [] and counter.redeem(DAY, 7, ["L2EE"]).number == 1
    counter.close()
    with desk.counter() as again:
        assert again.desk == 3, "while the child lives it is opened again"
    os.write(awake, b"x")
    assert os.waitpid(child, 0)[1] == 0, "the child was told by Closed"


def test_closed(desk: Desk) -> None:
    counter = desk.counter(archive=desk.archive)
    calls = {"redeem": (DAY, 7, ["L1EE"]), "open_day": (DAY,), "close_day": (DAY,), "finish": ()}
    calls |= {"add_bonds": ([client.Bond("L4EE", 50, "2010-11", 7)],), "abandon": ("no reason",)}
    calls |= {"add_rates": ([client.Rates("2010-11", "1.00")],), "ticket": (1,), "batch": (DAY,)}
    calls |= {"inventory": (7, "2012-02"), "value": (50, "2010-11", "2012-02")}
    counter.close()
    counter.close()
    for name, words in calls.items():
        with pytest.raises(client.Closed):
            getattr(counter, name)(*words)
    assert desk.gate.heads == [] and (counter.desk, counter.open_request) == (3, None)
    pool = client.Pool(desk.place, desk.gate.address, desks=[4, 5])
    pool.close()
    pool.close()
    with pytest.raises(client.Closed):
        pool.redeem(DAY, 7, ["L1EE"])
    with desk.counter(archive=desk.archive) as again:
        assert again.redeem(DAY, 7, ["L1EE"]).number == 1, "control: opened again it pays"


@controls(unresolved_path=mock.patch.object(os.path, "realpath", os.path.abspath))
def test_paths(desk: Desk, part: Part) -> None:
    """Whichever way a path leads to a journal, one Counter has it."""
    inner = desk.place / "inner"
    inner.mkdir()
    (desk.place / "link").symlink_to(inner)
    journal, linked = inner / "a.journal", desk.place / "b.journal"
    linked.symlink_to(journal)
    up = inner / ".." / "inner" / "a.journal"
    relative = Path(os.path.relpath(journal))
    paths = (journal, relative, up, desk.place / "link/a.journal", linked)
    with holds_not(part), client.Counter(journal, desk=3):
        for path in paths:
            with pytest.raises(client.JournalInUse) as raised:
                client.Counter(path)
            assert raised.value.retryable
    if part is None:
        with client.Counter(linked) as counter:
            counter._journal.change(bookmark=5)
            assert linked.is_symlink() and json.loads(journal.read_text())["bookmark"] == 5


def test_second_names(desk: Desk) -> None:
    """A hard link to a journal is refused, and one archive for two journals."""
    desk.counter().close()
    os.link(desk.journal, desk.place / "hard.journal")
    for path in (desk.journal, desk.place / "hard.journal"):
        with pytest.raises(client.BadJournal, match="second name"):
            client.Counter(path)
    os.unlink(desk.place / "hard.journal")
    with desk.counter(archive=desk.archive), pytest.raises(client.JournalInUse):
        client.Counter(desk.place / "c.journal", desk=4, archive=desk.archive)


def test_removed_lock_file(desk: Desk) -> None:
    """It is made again, and keeps the second out. Another desk isn't taken."""
    desk.counter().close()
    with pytest.raises(client.BadJournal, match="the journal of desk 3"):
        desk.counter(desk=4)
    os.unlink(f"{desk.journal}.lock")
    with desk.counter(), pytest.raises(client.JournalInUse):
        desk.counter()


FORMS = ["no journal\n", "{}", "[]", '{"desk":3,"next":1,"open":7,"last":null,"bookmark":null}']
FORMS += ['{"desk":"3","next":1,"open":null,"last":null,"bookmark":null}']


@pytest.mark.parametrize("text", FORMS)
def test_no_journal(desk: Desk, text: str) -> None:
    """What is no journal isn't written over."""
    desk.journal.write_text(text)
    with pytest.raises(client.BadJournal):
        desk.counter()
    assert desk.journal.read_text() == text


def test_earlier_journal(desk: Desk) -> None:
    """A journal of the client before it was a package is read, and its open request gets its ticket."""
    fields = {"day": DAY, "payee": 7, "serials": ["L1EE"]}
    still = {"number": 17, "step": 1, "sent": 1, "path": "/redeem", "fields": fields, "bookmark": 4}
    record = {"desk": 3, "next": 18, "open": still, "last": None, "bookmark": 3}
    desk.journal.write_text(json.dumps(record) + "\n")
    with desk.counter() as counter:
        assert counter.open_request and counter.open_request.number == 17
        assert counter.bookmark == 3
        ticket = counter.redeem(DAY, 7, ["L1EE"])
        assert ticket.request and ticket.request.sent == 2 and counter.bookmark == 4


FILELESS = mock.patch.object(Keys, "read", lambda keys, keyed: setattr(keys, "size", keyed))


@controls(without_its_file=FILELESS)
def test_keys(desk: Desk, part: Part) -> None:
    """The same call with the same key has the same reply, in the same run and in a later one, and sends nothing."""
    with desk.counter() as counter:
        first = counter.redeem(DAY, 7, ["L1EE"], key="invoice-4711")
        with desk.untouched():
            assert counter.redeem(DAY, 7, ["L1EE"], key="invoice-4711") == first
    with holds_not(part), client.Counter(desk.journal, "http://127.0.0.1:9", patience=1) as later:
        again = later.redeem(DAY, 7, ["L1EE"], key="invoice-4711")
        assert (again, again.text) == (first, first.text) and again.request and first.request
        assert again.request.number == first.request.number
        found = later.find("invoice-4711")
        assert found and found.result() == first and later.find("other") is None


def test_reused_keys(desk: Desk) -> None:
    with desk.counter(patience=1) as counter:
        counter.redeem(DAY, 7, ["L1EE"], key="a")
        with pytest.raises(client.KeyReused, match="a"):
            counter.redeem(DAY, 7, ["L2EE"], key="a")
        with pytest.raises(client.DayIsOther):
            counter.redeem("2012-02-07", 7, ["L2EE"], key="b")
        desk.gate.faults = ["lost answer"] * 60
        with pytest.raises(client.NoReply):  # a refusal left its key free
            counter.redeem(DAY, 7, ["L2EE"], key="b")
        with pytest.raises(client.KeyReused):
            counter.redeem(DAY, 7, ["L1EE"], key="b")
        with pytest.raises(client.NoReply) as raised:
            counter.redeem(DAY, 7, ["L3EE"], key="c")
        assert raised.value.request.key == "b", "another call finishes it first"
        desk.gate.faults, counter.patience = [], 60
        assert counter.redeem(DAY, 7, ["L3EE"], key="c").number == 3
        with desk.untouched():
            assert counter.redeem(DAY, 7, ["L2EE"], key="b").number == 2


def test_request_without_a_key(desk: Desk) -> None:
    """Its caller alone would know its reply. So no other call finishes it."""
    with desk.known(patience=0.3) as counter:
        desk.gate.faults = ["lost answer"] * 9
        with pytest.raises(client.NoReply):
            counter.redeem(DAY, 7, ["L1EE"])
        desk.gate.faults = []
        with pytest.raises(client.StillOpen):
            counter.redeem(DAY, 7, ["L2EE"], key="b")
        assert counter.redeem(DAY, 7, ["L1EE"]).number == 1


@controls(leaves_it_open=mock.patch.object(Journal, "settled", lambda journal: journal.record))
def test_stop_after_the_line_of_a_key(desk: Desk, part: Part) -> None:
    """The next run takes the reply from the line, with its bookmark."""
    with desk.counter() as counter:
        true = counter._journal.change

        def stopped(**changes: Any) -> None:
            if "last" in changes:
                raise KeyboardInterrupt
            true(**changes)

        with mock.patch.object(counter._journal, "change", stopped):
            with pytest.raises(KeyboardInterrupt):
                counter.redeem(DAY, 7, ["L1EE"], key="a", bookmark=4)
    assert json.loads(desk.journal.read_text())["open"]["key"] == "a"
    with holds_not(part), desk.counter() as counter:
        assert (counter.open_request, counter.bookmark, counter.finish()) == (None, 4, None)
        sent = len(desk.gate.bodies)
        assert counter.redeem(DAY, 7, ["L1EE"], key="a").number == 1
        assert len(desk.gate.bodies) == sent
        assert counter.redeem(DAY, 7, ["L2EE"], key="b").number == 2


def test_damaged_keys(desk: Desk) -> None:
    name = desk.place / "a.journal.keys"
    with desk.counter() as counter:
        counter.redeem(DAY, 7, ["L1EE"], key="a")
    whole = name.read_bytes()
    for text in (whole[:-20], None, b"X" + whole[1:]):
        name.unlink() if text is None else name.write_bytes(text)
        with pytest.raises(client.BadJournal, match="keys"):
            desk.counter()
    name.write_bytes(whole + b'{"key":"invoi')
    with desk.counter() as counter:
        counter.redeem(DAY, 7, ["L2EE"], key="b")
    lines = name.read_text().splitlines()
    assert [json.loads(line)["key"] for line in lines] == ["a", "b"], "a cut line is taken off"
    with open(name, "ab") as file:
        file.write(b"\0" * 50 + b"\n" + whole)
    with desk.counter() as counter:
        found = counter.find("b")
        assert found and found.reply["ticket"] == 2, "so is what a loss of power left after them"


def jobs_of(pool: client.Pool, serials: Iterable[str]) -> list[client.Ticket]:
    with ThreadPoolExecutor(8) as workers:
        return list(workers.map(lambda s: pool.redeem(DAY, 7, [s], key=f"of {s}"), serials))


@controls(keys_not_looked_up=mock.patch.object(client.Pool, "_knowing", lambda pool, key: None))
def test_pool(desk: Desk, part: Part) -> None:
    """40 jobs of 8 workers at 4 desks, 9 of them harmed: one ticket each. The same jobs in a later run have the same tickets, and send nothing."""
    serials = [f"A{number}EE" for number in range(1, 41)]
    desk.has(*serials)
    desk.gate.faults = ["lost answer", "failed after", "lost request"] * 3
    with holds_not(part):
        with client.Pool(desk.place, desk.gate.address, desks=range(10, 14)) as pool:
            tickets = jobs_of(pool, serials)
        assert len(desk.fake.tickets) == 40
        assert {t.request.desk for t in tickets if t.request} == {10, 11, 12, 13}
        sent = len(desk.gate.bodies)
        with client.Pool(desk.place, desk.gate.address, desks=[13, 12, 11, 10]) as pool:
            assert jobs_of(pool, reversed(serials)) == tickets[::-1]
            found = pool.find(f"of {serials[0]}")
            assert found and found.result() == tickets[0] and len(desk.gate.bodies) == sent


def test_one_key_at_once(desk: Desk) -> None:
    desk.gate.faults = ["lost answer"]
    with client.Pool(desk.place, desk.gate.address, desks=[10, 11], patience=20) as pool:
        with ThreadPoolExecutor(4) as workers:
            tickets = list(workers.map(lambda _: jobs_of(pool, ["L1EE"])[0], range(4)))
    assert {ticket.number for ticket in tickets} == {1} and len(desk.fake.kept) == 2


def test_pool_whose_desks_are_open(desk: Desk) -> None:
    """A desk whose request has no reply takes no other one; the others do."""
    with client.Pool(desk.place, desk.gate.address, desks=[10, 11], patience=0.4) as pool:
        pool.ticket(1)
        desk.gate.faults = ["lost answer"] * 30
        for serial in ("L1EE", "L2EE"):
            with pytest.raises(client.NoReply):
                pool.redeem(DAY, 7, [serial], key=serial)
        assert len(pool.open_requests) == 2
        with pytest.raises(client.Busy) as raised:
            pool.redeem(DAY, 7, ["L3EE"], key="L3EE")
        assert raised.value.retryable and not raised.value.may_be_done
        desk.gate.faults = []
        tickets = [pool.redeem(DAY, 7, [s], key=s).number for s in ("L3EE", "L1EE")]
        assert tickets == [3, 1]
        with pool.desk(), pool.desk(), within(1, 0.39), pytest.raises(client.Busy):
            pool.desk().__enter__()


class Interrupted:
    """A Counter with an archive, whose calls are interrupted, and then made again."""

    def __init__(self, desk: Desk, counter: client.Counter, has_key: bool) -> None:
        self.desk, self.counter, self.has_key, self.count = desk, counter, has_key, 0

    def redeem(self, serial: str) -> client.Ticket:
        key = serial if self.has_key else None
        return self.counter.redeem(DAY, 7, [serial], key=key, bookmark=self.count)

    def with_bonds(self) -> tuple[str, str]:
        self.count += 1
        self.desk.has(f"A{self.count}EE", f"B{self.count}EE")
        return f"A{self.count}EE", f"B{self.count}EE"

    def as_on_disk(self) -> None:
        """What the Counter knows is what another process would read of its files."""
        copy = self.desk.place / "copy"
        shutil.rmtree(copy, ignore_errors=True)
        copy.mkdir()
        for file in self.desk.place.glob("a.*"):
            shutil.copy(file, copy)
        known = self.counter.open_request, self.counter.last, self.counter.bookmark
        with client.Counter(copy / "a.journal", archive=copy / "a.archive") as other:
            assert known == (other.open_request, other.last, other.bookmark)

    def again(self, serial: str, other: str | None = None) -> None:
        self.as_on_disk()
        if other is not None:
            self.redeem(other)
        try:
            assert self.redeem(serial).lines[0].serial == serial
        except client.AlreadyPaid as paid:
            assert not self.has_key and paid.serial == serial
        assert self.counter.open_request is None
        self.as_on_disk()

    def paid_once(self) -> None:
        """Each bond is on one ticket; the archive is whole, and has the reply to each request that the counter gave."""
        fake = self.desk.fake
        paid = [line["serial"] for ticket in fake.tickets for line in ticket["lines"]]
        lines = self.desk.archive.read_bytes().split(b"\n")
        assert lines.pop() == b"" and len(set(paid)) == len(paid) == len(fake.paid)
        archived: dict[int, object] = {}
        for before, line in zip(lines, lines[1:]):
            told = json.loads(line)
            assert told["before"] == hashlib.sha256(before).hexdigest()
            if "reply" in told:
                assert archived.setdefault(told["number"], told["reply"]) == told["reply"]
        assert archived == {n: kept[1] for (desk, n), kept in fake.kept.items() if desk == 3}


@pytest.fixture
def interrupted(desk: Desk, request: pytest.FixtureRequest) -> Any:
    with mock.patch.object(fake_module, "MOST_TICKETS", 10**6):
        files: dict[str, Any] = {"desk": 3, "archive": desk.archive, "patience": 5}
        with client.Counter(desk.journal, desk.fake.address, **files) as counter:
            counter.ticket(1)
            yield Interrupted(desk, counter, request.param == "with a key")


def stop_at(interrupted: Interrupted, moments: list[tuple[str, int]]) -> None:
    for moment in moments:
        serial, other = interrupted.with_bonds()
        with Interrupt(*moment):
            interrupted.redeem(serial)
        is_mixed = interrupted.has_key and interrupted.count % 2 == 0
        interrupted.again(serial, other if is_mixed else None)
    interrupted.paid_once()


@pytest.mark.parametrize("interrupted", ["with a key", "without a key"], indirect=True)
@pytest.mark.parametrize("most", [100, pytest.param(10**6, marks=pytest.mark.slow, id="each")])
def test_interrupted(interrupted: Interrupted, dice: random.Random, most: int) -> None:
    """Ctrl-C at moments of a call, the first of each function among them: the same call has its reply, each bond is paid once, and the files are right."""
    moments = moments_of(lambda: interrupted.redeem("L1EE"))
    dice.shuffle(moments)
    first = list({name: (name, nth) for name, nth in moments}.values())
    others = [moment for moment in moments if moment not in first]
    stop_at(interrupted, (first + others)[:most])
    assert interrupted.count == min(most, len(moments)) > 90


KEYED, UNKEYED = "with a key", "without a key"
UNSETTLED = mock.patch.object(Journal, "settled", lambda journal: journal.record)
UNRESTORED = mock.patch.object(Journal, "restore", lambda journal: None)
UNREAD = mock.patch.object(Archive, "read_back", lambda archive: None)
WITHIN = {
    "reply not taken from its keys": (KEYED, "Journal.write", UNSETTLED),
    "interrupted change left on the disk": (UNKEYED, "Journal.write", UNRESTORED),
    "last line not read back": (KEYED, "Archive.write", UNREAD),
}
MOMENT = ("interrupted", "function", "part")


@pytest.mark.parametrize(MOMENT, WITHIN.values(), ids=WITHIN, indirect=["interrupted"])
def test_interrupted_within(
    interrupted: Interrupted, function: str, part: ContextManager[object]
) -> None:
    """Each moment of a function. Control: it doesn't hold without a part that shows there."""
    moments = moments_of(lambda: interrupted.redeem("L1EE"))
    moments = [moment for moment in moments if moment[0] == function]
    assert moments
    stop_at(interrupted, moments)
    with holds_not(part):
        stop_at(interrupted, moments)


def test_interrupted_openings(desk: Desk) -> None:
    """Ctrl-C while a journal with an archive is opened or closed: it can be opened again."""

    def opened() -> None:
        desk.counter(archive=desk.archive).close()

    for count, moment in enumerate(moments_of(opened)[::3]):
        for path in (desk.journal, desk.archive) if count % 2 else ():
            path.unlink(missing_ok=True)
        with Interrupt(*moment):
            opened()
        opened()


CALLS: dict[str, tuple[str, Part]] = {KEYED: (KEYED, None), UNKEYED: (UNKEYED, None)}
CALLS |= {"failed change left on the disk": (UNKEYED, UNRESTORED)}
CALLS |= {"last line not read back": (UNKEYED, UNREAD)}


@pytest.mark.parametrize(MOMENT[::2], CALLS.values(), ids=CALLS, indirect=["interrupted"])
def test_failing_calls(interrupted: Interrupted, part: Part) -> None:
    """EIO and ENOSPC of each call on the files, before it is done or after: the error says whether the bond may have been paid, and the same call has its reply."""
    with Failing() as whole:
        interrupted.redeem("L1EE")
    assert whole.count > 20
    failed = 0
    with holds_not(part):
        for number in (errno.EIO, errno.ENOSPC):
            for at in range(2, 2 * whole.count + 2):
                serial, _ = interrupted.with_bonds()
                try:
                    with Failing(at // 2, number, is_after=at % 2 == 1):
                        interrupted.redeem(serial)
                except client.FileFailed as failure:
                    failed += 1
                    assert failure.may_be_done == (serial in interrupted.desk.fake.paid), at
                interrupted.again(serial)
        interrupted.paid_once()
        assert failed > interrupted.count / 2
