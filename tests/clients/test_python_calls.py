"""A call of the Python client ends: limits before the journal, a wrong set-up at once, the patience as a deadline, each fault of the way, and requests that are given up."""

import json
import os
import random
import socket
import time
from typing import Any, Callable
from unittest import mock

import pytest

import ee_counter_client as client
import ee_counter_client.counter as counter_module
import ee_counter_client.journal as journal_module
import ee_counter_client.lookups as lookups_module
import ee_counter_client.way as way
from ee_counter_client.testing import ENDING, FAULTS, OF_ONE_SENDING, gate
from tests.clients.desk import DAY, Desk, Part, controls, encrypted, holds_not, listening, within


def paid_number(ticket: client.Ticket) -> tuple[int, int]:
    assert ticket.request is not None
    return ticket.number, ticket.request.sent


BOND: dict[str, Any] = {"serial": "L1EE", "denom": 50, "issued": "2010-11", "owner": 7}
SERIALS = [f"A{n}EE" for n in range(1, 502)]
OUT_OF_BOUNDS: dict[str, Any] = {
    "no serial numbers": lambda counter: counter.redeem(DAY, 7, []),
    "101 serial numbers": lambda counter: counter.redeem(DAY, 7, SERIALS[:101]),
    "501 bonds": lambda counter: counter.add_bonds([{**BOND, "serial": one} for one in SERIALS]),
    "no rates": lambda counter: counter.add_rates([]),
    "an issue month after 2099": lambda counter: counter.add_bonds([{**BOND, "issued": "2100-01"}]),
    "a rate of 20.01 %": lambda counter: counter.add_rates([{"from": "2010-05", "rate": "20.01"}]),
    "a long bookmark": lambda counter: counter.open_day(DAY, bookmark="b" * 10_000),
    "a long key": lambda counter: counter.open_day(DAY, key="k" * 201),
}


@controls(more_serial_numbers=mock.patch.multiple(counter_module, MOST_SERIALS=1000))
def test_limits(desk: Desk, part: Part) -> None:
    """What the counter or the proxy refuses by its size or range is refused before the journal is written."""
    with holds_not(part), desk.counter() as counter:
        for call in OUT_OF_BOUNDS.values():
            with desk.untouched(), pytest.raises(client.BadValue):
                call(counter)
        assert desk.gate.heads == []


PAGES: dict[str, type[client.CounterError]] = dict.fromkeys(
    ("other page", "redirect", "proxy page"), client.ForeignAnswer
)
PAGES |= {"no certificate": client.CertificateRefused, "no gateway": client.NotReady}
#: What a web server says that answers everything.
SAID = {"a body": b"<html>OK</html>", "no body": b"", "JSON": b'{"status":"ok"}'}
KNOWN = {"_try_the_way": lambda *_: None, "_is_known": property(lambda _: True, lambda *_: None)}
GRANTED = mock.patch.multiple(client.Counter, create=True, **KNOWN)


@controls(first_answer_taken_for_granted=GRANTED)
@pytest.mark.parametrize("fault", PAGES)
def test_foreign_page(desk: Desk, fault: str, part: Part) -> None:
    """Before the first good exchange a page that no counter wrote ends a call at once, with nothing in the journal."""
    kind = PAGES[fault]
    branch = client.Retryable if kind is client.NotReady else client.WrongSetup
    desk.gate.is_wide, desk.gate.faults = True, [fault] * 50
    with holds_not(part), desk.counter(patience=1) as counter:
        with desk.untouched(), within(0.9), pytest.raises(kind) as raised:
            counter.redeem(DAY, 7, ["L1EE"])
        assert isinstance(raised.value, branch) and not raised.value.may_be_done
        assert raised.value.retryable == (branch is client.Retryable)
        assert desk.fake.tickets == [] and len(desk.gate.heads) == 1, "one look-up was sent"
        with within(0.9), pytest.raises(kind):
            counter.ticket(1)
        desk.gate.faults = []
        assert counter.redeem(DAY, 7, ["L1EE"]).number == 1, "with the set-up corrected it pays"


@pytest.mark.parametrize("body", SAID.values(), ids=SAID)
def test_web_server(desk: Desk, body: bytes) -> None:
    said = {"other page": gate.response(b"200 OK", gate.JSON, body)}
    with mock.patch.dict(gate.STANDING, said):
        test_foreign_page(desk, "other page", None)


@pytest.mark.parametrize("more", [-1, -500, 1, 0])
def test_counts_that_do_not_fit(desk: Desk, more: int) -> None:
    """A reply that counts other bonds than were sent is no reply. Control: with the right counts it is one."""
    bonds = [client.Bond(f"A{n}EE", 50, "2010-11", 7) for n in range(1, 501)]
    counted = {"new": len(bonds) + more, "same": 0}
    with mock.patch.object(desk.fake, "replied", lambda *_: counted), desk.known(1) as counter:
        if more == 0:
            assert counter.add_bonds(bonds, even_so=True).new == 500
            return
        with pytest.raises(client.NoReply):
            counter.add_bonds(bonds, even_so=True)


@pytest.mark.needs("openssl")
def test_unknown_host_and_certificate(desk: Desk) -> None:
    with client.Counter(desk.journal, "http://no-such-host.invalid", desk=3) as counter, within(20):
        with pytest.raises(client.UnknownHost):
            counter.redeem(DAY, 7, ["L1EE"])
        assert counter.open_request is None
    with listening(encrypted(desk.place, desk.gate.port)) as port:
        address = f"https://127.0.0.1:{port}"
        with client.Counter(desk.journal, address) as counter, within(2):
            with pytest.raises(client.UntrustedCertificate):
                counter.redeem(DAY, 7, ["L1EE"])
            assert counter.open_request is None and desk.fake.tickets == []
        with client.Counter(desk.journal, address, ca=desk.place / "certificate.pem") as counter:
            assert counter.redeem(DAY, 7, ["L1EE"]).number == 1, "control: named, it is trusted"


def test_pages_after_a_good_exchange(desk: Desk) -> None:
    with desk.counter() as counter:
        desk.gate.faults = [fault for fault in PAGES if fault not in ENDING]
        assert paid_number(counter.redeem(DAY, 7, ["L1EE"])) == (1, 5)


def test_wrong_setup_while_open(desk: Desk) -> None:
    """A request that an earlier run left open stays open, and the error says that it may have been done."""
    with desk.known(patience=1) as counter, pytest.raises(client.NoReply):
        desk.gate.faults = ["lost answer"] * 50
        counter.redeem(DAY, 7, ["L1EE"])
    desk.gate.is_wide, desk.gate.faults = True, ["no certificate"] * 2
    with desk.counter() as counter:
        with pytest.raises(client.StillOpen):
            counter.redeem(DAY, 7, ["L2EE"])
        with pytest.raises(client.CertificateRefused) as raised:
            counter.finish()
        assert raised.value.may_be_done and counter.open_request and counter.open_request.sent > 1
        desk.gate.faults = []
        paid = counter.finish()
        assert isinstance(paid, client.Ticket) and paid.number == 1, "control: with one it is done"


TRYING = mock.patch.object(client.Lookups, "_ends", lambda counter, _: not counter._is_known)


@controls(goes_on_trying=TRYING)
def test_revoked(desk: Desk, part: Part) -> None:
    """A certificate that isn't accepted any more ends a look-up and an act at once, and the request stays open. With another one the same call gets its reply."""
    lookups = client.Lookups(desk.gate.address, patience=2)
    assert lookups.ticket(1) is None
    with holds_not(part), desk.known(patience=2) as counter:
        desk.gate.is_wide, desk.gate.faults = True, ["no certificate"] * 50
        for asked in (counter, lookups):
            before = len(desk.gate.heads)
            with within(0.9), pytest.raises(client.CertificateRefused) as raised:
                asked.ticket(1)
            assert len(desk.gate.heads) == before + 1 and not raised.value.may_be_done
        with within(0.9), pytest.raises(client.CertificateRefused) as raised:
            counter.redeem(DAY, 7, ["L1EE"], key="a")
        assert raised.value.may_be_done and desk.fake.tickets == []
        desk.gate.faults = []
        assert paid_number(counter.redeem(DAY, 7, ["L1EE"], key="a")) == (1, 2)


def silent(connection: socket.socket) -> None:
    connection.recv(65536)
    time.sleep(5)


def drip(connection: socket.socket) -> None:
    connection.recv(65536)
    connection.sendall(b"HTTP/1.1 200 OK\r\n")
    for _ in range(100):
        connection.sendall(b"X: y\r\n")
        time.sleep(0.05)


OF_SOCKET = mock.patch.object(way.Deadline, "for_socket", lambda deadline: 2.0)


@controls(limit_of_each_call_of_the_socket=OF_SOCKET)
def test_dripping_answer(desk: Desk, part: Part) -> None:
    """The patience ends the whole call, whatever the server does."""
    with holds_not(part), desk.known(patience=0.8) as counter:
        desk.gate.faults, desk.gate.drip = ["dripping"] * 9, 0.02
        with within(1.6, 0.79), pytest.raises(client.NoReply) as raised:
            counter.redeem(DAY, 7, ["L1EE"])
        assert raised.value.may_be_done and raised.value.request == counter.open_request
        assert len(desk.fake.tickets) == 1


@pytest.mark.parametrize("scheme, serve", [("http", silent), ("https", silent), ("http", drip)])
def test_server_without_an_answer(desk: Desk, scheme: str, serve: Any) -> None:
    with listening(serve) as port:
        address = f"{scheme}://127.0.0.1:{port}"
        with client.Counter(desk.journal, address, desk=3, patience=0.7) as counter:
            with within(1.5, 0.69), pytest.raises(client.NoAnswer) as raised:
                counter.redeem(DAY, 7, ["L1EE"])
            assert counter.open_request is None and not raised.value.may_be_done
            with within(1.5, 0.69), pytest.raises(client.NoAnswer):
                counter.batch(DAY)


def test_slow_resolver(desk: Desk) -> None:
    true = socket.getaddrinfo

    def slow(host: str, *words: Any, **more: Any) -> Any:
        if not more.get("flags"):
            time.sleep(5)
        return true(host, *words, **more)

    with mock.patch.object(socket, "getaddrinfo", slow), within(1):
        with client.Counter(desk.journal, "http://localhost:9", desk=3, patience=0.5) as counter:
            with pytest.raises(client.NoAnswer, match="resolver"):
                counter.batch(DAY)


@controls(pauses_without_chance=mock.patch.object(random, "uniform", lambda least, most: most))
def test_pauses(desk: Desk, part: Part) -> None:
    """They grow from 0.1 to 4 seconds. Each is from half of its time to all of it, and no two clients have the same."""
    with holds_not(part), desk.known(patience=60) as counter:
        pauses: list[float] = []
        for serial in ("L1EE", "L2EE"):
            desk.gate.faults = ["lost request"] * 6

            def wait(trials: object, seconds: float) -> bool:
                pauses.append(seconds)
                return True

            with mock.patch.object(lookups_module.Trials, "wait", wait):
                counter.redeem(DAY, 7, [serial])
        full = lookups_module.PAUSES[:6] * 2
        assert len(pauses) == 12 and pauses[:6] != pauses[6:]
        assert all(whole / 2 <= pause <= whole for pause, whole in zip(pauses, full))


@pytest.mark.parametrize("fault", FAULTS)
def test_fault(desk: Desk, fault: str) -> None:
    """Each act meets it: the same bytes are sent again, and the act is done once."""
    kills: list[str] = []
    desk.gate.kill, desk.gate.drip = lambda: kills.append(fault), 0.02
    desk.fake.answered("POST", "/day/close", b'{"number":2,"day":"2012-02-06"}')
    with desk.known(time_limit=0.3) as counter:
        acts: tuple[Callable[[], Any], ...] = (
            lambda: counter.add_bonds([client.Bond("K1EE", 75, "2010-10", 7)]),
            lambda: counter.open_day("2012-02-07", even_so=True),
            lambda: counter.redeem("2012-02-07", 7, ["L1EE", "K1EE"]),
            lambda: counter.close_day("2012-02-07"),
        )
        for act in acts:
            sent, done = len(desk.gate.bodies), len(desk.fake.kept)
            desk.gate.faults = [fault]
            if fault in OF_ONE_SENDING:
                with pytest.raises((client.Fault, client.Forbidden)):
                    act()
                assert len(desk.fake.kept) == done and counter.open_request is None
            elif fault in ENDING:
                with pytest.raises(client.CertificateRefused):
                    act()
            result = act()
            bodies = desk.gate.bodies[sent:]
            assert len(bodies) == 2 and len(desk.fake.kept) == done + 1
            assert (bodies[0] == bodies[1]) == (fault not in OF_ONE_SENDING)
            assert result.request.sent == 1 + (fault not in OF_ONE_SENDING)
        assert desk.gate.met == [fault] * 4 and len(kills) == 4 * ("killed" in fault)
        assert len(desk.fake.tickets) == 1
    named = f"X-Counter-Client: ee_counter_client/{client.__version__}"
    for head in (head.decode().split("\r\n") for head in desk.gate.heads):
        assert named in head
        assert ("Content-Type: application/json" in head) == head[0].startswith("POST ")


@pytest.mark.parametrize("fault, word", [("not json", "BadJson"), ("forbidden", "may not do this")])
def test_fault_on_a_resend(
    desk: Desk, caplog: pytest.LogCaptureFixture, fault: str, word: str
) -> None:
    """The answer was lost after the commit. So the fault of a resend isn't final."""
    with desk.known() as counter:
        desk.gate.faults = ["lost answer", fault, fault]
        assert paid_number(counter.redeem(DAY, 7, ["L1EE"])) == (1, 4)
    assert len(set(desk.gate.bodies)) == 1 and len(desk.fake.tickets) == 1
    told = [text for text in caplog.messages if word in text]
    assert len(told) == 2 and all("the request was sent before, and may" in text for text in told)


def test_used_numbers(desk: Desk) -> None:
    """Past numbers of other requests by 1, 2, 4 and 8, and on from there."""
    with desk.known() as counter:
        number = json.loads(desk.journal.read_text())["next"]
        for used in range(number, number + 10):
            desk.fake.kept[3, used] = ("another", {})
        desk.gate.faults = ["lost answer"]
        counter.redeem(DAY, 7, ["L1EE"])
        counter.redeem(DAY, 7, ["L2EE"])
    sent = [json.loads(body)["number"] - number for body in desk.gate.bodies]
    assert sent == [0, 0, 1, 3, 7, 15, 16] and len(desk.fake.tickets) == 2


def test_abandoned(desk: Desk) -> None:
    """A request that its caller gives up is written down, and others go on."""
    with desk.known(patience=0.5) as counter:
        assert counter.abandon("nothing is open") is None
        desk.gate.faults = ["lost answer"] * 20
        with pytest.raises(client.NoReply) as raised:
            counter.redeem(DAY, 7, ["L1EE"], key="invoice-1")
        number = raised.value.request.number
        with pytest.raises(client.NoReply) as raised:
            counter.redeem(DAY, 7, ["L2EE"])
        assert raised.value.request.number == number, "another request waits for it"
        desk.gate.faults = []
        given_up = counter.abandon("the customer left")
        assert given_up and given_up.may_be_done and "AlreadyPaid" in given_up.outcome
        assert counter.open_request is None
        last = counter.redeem(DAY, 7, ["L2EE"])
        assert last.request and last.request.number > number
    with desk.counter() as counter:
        kept = [(one.request.number, one.request.key, one.reason) for one in counter.abandoned]
        assert kept == [(number, "invoice-1", "the customer left")]
        with pytest.raises(client.AlreadyPaid) as paid:
            counter.redeem(DAY, 7, ["L1EE"], key="invoice-1")
        assert paid.value.ticket == 1 and len(desk.fake.tickets) == 2


@pytest.mark.parametrize("failing", ["fsync", "replace"])
@pytest.mark.parametrize("fault", OF_ONE_SENDING)
def test_ended_on_a_full_disk(desk: Desk, fault: str, failing: str) -> None:
    """A fault ends a request that was sent once, even if the journal can't be written then. The same call is a new request, which is sent once too."""
    true, calls = getattr(os, failing), []

    def full(*words: Any, **more: Any) -> Any:
        calls.append(words)
        if len(desk.gate.bodies) == 1:
            raise OSError(28, "No space left on device")
        return true(*words, **more)

    desk.gate.faults = [fault] * 2
    with desk.known() as counter:
        with mock.patch.object(os, failing, full), pytest.raises(client.FileFailed) as raised:
            counter.redeem(DAY, 7, ["L1EE"])
        assert not raised.value.may_be_done and counter.open_request is None and len(calls) > 1
        with pytest.raises((client.Fault, client.Forbidden)):
            counter.redeem(DAY, 7, ["L1EE"])
        assert desk.gate.met == [fault] * 2 and len(desk.gate.bodies) == 2
        assert counter.abandon("nothing is open") is None
    with desk.counter() as counter:
        assert counter.open_request is None
        assert paid_number(counter.redeem(DAY, 7, ["L1EE"])) == (1, 1)


def test_abandoned_after_another_number(desk: Desk) -> None:
    """A request whose number another one has was sent, and done under no number."""
    with desk.known() as counter:
        number = json.loads(desk.journal.read_text())["next"]
        desk.fake.kept[3, number] = ("another", {})

        def sent(*_: object) -> Any:
            if json.loads(desk.journal.read_text())["open"]["step"] > 1:
                raise KeyboardInterrupt
            return client.Counter._sent_once(counter, way.Deadline(9))

        with mock.patch.object(counter, "_sent_once", sent):
            with pytest.raises(KeyboardInterrupt):
                counter.redeem(DAY, 7, ["L1EE"])
        assert len(desk.gate.bodies) == 1
        given_up = counter.abandon("the customer left")
        assert given_up and not given_up.may_be_done and desk.fake.tickets == []
        assert "nothing was done" in given_up.outcome and f"number {number + 1}" in given_up.outcome


def test_forgotten(desk: Desk) -> None:
    """Control: a client that doesn't write it down."""
    change = journal_module.Journal.change

    def forgetful(journal: journal_module.Journal, **changes: Any) -> None:
        change(journal, **{name: changes[name] for name in changes if name != "abandoned"})

    with mock.patch.object(journal_module.Journal, "change", forgetful):
        with pytest.raises(AssertionError):
            test_abandoned(desk)


def test_full_disk(desk: Desk) -> None:
    """A journal that can't be written ends the call before anything is sent."""
    with desk.counter() as counter:
        full = OSError(28, "No space left on device")
        with pytest.raises(client.FileFailed) as raised:
            with mock.patch.object(os, "fsync", side_effect=full):
                counter.redeem(DAY, 7, ["L1EE"])
        assert desk.fake.tickets == [] and raised.value.__cause__ is full
        assert paid_number(counter.redeem(DAY, 7, ["L1EE"])) == (1, 1), "control: with room"
